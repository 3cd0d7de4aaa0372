from __future__ import annotations

import json
import random
import tempfile
import unittest
from pathlib import Path
from typing import Any, Dict, List, Tuple

from gaptd import lint
from gaptd.rules import Definition
from gaptd import formulas
from tests.support import CLIENTS, command, session, steps_of

Step = Dict[str, Any]
AX_P: Step = {"rule": "ax", "main": "p", "premises": []}
AX_Q: Step = {"rule": "ax", "main": "q", "premises": []}


def found(*steps: Any, **fields: Any) -> List[Tuple[int, str]]:
    return [(one.step, one.cause) for one in lint.examine({"op": "lk", "steps": list(steps)}, **fields).findings]


def sides(*steps: Step) -> Tuple[List[str], List[str]]:
    last = lint.examine({"op": "lk", "steps": list(steps)}).job["steps"][-1]
    return last["left"], last["right"]


class Sides(unittest.TestCase):
    def test_sides_of_rules(self) -> None:
        instance = {"rule": "ax", "main": "r(X)", "premises": []}
        for wanted, steps in (
                ((["p"], ["p"]), [AX_P]),
                (([], ["$true"]), [{"rule": "topR", "premises": []}]),
                ((["$false"], []), [{"rule": "botL", "premises": []}]),
                ((["p", "q"], ["p & q"]), [AX_P, AX_Q, {"rule": "andR", "main": "p & q", "premises": [0, 1]}]),
                ((["p", "p => q"], ["q"]), [AX_P, AX_Q, {"rule": "impL", "main": "p => q", "premises": [0, 1]}]),
                ((["![V0]: r(V0)"], ["r(X)"]), [instance, {"rule": "allL", "main": "![Y]: r(Y)", "term": "X", "premises": [0]}]),
                ((["p"], ["p"]), [AX_P, AX_P, {"rule": "cut", "main": "p", "premises": [0, 1]}]),
                ((["p", "q"], ["p"]), [AX_P, {"rule": "weak", "premises": [0], "left": ["p", "q"]}])):
            with self.subTest(steps[-1]["rule"]):
                self.assertEqual(sides(*steps), wanted)
                with session() as one:
                    one.batch([{"op": "lk", "steps": lint.examine({"steps": steps}).job["steps"]}])[0].checked()

    def test_one_side_that_is_given_stays(self) -> None:
        self.assertEqual(sides({**AX_P, "right": ["q", "p"]}), (["p"], ["q", "p"]))

    def test_what_can_not_be_derived(self) -> None:
        weak = {"rule": "weak", "premises": [0]}
        self.assertEqual(found(AX_P, weak, {"rule": "negR", "main": "~p", "premises": [1]}), [(1, "sides"), (2, "sides")])
        self.assertEqual(found({"rule": "negR", "main": "p", "premises": []}), [(0, "premises"), (0, "sides")])

    def test_auxiliary_formulas_that_are_not_there(self) -> None:
        self.assertEqual(found(AX_P, {"rule": "negR", "main": "~q", "premises": [0]}), [(1, "unused")])

    def test_the_examples_without_their_sides(self) -> None:
        """Sides that are derived are at most those that stand in the examples, and the program accepts them."""
        small = [job for job, reply in steps_of("lk") if "ok" in reply and "using" not in job and len(json.dumps(job)) < 1_000]
        taken = random.Random(1).sample(small, 60)
        jobs = []
        for job in taken:
            plain = [step if step["rule"] == "weak" else {key: value for key, value in step.items() if key not in lint.SIDES}
                     for step in job["steps"]]
            jobs.append(lint.examine({"op": "lk", "steps": plain}).job)
        with session() as one:
            for job, reply in zip(taken, one.batch(jobs)):
                self.assertLessEqual(lint.end_of(reply.checked().ok), lint.end_of(job["steps"][-1]))


class Faults(unittest.TestCase):
    def test_all_faults_of_a_proof(self) -> None:
        steps = [
            {**AX_P, "left": ["p"], "right": ["q"]},
            {"rule": "negR", "main": "~p", "premises": [0]},
            {"rule": "andR", "main": "p & q", "premises": [0, 0], "left": ["p"], "right": ["p & q"]},
            {"rule": "orL", "main": "p & q", "premises": [2, 2]},
            {"rule": "weak", "premises": [9], "left": [], "right": []},
            {"rule": "andr", "premises": [0]},
            {"rule": "ax", "main": "p &", "premises": []},
        ]
        self.assertEqual(found(*steps), [(0, "main_missing"), (2, "premise"), (3, "shape"), (3, "sides"), (4, "reference"), (5, "field"),
                                         (6, "formula")])

    def test_definitions(self) -> None:
        even = Definition("even", ("X",), formulas.formula("?[Y]: X = double(Y)"))
        steps = [{"rule": "ax", "main": "?[Y]: a = double(Y)", "premises": []}, {"rule": "defR", "main": "even(a)", "premises": [0]}]
        self.assertEqual(found(*steps, definitions={("even", 1): even}), [])
        self.assertEqual(found(*steps), [(1, "shape"), (1, "sides")])

    def test_steps_of_any_form(self) -> None:
        for step in (None, {}, {"rule": 3}, {**AX_P, "main": 3}, {**AX_P, "premises": [True]}, {**AX_P, "left": None}, {**AX_P, "right": [1]}):
            with self.subTest(step):
                self.assertEqual({cause for _, cause in found(step)}, {"field"})

    def test_a_text_that_is_nested_deeply(self) -> None:
        self.assertEqual(found({**AX_P, "main": "(" * 50_000 + "p"}), [(0, "formula")])

    def test_the_first_fault_is_the_one_of_the_program(self) -> None:
        jobs = [(job, reply["error"]) for job, reply in steps_of("lk") if reply.get("error", {}).get("kind") == "step" and "using" not in job]
        self.assertGreater(len(jobs), 10)
        for job, error in jobs:
            first = lint.examine(job).findings[0]
            self.assertEqual((first.step, first.cause, first.place), (error["step"], error["cause"], error.get("premise", 0)), job)


class Command(unittest.TestCase):
    def test_files(self) -> None:
        with tempfile.TemporaryDirectory() as folder:
            good = Path(folder) / "good.jobs"
            good.write_text(json.dumps({"job": "a", "op": "lk", "steps": [AX_P]}) + '\n{"job":"b","op":"measure","proof":"a"}\n')
            done = command("gaptd.lint", str(good))
            self.assertEqual((done.returncode, done.stdout), (0, "0 of 2 jobs with findings\n"))
            done = command("gaptd.lint", "--fill", str(good), str(CLIENTS / "examples" / "mistake.json"))
        self.assertEqual(done.returncode, 1)
        first, second, _ = done.stdout.splitlines()
        self.assertEqual(json.loads(first)["steps"], [{**AX_P, "left": ["p"], "right": ["p"]}])
        self.assertEqual(json.loads(second), {"job": "b", "op": "measure", "proof": "a"})
        self.assertIn("too much on the left", done.stderr)

    def test_what_the_program_finds(self) -> None:
        jobs = ['{"job":"a","op":"define","symbol":"s","vars":["X"],"body":"p(Y)"}', '{"job":"b","op":"lk"}',
                json.dumps({"job": "b", "op": "lk", "steps": [AX_P], "using": 3}), "3"]
        done = command("gaptd.lint", given="\n".join(jobs))
        self.assertEqual((done.returncode, done.stderr), (1, ""))
        for part in ("refused as def_free", "the field steps is missing", "the field using can't be 3", "3 of 4 jobs with findings"):
            self.assertIn(part, done.stdout)

    def test_no_file(self) -> None:
        done = command("gaptd.lint", "/nonexistent")
        self.assertEqual((done.returncode, done.stdout), (1, ""))
        self.assertIn("No such file", done.stderr)


if __name__ == "__main__":
    unittest.main()
