from __future__ import annotations

import json
import random
import tempfile
import unittest
from pathlib import Path
from typing import Any, Dict, List

from gaptd import equivalences, formulas, simplify
from gaptd.client import Session
from gaptd.expansions import Expansion
from gaptd.explain import History
from gaptd.formulas import All, And, App, Atom, Ex, Falsity, Formula, Imp, Not, Or, Truth, Var
from gaptd.proofs import steps
from gaptd.rules import Sequent
from gaptd.skolem import SkolemError, Skolemized
from tests.support import EXAMPLES, command, needs, session, steps_of

DRINKER = "?[X]: (p(X) => ![Y]: p(Y))"
DRINKER_TREES = [
    {"kind": "leaf", "formula": "p(X)"}, {"kind": "wk", "formula": "![Y]: p(Y)"}, {"kind": "imp", "of": [0, 1]},
    {"kind": "leaf", "formula": "p(a)"}, {"kind": "strong", "formula": "![Y]: p(Y)", "var": "X", "of": 0}, {"kind": "imp", "of": [3, 4]},
    {"kind": "weak", "formula": DRINKER, "instances": [{"term": "X", "of": 2}, {"term": "a", "of": 5}]}]
DRINKER_JOBS = [{"job": "trees", "op": "expansion", "nodes": DRINKER_TREES, "left": [], "right": [6]},
                {"job": "drinker", "op": "fromexp", "expansion": "trees"}]


def some_formula(source: random.Random, depth: int) -> Formula:
    """A formula of p, r(X), r(Y) and truth values, of which many are needless."""
    if depth == 0:
        return source.choice([Truth(), Falsity(), Atom("p"), Atom("r", (Var("X"),)), Atom("r", (Var("Y"),)), Atom("r", (App("a"),))])
    kind = source.choice([Not, And, Or, Imp, And, Or, All, Ex])
    if kind in (All, Ex):
        return formulas.binding(kind, source.choice("XY"), some_formula(source, depth - 1))
    if kind is Not:
        return Not(some_formula(source, depth - 1))
    return kind(some_formula(source, depth - 1), some_formula(source, source.randrange(depth)))


def history_of(one: Session, jobs: List[Dict[str, Any]]) -> History:
    history = History()
    for job, reply in one.send_all(jobs):
        history.add(job, reply)
    return history


class Formulas(unittest.TestCase):
    def test_simpler_forms(self) -> None:
        for text, wanted in (
                ("$true & p", "p"), ("p | $false", "p"), ("$false & p", "$false"), ("p => $false", "~p"), ("$false => p", "$true"),
                ("~~p", "p"), ("~$true", "$false"), ("(p & q) & p", "p & q"), ("q | (p | q)", "p | q"), ("p => p", "$true"),
                ("![X]: ?[Y]: ($true & r(X))", "![V0]: r(V0)"), ("![X]: (p & ~$false)", "p"),
                ("$true & $true & ($true & $true & ![X]: ~less(X,X))", "![V0]: ~less(V0,V0)"), ("p & q", "p & q")):
            with self.subTest(text):
                self.assertEqual(formulas.formula_text(equivalences.simplified(formulas.formula(text)).second), wanted)

    def test_each_proof_is_right(self) -> None:
        source, wanted, jobs = random.Random(5), [], []
        for _ in range(150):
            found = equivalences.simplified(some_formula(source, source.randrange(1, 6)))
            first, second = map(formulas.formula_text, (found.first, found.second))
            self.assertEqual(equivalences.simplified(found.second).second, found.second)
            wanted += [Sequent.of([first], [second]), Sequent.of([second], [first])]
            jobs += [{"op": "lk", "steps": steps(proof)} for proof in (found.there, found.back)]
        with session() as one:
            for end, reply in zip(wanted, one.batch(jobs)):
                self.assertEqual(Sequent.of(reply.checked().ok["left"], reply.ok["right"]), end)


class Interpolants(unittest.TestCase):
    def test_the_examples(self) -> None:
        jobs = [json.loads(line) for line in (EXAMPLES / "interpolate.jobs").read_text().splitlines()]
        with session() as one:
            history = history_of(one, [job for job in jobs if job["op"] != "show"])
            names = [name for name, (job, reply) in history.jobs.items() if job["op"] == "interpolate" and reply.error is None]
            simpler = 0
            for name in names:
                job, reply = history.jobs[name]
                before = reply.ok["formula"]
                text, first, second = simplify.interpolant(one, name, job, before)
                simpler += text != before
                self.assertEqual((text in first.end.right, text in second.end.left), (True, True))
                for proof in (first, second):
                    self.assertEqual(one.run("lk", steps=steps(proof)).ok["cuts"], 0)
        self.assertGreater(simpler, 2)

    def test_the_command(self) -> None:
        jobs = [{"job": "t", "op": "lk", "steps": [{"rule": "topR", "premises": [], "left": [], "right": ["$true"]},
                                                   {"rule": "ax", "main": "p", "premises": [], "left": ["p"], "right": ["p"]},
                                                   {"rule": "andR", "main": "$true & p", "premises": [0, 1], "left": ["p"],
                                                    "right": ["$true & p"]}]},
                {"job": "i", "op": "interpolate", "proof": "t", "first": {"left": ["p"], "right": []},
                 "second": {"left": [], "right": ["$true & p"]}}]
        given = "\n".join(map(json.dumps, jobs))
        done = command("gaptd.simplify", "interpolant", "-", "i", given=given)
        self.assertEqual(done.returncode, 0, done.stderr)
        first, second = map(json.loads, done.stdout.splitlines())
        self.assertEqual((first["job"], first["steps"][-1]["right"]), ("i-first", ["p"]))
        self.assertEqual((second["job"], second["steps"][-1]["left"]), ("i-second", ["p"]))
        self.assertEqual(command("gaptd.simplify", "interpolant", "-", "t", given=given).stderr,
                         "simplify: t is a job by lk, and no interpolate\n")


class StrongQuantifiers(unittest.TestCase):
    def test_the_drinker(self) -> None:
        with session() as one:
            history = history_of(one, DRINKER_JOBS)
            there = simplify.skolemize_jobs(one, "drinker", history)
            self.assertEqual(one.run("herbrand", proof="drinker-skolemized").ok["right"], ["p(a) => p(sk2(a))", "p(sk2(a)) => p(sk2(sk2(a)))"])
            one.run("cutintro", proof="drinker-skolemized")
        with session() as one:
            back = simplify.back_jobs(one, "drinker", "drinker-skolemized", history_of(one, [*DRINKER_JOBS, *there]))
            self.assertEqual([job["op"] for job in back], ["expansion", "fromexp"])
            self.assertEqual(one.run("show", of="drinker-back").ok["steps"][-1]["right"], [formulas.canonical(DRINKER)])

    def test_prenex_forms(self) -> None:
        for side, text, wanted in (
                ("left", "?[X]: ![Y]: r(X,Y)", "![V0]: r(sk1,V0)"), ("right", "![X]: r(X,Z)", "r(sk1,Z)"),
                ("left", "(![X]: p(X)) => ![Y]: q(Y)", "![V0]: (p(sk1) => q(V0))"),
                ("right", "(![X]: p(X)) & ?[Y]: ![Z]: r(W1,Y,Z)", "?[V0]: (p(sk1) & r(W1,V0,sk3(V0)))")):
            with self.subTest(text):
                sides = {"left": [], "right": [], side: [text]}
                self.assertEqual(Skolemized(sides["left"], sides["right"]).side(side == "left"), [wanted])

    def test_the_examples_there_and_back(self) -> None:
        """Of each proof that can be expanded: without strong quantifiers it is one that `herbrand` takes, and back its own sequent's."""
        with session() as one:
            accepted = [(job, reply) for job, reply in one.send_all([job for job, _ in steps_of("expansion", "expansion")]) if not reply.error]
            count = 0
            for job, reply in accepted:
                proof = one.batch([{"job": f"proof{count}", "op": "fromexp", "expansion": job["job"]}])[0]
                if proof.error is not None:
                    continue
                history = History()
                history.add({"op": "fromexp"}, proof)
                there = simplify.skolemize_jobs(one, str(proof.job), history)[-1]["job"]
                shown = one.run("herbrand", proof=there, budget=10**9)
                self.assertGreaterEqual(shown.ok["count"], 0)
                skolemized = Skolemized(proof.ok["left"], proof.ok["right"])
                back = skolemized.back(simplify.expansion_of(one, there))
                simplify.proof_jobs(one, back, f"{proof.job}-back", (proof.ok["left"], proof.ok["right"]))
                count += 1
        self.assertGreaterEqual(count, 20)

    def test_too_many_instances(self) -> None:
        """A disjunction whose parts have many instances each has their product in front."""
        terms = [f"a{number}" for number in range(200)]
        nodes = [node for term in terms for node in ({"kind": "leaf", "formula": f"p({term})"}, {"kind": "leaf", "formula": f"q({term})"})]
        for place, name in enumerate("pq"):
            nodes.append({"kind": "weak", "formula": f"![X]: {name}(X)",
                          "instances": [{"term": term, "of": 2 * number + place} for number, term in enumerate(terms)]})
        nodes.append({"kind": "or", "of": [400, 401]})
        skolemized = Skolemized(["(![X]: p(X)) | ![X]: q(X)"], [])
        with self.assertRaisesRegex(SkolemError, "more than 20000 instances"):
            skolemized.there(Expansion(nodes, [402], []))

    def test_what_can_not_be_done(self) -> None:
        with tempfile.TemporaryDirectory() as folder:
            path = Path(folder) / "a.jobs"
            path.write_text("\n".join(map(json.dumps, DRINKER_JOBS)))
            for words, said in ((["skolemize", str(path), "trees"], "simplify: trees is a job by expansion, and holds no proof"),
                                (["skolemize", str(path), "drinkr"], "simplify: there is no job drinkr in the file"),
                                (["back", str(path), "drinker", "drinker"], "is no formula of the sequent without strong quantifiers")):
                with self.subTest(words[0]):
                    done = command("gaptd.simplify", *words)
                    self.assertEqual((done.returncode, done.stdout), (1, ""))
                    self.assertIn(said, done.stderr)
                    self.assertNotIn("Traceback", done.stderr)
            self.assertEqual(command("gaptd.simplify", "back", str(path), "drinker").returncode, 2)

    @needs("sat")
    def test_searches(self) -> None:
        jobs = [{"job": "c", "op": "problem", "text": "cnf(a,axiom,p)."}, {"job": "model", "op": "sat", "problem": "c"},
                {"job": "d", "op": "problem", "text": "cnf(a,axiom,p). cnf(b,axiom,~p)."}, {"job": "refuted", "op": "sat", "problem": "d"}]
        with session() as one:
            history = history_of(one, jobs)
            for name, what in (("model", "model is a job by sat, and holds no proof"),
                               ("refuted", "refuted is a job by sat, whose reply tells of no sequent")):
                with self.subTest(name), self.assertRaisesRegex(simplify.SimplifyError, what):
                    simplify.skolemize_jobs(one, name, history)


if __name__ == "__main__":
    unittest.main()
