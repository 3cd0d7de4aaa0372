from __future__ import annotations

import json
import unittest
from typing import Any, Dict, List

from gaptd.client import Reply
from gaptd.explain import STEP_CAUSES, History, explain, wanted_of
from gaptd.rules import Sequent
from tests.support import CLIENTS, EXAMPLES, command, exchanges, needs, session, steps_of


def explained(steps: List[Dict[str, Any]], **fields: Any) -> str:
    """What is said of a job `lk` with these steps, which has to be refused."""
    job = {"job": "a", "op": "lk", "steps": steps, **fields}
    with session() as one:
        error = one.batch([job])[0].error
    assert error is not None
    return explain(job, error)


def step(rule: str, left: List[str], right: List[str], *premises: int, **fields: str) -> Dict[str, Any]:
    return {"rule": rule, **fields, "premises": list(premises), "left": left, "right": right}


class Steps(unittest.TestCase):
    def test_a_premise_that_does_not_fit(self) -> None:
        text = explained([step("ax", ["p(b)"], ["p(b)"], main="p(b)"),
                          step("allL", ["![X]: p(X)"], ["p(b)"], 0, main="![X]: p(X)", term="a")])
        self.assertIn("step 1 is allL ![V0]: p(V0) by a over step 0", text)
        self.assertIn("too much on the left: p(b)", text)
        self.assertIn("not there on the left: p(a)", text)

    def test_how_a_quantifier_binds(self) -> None:
        text = explained([step("ax", ["p"], ["p"], main="p"), step("allR", ["p"], ["![X]: p(X) & q"], 0, main="![X]: p(X) & q", var="X")])
        self.assertIn("takes a universal formula, and the main formula is a conjunction: (![V0]: p(V0)) & (q)", text)
        self.assertIn("put parentheses around all that it shall take", text)

    def test_other_causes(self) -> None:
        axiom = step("ax", ["p(X)"], ["p(X)"], main="p(X)")
        self.assertIn("free in the conclusion, and it is in p(X)",
                      explained([axiom, step("allR", ["p(X)"], ["![Y]: p(Y)"], 0, main="![Y]: p(Y)", var="X")]))
        self.assertIn("the right of its conclusion must have the main formula p(a)",
                      explained([step("ax", ["p(a)"], ["p(b)"], main="p(a)")]))
        self.assertIn("its premise 7 is no earlier step", explained([axiom, step("weak", [], [], 7)]))
        self.assertIn("andR takes 2 premises, and the step names 1", explained([axiom, step("andR", [], ["p & q"], 0, main="p & q")]))

    def test_the_table_of_rules_is_the_program_s(self) -> None:
        """In all examples a premise fits by this table just where the program says so."""
        fitting = faulty = 0
        for job, reply in steps_of("lk"):
            error = reply.get("error", {})
            if "using" in job or error.get("kind", "step") != "step":
                continue
            right = len(job["steps"]) if "ok" in reply else error["step"]
            for number in range(right):
                self.assertTrue(all(fits(job["steps"], number)))
                fitting += 1
            if error.get("cause") == "premise":
                self.assertEqual(fits(job["steps"], right).index(False), error["premise"])
                faulty += 1
        self.assertGreater(fitting, 500)
        self.assertGreater(faulty, 5)


def fits(steps: List[Dict[str, Any]], number: int) -> List[bool]:
    """Whether each premise of a step is a subsequent of what its rule wants."""
    wanted = wanted_of(steps[number], {})
    return [Sequent.of(steps[k]["left"], steps[k]["right"]) <= most for k, most in zip(steps[number]["premises"], wanted)]


class Others(unittest.TestCase):
    def test_a_refutation(self) -> None:
        problem = {"job": "c", "op": "problem", "text": "cnf(a,axiom,p(a)). cnf(b,axiom,~p(X) | q(X))."}
        job = {"job": "r", "op": "resolution", "problem": "c", "steps": [{"input": 0}, {"input": 1}, {"resolve": [0, 1], "atom": "p(a)"}]}
        with session() as one:
            exchanged = one.send_all([problem, job])
        history = History()
        history.add(*exchanged[0])
        error = exchanged[1][1].error
        assert error is not None
        text = explain(job, error, history)
        self.assertIn("~p(X) | q(X)", text)
        self.assertIn("p(a) is not among the negative literals of step 1", text)

    def test_a_fault_of_a_text_is_pointed_at(self) -> None:
        lines = explained([step("ax", ["p & q | r"], ["p"], main="p")]).splitlines()
        self.assertEqual(lines[-2:], ["  p & q | r", "        ^"])

    def refusals(self, *jobs: Dict[str, Any]) -> List[str]:
        """What is said of each job that is refused."""
        history, found = History(), []
        with session() as one:
            for job, reply in one.send_all(jobs):
                if reply.error is not None:
                    found.append(explain(job, reply.error, history))
                history.add(job, reply)
        return found

    def test_what_is_like_a_wrong_word(self) -> None:
        rule, other, operation, unlike = self.refusals(
            {"job": "a", "op": "lk", "steps": [{"rule": "andr"}]}, {"job": "b", "op": "lk", "steps": [{"rule": "zzz"}]},
            {"job": "c", "op": "Cutelim"}, {"job": "d", "op": "help"})
        self.assertEqual(rule.splitlines(), ["the field steps/0/rule can't be 'andr'", "  rules like it: andR, andL"])
        self.assertIn("  the rules are ax, topR, botL,", other)
        self.assertEqual(operation.splitlines(), ["there is no operation Cutelim", "  operations like it: cutelim"])
        self.assertIn("  the operations are lk, problem,", unlike)

    @needs("interpolate")
    def test_the_kind_that_is_asked_for(self) -> None:
        proof = {"job": "a", "op": "lk", "steps": [step("ax", ["p"], ["p"], main="p")]}
        pair = {"job": "i", "op": "interpolate", "proof": "a", "first": {"left": ["p"], "right": []}, "second": {"left": [], "right": ["p"]}}
        problem, whole, third, first = self.refusals(
            proof, pair, {"job": "b", "op": "proves", "proof": "a", "problem": "a"}, {"job": "c", "op": "show", "of": "i"},
            {"job": "d", "op": "measure", "proof": "i.third"}, {"job": "e", "op": "measure", "proof": "a.first"})
        self.assertEqual(problem.splitlines(), ["a is a job by lk, which holds a proof", "  the field problem asks for a problem"])
        self.assertEqual(whole.splitlines(), ["i is a job by interpolate, which holds a pair of proofs",
                                              "  the field of asks for a proof or expansion trees: say i.first or i.second"])
        self.assertIn("there is a job i, and .third is no suffix: the two proofs of a pair end in .first and .second", third)
        self.assertIn("only a pair of proofs is named with a suffix", first)

    @needs("sat")
    def test_clauses_with_variables(self) -> None:
        text = "cnf(a,axiom,p(a)). fof(f,axiom,![X]: q(X)). cnf('b c',axiom,~p(Y) | r(X,Y)). cnf(d,axiom,p(Z))."
        job = {"job": "s", "op": "sat", "problem": "c"}
        said, = self.refusals({"job": "c", "op": "problem", "text": text}, job)
        self.assertEqual(said.splitlines(), [
            "sat takes clauses without variables, and clause 1 of c (counted from 0) has the variables X and Y", "  it is 'b c': ~p(Y) | r(X,Y)",
            "  what begins with a capital is a variable; write instances of the clause, with terms in place of its variables, or ask prove"])
        self.assertIn("clause 1 of c (counted from 0) has one", explain(job, {"kind": "not_ground", "clause": 1}))

    @needs("sat")
    def test_what_a_search_holds(self) -> None:
        either, both = ({"job": name, "op": "problem", "text": text} for name, text in
                        (("c", "cnf(a,axiom,p | q)."), ("d", "cnf(a,axiom,p). cnf(b,axiom,~p).")))
        model, problem, refutation = self.refusals(
            either, both, {"job": "s", "op": "sat", "problem": "c"}, {"job": "t", "op": "sat", "problem": "d"},
            {"job": "m", "op": "measure", "proof": "s"}, {"job": "n", "op": "measure", "proof": "t"},
            {"job": "o", "op": "sat", "problem": "s"}, {"job": "p", "op": "sat", "problem": "t"})
        found = "s is a job by sat, which holds nothing: it found a model, and no refutation"
        self.assertEqual(model.splitlines(), [found, "  the field proof asks for a proof"])
        self.assertEqual(problem.splitlines(), [found, "  the field problem asks for a problem"])
        self.assertEqual(refutation.splitlines(), ["t is a job by sat, which holds a proof", "  the field problem asks for a problem"])

    @needs("prove")
    def test_rounds(self) -> None:
        chain, goal = ({"job": name, "op": "problem", "text": text} for name, text in
                       (("c", "cnf(a,axiom,p(a)). cnf(b,axiom,~p(X) | p(f(X)))."), ("d", "cnf(a,axiom,p(a)). cnf(b,axiom,~q(X) | p(X)).")))
        spent, model, field = self.refusals(
            chain, goal, {"job": "s", "op": "prove", "problem": "c", "rounds": 3}, {"job": "t", "op": "prove", "problem": "d"},
            {"job": "m", "op": "measure", "proof": "t"}, {"job": "u", "op": "prove", "problem": "c", "rounds": 0})
        self.assertEqual(spent, "the rounds reach no refutation, and a further one would add clauses: set the field rounds, at most 1000 (10 "
                                "without it)")
        self.assertEqual(model.splitlines(), ["t is a job by prove, which holds nothing: it found saturated clauses, and no refutation",
                                              "  the field proof asks for a proof"])
        self.assertEqual(field, "the field rounds can't be 0")

    @needs("herbrand")
    def test_strong_quantifiers(self) -> None:
        main = "![X]: ![Y]: ~r(X,Y)"
        said, = self.refusals({"job": "a", "op": "lk", "steps": [step("ax", [main], [main], main=main)]},
                              {"job": "b", "op": "herbrand", "proof": "a"})
        self.assertEqual(said, "on the right, ![V0]: ![V1]: ~r(V0,V1) is not weak quantifiers alone (! on the left, ? on the right) over a "
                               "formula without any")

    def test_the_problem_s_text(self) -> None:
        said, = self.refusals({"job": "a", "op": "problem", "text": "fof(a,axiom,p &)."})
        self.assertTrue(said.startswith("the problem text has a fault at byte 15: "))

    def test_a_refused_job_that_is_named(self) -> None:
        history = History()
        history.add({"job": "a", "op": "lk", "steps": []}, Reply("a", 1, {}, {"kind": "empty"}))
        text = explain({"job": "b", "op": "show", "of": "a"}, {"kind": "kind", "name": "a"}, history)
        self.assertEqual(text.splitlines(), ["a was refused itself (and keeps its name all the same):", "  the list of steps is empty"])

    def test_every_refusal_of_the_examples(self) -> None:
        kinds, causes = set(), set()
        for path in EXAMPLES.glob("*.jobs"):
            history = History()
            for job, reply in exchanges(path.stem):
                if "error" in reply:
                    kinds.add(reply["error"]["kind"])
                    causes.add(reply["error"].get("cause"))
                    self.assertTrue(explain(job, reply["error"], history))
                history.add(job, Reply(reply["job"], reply["n"], reply.get("ok", {}), reply.get("error")))
        self.assertLessEqual({"step", "refutation", "field", "formula", "tptp", "unknown_name", "kind", "budget"}, kinds)
        self.assertLessEqual(set(STEP_CAUSES), causes)


class Command(unittest.TestCase):
    def test_a_proof_with_a_mistake(self) -> None:
        path = CLIENTS / "examples" / "mistake.json"
        done = command("gaptd.explain", str(path))
        self.assertEqual(done.returncode, 1, done.stderr)
        self.assertIn("too much on the left: man(socrates) => mortal(socrates)", done.stdout)
        self.assertIn("not there on the left: man(plato) => mortal(plato)", done.stdout)
        mended = json.loads(path.read_text().replace("plato", "socrates"))
        done = command("gaptd.explain", given=json.dumps(mended, indent=2))
        self.assertEqual((done.returncode, done.stdout), (0, "0 of 1 jobs refused\n"))
