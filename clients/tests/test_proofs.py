from __future__ import annotations

import json
import unittest
from typing import Any, Dict, List

from gaptd import proofs
from gaptd.client import reading_jobs
from gaptd.formulas import formula
from gaptd.proofs import (Proof, ProofError, allL, allR, andL, andR, ax, botL, cut, defL, defR, exL, exR, from_steps, impL, impR, negL,
                          negR, orL, orR, pruned, shorten, steps, topR, weak, without_weak)
from gaptd.rules import Definition, Sequent
from tests.support import EXAMPLES, command, needs, session, steps_of

ALL_MEN = "![X]: (man(X) => mortal(X))"


def socrates() -> Proof:
    return allL(impL(ax("man(socrates)"), ax("mortal(socrates)")), "socrates", ALL_MEN)


def samples() -> List[Proof]:
    """A proof by each rule."""
    either = orR(negR(ax("p")), "p | ~p")
    some = exR(allL(ax("r(X,Y)"), "Y", "![Y]: r(X,Y)"), "X", "?[X]: r(X,Y)")
    swap = allR(exL(some, "X", "?[X]: ![Y]: r(X,Y)"), "Y", "![Y]: ?[X]: r(X,Y)")
    return [
        socrates(), either, topR(), botL(), weak(ax("p"), ["q"], ["$false"]),
        negL(ax("p")), negR(ax("p")),
        andR(ax("p"), ax("q")), andL(ax("p"), "p & q"), orL(ax("p"), ax("q"), "p | q"), impR(ax("p")),
        cut(andR(ax("p"), ax("q")), andL(ax("p"), "p & q")), swap,
    ]


class Builders(unittest.TestCase):
    def test_conclusions(self) -> None:
        self.assertEqual(socrates().end, Sequent.of(["man(socrates)", ALL_MEN], ["mortal(socrates)"]))
        self.assertEqual(str(cut(andR(ax("p"), ax("q")), andL(ax("p"), "p & q")).end), "p, q |- p")
        self.assertEqual(str(negL(ax("p")).end), "p, ~p |-")

    def test_the_program_takes_them(self) -> None:
        with session() as one:
            for proof in samples():
                reply = one.run("lk", "sample", steps=steps(proof))
                self.assertEqual(Sequent.of(reply.ok["left"], reply.ok["right"]), proof.end)

    def test_shown_steps_are_the_steps(self) -> None:
        with session() as one:
            for proof in samples():
                one.run("lk", "sample", steps=steps(proof))
                shown = one.run("show", of="sample").ok["steps"]
                self.assertEqual(steps(from_steps(shown)), shown)
                self.assertEqual(steps(proof), shown)

    def test_what_can_not_be_built(self) -> None:
        wrong = {
            "a main formula of another kind": lambda: andL(ax("p"), "p | q"),
            "a premise without the auxiliary formula": lambda: allL(ax("p(a)"), "b", "![X]: p(X)"),
            "an eigenvariable that is free": lambda: allR(ax("p(X)"), "X", "![X]: p(X)"),
            "two candidates for a part": lambda: impR(weak(ax("p"), ["q"])),
            "a cut on nothing": lambda: cut(ax("p"), ax("q")),
        }
        for what, build in wrong.items():
            with self.subTest(what), self.assertRaises(ProofError):
                build()

    @needs("define")
    def test_definitions(self) -> None:
        definition = Definition("sub", ("X", "Y"), formula("![Z]: (in(Z,X) => in(Z,Y))"))
        proof = defR(allR(impR(ax("in(X,a)")), "X", "![Z]: (in(Z,a) => in(Z,a))"), "sub(a,a)", definition)
        left = defL(allL(impL(ax("in(b,a)"), ax("in(b,a)")), "b", "![Z]: (in(Z,a) => in(Z,a))"), "sub(a,a)", definition)
        with session() as one:
            one.run("define", "d", symbol="sub", vars=["X", "Y"], body="![Z]: (in(Z,X) => in(Z,Y))")
            for built in (proof, left):
                reply = one.run("lk", "a", steps=steps(built), using=["d"])
                self.assertEqual(Sequent.of(reply.ok["left"], reply.ok["right"]), built.end)
                self.assertEqual(shorten(one, "a", by=pruned, using=["d"])[1].end, built.end)


class Steps(unittest.TestCase):
    def test_equal_subproofs_are_one_step(self) -> None:
        self.assertEqual([one["premises"] for one in steps(andR(ax("p"), ax("p")))], [[], [0, 0]])

    def test_a_shared_proof_of_many_nodes(self) -> None:
        proof = ax("p")
        for _ in range(5_000):
            proof = proofs.infer("orL", [proof, proof], "p | p") if proof.rule == "ax" else Proof("orL", proof.end, (proof, proof), "p | p")
        self.assertEqual(len(steps(proof)), 5_001)
        self.assertEqual(len(proofs.subproofs(without_weak(proof))), 5_001)

    def test_what_is_no_proof(self) -> None:
        lists: List[List[Dict[str, Any]]] = [
            [],
            [{"rule": "weak", "premises": [0], "left": [], "right": []}],
            [{"rule": "fly", "premises": [], "left": [], "right": []}],
            [{"rule": "ax", "premises": [], "left": [], "right": []}],
        ]
        for wrong in lists:
            with self.subTest(wrong), self.assertRaises(ProofError):
                from_steps(wrong)


class Weakening(unittest.TestCase):
    def test_an_eigenvariable_keeps_the_last_weakening(self) -> None:
        proof = weak(allR(allL(ax("p(X)"), "X", "![Y]: p(Y)"), "X", "![Y]: p(Y)"), ["q(X)"])
        self.assertEqual(without_weak(proof).rule, "weak")
        self.assertEqual(without_weak(weak(ax("p"), ["q"])).rule, "ax")

    def test_eliminated_cuts_without_weakenings(self) -> None:
        tried = dropped = 0
        for path in ("small_cuts", "eliminations"):
            with session() as one:
                for job, reply in one.send_all(reading_jobs(str(EXAMPLES / f"{path}.jobs"))):
                    if job.get("op") == "cutelim" and reply.error is None:
                        before = from_steps(one.run("show", of=job["job"]).ok["steps"])
                        name, after = shorten(one, job["job"])
                        tried += 1
                        dropped += len(steps(before)) - len(steps(after))
                        self.assertLessEqual([part.rule for part in proofs.subproofs(after)].count("weak"), 1)
                        self.assertEqual(one.run("measure", proof=name).ok["cuts"], 0)
                        _, smallest = shorten(one, job["job"], by=pruned)
                        self.assertLessEqual(len(steps(smallest)), len(steps(after)))
        self.assertGreater(tried, 90)
        self.assertGreater(dropped, tried)

    def test_a_proof_that_needs_less(self) -> None:
        needless = andL(weak(ax("p"), ["q", "r"]), "q & r")
        self.assertEqual(str(needless.end), "p, q & r |- p")
        self.assertEqual(steps(pruned(needless)), steps(Proof("ax", needless.end, (), "p")))
        unused = cut(andR(ax("p"), ax("q")), weak(ax("p"), ["p & q"]))
        self.assertEqual(steps(pruned(unused)), steps(Proof("ax", unused.end, (), "p")))

    def test_pruned_examples(self) -> None:
        with session() as one:
            for job, reply in steps_of("lk"):
                if "ok" in reply and "using" not in job:
                    smaller = pruned(from_steps(job["steps"]))
                    given, = one.batch([{"op": "lk", "steps": steps(smaller)}])
                    if given.error is not None and given.error.get("what") == "deep":
                        continue  # The canonical text of a formula that is read may be too deep to be read.
                    for side in ("left", "right"):
                        self.assertEqual(given.ok.get(side), reply["ok"][side])

    def test_the_command(self) -> None:
        done = command("gaptd.proofs", str(EXAMPLES / "cuts.jobs"), "b")
        self.assertEqual(done.returncode, 0, done.stderr)
        self.assertEqual(json.loads(done.stdout), {"job": "b-short", "op": "lk", "steps": [
            {"rule": "ax", "main": "p", "premises": [], "left": ["p", "q"], "right": ["p"]}]})

    @needs("define")
    def test_the_command_names_the_definitions(self) -> None:
        done = command("gaptd.proofs", "--prune", str(EXAMPLES / "sets.jobs"), "empty-unique-direct")
        self.assertEqual(done.returncode, 0, done.stderr)
        shorter = json.loads(done.stdout)
        self.assertEqual((shorter["job"], sorted(shorter["using"])), ("empty-unique-direct-short", ["empty", "equal", "subset"]))
        self.assertEqual(shorter["steps"][-1]["right"], ["![V0]: ![V1]: ((empty(V0) & empty(V1)) => equal(V0,V1))"])

    def test_what_is_no_proof_can_not_be_shortened(self) -> None:
        wrong = {"x": "x is a job by expansion, which holds no proof", "g": "g is a job by problem, which holds no proof",
                 "m.first": "m is a job by measure, which holds no proof", "qqq": "there is no job qqq in the file",
                 "i": "i is a job by interpolate, which holds a pair of proofs: say i.first or i.second",
                 "t.first": "t is a job by lk, and only an interpolation's proofs are named with a suffix"}
        for name, what in wrong.items():
            with self.subTest(name):
                done = command("gaptd.proofs", str(EXAMPLES / "each_operation.jobs"), name)
                self.assertEqual((done.returncode, done.stdout, done.stderr), (1, "", f"proofs: {what}\n"))
