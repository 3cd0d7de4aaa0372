from __future__ import annotations

import json
import os
import random
import tempfile
import unittest
from pathlib import Path
from typing import Any, Dict, List
from unittest import mock

from gaptd import fof, formulas, provers, readable, search
from gaptd.formulas import Formula
from gaptd.matrix import Matrix
from tests import pelletier
from tests.support import command, needs, session

STEAMROLLER = """
    fof(wolves, axiom, (![X]: (wolf(X) => animal(X))) & ?[X]: wolf(X)). fof(foxes, axiom, (![X]: (fox(X) => animal(X))) & ?[X]: fox(X)).
    fof(birds, axiom, (![X]: (bird(X) => animal(X))) & ?[X]: bird(X)).
    fof(caterpillars, axiom, (![X]: (caterpillar(X) => animal(X))) & ?[X]: caterpillar(X)).
    fof(snails, axiom, (![X]: (snail(X) => animal(X))) & ?[X]: snail(X)). fof(grain, axiom, (?[X]: grain(X)) & ![X]: (grain(X) => plant(X))).
    fof(eating, axiom, ![X]: (animal(X) => (![Y]: (plant(Y) => eats(X,Y)) |
        ![Y]: ((animal(Y) & smaller(Y,X) & ?[Z]: (plant(Z) & eats(Y,Z))) => eats(X,Y))))).
    fof(s1, axiom, ![X,Y]: ((bird(Y) & (snail(X) | caterpillar(X))) => smaller(X,Y))).
    fof(s2, axiom, ![X,Y]: ((bird(X) & fox(Y)) => smaller(X,Y))). fof(s3, axiom, ![X,Y]: ((fox(X) & wolf(Y)) => smaller(X,Y))).
    fof(e1, axiom, ![X,Y]: ((wolf(X) & (fox(Y) | grain(Y))) => ~eats(X,Y))). fof(e2, axiom, ![X,Y]: ((bird(X) & caterpillar(Y)) => eats(X,Y))).
    fof(e3, axiom, ![X,Y]: ((bird(X) & snail(Y)) => ~eats(X,Y))).
    fof(e4, axiom, ![X]: ((caterpillar(X) | snail(X)) => ?[Y]: (plant(Y) & eats(X,Y)))).
    fof(goal, conjecture, ?[X,Y]: (animal(X) & animal(Y) & ?[Z]: (grain(Z) & eats(Y,Z) & eats(X,Y)))).
"""
MEN = "fof(men,axiom,![X]: (man(X) => mortal(X))). fof(a,axiom,man(socrates)). fof(goal,conjecture,?[Y]: mortal(Y))."
# What E writes for the clauses of MEN.
MEN_BY_E = """# Proof found!
# SZS status Unsatisfiable
cnf(c0, axiom, (mortal(X1)|~man(X1)), file('problem.p', c0)).
cnf(c1, axiom, (man(socrates)), file('problem.p', c1)).
cnf(c2, axiom, (~mortal(X1)), file('problem.p', c2)).
cnf(c_0_3, axiom, (mortal(X1)|~man(X1)), c0).
cnf(c_0_4, axiom, (~mortal(X1)), c2).
cnf(c_0_5, axiom, (man(socrates)), c1).
cnf(c_0_6, plain, (~man(X1)), inference(sr,[status(thm)],[c_0_3, c_0_4])).
cnf(c_0_7, plain, ($false), inference(sr,[status(thm)],[c_0_5, c_0_6]), ['proof']).
"""


def proved(text: str, prover: str = "own", seconds: float = 30) -> Dict[str, Any]:
    """How large the proof of a problem is, after the program has taken it."""
    expansion = fof.prove(*fof.sequent_of(text), prover=prover, seconds=seconds)
    with session() as one:
        replies = [reply.checked() for reply in one.batch(fof.jobs(text, "p", expansion))]
        assert replies[3].ok == {"proves": True}
        return one.run("measure", proof="p-proof").ok


class Problems(unittest.TestCase):
    def test_pelletier(self) -> None:
        for number in pelletier.PROBLEMS:
            if number not in (34, 38):
                with self.subTest(number):
                    self.assertEqual(proved(pelletier.problem(number))["cuts"], 0)

    def test_equivalences_within_equivalences(self) -> None:
        """Two problems for tableaux, to which the search comes after a while."""
        for number in (34, 38):
            matrix = Matrix(*fof.sequent_of(pelletier.problem(number)))
            expansion = search.with_deep_stack(lambda: search.expansion_of(matrix, search.by_tableaux(matrix, lambda tries: None)))
            with self.subTest(number), session() as one:
                replies = one.batch(fof.jobs(pelletier.problem(number), "p", expansion))
                self.assertEqual(replies[3].checked().ok, {"proves": True})

    def test_the_steamroller(self) -> None:
        self.assertGreater(proved(STEAMROLLER)["quants"], 30)

    def test_clauses(self) -> None:
        self.assertEqual(proved("cnf(a,axiom,p(X) | q(X)). cnf(b,axiom,~p(a)). cnf(c,negated_conjecture,~q(Y)).")["quants"], 2)

    def test_truth_values(self) -> None:
        for text in ("fof(a,axiom,$false).", "fof(a,conjecture,p | $true).", "fof(a,axiom,p => $false). fof(b,axiom,p)."):
            with self.subTest(text):
                proved(text)

    def test_no_constant_and_free_variables(self) -> None:
        proved("fof(a,axiom,p(X)). fof(b,conjecture,?[X]: p(X)).")
        expansion = fof.prove([formulas.formula("![Y]: r(X,Y)")], [formulas.formula("?[Z]: r(Z,Y)")], "own")
        with session() as one:
            reply, _ = one.batch(fof.jobs("", "p", expansion)[1:3])
        self.assertEqual(reply.ok["left"], ["![V0]: r(X,V0)"])

    def test_what_has_no_proof(self) -> None:
        for text in ("fof(a,axiom,![X]: (p(X) => q(X))). fof(b,conjecture,q(a)).", "fof(a,axiom,p).", "fof(a,conjecture,?[X]: ![Y]: r(X,Y))."):
            with self.subTest(text), self.assertRaisesRegex(search.NotFound, "ended without a proof"):
                fof.prove(*fof.sequent_of(text), prover="own")
        with self.assertRaisesRegex(search.NotFound, "within 0.2 seconds"):
            fof.prove(*fof.sequent_of("fof(a,axiom,p(a) & q(b)). fof(b,axiom,![X]: ((p(X) => p(f(X))) & (q(X) => q(f(X))))). "
                                      "fof(c,conjecture,?[X]: (p(X) & q(X)))."), "own", 0.2)

    def test_random_sequents(self) -> None:
        """Whatever is found is a proof, and each readable text is that of its formula."""
        random_number, count = random.Random(7), 0
        with session() as one:
            for _ in range(60):
                left, right = [formula_of(random_number, 3)], [formula_of(random_number, 3)]
                for whole in left + right:
                    self.assertEqual(formulas.formula(readable.formula(formulas.formula_text(whole))), whole)
                try:
                    expansion = fof.prove(left, right, "own", 0.05)
                except search.NotFound:
                    continue
                count += 1
                for reply in one.batch(fof.jobs("", "p", expansion)[1:3]):
                    reply.checked()
        self.assertGreater(count, 4)


def formula_of(by: random.Random, depth: int, variables: "List[str] | None" = None) -> Formula:
    return formulas.formula(text_of(by, depth, variables or []))


def text_of(by: random.Random, depth: int, variables: List[str]) -> str:
    """The text of a random formula."""
    if depth == 0 or by.random() < 0.1:
        terms = [by.choice([*variables, *variables, "a", "f(b)"]) for _ in range(2)]
        return by.choice([f"p({terms[0]})", f"r({terms[0]},{terms[1]})", "s"])
    if by.random() < 0.45:
        name = f"X{len(variables)}"
        return f"{by.choice('!?')}[{name}]: ({text_of(by, depth - 1, [*variables, name])})"
    if by.random() < 0.2:
        return f"~({text_of(by, depth - 1, variables)})"
    return f"(({text_of(by, depth - 1, variables)}) {by.choice(['&', '|', '=>', '<=>'])} ({text_of(by, depth - 1, variables)}))"


class Clauses(unittest.TestCase):
    def test_equivalences_are_named(self) -> None:
        """Equivalences within each other come to few clauses: without names there were thousands."""
        axioms, goal = pelletier.PROBLEMS[34]
        self.assertLess(len(Matrix([], [formulas.formula(goal)]).clauses), 100)

    def test_skolem_functions_of_all_variables_around(self) -> None:
        clause, = Matrix([formulas.formula("![X]: ?[Y]: ![Z]: ?[U]: r(X,Y,Z,U)")], []).clauses
        self.assertEqual(str(clause.clause), "r(W1,sk2(W1),W3,sk4(W1,W3))")

    def test_names_that_no_symbol_has(self) -> None:
        clause, = Matrix([formulas.formula("?[Y]: r(Y,sk1,sk_)")], []).clauses
        self.assertEqual(str(clause.clause), "r(sk__1,sk1,sk_)")


class Equality(unittest.TestCase):
    TEXT = "fof(a,axiom,a = b). fof(b,axiom,p(f(a),c)). fof(c,conjecture,p(f(b),c))."

    def test_axioms(self) -> None:
        added = list(fof.equality_axioms(fof.sequent_of(self.TEXT)))
        self.assertEqual(len(added), 5)
        self.assertIn("fof(equality_congruence_2,axiom,![X1,X2,Y1,Y2]: ((X1 = Y1 & X2 = Y2 & p(X1,X2)) => p(Y1,Y2))).\n", added)
        self.assertIn("fof(equality_congruence_1,axiom,![X1,Y1]: ((X1 = Y1) => f(X1) = f(Y1))).\n", added)
        self.assertEqual(proved(self.TEXT + "".join(added))["cuts"], 0)

    def test_the_command(self) -> None:
        done = command("gaptd.fof", "--prover", "own", "--equality", "-", given=self.TEXT)
        self.assertEqual(done.returncode, 0, done.stderr)
        self.assertIn("5 axioms of equality are added to the problem", done.stderr)
        self.assertIn('"proves":true', command("gaptd.client", given=done.stdout).stdout)


class Provers(unittest.TestCase):
    def test_a_recorded_refutation(self) -> None:
        """A program that writes what E wrote stands in for E."""
        with tempfile.TemporaryDirectory() as folder:
            path = Path(folder) / "eprover"
            path.write_text(f"#!/bin/sh\ncat <<'END'\n{MEN_BY_E}END\n")
            path.chmod(0o755)
            with mock.patch.dict(os.environ, {"PATH": f"{folder}{os.pathsep}{os.environ['PATH']}"}):
                self.assertEqual(proved(MEN, "e")["quants"], 2)
                with self.assertRaisesRegex(provers.NoRefutation, "can't be done again"):
                    proved("fof(a,axiom,p). fof(b,conjecture,p).", "e")

    def test_each_that_is_installed(self) -> None:
        if not provers.installed():
            self.skipTest("neither E nor SPASS is installed")
        for name in provers.installed():
            for number in (20, 24, 34, 38, 43):
                with self.subTest(name=name, number=number):
                    if (name, number) != ("spass", 34):
                        proved(pelletier.problem(number), name, 10)

    def test_one_that_is_not_there(self) -> None:
        with mock.patch.dict(os.environ, {"PATH": ""}), self.assertRaisesRegex(provers.NoRefutation, "E isn't there: no command eprover"):
            fof.prove(*fof.sequent_of(MEN), prover="e")

    @needs("prove")
    def test_the_program_s_own(self) -> None:
        for number in (18, 20, 24, 26, 29, 39, 44):
            with self.subTest(number):
                text = pelletier.problem(number)
                with session() as one:
                    expansion = fof.prove(*fof.sequent_of(text), prover="gaptd", session=one)
                    self.assertEqual([reply.checked() for reply in one.batch(fof.jobs(text, "p", expansion))][3].ok, {"proves": True})
        with session() as one, self.assertRaisesRegex(provers.NoRefutation, "saturated clauses"):
            fof.prove(*fof.sequent_of("fof(a,axiom,p)."), prover="gaptd", session=one)
        done = command("gaptd.fof", "--prover", "gaptd", "-", given=MEN)
        self.assertIn('"proves":true', command("gaptd.client", given=done.stdout).stdout)

    def test_instances(self) -> None:
        """A clause that is used twice has both instances, and variables that were cut away none."""
        inputs = [matrix.clause for matrix in Matrix([formulas.formula("p(a)"), formulas.formula("![X]: (p(X) => p(f(X)))"),
                                                      formulas.formula("~p(f(f(a)))")], []).clauses]
        steps: List[Dict[str, Any]] = [
            {"input": 0}, {"input": 1}, {"input": 2}, {"subst": 1, "map": {"W1": "f(W1)"}}, {"resolve": [1, 3], "atom": "p(f(W1))"},
            {"subst": 4, "map": {"W1": "a"}}, {"resolve": [0, 5], "atom": "p(a)"}, {"resolve": [6, 2], "atom": "p(f(f(a)))"}]
        found = {(number, *(formulas.term_text(image) for image in images.values())) for number, images in provers.instances(steps, inputs)}
        self.assertEqual(found, {(0,), (2,), (1, "a"), (1, "f(a)")})


class Command(unittest.TestCase):
    def test_jobs_for_the_program(self) -> None:
        done = command("gaptd.fof", "--prover", "own", "--job", "men", "-", given=MEN)
        self.assertEqual(done.returncode, 0, done.stderr)
        self.assertEqual([json.loads(line)["job"] for line in done.stdout.splitlines()], ["men", "men-instances", "men-proof", "men-answer"])
        self.assertIn('"job":"men-answer","n":4,"ok":{"proves":true}', command("gaptd.client", given=done.stdout).stdout)

    def test_faults(self) -> None:
        wrong = {"fof(a,axiom,p &).": "fof: the standard input: the entry a: expected a formula or a term, found the end at 3 in 'p &'",
                 "fof(a,axiom,p). tff(b,type,p: $o).": "fof: the standard input: the entry b is in tff, and only fof and cnf are read",
                 "fof(a,axiom,p). fof(b,conjecture,q).": "fof: the search has ended without a proof"}
        for text, what in wrong.items():
            with self.subTest(text):
                done = command("gaptd.fof", "--prover", "own", "-", given=text)
                self.assertEqual((done.returncode, done.stdout), (1, ""))
                self.assertIn(what, done.stderr)
