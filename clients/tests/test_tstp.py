from __future__ import annotations

import shutil
import subprocess
import tempfile
import unittest
from pathlib import Path
from typing import Dict, List

from gaptd import tptp, tstp
from gaptd.clauses import Clause, RefutationError
from tests.support import CLIENTS, SECONDS, command, session

SAMPLES = CLIENTS / "examples"

# Unsatisfiable clauses without equality: a name, and the problem.
PROBLEMS: Dict[str, str] = {
    "chain": "cnf(a,axiom,p(a)). cnf(b,axiom,~p(X) | p(f(X))). cnf(c,axiom,~p(f(f(f(f(a)))))).",
    "factors": "cnf(a,axiom,p(X) | p(Y)). cnf(b,axiom,~p(X) | ~p(Y)).",
    "barber": "cnf(a,axiom,~shaves(X,X) | ~shaves(barber,X)). cnf(b,axiom,shaves(barber,X) | shaves(X,X)).",
    "three": "cnf(a,axiom,p | q | r). cnf(b,axiom,~p | q). cnf(c,axiom,~q | r). cnf(d,axiom,~r | p). cnf(e,axiom,~p | ~q | ~r).",
    "group": """cnf(closure,axiom,product(X,Y,multiply(X,Y))). cnf(left_unit,axiom,product(unit,X,X)).
        cnf(left_inverse,axiom,product(inverse(X),X,unit)).
        cnf(associative1,axiom,~product(X,Y,U) | ~product(Y,Z,V) | ~product(U,Z,W) | product(X,V,W)).
        cnf(associative2,axiom,~product(X,Y,U) | ~product(Y,Z,V) | ~product(X,V,W) | product(U,Z,W)).
        cnf(goal,negated_conjecture,~product(a,unit,a)).""",
    "steamroller": """cnf(a,axiom,wolf(w)). cnf(b,axiom,fox(f)). cnf(c,axiom,bird(b)). cnf(d,axiom,grain(g)).
        cnf(e,axiom,~wolf(X) | animal(X)). cnf(f,axiom,~fox(X) | animal(X)). cnf(g,axiom,~bird(X) | animal(X)).
        cnf(h,axiom,~grain(X) | plant(X)).
        cnf(i,axiom,~animal(X) | ~plant(Y) | eats(X,Y) | ~animal(Z) | ~smaller(Z,X) | ~plant(U) | ~eats(Z,U) | eats(X,Z)).
        cnf(j,axiom,~bird(X) | ~fox(Y) | smaller(X,Y)). cnf(k,axiom,~fox(X) | ~wolf(Y) | smaller(X,Y)).
        cnf(l,axiom,~wolf(X) | ~fox(Y) | ~eats(X,Y)). cnf(m,axiom,~wolf(X) | ~grain(Y) | ~eats(X,Y)).
        cnf(n,axiom,~bird(X) | ~grain(Y) | eats(X,Y)).
        cnf(o,negated_conjecture,~animal(X) | ~animal(Y) | ~grain(Z) | ~eats(X,Y) | ~eats(Y,Z)).""",
}

# The same, with problems that need clausification first.
FORMULAS: Dict[str, str] = {
    "drinker": "fof(goal,conjecture,?[X]: (drinks(X) => ![Y]: drinks(Y))).",
    "barber": "fof(a,axiom,![X]: (shaves(barber,X) <=> ~shaves(X,X))).",
}


class Replays(unittest.TestCase):
    def imported(self, proof: str, problem: "str | None" = None) -> List[str]:
        """The left side of the proof that the program makes of a refutation."""
        made = tstp.jobs(proof, problem)
        with session() as one:
            replies = [reply.checked() for reply in one.batch(made)]
        self.assertEqual(replies[1].ok["right"], [])
        return replies[1].ok["left"]

    def test_an_inference_in_many_steps(self) -> None:
        proof = """
            cnf(one, axiom, (p(X1)|p(X2)), file('a', a)). cnf(two, axiom, (~p(X1)|~p(X2)|q(X2)), file('a', b)).
            cnf(three, axiom, ~q(X9), file('a', c)).
            cnf(four, plain, ($false),
                inference(cn,[status(thm)],[inference(rw,[],[inference(spm,[],[one, two, theory(equality)]), three])])).
        """
        self.assertEqual(len(self.imported(proof)), 3)

    def test_a_clause_that_is_derived_in_part(self) -> None:
        proof = """
            cnf(one, axiom, p(X1), file('a', a)). cnf(two, axiom, ~p(a), file('a', b)).
            cnf(three, plain, (p(X2)|q(X1)), inference(weakened,[],[one])).
            cnf(four, plain, q(X3), inference(spm,[],[three,two])). cnf(five, plain, $false, inference(spm,[],[four,two])).
        """
        self.assertEqual(self.imported(proof, "cnf(b,axiom,~p(a)). cnf(a,axiom,p(Z))."), ["~p(a)", "![V0]: p(V0)"])

    def test_variables_that_only_cancelled_literals_have(self) -> None:
        proof = """
            cnf(one, axiom, (p(X1,X2)|q(X1)), file('a', a)). cnf(two, axiom, (~p(X2,X1)|~q(X3)), file('a', b)).
            cnf(three, plain, (q(X1)|~q(X2)), inference(spm,[],[one,two])).
            cnf(q, axiom, q(X1), file('a', c)). cnf(r, axiom, ~q(a), file('a', d)).
            cnf(end, plain, $false, inference(spm,[],[q,r])).
        """
        self.assertEqual(len(self.imported(proof)), 4)

    def test_what_is_no_resolution(self) -> None:
        equality = """
            cnf(one, axiom, a = b, file('a', a)). cnf(two, axiom, p(a), file('a', b)). cnf(three, axiom, ~p(b), file('a', c)).
            cnf(four, plain, p(b), inference(rw,[],[two, one])). cnf(five, plain, $false, inference(spm,[],[three, four])).
        """
        for proof, what in ((equality, "four, p\\(b\\), by rw from two, one"), ("cnf(a,axiom,p,file('a',a)).", "no empty clause"),
                            ("1[0:Inp] ||  -> p*.\n2[1:Spt:1.0] || p -> .\n", "splitting")):
            with self.subTest(what), self.assertRaisesRegex(RefutationError, what):
                tstp.jobs(proof, None)
        with self.assertRaisesRegex(RefutationError, "is no clause of the problem"):
            tstp.jobs(equality, "cnf(a,axiom,p).")

    def test_spass(self) -> None:
        proof = """
            Here is a proof with depth 2, length 6 :
            1[0:Inp] ||  -> p(a)*.
            2[0:Inp] || p(u) -> p(f(u))* equal(u,Man)**.
            3[0:Inp] || p(f(f(a)))*+ -> .
            4[0:Inp] q(u) || equal(u,Man) -> .
            5[0:Inp] || -> q(u).
            6[0:Res:2.0,2.1] || p(v)*+ -> p(f(f(v))) equal(v,Man)** equal(f(v),Man)**.
            7[0:MRR:6.1,3.0] || p(a) -> equal(a,Man) equal(f(a),Man).
            8[0:Res:4.0,5.0,1.0,7.0] || -> .
            Formulae used in the proof : a
        """
        left = self.imported(proof)
        self.assertIn("![V0]: (V0 != 'Man' | ~q(V0))", left)
        self.assertEqual(len(left), 5)

    def test_marks_of_spass(self) -> None:
        proof = "1[0:Inp] ||  -> r(u,s(u))*r.\n2[0:Inp] || r(a,u)*l+ -> .\n3[0:Res:1.0,2.0] ||  -> .\n"
        self.assertEqual(str(tstp.read_spass(proof)[0].clause), "r(U,s(U))")
        self.assertEqual(self.imported(proof), ["![V0]: r(V0,s(V0))", "![V0]: ~r(a,V0)"])

    def test_clauses_of_spass(self) -> None:
        clause = tstp.read_spass("12[0:Res:1.0,2.1,2.0] man(u) || equal(f(u,x12),skc1)**+ -> p(y,w__dfg)* .")[0]
        self.assertEqual(str(clause.clause), "f(U,X12) != skc1 | ~man(U) | p(Y,w)")
        self.assertEqual((clause.name, clause.rule, clause.parents), ("12", "Res", ("1", "2", "2")))


class Provers(unittest.TestCase):
    """The provers' own output, where they are installed."""

    def refute(self, words: List[str], name: str, problem: str) -> str:
        program = shutil.which(words[0])
        if program is None:
            self.skipTest(f"{words[0]} is not installed")
        with tempfile.TemporaryDirectory() as folder:
            path = Path(folder) / f"{name}.p"
            path.write_text(problem + "\n")
            done = subprocess.run([program, *words[1:], str(path)], capture_output=True, text=True, timeout=SECONDS, check=False)
        return done.stdout

    def each(self, words: List[str]) -> None:
        for name, problem in PROBLEMS.items():
            with self.subTest(name):
                self.check(self.refute(words, name, problem), problem)
        for name, problem in FORMULAS.items():
            with self.subTest(name):
                self.check(self.refute(words, name, problem), None)

    def check(self, proof: str, problem: "str | None") -> None:
        with session() as one:
            for reply in one.batch(tstp.jobs(proof, problem)):
                reply.checked()

    def test_e(self) -> None:
        self.each(["eprover", "--auto", "--silent", "--proof-object", "--cpu-limit=10"])

    def test_spass(self) -> None:
        self.each(["SPASS", "-TPTP", "-DocProof", "-Splits=0", "-TimeLimit=10"])


class Command(unittest.TestCase):
    def test_the_samples(self) -> None:
        for proof in sorted(SAMPLES.glob("*.tstp")) + sorted(SAMPLES.glob("*.spass")):
            problem = proof.with_suffix(".p")
            with self.subTest(proof.name):
                done = command("gaptd.tstp", "--problem", str(problem), str(proof))
                self.assertEqual(done.returncode, 0, done.stderr)
                replies = command("gaptd.client", given=done.stdout)
                self.assertEqual((replies.returncode, replies.stdout.count('"ok"')), (0, 2), replies.stdout)

    def test_an_empty_clause_as_input(self) -> None:
        with tempfile.TemporaryDirectory() as folder:
            path = Path(folder) / "a.tstp"
            path.write_text("cnf(a,axiom,$false,file('a',a)).\n")
            done = command("gaptd.tstp", str(path))
        self.assertEqual(done.returncode, 0, done.stderr)
        self.assertEqual(tptp.clauses_of(done.stdout.split('"text":"')[1].split('\\n')[0]), [Clause()])
