from __future__ import annotations

import json
import os
import tempfile
import unittest
from pathlib import Path
from unittest import mock

from gaptd import tptp
from gaptd.formulas import TextError
from tests.support import command, session

DIMACS = "c a comment\np cnf 2 3\n1 -2 0\n2\n0 -1 0\n"


class Files(unittest.TestCase):
    def setUp(self) -> None:
        folder = tempfile.TemporaryDirectory()
        self.addCleanup(folder.cleanup)
        self.folder = Path(folder.name)

    def write(self, name: str, text: str) -> Path:
        path = self.folder / name
        path.parent.mkdir(parents=True, exist_ok=True)
        path.write_text(text)
        return path

    def test_includes(self) -> None:
        self.write("Axioms/a.ax", "fof(one,axiom,p). % a comment with include('x').\nfof('two, or',axiom,q & r).\ninclude('b.ax').")
        self.write("Axioms/b.ax", "fof(three,axiom,'(' | s).")
        path = self.write("a.p", "include('Axioms/a.ax').\nfof(goal,conjecture,p).")
        self.assertEqual([entry.name for entry in tptp.entries(tptp.problem_text(path))], ["one", "two, or", "three", "goal"])
        path = self.write("b.p", "include('Axioms/a.ax',['two, or']).")
        with session() as one:
            self.assertEqual(one.run("problem", text=tptp.problem_text(path)).ok, {"entries": 1, "left": ["q & r"], "right": []})

    def test_includes_from_the_folder_of_tptp(self) -> None:
        self.write("Axioms/a.ax", "cnf(one,axiom,p | ~q).")
        path = self.write("Problems/a.p", "include('Axioms/a.ax').")
        with self.assertRaises(FileNotFoundError):
            tptp.problem_text(path)
        with mock.patch.dict(os.environ, {"TPTP": str(self.folder)}):
            self.assertEqual(tptp.problem_text(path), "cnf(one,axiom,p | ~q).\n")

    def test_a_file_that_includes_itself(self) -> None:
        with self.assertRaises(TextError):
            tptp.problem_text(self.write("a.p", "include('a.p')."))

    def test_dimacs(self) -> None:
        for name in ("a.cnf", "a.txt"):
            text = tptp.problem_text(self.write(name, DIMACS))
            self.assertEqual(text, "cnf(c1,axiom,x1 | ~x2).\ncnf(c2,axiom,x2).\ncnf(c3,axiom,~x1).\n")
        with session() as one:
            self.assertEqual(one.run("problem", text=text).ok["left"], ["x2", "~x1", "x1 | ~x2"])

    def test_faulty_dimacs(self) -> None:
        for text in ("p cnf 1 1\n1 2\n", "p cnf 1 1\n1 x 0\n"):
            with self.subTest(text), self.assertRaises(TextError):
                tptp.problem_text(self.write("a.cnf", text))

    def test_faults_name_the_file(self) -> None:
        self.write("a.ax", "fof(a,axiom,p).\nfof(b axiom,p.\n")
        for name, text in (("a.p", "include('a.ax')."), ("a.cnf", "p cnf 1 1\n1 x 0\n")):
            with self.subTest(name):
                done = command("gaptd.tptp", str(self.write(name, text)))
                self.assertEqual((done.returncode, done.stdout), (1, ""))
                self.assertRegex(done.stderr, r"^tptp: \S*/a\.(ax|cnf), line 2, column [13]: ")

    def test_the_command(self) -> None:
        done = command("gaptd.tptp", str(self.write("two words.p", "fof(a,axiom,p).")))
        self.assertEqual(json.loads(done.stdout), {"job": "two-words", "op": "problem", "text": "fof(a,axiom,p).\n"})


class Entries(unittest.TestCase):
    def test_fields(self) -> None:
        entry, = tptp.entries("fof('a b', axiom, p(X,Y) | [no], inference(r,[s(',')],[c]), [x]).")
        self.assertEqual((entry.name, entry.role, entry.body), ("a b", "axiom", "p(X,Y) | [no]"))
        self.assertEqual(entry.annotations, ("inference(r,[s(',')],[c])", "[x]"))

    def test_texts_without_end(self) -> None:
        for text in ("fof(a,axiom,p)", "fof(a,axiom,p)).", "p.", "fof(a,axiom,p("):
            with self.subTest(text), self.assertRaises(TextError):
                list(tptp.entries(text))

    def test_clauses(self) -> None:
        found = tptp.clauses_of("fof(a,axiom,p). cnf(b,axiom,(~q(X) | p(X) | X != a | $false)).")
        self.assertEqual([str(clause) for clause in found], ["X != a | ~q(X) | p(X)"])
