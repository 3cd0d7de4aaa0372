"""Files in DIMACS: what is read, the jobs, and the answers, whose models and refutations are checked here by themselves."""
from __future__ import annotations

import gzip
import io
import itertools
import json
import random
import tempfile
import unittest
from pathlib import Path
from typing import Any, Dict, FrozenSet, Iterator, List, Sequence, Set, Tuple
from unittest import mock

from gaptd import dimacs, files
from gaptd.client import Reply, encoded
from gaptd.errors import GaptdError, ProtocolError
from gaptd.formulas import TextError
from tests.support import CLIENTS, command, needs, session

PIGEONS, COLOURING = (CLIENTS / "examples" / name for name in ("pigeons.cnf", "colouring.cnf"))
Clauses = Sequence[Sequence[int]]


def text_of(clauses: Clauses, variables: int = 6) -> str:
    return f"p cnf {variables} {len(clauses)}\n" + "".join(" ".join(map(str, [*clause, 0])) + "\n" for clause in clauses)


def read(text: str) -> List[List[int]]:
    return list(dimacs.Reader(text))


class Reading(unittest.TestCase):
    def test_clauses(self) -> None:
        texts: Dict[str, List[List[int]]] = {
            "p cnf 0 0": [],
            "c a comment\n  p  cnf\t3 2 \n1 -2\nc in a clause, with \x85 and \u2028\n 3 0 -1\n\n0": [[1, -2, 3], [-1]],
            "p cnf 2 2\r\n1 2 0\r\n0\r\n": [[1, 2], []],
            "p cnf 2 1\n2 2 -2 0\n%\n0\n\n": [[2, 2, -2]],
        }
        for text, wanted in texts.items():
            with self.subTest(text):
                self.assertEqual(read(text), wanted)

    def test_faults(self) -> None:
        header = "there is no header p cnf VARIABLES CLAUSES"
        texts = {
            "": (0, header), "1 0\n": (0, header), "cnf(a,axiom,p).\n": (16, header),
            "p cnf 1 1\n\np cnf 1 1\n": (11, "a second header"), "p cnf 1\n": (0, "no header"), "p sat 3\n": (0, "no header"),
            "p cnf -1 0\n": (0, "no header"), "p cnf 2147483648 0": (0, "more variables than 2147483647"),
            "p cnf 1 1\n-1 2 -3\n": (18, "a clause without its 0"), "p cnf 1 1\n1\n%\n0\n": (12, "a clause without its 0"),
            "p cnf 1 1\n1 x 0\n": (12, "no number"), "p cnf 1 1\n1 -1- 0\n": (12, "no number"), "p cnf 1 1\n 1_0 0\n": (11, "no number"),
            "p cnf 1 1\n1 0 % 2 0": (14, "no number"), "p cnf 1 1\n99999999999 0": (10, "no number"),
            "p cnf 1 1\n-2147483648 0": (10, "a variable past 2147483647"),
            "p cnf 1 2\n1 0\n" + "1 " * 1001 + "0": (14, "clause 2 has 1001 literals, and a clause of gaptd has at most 1000"),
        }
        for text, (at, what) in texts.items():
            with self.subTest(text[:40]), self.assertRaisesRegex(TextError, what) as caught:
                read(text)
            self.assertEqual(caught.exception.at, at)

    def test_a_header_that_says_otherwise(self) -> None:
        asked = dimacs.question("p cnf 2 3\n1 -4 0\n", "a")
        self.assertEqual(asked.variables, 4)
        self.assertEqual(asked.notes, ["the header says that there are 3 clauses, and there are 1",
                                       "the header says that there are 2 variables, and variable 4 occurs"])
        self.assertEqual(dimacs.question("p cnf 2 1\n1 0\n", "a").notes, [])

    def test_what_is_gzipped(self) -> None:
        packed = gzip.compress(PIGEONS.read_bytes())
        with tempfile.TemporaryDirectory() as folder:
            path = Path(folder) / "four pigeons.cnf.gz"
            path.write_bytes(packed)
            first, _ = command("gaptd.dimacs", "--jobs", str(path)).stdout.splitlines()
            self.assertEqual(json.loads(first)["job"], "four-pigeons")
            path.write_bytes(packed[:50])
            done = command("gaptd.dimacs", "--jobs", str(path))
        self.assertEqual((done.returncode, done.stdout), (1, ""))
        self.assertRegex(done.stderr, r"^dimacs: \S* pigeons.cnf.gz is gzipped, and can't be unpacked: ")
        with mock.patch("sys.stdin", io.TextIOWrapper(io.BytesIO(packed))):
            self.assertEqual(files.read_bytes("-"), PIGEONS.read_bytes())


class Jobs(unittest.TestCase):
    def test_the_jobs(self) -> None:
        text = "p cnf 3 3\n1 -3 0\n0\n2 0\n"
        problem = {"job": "problem", "op": "problem", "text": "cnf(c1,axiom,x1 | ~x3).\ncnf(c2,axiom,$false).\ncnf(c3,axiom,x2).\n"}
        done = command("gaptd.dimacs", "--jobs", given=text)
        self.assertEqual([json.loads(line) for line in done.stdout.splitlines()],
                         [problem, {"job": "problem-sat", "op": "sat", "problem": "problem"}])
        self.assertEqual((done.returncode, done.stderr), (0, ""))
        one, two = dimacs.question(text, "a" * 64).jobs
        self.assertEqual((one["job"], two["job"], two["problem"]), ("a" * 64, "a" * 60 + "-sat", "a" * 64))

    def test_names_are_read_back(self) -> None:
        for variable in (1, 7, 10, 2147483647):
            self.assertEqual(dimacs.variable_of(dimacs.atom_of(variable)), variable)
        for atom in ("x0", "x01", "x", "y1", "x1(a)", "x-1"):
            with self.subTest(atom), self.assertRaises(ProtocolError):
                dimacs.variable_of(atom)

    def test_the_largest_line(self) -> None:
        text = text_of([[1, -2, 3], [], [-3]])
        length = len(encoded(dimacs.question(text, "name").jobs[0]))
        with mock.patch.object(dimacs, "LINE_LENGTH", length):
            dimacs.question(text, "name")
        with mock.patch.object(dimacs, "LINE_LENGTH", length - 1), self.assertRaises(TextError):
            dimacs.question(text, "name")

    def test_a_file_that_is_too_large(self) -> None:
        self.assertEqual(dimacs.LINE_LENGTH, 16_777_216)
        with mock.patch.object(dimacs, "LINE_LENGTH", 500), mock.patch("sys.argv", ["dimacs", str(PIGEONS)]):
            with self.assertRaises(TextError) as caught:
                dimacs.main()
        self.assertEqual(str(caught.exception), f"{PIGEONS}, line 20, column 1: the file is too large: all its clauses are one job, which is a "
                                                "line of at most 500 bytes, and the first 17 are more")

    def test_faults_name_the_file(self) -> None:
        done = command("gaptd.dimacs", given="p cnf 1 1\n1 x 0\n")
        self.assertEqual((done.returncode, done.stdout), (1, ""))
        self.assertEqual(done.stderr, "dimacs: the standard input, line 2, column 3: no number of DIMACS\n")
        self.assertEqual(command("gaptd.dimacs", "--output", "a.trace", str(PIGEONS)).returncode, 2)


# Four clauses, and a refutation of them as the program may reply it.
SQUARE = [[1, 2], [-1, 2], [1, -2], [-2, -1, -1]]
STEPS: List[Dict[str, Any]] = [
    {"input": 3}, {"input": 2}, {"resolve": [1, 0], "atom": "x1"}, {"input": 0}, {"input": 1}, {"resolve": [3, 4], "atom": "x1"},
    {"input": 3}, {"resolve": [5, 2], "atom": "x2"}]


class Answers(unittest.TestCase):
    def test_a_model(self) -> None:
        self.assertEqual(list(dimacs.model_lines(3, ["x2"])), ["v -1 2 -3 0"])
        self.assertEqual(list(dimacs.model_lines(0, [])), ["v 0"])
        lines = list(dimacs.model_lines(1000, ["x1000", "x999"]))
        self.assertLessEqual(max(map(len, lines)), 78)
        self.assertGreater(min(map(len, lines[:-1])), 70)
        words = [word for line in lines for word in line.split()[1:]]
        self.assertEqual(list(map(int, words)), [*range(-1, -999, -1), 999, 1000, 0])

    def test_a_refutation(self) -> None:
        found = dimacs.derivation(STEPS, SQUARE)
        self.assertEqual(list(dimacs.trace(found)), [
            "1 1 2 0 0", "2 -1 2 0 0", "3 1 -2 0 0", "4 -1 -2 0 0", "5 -2 0 3 4 0", "6 2 0 1 2 0", "7 0 6 5 0"])
        self.assertEqual(list(dimacs.drat(found)), ["-2 0", "2 0", "0"])

    def test_the_empty_clause_of_a_file(self) -> None:
        found = dimacs.derivation([{"input": 1}], [[1], []])
        self.assertEqual((list(dimacs.trace(found)), list(dimacs.drat(found))), (["2 0 0"], ["0"]))

    def test_what_is_no_refutation(self) -> None:
        for steps in ([], [{"input": 0}], [*STEPS[:-1], {"resolve": [2, 5], "atom": "x2"}], [*STEPS[:-1], {"resolve": [5, 2], "atom": "y"}],
                      [{"input": 4}], [{"resolve": [0, 1], "atom": "x1"}], [{"subst": 0, "map": {}}]):
            with self.subTest(steps[-1:]), self.assertRaises(ProtocolError):
                dimacs.derivation(steps, SQUARE)

    def test_a_program_without_the_operation(self) -> None:
        class Without:
            def batch(self, jobs: Sequence[Any]) -> List[Reply]:
                return [Reply("a", 1, {}), Reply("b", 2, {}, {"kind": "op"})]

        with self.assertRaisesRegex(GaptdError, "the program has no operation sat"):
            dimacs.ask(Without(), [])  # type: ignore[arg-type]


def checked_trace(lines: Sequence[str], clauses: Clauses) -> List[FrozenSet[int]]:
    """The clauses of lines in TraceCheck's form, each of which is one of the file or a resolvent of two before it."""
    there: Dict[int, FrozenSet[int]] = {}
    for line in lines:
        number, *numbers = map(int, line.split())
        end = numbers.index(0)
        literals, parents = frozenset(numbers[:end]), numbers[end + 1:-1]
        assert numbers[-1] == 0 and number not in there
        if parents:
            one, two = (there[parent] for parent in parents)
            assert any(literals == (one - {literal}) | (two - {-literal}) for literal in one if -literal in two), line
        else:
            assert literals == frozenset(clauses[number - 1]), line
        there[number] = literals
    return list(there.values())


def is_implied(clauses: Clauses, wanted: Sequence[int]) -> bool:
    """Whether unit propagation alone shows that a clause follows, as a line in DRAT has to."""
    false: Set[int] = set(wanted)
    while True:
        left = [[literal for literal in clause if literal not in false] for clause in clauses]
        if [] in left:
            return True
        units = {-clause[0] for clause in left if len(set(clause)) == 1} - false
        if not units:
            return any(-literal in false for literal in false)
        false |= units


def random_clauses(source: random.Random) -> List[List[int]]:
    """Some clauses in six variables, which have models about as often as not."""
    lengths = source.choices((1, 2, 3), (1, 2, 7), k=source.randint(4, 26))
    return [[source.choice((1, -1)) * source.randint(1, 6) for _ in range(length)] for length in lengths]


def have_model(clauses: Clauses) -> bool:
    """Whether some of all valuations of six variables makes all clauses true."""
    return any(is_true(clauses, signs) for signs in itertools.product((1, -1), repeat=6))


def is_true(clauses: Clauses, signs: Sequence[int]) -> bool:
    return all(any(signs[abs(literal) - 1] * literal > 0 for literal in clause) for clause in clauses)


class Solving(unittest.TestCase):
    @needs("sat")
    def test_the_examples(self) -> None:
        done = command("gaptd.dimacs", str(PIGEONS))
        self.assertEqual((done.returncode, done.stdout, done.stderr), (20, "s UNSATISFIABLE\n", ""))
        done = command("gaptd.dimacs", str(COLOURING))
        wanted = "s SATISFIABLE\nv 1 -2 -3 -4 5 -6 -7 -8 9 10 -11 -12 -13 14 -15 -16 -17 18 0\n"
        self.assertEqual((done.returncode, done.stdout, done.stderr), (10, wanted, ""))
        self.assertTrue(is_true(read(COLOURING.read_text()), list(map(int, wanted.split()[3:-1]))))

    @needs("sat")
    def test_what_the_header_says_otherwise(self) -> None:
        done = command("gaptd.dimacs", given="p cnf 2 2\n-1 0\n1 4 0\n-3 0\n")
        self.assertEqual(done.returncode, 10)
        self.assertRegex(done.stdout, r"^s SATISFIABLE\nv -1 -?2 -3 4 0\n$")
        self.assertEqual(len(done.stderr.splitlines()), 2)

    @needs("sat")
    def test_where_a_refutation_goes(self) -> None:
        clauses = read(PIGEONS.read_text())
        with tempfile.TemporaryDirectory() as folder:
            path = Path(folder) / "written"
            for form, is_right in (("--steps", self.is_trace), ("--drat", self.is_drat)):
                alone = command("gaptd.dimacs", form, str(PIGEONS))
                self.assertEqual(alone.returncode, 20)
                is_right(alone.stdout.splitlines(), clauses)
                done = command("gaptd.dimacs", form, "--output", str(path), str(PIGEONS))
                self.assertEqual((done.returncode, done.stdout), (20, "s UNSATISFIABLE\n"))
                is_right(path.read_text().splitlines(), clauses)
                done = command("gaptd.dimacs", form, "--output", str(path), str(COLOURING))
                self.assertEqual((done.returncode, done.stdout[:14], path.read_text()), (10, "s SATISFIABLE\n", ""))

    def is_trace(self, lines: Sequence[str], clauses: Clauses) -> None:
        self.assertEqual(checked_trace(lines, clauses)[-1], frozenset())

    def is_drat(self, lines: Sequence[str], clauses: Clauses) -> None:
        known = list(clauses)
        for line in lines:
            *literals, end = map(int, line.split())
            self.assertTrue(end == 0 and is_implied(known, literals), line)
            known.append(literals)
        self.assertEqual(known[-1], [])

    @needs("sat")
    def test_random_clauses(self) -> None:
        """Each answer is the right one, its model makes the clauses true, and its refutation is one in both forms."""
        found = {True: 0, False: 0}
        with session() as one:
            for clauses, ok in self.answers(one, random.Random(7), 120):
                found[ok["satisfiable"]] += 1
                self.assertEqual(ok["satisfiable"], have_model(clauses), clauses)
                if ok["satisfiable"]:
                    line, = dimacs.model_lines(6, ok["true"])
                    self.assertTrue(is_true(clauses, list(map(int, line.split()[1:-1]))))
                else:
                    derived = dimacs.derivation(ok["steps"], clauses)
                    self.is_trace(list(dimacs.trace(derived)), clauses)
                    self.is_drat(list(dimacs.drat(derived)), clauses)
        self.assertGreater(min(found.values()), 20)

    def answers(self, one: Any, source: random.Random, count: int) -> Iterator[Tuple[Clauses, Dict[str, Any]]]:
        for _ in range(count):
            clauses = random_clauses(source)
            yield clauses, dimacs.ask(one, dimacs.question(text_of(clauses), "a").jobs)

    @needs("sat")
    def test_a_clause_with_as_many_literals_as_there_may_be(self) -> None:
        text = text_of([list(range(-1, -1001, -1)), *([variable] for variable in range(1, 1000))], 1000)
        self.assertEqual(command("gaptd.dimacs", given=text).stdout.split()[-2:], ["-1000", "0"])

    @needs("sat")
    def test_what_a_session_holds(self) -> None:
        """A model isn't sent again by `restart`, a refutation is."""
        with session() as one:
            for path in (PIGEONS, COLOURING):
                dimacs.ask(one, dimacs.question(path.read_text(), path.stem).jobs)
            self.assertEqual([wanted for wanted, _ in one.accepted], ["pigeons", "pigeons-sat", "colouring"])
            one.restart()
            self.assertEqual(one.run("measure", proof="pigeons-sat").ok["quants"], 0)
