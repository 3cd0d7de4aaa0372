"""Files in DIMACS, answered as SAT solvers answer them, by the operation `sat`.

    python3 -m gaptd.dimacs [--steps | --drat | --jobs] [FILE]

reads clauses, asks the program whether they can be true together, and prints `s SATISFIABLE` with a model in lines that begin with v, or
`s UNSATISFIABLE`. The status is 10 or 20, and 1 where something is wrong. With `--steps` a refutation is printed in the form that TraceCheck
reads, with `--drat` in DRAT; `--jobs` prints the two jobs and asks nothing.

Variable 7 becomes the atom `x7`, and the k-th clause the entry `ck`. Nothing is decided here: the model and the refutation are those of the
program's reply.
"""
from __future__ import annotations

import argparse
import itertools
import re
import sys
from contextlib import ExitStack
from pathlib import Path
from typing import Any, Callable, Dict, FrozenSet, Iterable, Iterator, List, Mapping, NamedTuple, Optional, Sequence, TextIO, Tuple

from .client import LINE_LENGTH, Session, add_program, encoded, guarded
from .errors import GaptdError, ProtocolError, UnknownOperation
from .files import faults_in, job_name, read_bytes
from .formulas import TextError
from .progress import Progress, waiting

MOST_VARIABLES = (1 << 31) - 1
MOST_LITERALS = 1_000  # of a clause, as of any chain of |
WIDTH = 78  # of a line with a part of a model
SATISFIABLE, UNSATISFIABLE = 10, 20

LINE = re.compile(r"[^\n]+")
HEADER = re.compile(r"\s*p\s+cnf\s+([0-9]{1,10})\s+([0-9]{1,10})\s*")
NUMBER = re.compile(r"-?[0-9]{1,10}")
NUMBERS = re.compile(rf"\s*{NUMBER.pattern}(?:\s+{NUMBER.pattern})*\s*")
ATOM = re.compile(r"x([1-9][0-9]*)")

Clause = Sequence[int]
Job = Mapping[str, Any]
Done = Callable[[], None]


# Reading

class Header(NamedTuple):
    """What the line `p cnf VARIABLES CLAUSES` says."""

    variables: int
    clauses: int


class Reader:
    """The clauses of a text in DIMACS, one after the other, each as its numbers without the 0. They are read once, and `done` is called at
    each line.

    Lines that begin with c are comments, and one that begins with % ends the text. Raises TextError."""

    def __init__(self, text: str, done: Done = lambda: None) -> None:
        self.text, self.done = text, done
        self.header: Optional[Header] = None
        self.at = self.count = self.greatest = 0

    def __iter__(self) -> Iterator[List[int]]:
        clause: List[int] = []
        for line in self.lines():
            for number in self.numbers(line):
                if number:
                    clause.append(number)
                else:
                    yield self.counted(clause)
                    clause = []
        if clause:
            raise self.fault("a clause without its 0")
        if self.header is None:
            raise self.fault("there is no header p cnf VARIABLES CLAUSES, so this is no text in DIMACS")

    def lines(self) -> Iterator[str]:
        """The lines with numbers, up to the end; `at` is where each begins. The header is read meanwhile."""
        for found in LINE.finditer(self.text):
            self.at, line = found.start(), found.group()
            first = line.lstrip()[:1]
            if first == "%":
                return
            if first == "p":
                self.read_header(line)
            elif first not in ("", "c"):
                yield line
            self.done()
        self.at = len(self.text)

    def read_header(self, line: str) -> None:
        found = HEADER.fullmatch(line)
        if found is None:
            raise self.fault("no header of DIMACS, which is p cnf VARIABLES CLAUSES")
        if self.header is not None:
            raise self.fault("a second header")
        self.header = Header(*map(int, found.groups()))
        if self.header.variables > MOST_VARIABLES:
            raise self.fault(f"more variables than {MOST_VARIABLES}")

    def numbers(self, line: str) -> List[int]:
        if self.header is None:
            raise self.fault("there is no header p cnf VARIABLES CLAUSES before the first clause")
        if NUMBERS.fullmatch(line) is None:
            wrong = next(word for word in re.finditer(r"\S+", line) if not NUMBER.fullmatch(word.group()))
            raise self.fault("no number of DIMACS", self.at + wrong.start())
        found = list(map(int, line.split()))
        self.greatest = max(self.greatest, max(found), -min(found))
        if self.greatest > MOST_VARIABLES:
            raise self.fault(f"a variable past {MOST_VARIABLES}")
        return found

    def counted(self, clause: List[int]) -> List[int]:
        self.count += 1
        if len(clause) > MOST_LITERALS:
            raise self.fault(f"clause {self.count} has {len(clause)} literals, and a clause of gaptd has at most {MOST_LITERALS}")
        return clause

    def fault(self, what: str, at: Optional[int] = None) -> TextError:
        """A fault of the line that is read, or at a place in it."""
        return TextError(self.text, self.at if at is None else at, what)

    # Once all is read:

    @property
    def variables(self) -> int:
        """How many variables there are: as the header says, or as go past that."""
        return max(self.header.variables if self.header else 0, self.greatest)

    def notes(self) -> Iterator[str]:
        """What the header says otherwise than the clauses."""
        assert self.header is not None
        if self.count != self.header.clauses:
            yield f"the header says that there are {self.header.clauses} clauses, and there are {self.count}"
        if self.greatest > self.header.variables:
            yield f"the header says that there are {self.header.variables} variables, and variable {self.greatest} occurs"


# Jobs

def atom_of(variable: int) -> str:
    return f"x{variable}"


def variable_of(atom: str) -> int:
    """The variable that an atom stands for. Raises ProtocolError."""
    found = ATOM.fullmatch(atom)
    if found is None:
        raise ProtocolError(f"the reply has the atom {atom}, which stands for no variable")
    return int(found.group(1))


def entry(number: int, clause: Clause) -> str:
    """A clause as an entry of a problem text."""
    literals = " | ".join(atom_of(literal) if literal > 0 else f"~{atom_of(-literal)}" for literal in clause)
    return f"cnf(c{number},axiom,{literals or '$false'}).\n"


def problem_job(name: str, text: str) -> Dict[str, Any]:
    return {"job": name, "op": "problem", "text": text}


class Question(NamedTuple):
    """What a file asks: its clauses, how many variables there are, the two jobs, and notes on the file."""

    clauses: List[Clause]
    variables: int
    jobs: List[Dict[str, Any]]
    notes: List[str]


def question(text: str, name: str) -> Question:
    """What a text in DIMACS asks, by jobs of which the first has this name. Raises TextError, also where the text is too large."""
    clauses: List[Clause] = []
    entries: List[str] = []
    length = len(encoded(problem_job(name, "")))
    with Progress(text.count("\n") + 1) as progress:
        reader = Reader(text, progress.step)
        for clause in reader:
            clauses.append(clause)
            entries.append(entry(len(clauses), clause))
            length += len(entries[-1]) + 1  # (in JSON a newline has two bytes)
            if length > LINE_LENGTH:
                raise reader.fault(f"the file is too large: all its clauses are one job, which is a line of at most {LINE_LENGTH:,} bytes, and "
                                   f"the first {len(clauses):,} are more")
    jobs = [problem_job(name, "".join(entries)), {"job": f"{name[:60]}-sat", "op": "sat", "problem": name}]
    return Question(clauses, reader.variables, jobs, list(reader.notes()))


def ask(session: Session, jobs: Sequence[Job]) -> Dict[str, Any]:
    """The Ok object of the reply to the last of the jobs. Raises GaptdError."""
    with waiting("the program looks for a model or a refutation"):
        replies = session.batch(jobs)
    try:
        return [reply.checked() for reply in replies][-1].ok
    except UnknownOperation as error:
        raise GaptdError("the program has no operation sat") from error


# Answers

def model_lines(variables: int, true: Iterable[str]) -> Iterator[str]:
    """The lines with a model: each variable, negative where it isn't among the true atoms, and a 0 at the end."""
    held = set(map(variable_of, true))
    line = "v"
    for number in itertools.chain((one if one in held else -one for one in range(1, variables + 1)), [0]):
        word = f" {number}"
        if len(line) + len(word) > WIDTH:
            yield line
            line = "v"
        line += word
    yield line


class Derived(NamedTuple):
    """A clause of a refutation: its number, its literals, and the numbers of the two clauses that it comes of. A clause of the file has the
    number that it has there, counted from 1, and comes of none."""

    number: int
    literals: FrozenSet[int]
    parents: Tuple[int, ...] = ()

    def __str__(self) -> str:
        return " ".join(map(str, [*sorted(self.literals, key=abs), 0]))


class Derivation:
    """The clauses of a refutation: those of the file that it uses, and what is resolved from them."""

    def __init__(self, clauses: Sequence[Clause]) -> None:
        self.clauses = clauses
        self.used: Dict[int, Derived] = {}
        self.resolved: List[Derived] = []
        self.steps: List[Derived] = []

    def add(self, step: Job) -> None:
        """One more step of the program's reply. Raises ProtocolError."""
        try:
            self.steps.append(self.input(step["input"] + 1) if "input" in step else self.resolve(step["resolve"], variable_of(step["atom"])))
        except (KeyError, IndexError, TypeError) as error:
            raise ProtocolError(f"the refutation of the reply has a step that can't be one: {step}") from error

    def input(self, number: int) -> Derived:
        if number not in self.used:
            self.used[number] = Derived(number, frozenset(self.clauses[number - 1]))
        return self.used[number]

    def resolve(self, places: Sequence[int], variable: int) -> Derived:
        one, two = (self.steps[place] for place in places)
        if variable not in one.literals or -variable not in two.literals:
            raise ProtocolError(f"the refutation of the reply resolves {one} and {two} on {variable}")
        literals = (one.literals - {variable}) | (two.literals - {-variable})
        self.resolved.append(Derived(len(self.clauses) + len(self.resolved) + 1, literals, (one.number, two.number)))
        return self.resolved[-1]

    def whole(self) -> List[Derived]:
        """All clauses, those of the file first, by rising number. Raises ProtocolError where the last one isn't empty."""
        if not self.steps or self.steps[-1].literals:
            raise ProtocolError("the refutation of the reply doesn't end with the empty clause")
        return [self.used[number] for number in sorted(self.used)] + self.resolved


def derivation(steps: Sequence[Job], clauses: Sequence[Clause]) -> List[Derived]:
    """The clauses of a refutation that the program replied. Raises ProtocolError."""
    made = Derivation(clauses)
    with Progress(len(steps)) as progress:
        for step in steps:
            made.add(step)
            progress.step()
    return made.whole()


def trace(found: Iterable[Derived]) -> Iterator[str]:
    """The lines of a refutation as TraceCheck reads them: a clause's number, its literals, 0, the numbers of those that it comes of, 0."""
    for one in found:
        yield " ".join([str(one.number), str(one), *map(str, one.parents), "0"])


def drat(found: Iterable[Derived]) -> Iterator[str]:
    """The lines of a refutation in DRAT: the literals of each clause that isn't the file's, and 0."""
    yield from [str(one) for one in found if one.parents] or ["0"]


FORMS: Dict[str, Callable[[Iterable[Derived]], Iterator[str]]] = {"steps": trace, "drat": drat}


def answer(asked: Question, ok: Mapping[str, Any], form: str, output: Optional[TextIO]) -> int:
    """Prints the answer that an Ok object is, and gives the status for it. The refutation is written to the output, or where there is none it
    is printed in place of the answer."""
    if ok.get("satisfiable"):
        write(itertools.chain(["s SATISFIABLE"], model_lines(asked.variables, ok["true"])))
        return SATISFIABLE
    if form:
        write(FORMS[form](derivation(ok["steps"], asked.clauses)), output)
    if not form or output is not None:
        write(["s UNSATISFIABLE"])
    return UNSATISFIABLE


def write(lines: Iterable[str], output: Optional[TextIO] = None) -> None:
    """Writes lines to the output, or where there is none prints them."""
    (output or sys.stdout).writelines(f"{line}\n" for line in lines)


def main() -> int:
    parser = argparse.ArgumentParser(prog="python3 -m gaptd.dimacs", description="Says whether the clauses of a file can be true together, as "
                                     "SAT solvers say it.", epilog="The status is 10 where there is a model, 20 where there is a refutation, "
                                     "and 1 where something is wrong.")
    add_program(parser)
    form = parser.add_mutually_exclusive_group()
    form.add_argument("--steps", dest="form", action="store_const", const="steps", default="", help="print a refutation in the form that "
                      "TraceCheck reads, in place of s UNSATISFIABLE")
    form.add_argument("--drat", dest="form", action="store_const", const="drat", help="print a refutation in DRAT, in the same way")
    form.add_argument("--jobs", dest="form", action="store_const", const="jobs", help="print the jobs, and ask nothing")
    parser.add_argument("--output", type=Path, help="where to write the refutation; the answer is then printed as ever")
    parser.add_argument("--job", help="the name of the first job; the file's without it")
    parser.add_argument("file", type=Path, nargs="?", default=Path("-"), help="a file in DIMACS, which may be gzipped; the standard input "
                        "without it")
    words = parser.parse_args()
    if words.output and words.form not in FORMS:
        parser.error("--output is for --steps and --drat")
    with faults_in(words.file):
        asked = question(read_bytes(words.file).decode("latin-1"), words.job or job_name(words.file))
    for note in asked.notes:
        print(f"dimacs: {note}", file=sys.stderr)
    if words.form == "jobs":
        write(encoded(job).decode() for job in asked.jobs)
        return 0
    with ExitStack() as stack:
        output = stack.enter_context(words.output.open("w", encoding="ascii")) if words.output else None
        session = stack.enter_context(Session(words.program))
        return answer(asked, ask(session, asked.jobs), words.form, output)


if __name__ == "__main__":
    sys.exit(guarded(main))
