"""E and SPASS, where they are installed, and the operation `prove`: which instances of clauses are unsatisfiable together.

A prover's refutation is done again by resolution as in `tstp`, so each of its clauses is one of ours under a map; these maps, all the way
down to the empty clause, are the instances. Equality is for the prover a predicate like any other, as it is for gaptd.
"""
from __future__ import annotations

import shutil
import subprocess
import tempfile
from pathlib import Path
from typing import Any, Dict, Iterator, List, Mapping, NamedTuple, Sequence, Set, Tuple

from . import clauses, formulas, tstp
from .client import Session
from .clauses import Clause, Literal, RefutationError
from .errors import RoundsSpent, UnknownOperation
from .formulas import Atom, Term
from .matrix import Found, Matrix

Step = Mapping[str, Any]


class Prover(NamedTuple):
    """A prover: how it is called, and the words of its command before the file; `{seconds}` stands for its time."""

    title: str
    words: Tuple[str, ...]


PROVERS: Dict[str, Prover] = {
    "e": Prover("E", ("eprover", "--auto", "--silent", "--proof-object", "--cpu-limit={seconds}")),
    "spass": Prover("SPASS", ("SPASS", "-TPTP", "-DocProof", "-Splits=0", "-TimeLimit={seconds}")),
}


ROUNDS = range(2, 14, 2)  # what the program's own operation is given, one after the other


class NoRefutation(ValueError):
    """A prover isn't there, or found nothing."""


def installed() -> List[str]:
    """The provers that can be run."""
    return [name for name, prover in PROVERS.items() if shutil.which(prover.words[0])]


def run(name: str, text: str, seconds: int) -> str:
    """What a prover writes for a problem."""
    title, words = PROVERS[name]
    if shutil.which(words[0]) is None:
        raise NoRefutation(f"{title} isn't there: no command {words[0]}")
    with tempfile.TemporaryDirectory() as folder:
        path = Path(folder) / "problem.p"
        path.write_text(text, encoding="utf-8")
        command = [word.format(seconds=seconds) for word in words]
        try:
            done = subprocess.run([*command, str(path)], capture_output=True, text=True, errors="replace", timeout=seconds + 10,
                                  check=False)
        except subprocess.TimeoutExpired:
            raise NoRefutation(f"{title} found no proof within {seconds} seconds") from None
    return done.stdout


def prove(matrix: Matrix, name: str, seconds: int) -> List[Found]:
    """The instances of clauses that a prover's refutation uses. Raises NoRefutation where it found none."""
    given = clauses_of(matrix)
    written = run(name, problem_of(given), seconds)
    try:
        inferences = tstp.read_inferences(written)
    except (RefutationError, formulas.TextError) as error:
        raise NoRefutation(f"{PROVERS[name].title} found no refutation within {seconds} seconds") from error
    try:
        steps = tstp.refutation(inferences, given)
    except RefutationError as error:
        raise NoRefutation(f"the refutation of {PROVERS[name].title} can't be done again: {error}") from error
    return [(matrix.clauses[number].places, images) for number, images in instances(steps, given)]


def prove_by_program(matrix: Matrix, session: Session) -> List[Found]:
    """The instances of clauses that a refutation by the program's own operation `prove` uses. Raises NoRefutation where it has none."""
    given = clauses_of(matrix)
    name = session.run("problem", "clauses", text=problem_of(given)).job
    for rounds in ROUNDS:
        try:
            found = session.run("prove", problem=name, rounds=rounds).ok
        except RoundsSpent:
            continue
        except UnknownOperation as error:
            raise NoRefutation("the program has no operation prove") from error
        if "steps" not in found:
            raise NoRefutation("the program found saturated clauses, so there is no refutation")
        return [(matrix.clauses[number].places, images) for number, images in instances(found["steps"], given)]
    raise NoRefutation(f"the program found no refutation within {ROUNDS[-1]} rounds")


def clauses_of(matrix: Matrix) -> List[Clause]:
    return [without_equality(one.clause, f"{matrix.prefix}equal") for one in matrix.clauses]


def problem_of(given: Sequence[Clause]) -> str:
    return "".join(f"cnf(c{number},axiom,{clause}).\n" for number, clause in enumerate(given))


def without_equality(clause: Clause, name: str) -> Clause:
    """The clause with another predicate in place of equality."""
    return Clause(frozenset(Literal(sign, Atom(name, atom.args) if formulas.is_equation(atom) else atom) for sign, atom in clause.literals))


def instances(steps: Sequence[Step], inputs: Sequence[Clause]) -> Iterator[Tuple[int, Dict[str, Term]]]:
    """The inputs of a refutation with the maps under which they come to its empty clause, each pair once."""
    derived: List[Clause] = []
    for step in steps:
        derived.append(clauses.derive(step, inputs, derived))
    seen: Set[Tuple[int, Tuple[Tuple[str, Term], ...]]] = set()
    waiting: List[Tuple[int, Dict[str, Term]]] = [(len(steps) - 1, {})]
    while waiting:
        number, images = waiting.pop()
        key = (number, tuple(sorted(images.items(), key=lambda pair: pair[0])))
        if key in seen:
            continue
        seen.add(key)
        if "input" in steps[number]:
            yield steps[number]["input"], images
        waiting.extend((premise, those_of(derived[premise], above)) for premise, above in premises(steps[number], images))


def premises(step: Step, images: Dict[str, Term]) -> Iterator[Tuple[int, Dict[str, Term]]]:
    """The steps that a step of a refutation is made of, each with the map under which it is used."""
    if "subst" in step:
        mapped = {name: formulas.term(text) for name, text in step["map"].items()}
        whole = {name: formulas.substitute_term(image, images) for name, image in mapped.items()}
        yield step["subst"], {**images, **whole}
    for premise in step.get("resolve", ()):
        yield premise, images


def those_of(clause: Clause, images: Mapping[str, Term]) -> Dict[str, Term]:
    """The map for the variables of a clause alone."""
    return {name: images[name] for name in clause.variables() if name in images}
