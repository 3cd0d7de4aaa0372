"""Problems with formulas, proved: a proof in LK of the problem itself, as jobs.

    python3 -m gaptd.fof [--prover e|spass|own|gaptd] [--seconds N] [--equality] FILE

prints the jobs `problem`, `expansion`, `fromexp` and `proves`. The instances that the proof needs are found by E or SPASS where they are
installed, or else by the searches of this package. What is found is expansion trees of the problem's own formulas, with variables in place
of Skolem terms, and whether they prove it the program decides.

Equality is a predicate like any other. With `--equality` its axioms are added to the problem, and those that the proof needs stand in its
end sequent.
"""
from __future__ import annotations

import argparse
import contextlib
import json
import sys
from pathlib import Path
from typing import Any, Callable, Dict, Iterator, List, Optional, Sequence, Set, Tuple

from . import formulas, provers, search, tptp
from .client import Session, add_program, guarded
from .expansions import Expansion
from .files import file_name, job_name
from .formulas import And, App, Formula, TextError
from .matrix import Matrix
from .progress import Progress

BUDGET = 1_000_000_000
NAMES = [*provers.PROVERS, "own", "gaptd"]
Sides = Tuple[List[Formula], List[Formula]]
Tell = Callable[[str], None]


class ProblemError(ValueError):
    """An entry of a problem that can't be read."""


def sequent_of(text: str) -> Sides:
    """The formulas of a problem's sequent: closures, each once, and the conjectures as one on the right. Raises ProblemError."""
    left: Dict[Formula, None] = {}
    goal: Optional[Formula] = None
    for entry in tptp.entries(text):
        if entry.language not in ("fof", "cnf"):
            raise ProblemError(f"the entry {entry.name} is in {entry.language}, and only fof and cnf are read")
        try:
            whole = formulas.closure(formulas.formula(entry.body))
        except TextError as error:
            raise ProblemError(f"the entry {entry.name}: {error}") from error
        except RecursionError as error:
            raise ProblemError(f"the entry {entry.name} is nested too deeply") from error
        if entry.role == "conjecture":
            goal = And(goal, whole) if goal is not None else whole
        else:
            left[whole] = None
    return list(left), [goal] if goal is not None else []


# Equality

def equality_axioms(sides: Sides) -> Iterator[str]:
    """Entries that say of `=` that it is an equivalence relation, and of each symbol of the formulas that equals are equal under it."""
    yield "fof(equality_reflexive,axiom,![X]: X = X).\n"
    yield "fof(equality_symmetric,axiom,![X,Y]: (X = Y => Y = X)).\n"
    yield "fof(equality_transitive,axiom,![X,Y,Z]: ((X = Y & Y = Z) => X = Z)).\n"
    for number, (is_predicate, name, count) in enumerate(sorted(symbols_with_arguments(sides)), 1):
        yield f"fof(equality_congruence_{number},axiom,{congruence(is_predicate, name, count)}).\n"


def symbols_with_arguments(sides: Sides) -> Set[Tuple[bool, str, int]]:
    """The predicates but for equality and the functions with arguments, each as: whether it is a predicate, its name, how many they are."""
    atoms = [atom for side in sides for whole in side for atom in formulas.atoms_of(whole)]
    terms = [part for atom in atoms for argument in atom.args for part in formulas.subterms(argument)]
    functions = {(False, part.name, len(part.args)) for part in terms if isinstance(part, App) and part.args}
    return functions | {(True, atom.name, len(atom.args)) for atom in atoms if atom.args and not formulas.is_equation(atom)}


def congruence(is_predicate: bool, name: str, count: int) -> str:
    """That a symbol doesn't tell equal arguments apart."""
    first, second = ([f"{letter}{number}" for number in range(1, count + 1)] for letter in "XY")
    one, two = (f"{formulas.name_text(name)}({','.join(arguments)})" for arguments in (first, second))
    equations = [f"{x} = {y}" for x, y in zip(first, second)]
    if is_predicate:
        return f"![{','.join(first + second)}]: (({' & '.join([*equations, one])}) => {two})"
    return f"![{','.join(first + second)}]: (({' & '.join(equations)}) => {one} = {two})"


# Proofs

def prove(left: Sequence[Formula], right: Sequence[Formula], prover: str = "", seconds: float = 60, tell: Tell = lambda text: None,
          session: Optional[Session] = None) -> Expansion:
    """An expansion proof of a sequent, by a prover: `e`, `spass`, `own`, or in a session the program's own, `gaptd`. Without a name it is by
    the first one that is installed and finds one.

    Raises NotFound or NoRefutation."""
    names = [prover] if prover else [*provers.installed(), "own"]
    matrix = Matrix(left, right)
    for name in names[:-1]:
        try:
            return by(name, matrix, seconds, tell, session)
        except provers.NoRefutation as error:
            tell(str(error))
    return by(names[-1], matrix, seconds, tell, session)


def by(name: str, matrix: Matrix, seconds: float, tell: Tell, session: Optional[Session]) -> Expansion:
    if name == "own":
        return search.prove(matrix, seconds, tell)
    if name == "gaptd":
        assert session is not None
        return search.expansion_of(matrix, provers.prove_by_program(matrix, session))
    tell(f"{provers.PROVERS[name].title} runs")
    return search.expansion_of(matrix, provers.prove(matrix, name, max(1, round(seconds))))


def jobs(text: str, name: str, expansion: Expansion) -> List[Dict[str, Any]]:
    """The problem, its expansion proof, the proof that comes of it, and the question whether that proves the problem."""
    trees = {"nodes": list(expansion.nodes), "left": list(expansion.left), "right": list(expansion.right)}
    return [
        {"job": name, "op": "problem", "text": text},
        {"job": f"{name}-instances", "op": "expansion", **trees, "budget": BUDGET},
        {"job": f"{name}-proof", "op": "fromexp", "expansion": f"{name}-instances", "budget": BUDGET},
        {"job": f"{name}-answer", "op": "proves", "proof": f"{name}-proof", "problem": name},
    ]


def main() -> int:
    parser = argparse.ArgumentParser(prog="python3 -m gaptd.fof", description="A proof in LK of a problem with formulas, as jobs.")
    add_program(parser)
    parser.add_argument("file", type=Path, help="a problem in TPTP, FOF or CNF; - is the standard input")
    parser.add_argument("--job", help="the name of the first job; the file's without it")
    parser.add_argument("--prover", choices=NAMES, default="", help="who looks for the instances: E, SPASS, the package's own search, or "
                        "the program's operation prove; without it the first of the first three that is there and finds them")
    parser.add_argument("--seconds", type=float, default=60, help="how long each may look for them (60)")
    parser.add_argument("--equality", action="store_true", help="add the axioms of equality to the problem")
    words = parser.parse_args()
    text = tptp.problem_text(words.file)
    try:
        left, right = sequent_of(text)
    except ProblemError as error:
        raise ProblemError(f"{file_name(words.file)}: {error}") from error
    if words.equality:
        added = "".join(equality_axioms((left, right)))
        text += added
        left, right = sequent_of(text)
    with Progress() as progress, contextlib.ExitStack() as stack:
        session = stack.enter_context(Session(words.program, words.seconds)) if words.prover == "gaptd" else None
        expansion = prove(left, right, words.prover, words.seconds, progress.tell, session)
    if words.equality:
        print(f"fof: {added.count('fof(')} axioms of equality are added to the problem; those that are used stand in the proof's end "
              "sequent", file=sys.stderr)
    for job in jobs(text, (words.job or job_name(words.file))[:54], expansion):
        print(json.dumps(job, separators=(",", ":")))
    return 0


if __name__ == "__main__":
    sys.exit(guarded(main))
