"""Refutations of resolution provers, as jobs of the operation `resolution`.

    python3 -m gaptd.tstp [--problem FILE] PROOF

reads what E writes with `--proof-object` (TSTP), or SPASS with `-DocProof -Splits=0`, and prints two jobs: the problem, and its refutation
in steps with unifiers written out. The problem is that of the file; without one it is the clauses that the prover begins with, which for a
problem with `fof` entries are what its clausification made of them.

A prover's inference names its parents and says which clause came out, not how. So each one is done again here: parents are resolved with
each other until what is left is among the literals that it derived. Inferences by the rules of equality and by splitting aren't found
that way, and are refused with their name.
"""
from __future__ import annotations

import argparse
import json
import re
import sys
from dataclasses import dataclass, field
from pathlib import Path
from typing import Any, Callable, Dict, Iterator, List, NamedTuple, Optional, Sequence, Tuple

from . import clauses, formulas, tptp
from .clauses import Clause, Literal, Refutation, RefutationError
from .client import guarded
from .files import file_name, read_text
from .formulas import App, Atom, Term, Var
from .progress import Progress


class Inference(NamedTuple):
    """An inference of a prover: the name of its clause, the clause, its rule, and the names of its parents, once for each use; none of
    an input."""

    name: str
    clause: Clause
    rule: str
    parents: Tuple[str, ...] = ()


# The provers' texts

WORD = re.compile(r"[a-z][A-Za-z0-9_]*|'(?:[^'\\]|\\.)*'|[0-9]+")


def read_tstp(text: str) -> List[Inference]:
    """The clauses of a refutation in TSTP, in their order. Those that a `fof` entry gave, or a file, are inputs."""
    lines = [line for line in text.splitlines() if not line.startswith("#")]
    found = list(tptp.entries("\n".join(lines)))
    names = {entry.name for entry in found if entry.language == "cnf"}
    result: List[Inference] = []
    for entry in found:
        if entry.language != "cnf":
            continue
        source = entry.annotations[0] if entry.annotations else ""
        rule = re.match(r"inference\(\s*(\w+)", source)
        parents = tuple(parents_of(source)) if rule or formulas.unquoted(source) in names else ()
        is_input = not parents or any(parent not in names for parent in parents)
        result.append(Inference(entry.name, Clause.read(entry.body), rule.group(1) if rule else "copy", () if is_input else parents))
    return result


def parents_of(source: str) -> Iterator[str]:
    """The names of the parents in `inference(rule, [information], [parents])`, where a parent may be an inference itself."""
    inside = re.match(r"inference\((.*)\)\s*\Z", source, re.DOTALL)
    if inside is None:
        name = WORD.match(source)
        if name:
            yield formulas.unquoted(name.group())
        return
    fields = list(tptp.split_fields(list(tptp.pieces(inside.group(1))), inside.group(1)))
    if len(fields) != 3 or not fields[2].startswith("["):
        raise RefutationError(f"no inference of TSTP: {source}")
    listed = fields[2][1:-1]
    for parent in tptp.split_fields(list(tptp.pieces(listed)), listed):
        if not parent.startswith("theory("):
            yield from parents_of(parent)


SPASS_LINE = re.compile(r"\s*(\d+)\[(\d+):(\w+)(?::([\d.,]+))?\]\s*(.*?)\|\|(.*?)->(.*)\.\s*\Z")
SPASS_TOKEN = re.compile(r"[^\s(),]+|[(),]")


def read_spass(text: str) -> List[Inference]:
    """The clauses of a refutation that SPASS documents, in their order. What it writes of its search before isn't read."""
    result: List[Inference] = []
    for line in text[max(0, text.find("Here is a proof")):].splitlines():
        found = SPASS_LINE.match(line)
        if found is None:
            continue
        name, level, rule, parents, sorts, negative, positive = found.groups()
        if level != "0" or rule == "Spt":
            raise RefutationError(f"clause {name} comes of splitting: run SPASS with -Splits=0")
        literals = [Literal(False, atom) for atom in spass_atoms(sorts + " " + negative)]
        literals += [Literal(True, atom) for atom in spass_atoms(positive)]
        names = tuple(parent.split(".")[0] for parent in (parents or "").split(",") if parent)
        result.append(Inference(name, Clause(frozenset(literals)), rule, names))
    return result


def spass_atoms(text: str) -> Iterator[Atom]:
    """The atoms of one side of a clause, each with marks like `*`, `*l`, `*r` and `+` behind it."""
    tokens = SPASS_TOKEN.findall(re.sub(r"[*+][*+lr]*(?=\s|\Z)", " ", text))
    while tokens:
        part = spass_term(tokens, False)
        assert isinstance(part, App)
        yield Atom("=" if part.name == "equal" else part.name, part.args)


def spass_term(tokens: List[str], may_be_variable: bool = True) -> Term:
    """The term at the front of the tokens, which is taken from them.

    SPASS calls its variables u to z, x1, x2 and so on, and gives a symbol that is called so an ending."""
    name = tokens.pop(0)
    if (not tokens or tokens[0] != "(") and may_be_variable and re.fullmatch(r"[u-z]|x[0-9]+", name):
        return Var(name.upper())
    name = re.sub(r"__dfg\Z", "", name)
    if not tokens or tokens[0] != "(":
        return App(name)
    args: List[Term] = []
    while tokens.pop(0) != ")":
        args.append(spass_term(tokens))
    return App(name, tuple(args))


def read_inferences(text: str) -> List[Inference]:
    """The refutation in a prover's text, down to its empty clause."""
    found = read_spass(text) if re.search(r"^\s*\d+\[\d+:\w+", text, re.MULTILINE) else read_tstp(text)
    for place, inference in enumerate(found):
        if not inference.clause.literals:
            return found[:place + 1]
    raise RefutationError("there is no empty clause: the text is no refutation")


# One inference done again

@dataclass
class Part:
    """A clause in the search for an inference: which parent, under which renaming, and how its other literals are met.

    `root` is the literal that a clause below resolves on, None of the lowest clause; `above` has the parts that resolve on the others."""

    step: int
    renaming: Dict[str, Term]
    literals: List[Literal]
    root: Optional[Literal] = None
    above: List[Tuple[Literal, "Part"]] = field(default_factory=list)

    def before(self, literal: Literal) -> List[Literal]:
        """The literals that are met before this one: the root, and those in front of it."""
        root = [self.root] if self.root is not None else []
        return root + self.literals[:self.literals.index(literal)]


class Goal(NamedTuple):
    """A literal of a part that has to be kept, merged with another one or resolved away."""

    part: Part
    literal: Literal


class Replay:
    """Looks for a derivation of a clause from its parents: parents factored and resolved with each other, literals that are derived kept.

    The variables of the clause are constants here. A search takes at most `rounds` resolutions, first none, then one and so on."""

    TRIES = 100_000

    def __init__(self, refutation: Refutation, parents: Sequence[int], wanted: Clause) -> None:
        self.refutation, self.parents = refutation, list(parents)
        self.constants: Dict[str, Term] = {name: App(f"{name}'") for name in wanted.variables()}
        self.kept = wanted.image(self.constants).ordered()
        self.count = 0
        self.tries = 0

    def run(self, rounds: int) -> Optional[int]:
        """The step that derives a part of the wanted clause, with the steps that lead to it, or None."""
        for most in range(rounds + 1):
            for parent in self.parents:
                start, goals = self.fresh(parent)
                bindings = self.meet(goals, {}, most)
                if bindings is not None:
                    return self.write(start, bindings)
        return None

    def fresh(self, parent: int) -> Tuple[Part, List[Goal]]:
        """A parent with variables of its own, and its literals as goals."""
        self.count += 1
        clause = self.refutation.clauses[parent]
        renaming: Dict[str, Term] = {name: Var(f"{name}_{self.count}") for name in clause.variables()}
        part = Part(parent, renaming, clause.image(renaming).ordered())
        return part, [Goal(part, literal) for literal in part.literals]

    def meet(self, goals: List[Goal], bindings: Dict[str, Term], most: int) -> Optional[Dict[str, Term]]:
        """Bindings under which each goal is kept or resolved away, with at most `most` resolutions."""
        self.tries += 1
        if not goals:
            return bindings
        if self.tries > self.TRIES:
            return None
        (part, literal), rest = goals[0], goals[1:]
        for same in self.kept + part.before(literal):
            if same.is_positive == literal.is_positive:
                bound = clauses.unify_atoms(literal.atom, same.atom, bindings)
                found = self.meet(rest, bound, most) if bound is not None else None
                if found is not None:
                    return found
        return self.resolve_away(part, literal, rest, bindings, most) if most else None

    def resolve_away(self, part: Part, literal: Literal, rest: List[Goal], bindings: Dict[str, Term], most: int
                     ) -> Optional[Dict[str, Term]]:
        for parent in self.parents:
            above, goals = self.fresh(parent)
            for place, (_, other) in enumerate(goals):
                if other.is_positive == literal.is_positive:
                    continue
                bound = clauses.unify_atoms(literal.atom, other.atom, bindings)
                if bound is None:
                    continue
                above.root = other
                part.above.append((literal, above))
                found = self.meet(goals[:place] + goals[place + 1:] + rest, bound, most - 1)
                if found is not None:
                    return found
                part.above.pop()
                above.above.clear()
        return None

    def write(self, part: Part, bindings: Dict[str, Term]) -> int:
        """The steps of a part and of what stands above it; the number of the last one."""
        def done(atom: Atom) -> Atom:
            return Atom(atom.name, tuple(self.final(arg, bindings) for arg in atom.args))

        images = {name: self.final(image, bindings) for name, image in part.renaming.items()}
        step = self.refutation.subst(part.step, images)
        root = Literal(part.root.is_positive, done(part.root.atom)) if part.root else None
        for literal, above in part.above:
            here = Literal(literal.is_positive, done(literal.atom))
            if here != root and here in self.refutation.clauses[step].literals:
                other = self.write(above, bindings)
                pair = (step, other) if here.is_positive else (other, step)
                step = self.refutation.resolve(*pair, here.atom)
        return step

    def final(self, part: Term, bindings: Dict[str, Term]) -> Term:
        """The term with all bindings done and the wanted clause's variables in place of their constants."""
        names = {constant.name: Var(name) for name, constant in self.constants.items() if isinstance(constant, App)}

        def back(inside: Term) -> Term:
            if isinstance(inside, App):
                return names.get(inside.name) or App(inside.name, tuple(map(back, inside.args)))
            return inside

        return back(clauses.resolved_term(part, bindings))


# A whole refutation

def refutation(inferences: Sequence[Inference], inputs: Sequence[Clause], done: Callable[[], None] = lambda: None) -> List[Dict[str, Any]]:
    """The steps of the operation `resolution` for a prover's refutation of these clauses; `done` is called at each inference. Raises
    RefutationError."""
    made = Refutation(inputs)
    numbers: Dict[str, int] = {}
    for inference in inferences:
        numbers[inference.name] = input_step(made, inference) if not inference.parents else derived_step(made, inference, numbers)
        done()
    last = numbers[inferences[-1].name]
    if made.clauses[last].literals:
        raise RefutationError("the last clause isn't empty")
    return made.used(last)


def input_step(made: Refutation, inference: Inference) -> int:
    """The step for a clause that the prover begins with: one of the problem's, up to names and order."""
    for number in range(len(made.inputs)):
        found = Replay(made, [made.add({"input": number})], inference.clause).run(0)
        if found is not None:
            return found
    raise RefutationError(f"{inference.name}, {inference.clause}, is no clause of the problem. A problem with fof entries is proved by "
                          f"python3 -m gaptd.fof; or leave it away here, so that the prover's clauses are the problem")


def derived_step(made: Refutation, inference: Inference, numbers: Dict[str, int]) -> int:
    unknown = [parent for parent in inference.parents if parent not in numbers]
    if unknown:
        raise RefutationError(f"{inference.name} has the parent {unknown[0]}, which doesn't come before it")
    parents = list(dict.fromkeys(numbers[parent] for parent in inference.parents))
    found = Replay(made, parents, inference.clause).run(len(inference.parents) + 2)
    if found is None:
        names = ", ".join(inference.parents)
        raise RefutationError(f"{inference.name}, {inference.clause}, by {inference.rule} from {names}, is not found by resolution: rules "
                              f"of equality and splitting can't be imported")
    return found


def problem_of(inferences: Sequence[Inference]) -> str:
    """The problem that consists of the prover's input clauses."""
    given = [inference for inference in inferences if not inference.parents]
    return "".join(f"cnf({formulas.name_text('c' + inference.name)},axiom,{inference.clause}).\n" for inference in given)


def jobs(proof: str, problem: Optional[str], problem_name: str = "clauses", name: str = "refutation") -> List[Dict[str, Any]]:
    """The jobs for a prover's text: its problem, if need be made of the prover's own clauses, and the refutation."""
    inferences = read_inferences(proof)
    text = problem if problem is not None else problem_of(inferences)
    with Progress(len(inferences)) as progress:
        steps = refutation(inferences, tptp.clauses_of(text), progress.step)
    return [{"job": problem_name, "op": "problem", "text": text},
            {"job": name, "op": "resolution", "problem": problem_name, "steps": steps}]


def main() -> int:
    parser = argparse.ArgumentParser(prog="python3 -m gaptd.tstp", description="A prover's refutation as jobs of gaptd.")
    parser.add_argument("proof", type=Path, help="what E or SPASS wrote")
    parser.add_argument("--problem", type=Path, help="the problem, a file in TPTP or DIMACS; without it the prover's own clauses")
    words = parser.parse_args()
    problem = tptp.problem_text(words.problem) if words.problem else None
    try:
        made = jobs(read_text(words.proof), problem)
    except (RefutationError, formulas.TextError) as error:
        raise RefutationError(f"{file_name(words.proof)}: {error}") from error
    for job in made:
        print(json.dumps(job, separators=(",", ":")))
    return 0


if __name__ == "__main__":
    sys.exit(guarded(main))
