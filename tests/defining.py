#!/usr/bin/env python3
"""Turns jobs `lk` into proofs over defined symbols: each formula with a connective or a quantifier gives way to an atom that stands for it.

    python3 tests/defining.py FILE

prints, for the jobs `lk` of a file that use no definitions, jobs `define` and the jobs `lk` that use them, by the same names. A symbol is defined
by one connective or quantifier over symbols defined before, so that bodies are as deep as the formulas. Where a rule takes a formula apart, it
takes what the atom stands for, with `defL` or `defR` below it. `unfold` gives back the end sequent, and as many cuts and quantifier rules.
"""
from __future__ import annotations

import functools
import itertools
import json
import re
import sys
from pathlib import Path
from typing import Any, Dict, Iterable, Iterator, List, Sequence, Tuple

sys.path.insert(0, str(Path(__file__).resolve().parents[1] / "clients"))

from gaptd import formulas
from gaptd.client import encoded
from gaptd.files import read_bytes
from gaptd.formulas import App, Atom, Bound, Falsity, Formula, Not, Quantified, Term, Truth, Var
from gaptd.rules import RULES, RuleForm
from judging import guarded, jobs_of

Job = Dict[str, Any]
Step = Dict[str, Any]
UNDEFINED = (Atom, Truth, Falsity)
SIDES = ("left", "right")
DEFINING = {"left": "defL", "right": "defR"}
EQUALITY = "'='"
NAME = re.compile(r"'(?:[^'\\]|\\.)*'|(?<![\w$])[a-z]\w*")


def shape_of(whole: Formula) -> Tuple[Formula, List[Term]]:
    """The formula with a variable A1, A2 and so on in place of each largest term without bound variables, and these terms. Each place has a
    variable of its own, so that the image of a formula has the shape of the formula, and the images of its terms."""
    found: List[Term] = []

    def put(part: Term, _: int) -> Term:
        if isinstance(part, Bound) or has_bound(part):
            return App(part.name, tuple(put(arg, 0) for arg in part.args)) if isinstance(part, App) else part
        found.append(part)
        return Var(f"A{len(found)}")

    return formulas.map_terms(put, whole), found


def has_bound(part: Term) -> bool:
    return any(isinstance(one, Bound) for one in formulas.subterms(part))


class Definitions:
    """Defined symbols for the shapes of formulas, made where one is asked for the first time. `taken` has names that they don't get."""

    def __init__(self, taken: Iterable[str]) -> None:
        without = set(taken)
        self.names = (name for name in map("d{}".format, itertools.count(1)) if name not in without)
        self.symbols: Dict[Formula, str] = {}
        self.jobs: Dict[str, Job] = {}
        self.known: Dict[str, Formula] = {}

    def atom(self, whole: Formula) -> Formula:
        """What stands for a formula: an atom, or the formula itself where it has neither connective nor quantifier."""
        if isinstance(whole, UNDEFINED):
            return whole
        shape, arguments = shape_of(whole)
        if shape not in self.symbols:
            self.define(shape, len(arguments))
        return Atom(self.symbols[shape], tuple(arguments))

    def atom_for(self, text: str) -> Formula:
        """The same for the text of a formula."""
        if text not in self.known:
            self.known[text] = self.atom(formulas.formula(text))
        return self.known[text]

    def unfolding(self, whole: Formula) -> Formula:
        """What the atom of a formula unfolds to: its connective or quantifier over what stands for its parts."""
        if isinstance(whole, Not):
            return Not(self.atom(whole.part))
        if isinstance(whole, formulas.Binary):
            return type(whole)(self.atom(whole.left), self.atom(whole.right))
        assert isinstance(whole, Quantified)
        free = formulas.free_variables(whole)
        name = next(name for name in map("Z{}".format, itertools.count()) if name not in free)
        return formulas.binding(type(whole), name, self.atom(formulas.instance(whole, Var(name))))

    def define(self, shape: Formula, arity: int) -> None:
        body = self.unfolding(shape)
        symbol = self.symbols[shape] = next(self.names)
        self.jobs[symbol] = {"job": symbol, "op": "define", "symbol": symbol, "vars": [f"A{place}" for place in range(1, arity + 1)],
                             "body": formulas.formula_text(body), "using": self.used_in([body])}

    def used_in(self, given: Iterable[Formula]) -> List[str]:
        """The names of the definitions of symbols in formulas, in the order in which they were made."""
        found = {atom.name for whole in given for atom in formulas.atoms_of(whole)}
        return [symbol for symbol in self.jobs if symbol in found]


class Converter:
    """Converts the steps of one job."""

    def __init__(self, definitions: Definitions) -> None:
        self.definitions = definitions
        self.steps: List[Step] = []
        self.atoms: Dict[str, str] = {}
        self.met: Dict[str, Formula] = {}

    def text(self, whole: Formula) -> str:
        text = formulas.formula_text(whole)
        self.met[text] = whole
        return text

    def atom(self, text: str) -> str:
        if text not in self.atoms:
            self.atoms[text] = self.text(self.definitions.atom_for(text))
        return self.atoms[text]

    def add(self, **step: Any) -> int:
        self.steps.append(step)
        return len(self.steps) - 1

    def convert(self, given: Sequence[Step]) -> None:
        places: List[int] = []
        for step in given:
            form, premises = RULES[step["rule"]], [places[premise] for premise in step["premises"]]
            places.append((self.plain if self.is_plain(form) else self.logical)(step, form, premises))

    @staticmethod
    def is_plain(form: RuleForm) -> bool:
        """Whether the rule takes no formula apart."""
        return form.connective in (None, Truth, Falsity)

    def ends(self, step: Step) -> Dict[str, List[str]]:
        return {side: [self.atom(text) for text in step[side]] for side in SIDES}

    def plain(self, step: Step, form: RuleForm, premises: List[int]) -> int:
        main = {"main": self.atom(step["main"])} if form.names_main else {}
        return self.add(rule=step["rule"], **main, premises=premises, **self.ends(step))

    def logical(self, step: Step, form: RuleForm, premises: List[int]) -> int:
        """The rule on what the atom of the main formula unfolds to, and the atom below it."""
        main = formulas.formula(step["main"])
        side, whole, below = form.sides[0], self.text(self.definitions.unfolding(main)), self.ends(step)
        atom = self.atom(step["main"])
        is_kept = any(atom in self.steps[premise][side] for premise in premises)
        above = {**below, side: [text for text in below[side] if text != atom or is_kept] + [whole]}
        by = {form.field: step[form.field]} if form.field else {}
        return self.add(rule=DEFINING[side], main=atom, premises=[self.add(rule=step["rule"], main=whole, **by, premises=premises, **above)],
                        **below)


def copied(jobs: Sequence[Job], number: int) -> List[Job]:
    """Jobs `define` and `lk` with the number behind each name, so that two copies have no symbol in common but equality."""
    return [copy_of(job, number) for job in jobs]


def copy_of(value: Any, number: int, field: str = "") -> Any:
    if isinstance(value, str):
        return value if field in ("op", "rule") else renamed(value, number)
    if isinstance(value, list):
        return [copy_of(one, number) for one in value]
    return {field: copy_of(one, number, field) for field, one in value.items()} if isinstance(value, dict) else value


@functools.lru_cache(maxsize=1 << 16)
def renamed(text: str, number: int) -> str:
    def with_number(name: str) -> str:
        return name if name == EQUALITY else f"{name[:-1]}_{number}'" if name.startswith("'") else f"{name}_{number}"

    return NAME.sub(lambda found: with_number(found.group()), text)


def texts_in(job: Job) -> Iterator[str]:
    for step in job["steps"]:
        yield from step["left"] + step["right"] + ([step["main"]] if RULES[step["rule"]].names_main else [])


def converted(jobs: Sequence[Job]) -> List[Job]:
    """Jobs `lk` without definitions, over defined symbols, each behind the definitions that it is the first to need."""
    symbols = {name for job in jobs for text in texts_in(job) for name in formulas.symbols_of(formulas.formula(text))}
    definitions = Definitions(symbols | {job["job"] for job in jobs})
    result: Dict[str, Job] = {}
    for job in jobs:
        converter = Converter(definitions)
        converter.convert(job["steps"])
        result.update((name, made) for name, made in definitions.jobs.items() if name not in result)
        result[job["job"]] = {"job": job["job"], "op": "lk", "using": definitions.used_in(converter.met.values()), "steps": converter.steps}
    return list(result.values())


def about_x(job: Job) -> Job:
    """The same proof where each atom without arguments is one about a variable X."""
    def text(given: str) -> str:
        return formulas.formula_text(with_x(formulas.formula(given)))

    def changed(step: Step) -> Step:
        return {key: text(value) if key == "main" else [text(one) for one in value] if key in SIDES else value for key, value in step.items()}

    return {**job, "steps": [changed(step) for step in job["steps"]]}


def with_x(whole: Formula) -> Formula:
    if isinstance(whole, Atom):
        return whole if whole.args else Atom(whole.name, (Var("X"),))
    if isinstance(whole, Not):
        return Not(with_x(whole.part))
    if isinstance(whole, formulas.Binary):
        return type(whole)(with_x(whole.left), with_x(whole.right))
    return type(whole)(with_x(whole.body)) if isinstance(whole, Quantified) else whole


def proofs_in(path: Path) -> List[Job]:
    """The jobs `lk` of a file that use no definitions."""
    return [job for job in map(json.loads, jobs_of(read_bytes(path))) if job["op"] == "lk" and "using" not in job]


def main() -> int:
    if len(sys.argv) != 2 or sys.argv[1].startswith("--"):
        print(__doc__)
        return 2
    for job in converted(proofs_in(Path(sys.argv[1]))):
        print(encoded(job).decode())
    return 0


if __name__ == "__main__":
    sys.exit(guarded(main))
