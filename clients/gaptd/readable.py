"""Formulas and sequents as a person writes them: quantifiers in blocks, X, Y, Z for bound variables, <=> for two implications.

The texts are TPTP's all the same, and read back they are the same formulas.
"""
from __future__ import annotations

import itertools
from typing import Iterable, Iterator, List, Sequence, Set

from . import formulas
from .formulas import All, And, Atom, Falsity, Formula, Imp, Not, Truth


def plain_names(taken: Iterable[str] = ()) -> Iterator[str]:
    """Names of variables as people take them, but for some: X, Y, Z, U, V, W, and then with numbers."""
    without = set(taken)
    for number in itertools.count():
        for letter in "XYZUVW":
            name = f"{letter}{number}" if number else letter
            if name not in without and not formulas.NUMBERED.match(name):
                yield name


class Writer:
    """Writes one formula. Each quantifier's variable has a name that is neither free in it nor that of a quantifier around."""

    def __init__(self, whole: Formula) -> None:
        self.names = plain_names(formulas.free_variables(whole))
        self.given: List[str] = []

    def around(self, depth: int) -> List[str]:
        while len(self.given) < depth:
            self.given.append(next(self.names))
        return self.given[:depth]

    def text(self, part: Formula, depth: int = 0) -> str:
        if isinstance(part, Atom):
            return self.atom(part, " = ", depth)
        if isinstance(part, (Truth, Falsity)):
            return formulas.formula_text(part)
        if isinstance(part, Not):
            is_equation = isinstance(part.part, Atom) and formulas.is_equation(part.part)
            return self.atom(part.part, " != ", depth) if is_equation else "~" + self.unit(part.part, depth)
        if isinstance(part, formulas.Quantified):
            return self.block(part, depth)
        if is_equivalence(part):
            return f"{self.unit(part.left.left, depth)} <=> {self.unit(part.left.right, depth)}"
        if isinstance(part, Imp):
            return f"{self.unit(part.left, depth)} => {self.unit(part.right, depth)}"
        sign = " & " if isinstance(part, And) else " | "
        return sign.join(self.unit(member, depth) for member in chain(part))

    def block(self, part: Formula, depth: int) -> str:
        """A quantified formula, with the quantifiers of one kind that follow each other in one block."""
        kind, begin = type(part), depth
        while isinstance(part, kind):
            assert isinstance(part, formulas.Quantified)
            part, depth = part.body, depth + 1
        sign = "!" if kind is All else "?"
        return f"{sign}[{','.join(self.around(depth)[begin:])}]: {self.unit(part, depth)}"

    def atom(self, part: Formula, sign: str, depth: int) -> str:
        assert isinstance(part, Atom)
        args = [formulas.term_text(arg, self.around(depth)) for arg in part.args]
        return sign.join(args) if formulas.is_equation(part) else formulas.applied(part.name, args)

    def unit(self, part: Formula, depth: int) -> str:
        text = self.text(part, depth)
        return f"({text})" if isinstance(part, formulas.Binary) else text


def is_equivalence(part: Formula) -> bool:
    """Whether a formula is what an equivalence stands for."""
    return (isinstance(part, And) and isinstance(part.left, Imp) and isinstance(part.right, Imp)
            and (part.left.left, part.left.right) == (part.right.right, part.right.left))


def chain(part: Formula) -> List[Formula]:
    """The members of a chain of conjunctions or disjunctions; one that is written as an equivalence is a member."""
    found: List[Formula] = []
    kind = type(part)
    while isinstance(part, kind) and not (found and is_equivalence(part)):
        assert isinstance(part, formulas.Binary)
        found.append(part.right)
        part = part.left
    return [part, *found[::-1]]


def formula(text: str) -> str:
    """The readable text of the formula that a text is."""
    whole = formulas.formula(text)
    return Writer(whole).text(whole)


def sequent(left: Sequence[str], right: Sequence[str]) -> str:
    """A sequent on one line."""
    return f"{', '.join(map(formula, left))} |- {', '.join(map(formula, right))}".strip()


def fresh(count: int, taken: Set[str]) -> List[str]:
    """So many names of variables that aren't taken."""
    return list(itertools.islice(plain_names(taken), count))
