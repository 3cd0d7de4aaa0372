"""Terms, bindings and unification for searches: terms are tuples, variables are numbers, and what was bound can be undone."""
from __future__ import annotations

from typing import Callable, List, Optional, Tuple, Union

from .formulas import App, Term, Var

# A term of a search: the number of a variable, or a tuple of a symbol with its number of arguments, and the arguments.
Part = Union[int, tuple]
# A literal: whether it is positive, and its atom, a tuple as for terms.
Signed = Tuple[bool, tuple]
# Is told now and then how many literals were tried, and may end a search by an exception.
Tick = Callable[[int], None]


def shifted(part: Part, by: int) -> Part:
    """The term with all variables' numbers raised."""
    if isinstance(part, int):
        return part + by
    return part if len(part) == 1 else (part[0], *[shifted(arg, by) for arg in part[1:]])


class Bindings:
    """The variables of a search with what they are bound to, and the order in which they were bound."""

    def __init__(self) -> None:
        self.bindings: List[Optional[Part]] = []
        self.trail: List[int] = []

    def walk(self, part: Part) -> Part:
        while isinstance(part, int):
            bound = self.bindings[part]
            if bound is None:
                return part
            part = bound
        return part

    def unify(self, one: Part, two: Part) -> bool:
        """Binds variables so that both are equal, newer ones first. Where that isn't possible some may be bound all the same."""
        one, two = self.walk(one), self.walk(two)
        if one is two or one == two and isinstance(one, int):
            return True
        if isinstance(two, int) and (not isinstance(one, int) or one < two):
            one, two = two, one
        if isinstance(one, int):
            if self.occurs(one, two):
                return False
            self.bindings[one] = two
            self.trail.append(one)
            return True
        assert not isinstance(two, int)
        return one[0] == two[0] and all(map(self.unify, one[1:], two[1:]))

    def occurs(self, variable: int, part: Part) -> bool:
        part = self.walk(part)
        if isinstance(part, int):
            return part == variable
        return any(self.occurs(variable, arg) for arg in part[1:])

    def same(self, one: Part, two: Part) -> bool:
        one, two = self.walk(one), self.walk(two)
        if isinstance(one, int) or isinstance(two, int):
            return one == two
        return one is two or one[0] == two[0] and all(map(self.same, one[1:], two[1:]))

    def undo(self, mark: int) -> None:
        while len(self.trail) > mark:
            self.bindings[self.trail.pop()] = None

    def final(self, part: Part) -> Term:
        part = self.walk(part)
        if isinstance(part, int):
            return Var(f"free{part}")
        return App(part[0][0], tuple(map(self.final, part[1:])))
