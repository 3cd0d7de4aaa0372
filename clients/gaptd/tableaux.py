"""A search by free-variable tableaux, in the form of leanTAP (Beckert and Posegga 1995), on formulas as they are.

It is at its best where equivalences stand within each other, of which too many clauses come. A branch is a list of places still to be taken
apart and of literals. Each weak quantifier may be instantiated again and again, on each branch up to a number of instances that rises from
round to round. A branch that was closed without a binding of older variables isn't closed in another way.
"""
from __future__ import annotations

from typing import Callable, Dict, Iterator, List, Optional, Tuple

from .bindings import Bindings, Part, Tick
from .formulas import App, Atom, Falsity, Term, Truth, Var
from .matrix import Found, Matrix, Occurrence

Images = Dict[str, int]  # the variable of the search for each weak quantifier around a place
Item = Tuple[Occurrence, Images]
Items = Tuple[Item, ...]
Then = Callable[[], bool]


class Tableau(Bindings):
    """One search over the occurrences of a sequent."""

    def __init__(self, matrix: Matrix, tick: Tick) -> None:
        super().__init__()
        self.roots, self.tick = [(root, {}) for root in matrix.roots], tick
        self.uses: List[Item] = []
        self.tries = 0

    def run(self, most: int) -> bool:
        """Whether there is a proof with at most `most` instances on a branch; `is_cut` says afterwards whether more were left out."""
        self.most, self.is_cut = most, False
        self.bindings.clear()
        # While a search gives a branch up that was closed in the only way that counts: the disjunction to which it goes back.
        self.back_to: Optional[object] = None
        return self.expand(tuple(self.roots), (), 0, lambda: True)

    def expand(self, items: Items, literals: Items, count: int, then: Then) -> bool:
        """Whether the branch can be closed, and then all the rest."""
        while items:
            (place, images), items = items[0], items[1:]
            if not place.parts:
                return self.literal((place, images), items, literals, count, then)
            if place.is_disjunction:
                return self.branch((place, images), items, literals, count, then)
            if not place.variable:
                items = (*((part, images) for part in place.parts), *items)
            elif count == self.most:
                self.is_cut = True
            else:
                self.bindings.append(None)
                count += 1
                again = (place, images)
                items = ((place.parts[0], {**images, place.variable: len(self.bindings) - 1}), *items, again)
        return False

    def branch(self, item: Item, items: Items, literals: Items, count: int, then: Then) -> bool:
        """Closes the branches of both parts of a disjunction."""
        place, images = item
        first, second = ((part, images) for part in place.parts)
        mark, older = len(self.trail), len(self.bindings)

        def closed() -> bool:
            is_settled = all(variable >= older for variable in self.trail[mark:])
            if self.expand((second, *items), literals, count, then):
                return True
            if is_settled and self.back_to is None:
                self.back_to = mine
            return False

        mine = object()
        if self.expand((first, *items), literals, count, closed):
            return True
        if self.back_to is mine:
            self.back_to = None
        return False

    def literal(self, item: Item, items: Items, literals: Items, count: int, then: Then) -> bool:
        """Closes the branch by a literal and one before it, or goes on."""
        self.tries += 1
        if self.tries % 1_000 == 0:
            self.tick(self.tries)
        place, images = item
        if not isinstance(place.formula, Atom):
            if isinstance(place.formula, Falsity if place.is_left else Truth):
                return self.close([item], then)
            return self.expand(items, literals, count, then)
        mark, older = len(self.trail), len(self.bindings)
        atom = self.atom(item)
        for other in literals:
            if other[0].is_left != place.is_left and self.unify(atom, self.atom(other)):
                if self.close([item, other], then):
                    return True
                if len(self.trail) == mark or self.back_to is not None:
                    self.undo(mark)
                    del self.bindings[older:]
                    return False
            self.undo(mark)
            del self.bindings[older:]
        return self.expand(items, (*literals, item), count, then)

    def close(self, used: List[Item], then: Then) -> bool:
        self.uses.extend(used)
        if then():
            return True
        del self.uses[-len(used):]
        return False

    def atom(self, item: Item) -> Part:
        """The atom of a place as a term of the search."""
        place, images = item

        def part(given: Term) -> Part:
            if isinstance(given, Var):
                return images[given.name]
            assert isinstance(given, App)
            return ((given.name, len(given.args)), *map(part, given.args))

        whole = place.formula
        assert isinstance(whole, Atom)
        return ((whole.name, len(whole.args)), *map(part, whole.args))

    def used(self) -> Iterator[Found]:
        """The literals that closed the branches of the proof that was found, with terms for the variables around them."""
        for place, images in self.uses:
            yield (place,), {name: self.final(variable) for name, variable in images.items()}
