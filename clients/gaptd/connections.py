"""A search for connections, in the form of leanCoP (Otten and Bibel 2003): a clause's literals are closed one after the other, each by a
literal on the path to it or by a further clause with a complementary one. Paths get longer round by round.

A literal that was closed without a binding of older variables isn't tried in another way, and one that was closed already under the same
path isn't closed again. What is found is the list of the clauses that were used, each with the terms for its variables.
"""
from __future__ import annotations

from typing import Callable, Dict, Iterator, List, NamedTuple, Sequence, Tuple

from .bindings import Bindings, Part, Signed, Tick, shifted
from .clauses import Clause
from .formulas import App, Term, Var

Literals = Tuple[Signed, ...]
Then = Callable[[], bool]
Use = Tuple[int, Dict[str, Term]]  # the number of a clause, and terms for its variables


class Template(NamedTuple):
    """A clause with its variables numbered from 0."""

    number: int
    literals: Literals
    names: Tuple[str, ...]


def template(number: int, clause: Clause) -> Template:
    names = clause.variables()
    places = {name: place for place, name in enumerate(names)}

    def part(given: Term) -> Part:
        if isinstance(given, App):
            return ((given.name, len(given.args)), *map(part, given.args))
        assert isinstance(given, Var)
        return places[given.name]

    literals = tuple((sign, ((atom.name, len(atom.args)), *map(part, atom.args))) for sign, atom in clause.ordered())
    return Template(number, literals, tuple(names))


class Connections(Bindings):
    """One search over clauses; `goals` are the numbers of those from which it does best begin."""

    def __init__(self, clauses: Sequence[Clause], goals: Sequence[int], tick: Tick) -> None:
        super().__init__()
        given = [template(number, clause) for number, clause in enumerate(clauses)]
        self.templates = without_pure([one for one in given if not is_tautology(one)])
        self.goals, self.tick = set(goals), tick
        self.entries: Dict[Tuple[bool, tuple], List[Tuple[Template, int]]] = {}
        for one in sorted(self.templates, key=lambda one: len(one.literals)):
            for place, (sign, atom) in enumerate(one.literals):
                self.entries.setdefault((sign, atom[0]), []).append((one, place))
        self.uses: List[Tuple[Template, int]] = []
        self.tries = 0

    # Proofs. Each call closes something and then goes on with `then`, which says whether all the rest could be closed too.

    def run(self, most: int) -> bool:
        """Whether there is a proof with paths of at most `most` literals; `is_cut` says afterwards whether longer ones were left out."""
        self.most, self.is_cut = most, False
        self.bindings.clear()
        for start in self.starts():
            literals = self.use(start, -1)
            if self.close_all(literals, 0, (), (), lambda: True):
                return True
            self.uses.pop()
        return False

    def starts(self) -> List[Template]:
        """The clauses that a proof may begin with: those of the goal, then all without positive literals, of which each proof has one."""
        goals = [one for one in self.templates if one.number in self.goals]
        return goals + [one for one in self.templates if one.number not in self.goals and not any(sign for sign, _ in one.literals)]

    def use(self, one: Template, without: int) -> Literals:
        """The literals of a clause, but for one, with variables of their own."""
        base = len(self.bindings)
        self.bindings.extend([None] * len(one.names))
        self.uses.append((one, base))
        return tuple((sign, shifted(atom, base)) for place, (sign, atom) in enumerate(one.literals) if place != without)

    def close_all(self, literals: Literals, place: int, path: Literals, lemmas: Literals, then: Then) -> bool:
        if place == len(literals):
            return then()
        literal = literals[place]
        return self.close(literal, path, lemmas, lambda: self.close_all(literals, place + 1, path, (*lemmas, literal), then))

    def close(self, literal: Signed, path: Literals, lemmas: Literals, then: Then) -> bool:
        self.tries += 1
        if self.tries % 1_000 == 0:
            self.tick(self.tries)
        if self.is_among(literal, path):
            return False
        if self.is_among(literal, lemmas):
            return then()
        mark, older, is_settled = len(self.trail), len(self.bindings), False

        def closed() -> bool:
            nonlocal is_settled
            is_settled = all(variable >= older for variable in self.trail[mark:])
            return then()

        for way in self.ways(literal, path, lemmas, closed):
            if way():
                return True
            self.undo(mark)
            del self.bindings[older:]
            if is_settled:
                return False
        return False

    def is_among(self, literal: Signed, some: Literals) -> bool:
        sign, atom = literal
        return any(other == sign and one[0] == atom[0] and self.same(atom, one) for other, one in some)

    def ways(self, literal: Signed, path: Literals, lemmas: Literals, then: Then) -> Iterator[Then]:
        """The ways to close a literal: by complementary ones on its path, and by the clauses that have such a one."""
        sign, atom = literal
        for other, one in reversed(path):
            if other != sign and one[0] == atom[0]:
                yield lambda: self.unify(atom, one) and then()
        for entry, place in self.entries.get((not sign, atom[0]), ()):
            if entry.names and len(path) >= self.most:
                self.is_cut = True
            else:
                yield lambda: self.extend(literal, entry, place, path, lemmas, then)

    def extend(self, literal: Signed, one: Template, place: int, path: Literals, lemmas: Literals, then: Then) -> bool:
        """Closes a literal by a clause, whose other literals are closed with this one on their path."""
        base, count = len(self.bindings), len(self.uses)
        rest = self.use(one, place)
        if self.unify(literal[1], shifted(one.literals[place][1], base)) and self.close_all(rest, 0, (*path, literal), lemmas, then):
            return True
        del self.uses[count:]
        return False

    def used(self) -> Iterator[Use]:
        """The clauses of the proof that was found, with terms for those variables that have one."""
        for one, base in self.uses:
            yield one.number, {name: self.final(base + place) for place, name in enumerate(one.names)}


def is_tautology(one: Template) -> bool:
    return any((not sign, atom) in one.literals for sign, atom in one.literals)


def without_pure(some: List[Template]) -> List[Template]:
    """The clauses each literal of which has a symbol that occurs with the other sign too; no proof needs another one."""
    while True:
        there = {(sign, atom[0]) for one in some for sign, atom in one.literals}
        kept = [one for one in some if all((not sign, atom[0]) in there for sign, atom in one.literals)]
        if len(kept) == len(some):
            return kept
        some = kept
