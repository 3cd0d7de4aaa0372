"""Sequents with a function in place of each strong quantifier (Skolem), all weak quantifiers in front, and instances there and back.

`herbrand` and `cutintro` take proofs of such sequents alone. A proof without cuts is brought there by its instances: its expansion trees say
which terms each weak quantifier has, and for an eigenvariable the function of the terms around it is put. An instance of a prenex formula has
a term for each of its quantifiers, so instances of different parts are put together. The way back is that of `matrix`: a variable for each
Skolem term. Whether what comes out is an expansion proof, the program decides.
"""
from __future__ import annotations

import itertools
import math
from typing import Any, Dict, Iterator, List, Mapping, Sequence, Tuple

from . import formulas
from .expansions import Expansion
from .formulas import All, App, Ex, Formula, Not, Term, Var
from .matrix import KINDS, Branch, Matrix, Occurrence, Trees

Images = Dict[str, Term]


MOST = 20_000  # instances of a formula


class SkolemError(ValueError):
    """Trees that aren't those of the sequent, or too large ones."""


class Skolemized:
    """A sequent, given as its formulas, and the one without strong quantifiers. Free variables stay what they are."""

    def __init__(self, left: Sequence[str], right: Sequence[str]) -> None:
        self.matrix = Matrix([formulas.formula(text) for text in left], [formulas.formula(text) for text in right])
        self.named = {App(f"{self.matrix.prefix}free_{name}"): Var(name) for name in self.matrix.free}
        self.default = self.opened(self.matrix.default())
        self.prenex = [self.prenex_of(root) for root in self.matrix.roots]

    def side(self, is_left: bool) -> List[str]:
        """The formulas of a side without strong quantifiers."""
        return formulas.rising({formulas.formula_text(whole) for whole, root in zip(self.prenex, self.matrix.roots) if root.is_left == is_left})

    def opened(self, part: Term) -> Term:
        """A term with the free variables of the sequent in place of the constants that stand for them."""
        if part in self.named:
            return self.named[part]  # type: ignore[index]
        return App(part.name, tuple(map(self.opened, part.args))) if isinstance(part, App) else part

    def closed(self, part: Term) -> Term:
        """The other way round."""
        return formulas.substitute_term(part, {var.name: constant for constant, var in self.named.items()})

    def prenex_of(self, root: Occurrence) -> Formula:
        whole = without_quantifiers(root)
        for name in reversed(variables(root)):
            whole = formulas.binding(All if root.is_left else Ex, name, whole)
        return formulas.map_terms(lambda part, _: self.opened(part), whole)

    # There

    def there(self, expansion: Expansion) -> Expansion:
        """Expansion trees of the sequent without strong quantifiers, from trees of the sequent."""
        made, walk = Trees(self.matrix), Walk(expansion)
        tuples: Dict[Tuple[bool, Formula], List[Tuple[Term, ...]]] = {}
        for number, is_left, whole in roots_of(expansion):
            place, prenex = self.place_of(whole, is_left)
            tuples.setdefault((is_left, prenex), []).extend(self.tuples(place, number, walk))
        sides: Dict[bool, List[int]] = {True: [], False: []}
        for (is_left, prenex), some in tuples.items():  # (an eigenvariable of one tree may stand in another, so all are read before)
            ground = [tuple(walk.resolved(term, self) for term in terms) for terms in some]
            sides[is_left].append(self.tree(made, prenex, ground))
        return Expansion(made.nodes, sides[True], sides[False])

    def place_of(self, whole: Formula, is_left: bool) -> Tuple[Occurrence, Formula]:
        """The place of a formula of the sequent, and what it becomes. Two formulas may become the same one."""
        for place, prenex, given in zip(self.matrix.roots, self.prenex, self.matrix.whole):
            if (given, place.is_left) == (whole, is_left):
                return place, prenex
        raise SkolemError(f"{formulas.formula_text(whole)} is no formula of the sequent")

    def tuples(self, root: Occurrence, number: int, walk: "Walk") -> List[Tuple[Term, ...]]:
        """The terms for the quantifiers of a prenex formula, for each of its instances; none where the formula isn't used."""
        if walk.expansion.nodes[number]["kind"] == "wk":
            return []
        return [tuple(images.get(name, self.default) for name in variables(root)) for images in walk.instances(root, number, {})]

    def tree(self, made: Trees, whole: Formula, tuples: Sequence[Tuple[Term, ...]]) -> int:
        """The number of the node for a formula with instances by these terms for its quantifiers."""
        if not tuples:
            return made.put("wk", {"formula": formulas.formula_text(whole)})
        if not isinstance(whole, formulas.Quantified):
            return self.plain(made, whole)
        firsts: Dict[Term, List[Tuple[Term, ...]]] = {}
        for first, *rest in dict.fromkeys(tuples):
            firsts.setdefault(first, []).append(tuple(rest))
        instances = [{"term": formulas.term_text(term), "of": self.tree(made, formulas.instance(whole, term), rest)}
                     for term, rest in firsts.items()]
        return made.put("weak", {"formula": formulas.formula_text(whole), "instances": instances})

    def plain(self, made: Trees, whole: Formula) -> int:
        """The number of the node for a formula without quantifiers."""
        if isinstance(whole, Not):
            return made.put("not", {"of": self.plain(made, whole.part)})
        if isinstance(whole, formulas.Binary):
            return made.put(KINDS[type(whole)], {"of": [self.plain(made, whole.left), self.plain(made, whole.right)]})
        return made.put("leaf", {"formula": formulas.formula_text(whole)})

    # Back

    def back(self, expansion: Expansion) -> Expansion:
        """Expansion trees of the sequent, from trees of the one without strong quantifiers."""
        made = Trees(self.matrix)
        for number, is_left, node in roots_of(expansion):
            places = [place for place, prenex in zip(self.matrix.roots, self.prenex) if (prenex, place.is_left) == (node, is_left)]
            if not places:
                raise SkolemError(f"{formulas.formula_text(node)} is no formula of the sequent without strong quantifiers: "
                                  "was it made of a job with another sequent?")
            names = variables(places[0])
            for terms in chains(expansion, number, len(names)):
                made.add(leaves(places[0]), dict(zip(names, map(self.closed, terms))))
        for number in range(len(self.matrix.roots)):
            made.branches.setdefault(number, Branch())
        return made.expansion()


def roots_of(expansion: Expansion) -> Iterator[Tuple[int, bool, Formula]]:
    """The roots: the number of each, whether it stands on the left, and its formula."""
    wholes = expansion.formulas()
    for side in ("left", "right"):
        for number in getattr(expansion, side):
            yield number, side == "left", wholes[number]


def variables(place: Occurrence) -> List[str]:
    """The variables of weak quantifiers at a place and in its parts, from the outside and from the left."""
    own = [place.variable] if place.variable else []
    return own + [name for part in place.parts for name in variables(part)]


def leaves(place: Occurrence) -> List[Occurrence]:
    return [leaf for part in place.parts for leaf in leaves(part)] if place.parts else [place]


def without_quantifiers(place: Occurrence) -> Formula:
    """The formula at a place with the variables and Skolem terms of its quantifiers, and without these."""
    parts = [without_quantifiers(part) for part in place.parts]
    if not parts or isinstance(place.formula, formulas.Quantified):
        return parts[0] if parts else place.formula
    return type(place.formula)(*parts)


def chains(expansion: Expansion, number: int, count: int) -> Iterator[Tuple[Term, ...]]:
    """The terms of the first `count` quantifiers of a tree, for each of its instances."""
    node = expansion.nodes[number]
    if count == 0 and node["kind"] != "wk":
        yield ()
    elif node["kind"] == "weak":
        for instance in node["instances"]:
            for rest in chains(expansion, instance["of"], count - 1):
                yield (formulas.term(instance["term"]), *rest)


class Walk:
    """Reads the instances of trees. `strong` has for each eigenvariable its Skolem term, and the terms of the weak quantifiers around."""

    def __init__(self, expansion: Expansion) -> None:
        self.expansion = expansion
        self.strong: Dict[str, Tuple[Term, Images]] = {}

    def instances(self, place: Occurrence, number: int, around: Images) -> List[Images]:
        """The instances of the weak quantifiers at a place and in its parts, which say as much together as the tree does."""
        node: Mapping[str, Any] = self.expansion.nodes[number]
        if node["kind"] in ("leaf", "wk"):
            return [{}]
        if node["kind"] == "weak":
            found = [{place.variable: term, **inside} for term, above in self.of_weak(node)
                     for inside in self.instances(place.parts[0], above, {**around, place.variable: term})]
            return found or [{}]
        if node["kind"] == "strong":
            assert place.witness is not None
            self.strong[node["var"]] = place.witness, around
        parts = [self.instances(part, above, around) for part, (above, _) in zip(place.parts, self.expansion.children(node))]
        if place.is_disjunction and math.prod(map(len, parts)) > MOST:
            raise SkolemError(f"a formula with all quantifiers in front would have more than {MOST} instances")
        joined = itertools.product(*parts) if place.is_disjunction else itertools.zip_longest(*parts, fillvalue={})
        return [{name: term for part in some for name, term in part.items()} for some in joined]

    @staticmethod
    def of_weak(node: Mapping[str, Any]) -> Iterator[Tuple[Term, int]]:
        for instance in node["instances"]:
            yield formulas.term(instance["term"]), instance["of"]

    def resolved(self, part: Term, skolemized: Skolemized) -> Term:
        """A term with the Skolem terms of its eigenvariables."""
        if isinstance(part, App):
            return App(part.name, tuple(self.resolved(arg, skolemized) for arg in part.args))
        if isinstance(part, Var) and part.name in self.strong:
            witness, images = self.strong[part.name]
            return self.resolved(formulas.substitute_term(skolemized.opened(witness), images), skolemized)
        return part
