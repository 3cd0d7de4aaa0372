"""Formulas without needless parts, with proofs that they are equivalent to what they were.

A part that is `$true` or `$false`, a part that stands twice in a conjunction or a disjunction, a double negation and a quantifier whose
variable doesn't occur go, from the inside out.
"""
from __future__ import annotations

from dataclasses import dataclass
from typing import Dict, List, Optional, Set, Tuple, Type

from . import formulas
from .formulas import All, And, Falsity, Formula, Imp, Not, Or, Truth, Var
from .proofs import Proof, allL, allR, ax, botL, cut, exL, exR, infer, topR, weak
from .readable import fresh
from .rules import RULES, Sequent, auxiliary

# The rule that takes a formula apart, by its side and its connective.
RULE_OF: Dict[Tuple[str, Type], str] = {
    (form.sides[0], form.connective): rule for rule, form in RULES.items()
    if len(form.sides) == 1 and form.connective in (Not, And, Or, Imp)
}


@dataclass(frozen=True)
class Equivalence:
    """Two formulas with a proof of each from the other."""

    first: Formula
    second: Formula
    there: Proof
    back: Proof

    def then(self, other: "Equivalence") -> "Equivalence":
        """What comes of two equivalences, by cuts on the formula in the middle."""
        if self.first == self.second:
            return other
        if other.first == other.second:
            return self
        middle = formulas.formula_text(self.second)
        return Equivalence(self.first, other.second, cut(self.there, other.there, middle), cut(other.back, self.back, middle))


def same(whole: Formula) -> Equivalence:
    proof = ax(formulas.formula_text(whole))
    return Equivalence(whole, whole, proof, proof)


def simplified(whole: Formula) -> Equivalence:
    """A formula with its simpler form."""
    return Simplifier(whole).simplified(whole)


class Simplifier:
    """Simplifies one formula; `taken` has its free variables and all eigenvariables so far."""

    def __init__(self, whole: Formula) -> None:
        self.taken: Set[str] = set(formulas.free_variables(whole))

    def simplified(self, whole: Formula) -> Equivalence:
        inside = self.with_parts_simplified(whole)
        result = reduced(inside.second)
        if result is None:
            return inside
        if isinstance(inside.second, formulas.Quantified):
            return inside.then(self.without_quantifier(inside.second, result))
        return inside.then(Equivalence(inside.second, result, between(inside.second, result), between(result, inside.second)))

    def with_parts_simplified(self, whole: Formula) -> Equivalence:
        if isinstance(whole, formulas.Quantified):
            return self.under_quantifier(whole)
        if isinstance(whole, Not):
            return congruent(whole, self.simplified(whole.part))
        if isinstance(whole, formulas.Binary):
            return congruent(whole, self.simplified(whole.left), self.simplified(whole.right))
        return same(whole)

    def variable(self) -> str:
        name, = fresh(1, self.taken)
        self.taken.add(name)
        return name

    def under_quantifier(self, whole: Formula) -> Equivalence:
        assert isinstance(whole, formulas.Quantified)
        name = self.variable()
        part = self.simplified(formulas.instance(whole, Var(name)))
        if part.first == part.second:
            return same(whole)
        result = formulas.binding(type(whole), name, part.second)
        return Equivalence(whole, result, under_both(part.there, name, whole, result), under_both(part.back, name, result, whole))

    def without_quantifier(self, whole: Formula, result: Formula) -> Equivalence:
        """A quantified formula whose variable doesn't occur, and its body."""
        name, body, text = self.variable(), ax(formulas.formula_text(result)), formulas.formula_text(whole)
        if isinstance(whole, All):
            return Equivalence(whole, result, allL(body, name, text), allR(body, name, text))
        return Equivalence(whole, result, exL(body, name, text), exR(body, name, text))


def under_both(proof: Proof, name: str, first: Formula, second: Formula) -> Proof:
    """A proof of a quantified formula from another one, over that of their instances by a variable."""
    left, right = formulas.formula_text(first), formulas.formula_text(second)
    if isinstance(first, All):
        return allR(allL(proof, name, left), name, right)
    return exL(exR(proof, name, right), name, left)


def congruent(whole: Formula, *parts: Equivalence) -> Equivalence:
    """A formula made by a connective, and the one with the simpler forms of its parts."""
    result = type(whole)(*(part.second for part in parts))
    if result == whole:
        return same(whole)
    return Equivalence(whole, result, congruence(whole, result, [part.there for part in parts], [part.back for part in parts]),
                       congruence(result, whole, [part.back for part in parts], [part.there for part in parts]))


def congruence(first: Formula, second: Formula, there: List[Proof], back: List[Proof]) -> Proof:
    """A proof of the second formula from the first, whose parts are proved from each other."""
    left, right = formulas.formula_text(first), formulas.formula_text(second)
    if isinstance(first, Not):
        return infer("negR", [infer("negL", [back[0]], left)], right)
    if isinstance(first, And):
        return infer("andL", [infer("andR", there, right)], left)
    if isinstance(first, Or):
        return infer("orR", [infer("orL", there, left)], right)
    return infer("impR", [infer("impL", [back[0], there[1]], left)], right)


def reduced(whole: Formula) -> Optional[Formula]:
    """The simpler form of a formula whose parts are as simple as can be, or None."""
    if isinstance(whole, formulas.Quantified):
        probe = formulas.instance(whole, Var("X")), formulas.instance(whole, Var("Y"))
        return probe[0] if probe[0] == probe[1] else None
    if isinstance(whole, Not):
        return reduced_negation(whole.part)
    if isinstance(whole, And):
        return reduced_chain(whole, Truth(), Falsity())
    if isinstance(whole, Or):
        return reduced_chain(whole, Falsity(), Truth())
    return reduced_implication(whole) if isinstance(whole, Imp) else None


def reduced_negation(part: Formula) -> Optional[Formula]:
    if isinstance(part, Not):
        return part.part
    return {Truth(): Falsity(), Falsity(): Truth()}.get(part)


def reduced_chain(whole: Formula, neutral: Formula, absorbing: Formula) -> Optional[Formula]:
    """A conjunction or disjunction; the neutral formula changes nothing as a part, the absorbing one all."""
    assert isinstance(whole, (And, Or))
    if absorbing in (whole.left, whole.right):
        return absorbing
    if whole.left == neutral or is_member(whole.left, whole.right, type(whole)):
        return whole.right
    return whole.left if whole.right == neutral or is_member(whole.right, whole.left, type(whole)) else None


def is_member(one: Formula, chain: Formula, connective: Type) -> bool:
    return one == chain or isinstance(chain, connective) and one in formulas.members(chain)


def reduced_implication(whole: Imp) -> Optional[Formula]:
    if whole.left == Truth():
        return whole.right
    if whole.left == Falsity() or whole.right == Truth() or whole.left == whole.right:
        return Truth()
    return Not(whole.left) if whole.right == Falsity() else None


def between(first: Formula, second: Formula) -> Proof:
    """A proof of the second formula from the first, which needs no rule of quantifiers."""
    return searched(Sequent.of([formulas.formula_text(first)], [formulas.formula_text(second)]))


def searched(end: Sequent) -> Proof:
    """A proof of a sequent by rules of connectives, which are used no further than is needed."""
    both = formulas.rising(end.left & end.right)
    if both:
        return weak(ax(both[0]), end.left, end.right)
    if "$true" in end.right or "$false" in end.left:
        return weak(topR() if "$true" in end.right else botL(), end.left, end.right)
    rule, main = next((RULE_OF[side, type(formulas.formula(text))], text) for side in ("left", "right")
                      for text in formulas.rising(getattr(end, side)) if (side, type(formulas.formula(text))) in RULE_OF)
    rest = Sequent(end.left - {main}, end.right) if RULES[rule].sides == ("left",) else Sequent(end.left, end.right - {main})
    premises = tuple(searched(rest | aux) for aux in auxiliary(rule, main))
    return Proof(rule, end, premises, main)
