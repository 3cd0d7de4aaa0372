"""Terms and formulas as data, with substitution and their order.

Bound variables have no names: `Bound(0)` is the variable of the nearest quantifier around it, so two formulas that differ in the
names of bound variables alone are equal.
"""
from __future__ import annotations

import re
import sys
from dataclasses import dataclass
from typing import Callable, Dict, Iterator, List, Mapping, Tuple, Union

# A chain of 1,000 members, which gaptd takes, nests 1,000 deep.
sys.setrecursionlimit(max(sys.getrecursionlimit(), 20_000))

NUMBERED = re.compile(r"V(0|[1-9][0-9]*)\Z")


@dataclass(frozen=True)
class Var:
    """A free variable."""

    name: str


@dataclass(frozen=True)
class Bound:
    """A bound variable: how many quantifiers stand between it and its own."""

    index: int


@dataclass(frozen=True)
class App:
    """A constant, or a function symbol with its arguments."""

    name: str
    args: Tuple["Term", ...] = ()


Term = Union[Var, Bound, App]


@dataclass(frozen=True)
class Atom:
    name: str
    args: Tuple[Term, ...] = ()


@dataclass(frozen=True)
class Truth:
    pass


@dataclass(frozen=True)
class Falsity:
    pass


@dataclass(frozen=True)
class Not:
    part: "Formula"


@dataclass(frozen=True)
class And:
    left: "Formula"
    right: "Formula"


@dataclass(frozen=True)
class Or:
    left: "Formula"
    right: "Formula"


@dataclass(frozen=True)
class Imp:
    left: "Formula"
    right: "Formula"


@dataclass(frozen=True)
class All:
    body: "Formula"


@dataclass(frozen=True)
class Ex:
    body: "Formula"


Formula = Union[Atom, Truth, Falsity, Not, And, Or, Imp, All, Ex]
Binary = (And, Or, Imp)
Quantified = (All, Ex)

KIND_NAMES: Dict[type, str] = {
    Atom: "an atom", Truth: "truth", Falsity: "falsity", Not: "a negation", And: "a conjunction", Or: "a disjunction",
    Imp: "an implication", All: "a universal formula", Ex: "an existential formula",
}


def is_equation(part: Formula) -> bool:
    return isinstance(part, Atom) and part.name == "=" and len(part.args) == 2


def members(chain: Union[And, Or]) -> List[Formula]:
    """The members of a chain of conjunctions or disjunctions to the left."""
    found: List[Formula] = []
    part: Formula = chain
    while isinstance(part, type(chain)):
        found.append(part.right)
        part = part.left
    return [part] + found[::-1]


# Binding and substitution

def map_terms(change: Callable[[Term, int], Term], whole: Formula, depth: int = 0) -> Formula:
    """The formula with each argument of an atom changed; `change` is told how many quantifiers stand around it."""
    if isinstance(whole, Atom):
        return Atom(whole.name, tuple(change(arg, depth) for arg in whole.args))
    if isinstance(whole, Not):
        return Not(map_terms(change, whole.part, depth))
    if isinstance(whole, Binary):
        return type(whole)(map_terms(change, whole.left, depth), map_terms(change, whole.right, depth))
    if isinstance(whole, Quantified):
        return type(whole)(map_terms(change, whole.body, depth + 1))
    return whole


def closure(whole: Formula) -> Formula:
    """The formula with a universal quantifier for each free variable, the one that occurs first outermost."""
    for name in reversed(free_variables(whole)):
        whole = binding(All, name, whole)
    return whole


def binding(quantifier: Callable[[Formula], Formula], name: str, body: Formula) -> Formula:
    """The quantified formula whose instance by the variable is the body."""
    return quantifier(map_terms(lambda part, depth: bound(part, name, depth), body))


def bound(part: Term, name: str, index: int) -> Term:
    """The term with a bound variable in place of a free one."""
    if isinstance(part, Var):
        return Bound(index) if part.name == name else part
    return App(part.name, tuple(bound(arg, name, index) for arg in part.args)) if isinstance(part, App) else part


def instance(quantified: Union[All, Ex], by: Term) -> Formula:
    """The body of a quantified formula with a term for its variable."""

    def put(part: Term, depth: int) -> Term:
        if isinstance(part, Bound):
            return by if part.index == depth else part
        return App(part.name, tuple(put(arg, depth) for arg in part.args)) if isinstance(part, App) else part

    return map_terms(put, quantified.body)


def substitute_term(part: Term, images: Mapping[str, Term]) -> Term:
    """The term with all variables of the map replaced at once."""
    if isinstance(part, Var):
        return images.get(part.name, part)
    return App(part.name, tuple(substitute_term(arg, images) for arg in part.args)) if isinstance(part, App) else part


def substitute(whole: Formula, images: Mapping[str, Term]) -> Formula:
    """The formula with all free variables of the map replaced at once."""
    return map_terms(lambda part, _: substitute_term(part, images), whole)


def terms_of(whole: Formula) -> Iterator[Term]:
    """The arguments of the formula's atoms, from the left."""
    for atom in atoms_of(whole):
        yield from atom.args


def subterms(part: Term) -> Iterator[Term]:
    """The term and the terms in it."""
    yield part
    if isinstance(part, App):
        for arg in part.args:
            yield from subterms(arg)


def atoms_of(whole: Formula) -> Iterator[Atom]:
    """The atoms of a formula, from the left."""
    if isinstance(whole, Atom):
        yield whole
    elif isinstance(whole, Not):
        yield from atoms_of(whole.part)
    elif isinstance(whole, Binary):
        yield from atoms_of(whole.left)
        yield from atoms_of(whole.right)
    elif isinstance(whole, Quantified):
        yield from atoms_of(whole.body)


def symbols_of(whole: Formula) -> Iterator[str]:
    """The names of the predicates and of the functions of a formula."""
    for atom in atoms_of(whole):
        yield atom.name
        yield from (part.name for arg in atom.args for part in subterms(arg) if isinstance(part, App))


def term_variables(part: Term) -> List[str]:
    """The variables of a term, in the order of first occurrence."""
    if isinstance(part, Var):
        return [part.name]
    found: Dict[str, None] = {}
    for arg in part.args if isinstance(part, App) else ():
        found.update(dict.fromkeys(term_variables(arg)))
    return list(found)


def free_variables(whole: Formula) -> List[str]:
    """The free variables of a formula, in the order of first occurrence."""
    found: Dict[str, None] = {}
    for part in terms_of(whole):
        found.update(dict.fromkeys(term_variables(part)))
    return list(found)


# The order in which gaptd lists the formulas of a side

KINDS: Tuple[type, ...] = (Atom, Truth, Falsity, Not, And, Or, Imp, All, Ex)


# A key is one flat tuple, each symbol before its parts: a symbol says how many parts come, so such keys rise as nested ones would, and two
# of them are compared in time linear in their length.

def add_term_key(part: Term, key: List[object]) -> None:
    if isinstance(part, Var):
        number = NUMBERED.match(part.name)
        key += (0, 1, int(number.group(1))) if number else (0, 0, part.name)
    elif isinstance(part, Bound):
        key += (1, part.index)
    else:
        key += (2, part.name, len(part.args))
        for arg in part.args:
            add_term_key(arg, key)


def add_formula_key(whole: Formula, key: List[object]) -> None:
    key.append(KINDS.index(type(whole)))
    if isinstance(whole, Atom):
        key += (whole.name, len(whole.args))
        for arg in whole.args:
            add_term_key(arg, key)
    elif isinstance(whole, Not):
        add_formula_key(whole.part, key)
    elif isinstance(whole, Binary):
        add_formula_key(whole.left, key)
        add_formula_key(whole.right, key)
    elif isinstance(whole, Quantified):
        add_formula_key(whole.body, key)


def term_key(part: Term) -> tuple:
    """A key by which terms rise as gaptd's replies list them."""
    key: List[object] = []
    add_term_key(part, key)
    return tuple(key)


def formula_key(whole: Formula) -> tuple:
    """A key by which formulas rise as gaptd's replies list them."""
    key: List[object] = []
    add_formula_key(whole, key)
    return tuple(key)
