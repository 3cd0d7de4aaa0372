"""A sequent as clauses, and from their instances an expansion proof of the sequent itself.

Each place of a subformula is an occurrence. Weak quantifiers get variables, and a strong one a Skolem function of all weak variables around
it: so the Skolem terms of different places, or of one place under different instances, differ, and each stands for an eigenvariable.
A sequent is valid where its clauses have instances that are unsatisfiable together. Each literal of a clause is the place of an atom, and
its instance says by which terms the quantifiers around that place are instantiated: all these ways together are expansion trees.
Where clauses would multiply, the part of a disjunction gets a name, an atom of the variables around it, and clauses of its own.
"""
from __future__ import annotations

import json
from dataclasses import dataclass, field
from typing import Any, Dict, Iterable, List, Mapping, Optional, Sequence, Tuple

from . import formulas
from .clauses import Clause, Literal
from .expansions import Expansion
from .formulas import All, And, App, Atom, Falsity, Formula, Imp, Not, Or, Term, Truth, Var
from .readable import fresh

# A disjunction whose clauses are more than so many times as many as those of its parts together has a part named.
MOST_TIMES = 2
KINDS = {Not: "not", And: "and", Or: "or", Imp: "imp"}
Map = Mapping[str, Term]


@dataclass(eq=False)
class Occurrence:
    """A place of a subformula. `is_left` says whether it is asserted there, as on the left, or denied. `variable` is the variable of a weak
    quantifier, `witness` the Skolem term of a strong one, `name` the atom that stands for the whole place in clauses."""

    formula: Formula
    is_left: bool
    below: Optional["Occurrence"]
    scope: Tuple[str, ...]
    parts: List["Occurrence"] = field(default_factory=list)
    variable: str = ""
    witness: Optional[Term] = None
    name: Optional[Atom] = None

    @property
    def is_disjunction(self) -> bool:
        """Whether one of the parts has to hold as it is asserted or denied here, and not both."""
        return isinstance(self.formula, (Or, Imp)) if self.is_left else isinstance(self.formula, And)

    def way(self) -> List["Occurrence"]:
        """The occurrences from the root of its formula to this one."""
        found: List[Occurrence] = [self]
        while found[-1].below is not None:
            found.append(found[-1].below)
        return found[::-1]


@dataclass(frozen=True)
class PlacedClause:
    """A clause with the places that its instances make use of; `is_goal` where one of them comes from the right side."""

    clause: Clause
    places: Tuple[Occurrence, ...]
    is_goal: bool


Found = Tuple[Tuple[Occurrence, ...], Dict[str, Term]]  # places that a proof uses together, and terms for the variables around them


class Matrix:
    """The occurrences of a sequent's subformulas, and its clauses. Free variables of the sequent are constants in the clauses."""

    def __init__(self, left: Sequence[Formula], right: Sequence[Formula]) -> None:
        self.whole = [*left, *right]
        self.prefix = unused_prefix(self.whole)
        self.count = 0
        self.free = list(dict.fromkeys(name for whole in self.whole for name in formulas.free_variables(whole)))
        constants: Dict[str, Term] = {name: App(f"{self.prefix}free_{name}") for name in self.free}
        # What stands in the expansion for a constant or a Skolem term.
        self.variables: Dict[Term, str] = {constants[name]: name for name in self.free}
        self.witnesses = {f"{self.prefix}free_{name}" for name in self.free}
        self.roots = [self.occurrence(formulas.substitute(whole, constants), place < len(left), None, ())
                      for place, whole in enumerate(self.whole)]
        self.definitions: List[Tuple[Occurrence, List[Occurrence]]] = []
        found = [self.placed(places) for root in self.roots for places in self.clauses_of(root)]
        self.clauses = found + [self.placed(places, of) for of, places in self.definitions]

    def next_name(self, letter: str) -> str:
        self.count += 1
        return f"{letter}{self.count}"

    def occurrence(self, whole: Formula, is_left: bool, below: Optional[Occurrence], scope: Tuple[str, ...]) -> Occurrence:
        made = Occurrence(whole, is_left, below, scope)
        if isinstance(whole, Not):
            made.parts = [self.occurrence(whole.part, not is_left, made, scope)]
        elif isinstance(whole, formulas.Binary):
            made.parts = [self.occurrence(whole.left, is_left != isinstance(whole, Imp), made, scope),
                          self.occurrence(whole.right, is_left, made, scope)]
        elif isinstance(whole, formulas.Quantified) and isinstance(whole, All) == is_left:
            made.variable = self.next_name("W")
            body = formulas.instance(whole, Var(made.variable))
            made.parts = [self.occurrence(body, is_left, made, (*scope, made.variable))]
        elif isinstance(whole, formulas.Quantified):
            made.witness = App(self.next_name(self.prefix), tuple(map(Var, scope)))
            self.witnesses.add(made.witness.name)
            made.parts = [self.occurrence(formulas.instance(whole, made.witness), is_left, made, scope)]
        return made

    def clauses_of(self, place: Occurrence) -> List[List[Occurrence]]:
        """The clauses of a place, each as the places of its literals."""
        if not place.parts:
            is_true = isinstance(place.formula, Truth if place.is_left else Falsity)
            return [] if is_true else [[place]]
        parts = [self.clauses_of(part) for part in place.parts]
        if not place.is_disjunction:
            return [clause for part in parts for clause in part]
        first, second = self.named(place, parts)
        return [[*one, *two] for one in first for two in second]

    def named(self, place: Occurrence, parts: List[List[List[Occurrence]]]) -> List[List[List[Occurrence]]]:
        """The clauses of the two parts of a disjunction; where they would multiply, the name of the larger part in place of its clauses."""
        first, second = map(len, parts)
        if first * second > MOST_TIMES * (first + second):
            larger = 0 if first >= second else 1
            part = place.parts[larger]
            part.name = Atom(self.next_name(self.prefix), tuple(map(Var, part.scope)))
            self.definitions.extend((part, clause) for clause in parts[larger])
            parts[larger] = [[part]]
        return parts

    def placed(self, places: Sequence[Occurrence], of: Optional[Occurrence] = None) -> PlacedClause:
        """The clause with these places; of a part that has a name, the clause that says what follows from the name."""
        literals = [Literal(False, of.name)] if of is not None and of.name is not None else []
        for place in places:
            if place.name is not None:
                literals.append(Literal(True, place.name))
            elif isinstance(place.formula, Atom):
                literals.append(Literal(place.is_left, place.formula))
        is_goal = any(not place.way()[0].is_left for place in places)
        return PlacedClause(Clause(frozenset(literals)), tuple(places), is_goal)

    # Back from instances

    def default(self) -> Term:
        """The term for variables that no instance says anything of: a constant of the sequent, one of its free variables, or a new one."""
        parts = (part for whole in self.whole for argument in formulas.terms_of(whole) for part in formulas.subterms(argument))
        constant = next((part for part in parts if isinstance(part, App) and not part.args), None)
        return constant or next(iter(self.variables), None) or self.variable_for(App(self.prefix))

    def variable_for(self, witness: Term) -> Var:
        """The variable that stands for a constant or a Skolem term."""
        if witness not in self.variables:
            self.variables[witness], = fresh(1, {*self.free, *self.variables.values()})
        return Var(self.variables[witness])

    def back(self, part: Term) -> Term:
        """A ground term of the clauses as it stands in the expansion."""
        if not isinstance(part, App):
            return part
        if part.name in self.witnesses:
            return self.variable_for(part)
        return App(part.name, tuple(map(self.back, part.args)))


def unused_prefix(some: Iterable[Formula]) -> str:
    """The beginning of names that no symbol of the formulas has."""
    names = {name for whole in some for name in formulas.symbols_of(whole)}
    prefix = "sk"
    while any(name.startswith(prefix) for name in names):
        prefix += "_"
    return prefix


# Expansion trees

@dataclass
class Branch:
    """What is used of an occurrence under one choice of instances: of a weak quantifier its instances by their terms, else its parts."""

    instances: Dict[Term, "Branch"] = field(default_factory=dict)
    parts: Dict[int, "Branch"] = field(default_factory=dict)


class Trees:
    """Expansion trees of a sequent, made of the instances of its clauses."""

    def __init__(self, matrix: Matrix) -> None:
        self.matrix = matrix
        self.default = matrix.default()
        self.branches: Dict[int, Branch] = {}
        self.nodes: List[Dict[str, Any]] = []
        self.numbers: Dict[str, int] = {}

    def add(self, places: Iterable[Occurrence], images: Map) -> None:
        """Takes places under a choice of instances into the trees. Variables without an image have the default term."""
        for place in places:
            way = place.way()
            root = next(number for number, one in enumerate(self.matrix.roots) if one is way[0])
            branch = self.branches.setdefault(root, Branch())
            for here, above in zip(way, way[1:]):
                if here.variable:
                    term = self.ground(images.get(here.variable, self.default))
                    branch = branch.instances.setdefault(term, Branch())
                else:
                    number = next(number for number, part in enumerate(here.parts) if part is above)
                    branch = branch.parts.setdefault(number, Branch())

    def ground(self, part: Term) -> Term:
        if isinstance(part, App):
            return App(part.name, tuple(map(self.ground, part.args)))
        return self.default

    def expansion(self) -> Expansion:
        """The trees of all formulas that are made use of."""
        sides: Dict[bool, List[int]] = {True: [], False: []}
        for number in sorted(self.branches):
            root = self.matrix.roots[number]
            sides[root.is_left].append(self.node(root, self.branches[number], {}))
        return Expansion(self.nodes, sides[True], sides[False])

    def node(self, place: Occurrence, branch: Optional[Branch], images: Dict[str, Term]) -> int:
        """The number of the node for a place under a choice of instances."""
        if not place.parts:
            return self.put("leaf" if branch is not None else "wk", {"formula": self.text(place, images)})
        if branch is None or not (branch.parts or branch.instances):
            return self.put("wk", {"formula": self.text(place, images)})
        if place.variable:
            instances = []
            for term, above in branch.instances.items():
                number = self.node(place.parts[0], above, {**images, place.variable: term})
                instances.append({"term": formulas.term_text(self.matrix.back(term)), "of": number})
            return self.put("weak", {"formula": self.text(place, images), "instances": instances})
        parts = [self.node(part, branch.parts.get(number), images) for number, part in enumerate(place.parts)]
        if place.witness is not None:
            variable = self.matrix.back(formulas.substitute_term(place.witness, images))
            return self.put("strong", {"formula": self.text(place, images), "var": formulas.term_text(variable), "of": parts[0]})
        return self.put(KINDS[type(place.formula)], {"of": parts if len(parts) == 2 else parts[0]})

    def text(self, place: Occurrence, images: Map) -> str:
        """The formula of a place, with its instances done."""
        whole = formulas.substitute(place.formula, images)
        return formulas.formula_text(formulas.map_terms(lambda part, _: self.matrix.back(part), whole))

    def put(self, kind: str, fields: Dict[str, Any]) -> int:
        """The number of a node, which is made where it isn't there."""
        node = {"kind": kind, **fields}
        key = json.dumps(node)
        if key not in self.numbers:
            self.numbers[key] = len(self.nodes)
            self.nodes.append(node)
        return self.numbers[key]
