"""Clauses, unification, and resolution refutations as gaptd takes them."""
from __future__ import annotations

from dataclasses import dataclass, field
from typing import Any, Dict, FrozenSet, Iterable, Iterator, List, Mapping, NamedTuple, Optional, Sequence, Tuple

from . import formulas
from .formulas import App, Atom, Falsity, Formula, Not, Or, Term, Var

Map = Mapping[str, Term]


class Literal(NamedTuple):
    is_positive: bool
    atom: Atom


@dataclass(frozen=True)
class Clause:
    """A disjunction of literals, as a set."""

    literals: FrozenSet[Literal] = frozenset()

    @staticmethod
    def read(text: str) -> "Clause":
        """The clause that a text is, in TPTP's syntax. Raises TextError."""
        return Clause(frozenset(literals_of(formulas.formula(text), text)))

    def image(self, images: Map) -> "Clause":
        return Clause(frozenset(Literal(sign, substitute_atom(atom, images)) for sign, atom in self.literals))

    def variables(self) -> List[str]:
        """Its variables, in an order of its own."""
        return list(dict.fromkeys(name for literal in self.ordered() for name in formulas.free_variables(literal.atom)))

    def ordered(self) -> List[Literal]:
        """The literals by rising atom, the negative ones first."""
        return sorted(self.literals, key=lambda literal: (literal.is_positive, formulas.formula_key(literal.atom)))

    def __str__(self) -> str:
        return " | ".join(literal_text(literal) for literal in self.ordered()) or "$false"


def literals_of(part: Formula, text: str) -> Iterator[Literal]:
    if isinstance(part, Or):
        for member in formulas.members(part):
            yield from literals_of(member, text)
    elif isinstance(part, Atom):
        yield Literal(True, part)
    elif isinstance(part, Not) and isinstance(part.part, Atom):
        yield Literal(False, part.part)
    elif not isinstance(part, Falsity):
        raise formulas.TextError(text, 0, "no clause")


def literal_text(literal: Literal) -> str:
    return formulas.formula_text(literal.atom if literal.is_positive else Not(literal.atom))


def substitute_atom(atom: Atom, images: Map) -> Atom:
    return Atom(atom.name, tuple(formulas.substitute_term(arg, images) for arg in atom.args))


def unify(pairs: Iterable[Tuple[Term, Term]], bindings: Map) -> Optional[Dict[str, Term]]:
    """The bindings with what makes both terms of each pair equal, or None. Bindings may lead to variables that are bound in turn."""
    result, waiting = dict(bindings), list(pairs)
    while waiting:
        one, two = (walk(part, result) for part in waiting.pop())
        if one == two:
            continue
        if isinstance(two, Var) and not isinstance(one, Var):
            one, two = two, one
        if isinstance(one, Var):
            if occurs(one.name, two, result):
                return None
            result[one.name] = two
        elif isinstance(one, App) and isinstance(two, App) and (one.name, len(one.args)) == (two.name, len(two.args)):
            waiting.extend(zip(one.args, two.args))
        else:
            return None
    return result


def unify_atoms(one: Atom, two: Atom, bindings: Map) -> Optional[Dict[str, Term]]:
    if (one.name, len(one.args)) != (two.name, len(two.args)):
        return None
    return unify(zip(one.args, two.args), bindings)


def walk(part: Term, bindings: Map) -> Term:
    while isinstance(part, Var) and part.name in bindings:
        part = bindings[part.name]
    return part


def occurs(name: str, part: Term, bindings: Map) -> bool:
    part = walk(part, bindings)
    if isinstance(part, Var):
        return part.name == name
    return isinstance(part, App) and any(occurs(name, arg, bindings) for arg in part.args)


def resolved_term(part: Term, bindings: Map) -> Term:
    """The term with all bindings done."""
    part = walk(part, bindings)
    return App(part.name, tuple(resolved_term(arg, bindings) for arg in part.args)) if isinstance(part, App) else part


class RefutationError(ValueError):
    """A step of a refutation that can't be done or replayed."""


def derive(step: Mapping[str, Any], inputs: Sequence[Clause], earlier: Sequence[Clause]) -> Clause:
    """The clause of a step, written as the operation `resolution` takes it, from those of earlier steps. Raises RefutationError."""

    def of(number: int, clauses: Sequence[Clause], what: str) -> Clause:
        if not 0 <= number < len(clauses):
            raise RefutationError(f"{number} is no {what}: there are {len(clauses)}, counted from 0")
        return clauses[number]

    if "input" in step:
        return of(step["input"], inputs, "cnf entry of the problem")
    if "subst" in step:
        return of(step["subst"], earlier, "earlier step").image({name: formulas.term(text) for name, text in step["map"].items()})
    one, two = (of(number, earlier, "earlier step") for number in step["resolve"])
    atom = formulas.formula(step["atom"])
    missing = [f"the {sign} literals of step {number}, which has {clause}"
               for sign, number, clause in zip(("positive", "negative"), step["resolve"], (one, two))
               if (sign == "positive", atom) not in clause.literals]
    if missing or not isinstance(atom, Atom):
        raise RefutationError(f"{formulas.formula_text(atom)} is not among {' and not among '.join(missing)}")
    return Clause((one.literals - {Literal(True, atom)}) | (two.literals - {Literal(False, atom)}))


@dataclass
class Refutation:
    """Steps as the operation `resolution` takes them, each one once, and the clause that each derives."""

    inputs: Sequence[Clause]
    steps: List[Dict[str, Any]] = field(default_factory=list)
    clauses: List[Clause] = field(default_factory=list)
    numbers: Dict[str, int] = field(default_factory=dict)

    def add(self, step: Dict[str, Any]) -> int:
        """The number of a step, which is put at the end if it isn't there."""
        key = repr(step)
        if key not in self.numbers:
            clause = derive(step, self.inputs, self.clauses)
            self.numbers[key] = len(self.steps)
            self.steps.append(step)
            self.clauses.append(clause)
        return self.numbers[key]

    def subst(self, of: int, images: Map) -> int:
        """The step that maps the clause of a step; that step itself where the map changes nothing."""
        changed = {name: formulas.term_text(images[name]) for name in sorted(self.clauses[of].variables())
                   if images.get(name, Var(name)) != Var(name)}
        return self.add({"subst": of, "map": changed}) if changed else of

    def resolve(self, positive: int, negative: int, atom: Atom) -> int:
        return self.add({"resolve": [positive, negative], "atom": formulas.formula_text(atom)})

    def used(self, last: int) -> List[Dict[str, Any]]:
        """The steps that the step `last` needs, with that one at the end."""
        needed = {last}
        for number in range(last, -1, -1):
            if number in needed:
                needed.update(references(self.steps[number]))
        places = {number: place for place, number in enumerate(sorted(needed))}
        return [renumbered(self.steps[number], places) for number in sorted(needed)]


def references(step: Mapping[str, Any]) -> List[int]:
    """The earlier steps that a step names."""
    return list(step.get("resolve", [])) + ([step["subst"]] if "subst" in step else [])


def renumbered(step: Dict[str, Any], places: Mapping[int, int]) -> Dict[str, Any]:
    if "subst" in step:
        return {**step, "subst": places[step["subst"]]}
    return {**step, "resolve": [places[number] for number in step["resolve"]]} if "resolve" in step else step
