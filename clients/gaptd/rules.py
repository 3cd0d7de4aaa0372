"""Sequents and the table of rules: what each rule wants of its main formula and of its premises."""
from __future__ import annotations

from dataclasses import dataclass
from typing import Dict, FrozenSet, Iterable, List, Mapping, Optional, Sequence, Tuple, Type

from . import formulas
from .formulas import All, And, Atom, Ex, Falsity, Formula, Imp, Not, Or, Truth, Var

Side = FrozenSet[str]


@dataclass(frozen=True)
class Sequent:
    """Two sets of formulas, as canonical texts."""

    left: Side = frozenset()
    right: Side = frozenset()

    @staticmethod
    def of(left: Iterable[str] = (), right: Iterable[str] = ()) -> "Sequent":
        """The sequent with these formulas, in any texts."""
        return Sequent(frozenset(map(formulas.canonical, left)), frozenset(map(formulas.canonical, right)))

    def __or__(self, other: "Sequent") -> "Sequent":
        return Sequent(self.left | other.left, self.right | other.right)

    def __sub__(self, other: "Sequent") -> "Sequent":
        return Sequent(self.left - other.left, self.right - other.right)

    def __le__(self, other: "Sequent") -> bool:
        """Whether this is a subsequent of the other."""
        return self.left <= other.left and self.right <= other.right

    def __bool__(self) -> bool:
        return bool(self.left or self.right)

    def __str__(self) -> str:
        left, right = (", ".join(formulas.rising(side)) for side in (self.left, self.right))
        return f"{left} |- {right}".strip()

    def with_free(self, variable: str) -> "Sequent":
        """Its formulas in which the variable is free."""
        def having(side: Side) -> Side:
            return frozenset(text for text in side if variable in formulas.variables_of(text))

        return Sequent(having(self.left), having(self.right))


@dataclass(frozen=True)
class RuleForm:
    """The number of premises; on which sides the main formula must stand; its connective; the field `term` or `var` that is needed."""

    premises: int
    sides: Tuple[str, ...] = ()
    connective: Optional[Type] = None
    field: str = ""

    @property
    def names_main(self) -> bool:
        """Whether a step by the rule has the field `main`."""
        return self.premises == 2 or self.connective not in (None, Truth, Falsity) or self.sides == ("left", "right")


RULES: Dict[str, RuleForm] = {
    "ax": RuleForm(0, ("left", "right")),
    "topR": RuleForm(0, ("right",), Truth),
    "botL": RuleForm(0, ("left",), Falsity),
    "negL": RuleForm(1, ("left",), Not),
    "negR": RuleForm(1, ("right",), Not),
    "andL": RuleForm(1, ("left",), And),
    "andR": RuleForm(2, ("right",), And),
    "orL": RuleForm(2, ("left",), Or),
    "orR": RuleForm(1, ("right",), Or),
    "impL": RuleForm(2, ("left",), Imp),
    "impR": RuleForm(1, ("right",), Imp),
    "allL": RuleForm(1, ("left",), All, "term"),
    "allR": RuleForm(1, ("right",), All, "var"),
    "exL": RuleForm(1, ("left",), Ex, "var"),
    "exR": RuleForm(1, ("right",), Ex, "term"),
    "defL": RuleForm(1, ("left",), Atom),
    "defR": RuleForm(1, ("right",), Atom),
    "cut": RuleForm(2),
    "weak": RuleForm(1),
}

# On which sides the parts of a main formula stand in the premises: for each premise a pair of lists of parts, counted from 0.
Places = Sequence[Tuple[Sequence[int], Sequence[int]]]
PARTS: Dict[str, Places] = {
    "negL": [((), (0,))], "negR": [((0,), ())],
    "andL": [((0, 1), ())], "andR": [((), (0,)), ((), (1,))],
    "orL": [((0,), ()), ((1,), ())], "orR": [((), (0, 1))],
    "impL": [((), (0,)), ((1,), ())], "impR": [((0,), (1,))],
    "allL": [((0,), ())], "allR": [((), (0,))], "exL": [((0,), ())], "exR": [((), (0,))],
    "defL": [((0,), ())], "defR": [((), (0,))],
    "cut": [((), (0,)), ((0,), ())], "weak": [((), ())],
    "ax": [], "topR": [], "botL": [],
}


@dataclass(frozen=True)
class Definition:
    """A predicate symbol that stands for a formula in some variables."""

    symbol: str
    variables: Tuple[str, ...]
    body: Formula

    def unfold(self, atom: Atom) -> Formula:
        return formulas.substitute(self.body, dict(zip(self.variables, atom.args)))


Definitions = Mapping[Tuple[str, int], Definition]


class RuleError(ValueError):
    """The main formula, the term or the variable doesn't fit the rule."""


def parts(rule: str, main: Formula, by: str, definitions: Definitions) -> List[Formula]:
    """The parts of the main formula that its rule puts into premises; `by` is the term or the eigenvariable."""
    if isinstance(main, formulas.Quantified):
        return [formulas.instance(main, Var(by) if RULES[rule].field == "var" else formulas.term(by))]
    if isinstance(main, Not):
        return [main.part]
    if isinstance(main, formulas.Binary):
        return [main.left, main.right]
    if isinstance(main, Atom) and (main.name, len(main.args)) in definitions:
        return [definitions[main.name, len(main.args)].unfold(main)]
    raise RuleError(f"{rule} can't take {formulas.formula_text(main)} apart")


def auxiliary(rule: str, main: Optional[str], by: str = "", definitions: Optional[Definitions] = None) -> List[Sequent]:
    """The auxiliary formulas of each premise. Raises RuleError where the main formula hasn't the rule's connective."""
    places = PARTS[rule]
    if not any(left or right for left, right in places):
        return [Sequent() for _ in places]
    whole = formulas.formula(main or "")
    connective = RULES[rule].connective
    if connective is not None and not isinstance(whole, connective):
        raise RuleError(f"{rule} takes {formulas.KIND_NAMES[connective]}, but {formulas.formula_text(whole)} is "
                        f"{formulas.KIND_NAMES[type(whole)]}")
    found = [whole] if rule == "cut" else parts(rule, whole, by, definitions or {})
    texts = [formulas.formula_text(part) for part in found]
    return [Sequent(frozenset(texts[i] for i in left), frozenset(texts[i] for i in right)) for left, right in places]


def main_sequent(rule: str, main: Optional[str]) -> Sequent:
    """The main formula on the sides on which the rule's conclusion must have it."""
    form = RULES[rule]
    if form.connective in (Truth, Falsity):
        main = "$true" if form.connective is Truth else "$false"
    texts = [main] if main is not None else []
    return Sequent.of(texts if "left" in form.sides else (), texts if "right" in form.sides else ())
