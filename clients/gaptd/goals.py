"""Goals of a proof from its end: sequents whose formulas have names, and the inferences that were chosen below them.

A goal is closed by an inference with a goal for each premise, or by a finished proof. Once all are closed, `proof` builds the proof from
the leaves down; formulas and inferences that turn out to be needless are left out of it.
"""
from __future__ import annotations

from dataclasses import dataclass, replace
from typing import Dict, Iterable, List, Optional, Sequence, Tuple

from . import formulas, proofs, readable
from .proofs import Proof, pruned_inference
from .rules import Definitions, Sequent


class TacticError(ValueError):
    """A tactic that can't be applied."""


@dataclass(frozen=True)
class Named:
    """A formula of a goal, by its canonical text, with its name and side."""

    name: str
    text: str
    side: str

    @property
    def formula(self) -> formulas.Formula:
        return formulas.formula(self.text)

    def __str__(self) -> str:
        return f"{self.name}: {readable.formula(self.text)}"


@dataclass(frozen=True)
class Goal:
    """A sequent that is to be proved. No name and no formula of a side occurs twice."""

    named: Tuple[Named, ...] = ()

    @staticmethod
    def of(left: Iterable[Tuple[str, str]] = (), right: Iterable[Tuple[str, str]] = ()) -> "Goal":
        """The goal with formulas in any texts, each behind its name."""
        goal = Goal()
        for side, pairs in (("left", left), ("right", right)):
            for name, text in pairs:
                if goal.called(name):
                    raise TacticError(f"there are two formulas with the name {name}")
                goal = goal.having(name, formulas.canonical(text), side)
        return goal

    @property
    def sequent(self) -> Sequent:
        return Sequent(*(frozenset(one.text for one in self.side(side)) for side in ("left", "right")))

    def side(self, side: str) -> List[Named]:
        return [one for one in self.named if one.side == side]

    def called(self, name: str) -> Optional[Named]:
        return next((one for one in self.named if one.name == name), None)

    def having(self, name: str, text: str, side: str) -> "Goal":
        """The goal with one more formula, unless the side has it. Where the name is taken it gets a number."""
        if any((one.text, one.side) == (text, side) for one in self.named):
            return self
        wanted, number = name, 0
        while self.called(wanted):
            number += 1
            wanted = f"{name}_{number}"
        return Goal((*self.named, Named(wanted, text, side)))

    def without(self, some: Iterable[Named]) -> "Goal":
        dropped = set(some)
        return Goal(tuple(one for one in self.named if one not in dropped))

    def renamed(self, one: Named, name: str) -> "Goal":
        if self.called(name):
            raise TacticError(f"there is a formula with the name {name}")
        return Goal(tuple(replace(other, name=name) if other == one else other for other in self.named))

    def variables(self) -> List[str]:
        """The free variables."""
        return list(dict.fromkeys(name for one in self.named for name in formulas.free_variables(one.formula)))

    def lines(self) -> List[str]:
        """The sequent as a person writes it: a formula on each line, and the sign between the sides."""
        return [*map(str, self.side("left")), "|-", *map(str, self.side("right"))]


@dataclass(frozen=True)
class Choice:
    """An inference that was chosen for a goal, with the numbers of the goals for its premises; or with `proof` a finished proof."""

    rule: str = ""
    main: Optional[str] = None
    term: Optional[str] = None
    var: Optional[str] = None
    premises: Tuple[int, ...] = ()
    proof: Optional[Proof] = None


class Tree:
    """All goals of a proof by number, the first one its end sequent, and the choices for those that aren't open any more."""

    def __init__(self, goal: Goal, definitions: Definitions) -> None:
        self.definitions = definitions
        self.goals: List[Goal] = [goal]
        self.choices: Dict[int, Choice] = {}
        self.open: List[int] = [0]
        self.before: List[Tuple[int, Dict[int, Choice], List[int]]] = []

    def remember(self) -> None:
        """Marks a place to which `undo` goes back."""
        self.before.append((len(self.goals), dict(self.choices), list(self.open)))

    def undo(self) -> None:
        if not self.before:
            raise TacticError("nothing was done that could be undone")
        count, self.choices, self.open = self.before.pop()
        del self.goals[count:]

    @property
    def goal(self) -> Goal:
        """The goal at which tactics work."""
        if not self.open:
            raise TacticError("no goal is left: qed")
        return self.goals[self.open[0]]

    def focus(self, place: int) -> None:
        """Puts another open goal to the front, counted from 1."""
        if not 1 <= place <= len(self.open):
            raise TacticError(f"there are {len(self.open)} open goals, counted from 1")
        self.open.insert(0, self.open.pop(place - 1))

    def close(self, proof: Proof) -> None:
        """Closes the goal by a proof of a part of it."""
        if not proof.end <= self.goal.sequent:
            surplus = proof.end - self.goal.sequent
            raise TacticError(f"that proves more than the goal has: {readable.sequent(sorted(surplus.left), sorted(surplus.right))}")
        self.choices[self.open.pop(0)] = Choice(proof=proof)

    def infer(self, rule: str, premises: Sequence[Goal], main: Optional[str] = None, term: Optional[str] = None, var: Optional[str] = None
              ) -> None:
        """Closes the goal by an inference over goals for its premises, which are open from now on."""
        numbers = tuple(range(len(self.goals), len(self.goals) + len(premises)))
        self.choices[self.open.pop(0)] = Choice(rule, main, term, var, numbers)
        self.goals.extend(premises)
        self.open[:0] = numbers

    def proof(self) -> Proof:
        """The proof of the first goal, once no goal is open."""
        if self.open:
            raise TacticError(f"{len(self.open)} goal{'s are' if len(self.open) > 1 else ' is'} open")
        built: Dict[int, Proof] = {}
        for number in reversed(range(len(self.goals))):  # (premises have higher numbers)
            choice = self.choices[number]
            if choice.proof is not None:
                built[number] = choice.proof
            elif choice.rule:
                part = Proof(choice.rule, Sequent(), (), choice.main, choice.term, choice.var)
                premises = tuple(built[premise] for premise in choice.premises)
                built[number] = pruned_inference(part, premises, self.definitions)
            else:
                built[number] = built[choice.premises[0]]
        return proofs.pruned(proofs.ending(built[0], self.goals[0].sequent), self.definitions)
