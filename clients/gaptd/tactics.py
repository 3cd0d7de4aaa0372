"""Proofs from the goal: each tactic takes the first open goal apart by a rule, from the end sequent up to axioms.

    proof = Tactics({"all": "![X]: (man(X) => mortal(X))", "h": "man(socrates)"}, {"goal": "mortal(socrates)"})
    proof.allL("socrates", of="all").impL().ax().ax()
    proof.qed("men")                                      # the job `lk`

A formula is meant by its name, by any text of it, or not at all where only one fits. Several quantifiers of a block go in one step.
`prop` and `auto` ask the program; what they find is checked with the rest. How tactics are written in a file is in `script`.

    python3 -m gaptd.tactics             a dialogue
    python3 -m gaptd.tactics FILE        the jobs `lk` for the theorems of a file
"""
from __future__ import annotations

import sys
from typing import Any, Callable, Dict, Iterable, List, Mapping, Optional, Sequence, Tuple, Type, Union

from . import formulas, fof, proofs, readable
from .client import Session
from .errors import Falsified
from .formulas import All, And, Ex, Formula, Imp, Not, Or
from .goals import Goal, Named, TacticError, Tree
from .proofs import Proof, from_steps
from .rules import PARTS, RULES, Definition, RuleError, parts

# The rule that takes a formula apart, by its side and its connective.
RULE_OF: Dict[Tuple[str, Type], str] = {
    (form.sides[0], form.connective): rule for rule, form in RULES.items()
    if len(form.sides) == 1 and form.connective in (Not, And, Or, Imp, All, Ex)
}
# Rules with one premise under which a goal that can be proved stays one.
HARMLESS = ("negL", "negR", "andL", "orR", "impR", "allR", "exL")
SECONDS = 20.0  # what `auto` may take
Pairs = Union[Mapping[str, str], Sequence[str]]


def pairs_of(given: Pairs, name: str) -> List[Tuple[str, str]]:
    """Formulas with names; of a list they are called by a word and a number."""
    if isinstance(given, Mapping):
        return list(given.items())
    return [(f"{name}{number}" if len(given) > 1 else name, text) for number, text in enumerate(given, 1)]


class Tactics:
    """A proof that is being made. Each tactic changes it and gives it back; after a TacticError it is as before.

    `definitions` are those by which `defL` and `defR` unfold atoms, each behind the name of the job that makes it."""

    def __init__(self, left: Pairs = (), right: Pairs = (), session: Optional[Session] = None,
                 definitions: Optional[Mapping[str, Definition]] = None) -> None:
        self.definitions = dict(definitions or {})
        by_symbol = {(one.symbol, len(one.variables)): one for one in self.definitions.values()}
        self.tree = Tree(Goal.of(pairs_of(left, "h"), pairs_of(right, "goal")), by_symbol)
        self.session = session

    def __str__(self) -> str:
        """The first open goal, and the others in one line each."""
        if not self.tree.open:
            return "no goal is left"
        first, *others = (self.tree.goals[number] for number in self.tree.open)
        lines = [f"goal 1 of {len(others) + 1}" if others else "the goal", *(f"  {line}" for line in first.lines())]
        for number, goal in enumerate(others, 2):
            texts = [[one.text for one in goal.side(side)] for side in ("left", "right")]
            lines.append(f"goal {number}: {readable.sequent(*texts)}")
        return "\n".join(lines)

    __repr__ = __str__  # (what a dialogue of Python and a notebook show)

    @property
    def goal(self) -> Goal:
        return self.tree.goal

    def done(self, work: Callable[[], None]) -> "Tactics":
        """Does work on the tree that `undo` takes back; where it fails the tree is as before."""
        self.tree.remember()
        try:
            work()
        except Exception:
            self.tree.undo()
            raise
        return self

    def undo(self) -> "Tactics":
        """Takes the last tactic back."""
        self.tree.undo()
        return self

    # Formulas

    def pick(self, rule: str, of: Optional[str]) -> Named:
        """The formula on which a rule works: the one that is called so or has that text, or the only one that fits."""
        form = RULES[rule]
        fitting = [one for one in self.goal.side(form.sides[0]) if form.connective and isinstance(one.formula, form.connective)
                   and (not isinstance(one.formula, formulas.Atom) or self.is_defined(one.formula))]
        if of is not None:
            one = self.found(of, form.sides[0])
            if one not in fitting:
                raise TacticError(f"{rule} takes {self.taken_by(rule)}, and {one} is {formulas.KIND_NAMES[type(one.formula)]} on the "
                                  f"{one.side}")
            return one
        if len(fitting) != 1:
            which = "say which of " + ", ".join(one.name for one in fitting) if fitting else "there is none"
            raise TacticError(f"{rule} takes {self.taken_by(rule)}: {which}")
        return fitting[0]

    @staticmethod
    def taken_by(rule: str) -> str:
        connective = RULES[rule].connective
        assert connective
        kind = "an atom with a definition" if connective is formulas.Atom else formulas.KIND_NAMES[connective]
        return f"{kind} on the {RULES[rule].sides[0]}"

    def is_defined(self, atom: formulas.Atom) -> bool:
        return (atom.name, len(atom.args)) in self.tree.definitions

    def found(self, of: str, side: str = "") -> Named:
        """The formula with a name or a text; of two with the text the one on the side."""
        one = self.goal.called(of)
        if one is not None:
            return one
        try:
            text = formulas.canonical(of)
        except formulas.TextError as error:
            raise TacticError(f"there is no formula {of}; there are {', '.join(one.name for one in self.goal.named)}") from error
        same = sorted((one for one in self.goal.named if one.text == text), key=lambda one: one.side != side)
        if not same:
            raise TacticError(f"there is no formula {of}; there are {', '.join(one.name for one in self.goal.named)}")
        return same[0]

    def apply(self, rule: str, main: Named, by: str = "", keeps: bool = False, names: Sequence[str] = ()) -> None:
        """An inference on the goal. Its main formula stays in the premises where it is kept; their new formulas get these names."""
        try:
            texts = [formulas.formula_text(part) for part in parts(rule, main.formula, by, self.tree.definitions)]
        except RuleError as error:
            raise TacticError(str(error)) from error
        base = self.goal if keeps else self.goal.without([main])
        waiting, premises = list(names), []
        for left, right in PARTS[rule]:
            premise = base
            for side, numbers in (("left", left), ("right", right)):
                for number in numbers:
                    plain = name_of_part(main, side, len(numbers), number, premise)
                    premise = premise.having(waiting.pop(0) if waiting else plain, texts[number], side)
            premises.append(premise)
        form = RULES[rule].field
        self.tree.infer(rule, premises, main.text, by if form == "term" else None, by if form == "var" else None)

    def block(self, rule: str, by: Sequence[str], of: Optional[str], names: Sequence[str]) -> None:
        """Several inferences by a quantifier rule, one for each term or variable, on a formula and what becomes of it.

        Where the rule takes terms the formula stays, and what comes between it and the last instance goes, unless it was there before."""
        form, main = RULES[rule], self.pick(rule, of)
        is_own = True
        for one in by:
            if not isinstance(main.formula, form.connective or ()):
                given = f"{len(by)} {'terms' if form.field == 'term' else 'variables'} were given"
                raise TacticError(f"{main.name} is {formulas.KIND_NAMES[type(main.formula)]}, and {given}")
            if form.field == "var":
                self.check_variable(one)
            before, text = self.goal, formulas.formula_text(formulas.instance(main.formula, formulas.term(one)))
            self.apply(rule, main, one, is_own and form.field == "term", names if is_own else [main.name])
            main = next(formula for formula in self.goal.named if (formula.text, formula.side) == (text, main.side))
            is_own = main in before.named

    def check_variable(self, name: str) -> None:
        formulas.variable(name)
        having = [one.name for one in self.goal.named if name in formulas.variables_of(one.text)]
        if having:
            raise TacticError(f"the eigenvariable {name} is free in {', '.join(having)}")

    def eigenvariables(self, rule: str, of: Optional[str]) -> List[str]:
        """Fresh variables for a whole block of strong quantifiers."""
        whole, count = self.pick(rule, of).formula, 0
        while isinstance(whole, RULES[rule].connective or ()):
            assert isinstance(whole, formulas.Quantified)
            whole, count = whole.body, count + 1
        return readable.fresh(count, set(self.goal.variables()))

    # Tactics, one for each rule

    def ax(self) -> "Tactics":
        """Closes a goal that has a formula on both sides, $true on the right or $false on the left."""
        return self.done(self.close_trivially)

    def close_trivially(self) -> None:
        end = self.goal.sequent
        both = formulas.rising(end.left & end.right)
        if both:
            self.tree.close(proofs.ax(both[0]))
        elif "$true" in end.right or "$false" in end.left:
            self.tree.close(proofs.topR() if "$true" in end.right else proofs.botL())
        else:
            raise TacticError("no formula stands on both sides, and neither $true on the right nor $false on the left")

    def rule(self, rule: str, of: Optional[str] = None, names: Sequence[str] = ()) -> "Tactics":
        """The rule of a connective, on a formula; the new formulas get names."""
        return self.done(lambda: self.apply(rule, self.pick(rule, of), names=names))

    def negL(self, of: Optional[str] = None, names: Sequence[str] = ()) -> "Tactics":
        """~A on the left: A on the right."""
        return self.rule("negL", of, names)

    def negR(self, of: Optional[str] = None, names: Sequence[str] = ()) -> "Tactics":
        """~A on the right: A on the left."""
        return self.rule("negR", of, names)

    def andL(self, of: Optional[str] = None, names: Sequence[str] = ()) -> "Tactics":
        """A & B on the left: A and B on the left."""
        return self.rule("andL", of, names)

    def andR(self, of: Optional[str] = None, names: Sequence[str] = ()) -> "Tactics":
        """A & B on the right: a goal with A and one with B."""
        return self.rule("andR", of, names)

    def orL(self, of: Optional[str] = None, names: Sequence[str] = ()) -> "Tactics":
        """A | B on the left: a goal with A and one with B."""
        return self.rule("orL", of, names)

    def orR(self, of: Optional[str] = None, names: Sequence[str] = ()) -> "Tactics":
        """A | B on the right: A and B on the right."""
        return self.rule("orR", of, names)

    def impL(self, of: Optional[str] = None, names: Sequence[str] = ()) -> "Tactics":
        """A => B on the left: a goal with A on the right, and one with B on the left."""
        return self.rule("impL", of, names)

    def impR(self, of: Optional[str] = None, names: Sequence[str] = ()) -> "Tactics":
        """A => B on the right: A on the left and B on the right."""
        return self.rule("impR", of, names)

    def allL(self, *terms: str, of: Optional[str] = None, names: Sequence[str] = ()) -> "Tactics":
        """A universal formula on the left, which stays: its instance by a term for each of the first quantifiers of its block."""
        return self.weak_block("allL", terms, of, names)

    def exR(self, *terms: str, of: Optional[str] = None, names: Sequence[str] = ()) -> "Tactics":
        """An existential formula on the right, which stays: its instance by a term for each of the first quantifiers of its block."""
        return self.weak_block("exR", terms, of, names)

    def weak_block(self, rule: str, terms: Sequence[str], of: Optional[str], names: Sequence[str]) -> "Tactics":
        if not terms:
            raise TacticError(f"{rule} takes terms, one for each quantifier")
        texts = [formulas.term_text(formulas.term(term)) for term in terms]
        return self.done(lambda: self.block(rule, texts, of, names))

    def allR(self, *variables: str, of: Optional[str] = None, names: Sequence[str] = ()) -> "Tactics":
        """A universal formula on the right: its instance by eigenvariables, by fresh ones for the whole block where none are given."""
        return self.done(lambda: self.block("allR", variables or self.eigenvariables("allR", of), of, names))

    def exL(self, *variables: str, of: Optional[str] = None, names: Sequence[str] = ()) -> "Tactics":
        """An existential formula on the left: its instance by eigenvariables, by fresh ones for the whole block where none are given."""
        return self.done(lambda: self.block("exL", variables or self.eigenvariables("exL", of), of, names))

    def defL(self, of: Optional[str] = None, names: Sequence[str] = ()) -> "Tactics":
        """A defined atom on the left: what it stands for."""
        return self.rule("defL", of, names)

    def defR(self, of: Optional[str] = None, names: Sequence[str] = ()) -> "Tactics":
        """A defined atom on the right: what it stands for."""
        return self.rule("defR", of, names)

    def cut(self, formula: str, name: str = "lemma") -> "Tactics":
        """A cut: the first goal is to prove the formula, the second may use it."""
        return self.done(lambda: self.cut_in(formulas.canonical(formula), name))

    def cut_in(self, text: str, name: str) -> None:
        self.tree.infer("cut", [self.goal.having(name, text, side) for side in ("right", "left")], text)

    # Tactics of many inferences

    def lemma(self, proof: Proof, name: str = "lemma") -> "Tactics":
        """A proof that is there: it closes the goal if it proves a part of it; else the one formula on its right is cut in."""
        def use() -> None:
            surplus = proof.end - self.goal.sequent
            if not surplus:
                self.tree.close(proof)
                return
            if surplus.left or len(proof.end.right) != 1:
                missing = ", ".join(map(readable.formula, formulas.rising(surplus.left)))
                raise TacticError(f"it proves {readable.sequent(*map(formulas.rising, (proof.end.left, proof.end.right)))}: " + (
                    f"not on the left here are {missing}" if missing else "just one formula may stand on its right"))
            self.cut_in(*proof.end.right, name)
            self.tree.close(proof)

        return self.done(use)

    def decompose(self) -> "Tactics":
        """All rules with one premise that lose nothing, as long as one fits, with fresh eigenvariables."""
        def work() -> None:
            while True:
                chosen = next(((rule, one) for one in self.goal.named
                               for rule in [RULE_OF.get((one.side, type(one.formula)), "")] if rule in HARMLESS), None)
                if chosen is None:
                    return
                rule, one = chosen
                if RULES[rule].field == "var":
                    self.block(rule, self.eigenvariables(rule, one.name), one.name, ())
                else:
                    self.apply(rule, one)

        return self.done(work)

    def destruct(self, of: str, names: Sequence[str] = ()) -> "Tactics":
        """The rule of a formula's connective; for strong quantifiers with fresh variables."""
        one = self.found(of)
        rule = RULE_OF.get((one.side, type(one.formula)), "")
        if RULES.get(rule) and RULES[rule].field == "var":
            return self.done(lambda: self.block(rule, self.eigenvariables(rule, one.name), one.name, names))
        if not rule or RULES[rule].field:
            raise TacticError(f"{one} is {formulas.KIND_NAMES[type(one.formula)]} on the {one.side}, which " +
                              (f"{rule} takes apart by terms" if rule else "no rule takes apart"))
        return self.rule(rule, one.name, names)

    def forget(self, *some: str) -> "Tactics":
        """The goal without some formulas."""
        def work() -> None:
            smaller = self.goal.without([self.found(one) for one in some])
            self.tree.infer("", [smaller])

        return self.done(work)

    def rename(self, of: str, name: str) -> "Tactics":
        """Another name for a formula."""
        return self.done(lambda: self.tree.infer("", [self.goal.renamed(self.found(of), name)]))

    def focus(self, place: int) -> "Tactics":
        """Another open goal becomes the first; they are counted from 1."""
        return self.done(lambda: self.tree.focus(place))

    # Tactics by the program

    def asked(self) -> Session:
        if self.session is None:
            raise TacticError("this tactic asks the program: give a session to Tactics")
        return self.session

    def prop(self) -> "Tactics":
        """Closes a goal that is a tautology, its quantified formulas taken as atoms. The proof is the program's."""
        session, abstraction = self.asked(), Abstraction(self.goal)
        try:
            reply = session.run("tautology", "prop", left=abstraction.texts("left"), right=abstraction.texts("right"))
        except Falsified as error:
            true = ", ".join(readable.formula(abstraction.back(text)) for text in error.error["true"]) or "nothing"
            raise TacticError(f"that is no tautology: it is false where just this is true: {true}") from error
        shown = session.run("show", of=reply.job).ok["steps"]
        return self.done(lambda: self.tree.close(from_steps([abstraction.step(step) for step in shown])))

    def auto(self, seconds: float = SECONDS, prover: str = "", tell: Callable[[str], None] = lambda text: None) -> "Tactics":
        """Closes a goal by a proof without cuts, whose instances a prover or the package's own search finds."""
        session = self.asked()
        sides = ([one.formula for one in self.goal.side(side)] for side in ("left", "right"))
        expansion = fof.prove(*sides, prover=prover, seconds=seconds, tell=tell, session=session)
        _, trees, proof, _ = fof.jobs("", "auto", expansion)
        for reply in session.batch([trees, proof]):
            reply.checked()
        shown = session.run("show", of=reply.job).ok["steps"]
        return self.done(lambda: self.tree.close(from_steps(shown)))

    # The end

    def proof(self) -> Proof:
        """The proof, once no goal is open."""
        return self.tree.proof()

    def qed(self, name: str) -> Dict[str, Any]:
        """The job `lk` that asks the program to check the proof."""
        return lk_job(self.proof(), name, self.definitions)


def lk_job(proof: Proof, name: str, definitions: Mapping[str, Definition]) -> Dict[str, Any]:
    """The job that checks a proof, with the definitions that its inferences use."""
    defined = [formulas.formula(part.main or "") for part in proofs.subproofs(proof) if part.rule in ("defL", "defR")]
    return {**proofs.lk_job(proof, name), **using(defined, definitions)}


def using(some: Iterable[Formula], definitions: Mapping[str, Definition]) -> Dict[str, List[str]]:
    """The field `using`, if it is needed: the definitions of symbols of the formulas, and of symbols of what these stand for."""
    waiting, found = list(some), set()
    while waiting:
        symbols = {(atom.name, len(atom.args)) for atom in formulas.atoms_of(waiting.pop())}
        new = {job for job, one in definitions.items() if (one.symbol, len(one.variables)) in symbols} - found
        waiting.extend(definitions[job].body for job in new)
        found |= new
    return {"using": [job for job in definitions if job in found]} if found else {}


def name_of_part(main: Named, side: str, count: int, number: int, premise: Goal) -> str:
    """The name of a part of the main formula: the same where it is the only part on that side, else with a number; on the other side a
    letter with a number."""
    if side == main.side:
        return main.name if count == 1 else f"{main.name}_{number + 1}"
    letter = "h" if side == "left" else "g"
    return next(name for name in map(f"{letter}{{}}".format, range(1, sys.maxsize)) if premise.called(name) is None)


class Abstraction:
    """A goal with an atom in place of each quantified formula that stands in no other."""

    def __init__(self, goal: Goal) -> None:
        self.goal = goal
        used = {name for one in goal.named for name in formulas.symbols_of(one.formula)}
        self.names = (name for name in map("q{}".format, range(sys.maxsize)) if name not in used)
        self.atoms: Dict[Formula, str] = {}
        self.sides = {side: [self.abstract(one.formula) for one in goal.side(side)] for side in ("left", "right")}
        self.wholes = {name: whole for whole, name in self.atoms.items()}

    def texts(self, side: str) -> List[str]:
        return [formulas.formula_text(whole) for whole in self.sides[side]]

    def abstract(self, whole: Formula) -> Formula:
        if isinstance(whole, formulas.Quantified):
            if whole not in self.atoms:
                self.atoms[whole] = next(self.names)
            return formulas.Atom(self.atoms[whole])
        return rebuilt(whole, self.abstract)

    def back(self, text: str) -> str:
        """A text about the atoms as one about what they stand for."""
        return formulas.formula_text(self.restored(formulas.formula(text)))

    def restored(self, whole: Formula) -> Formula:
        if isinstance(whole, formulas.Atom):
            return self.wholes.get(whole.name, whole) if not whole.args else whole
        return rebuilt(whole, self.restored)

    def step(self, given: Mapping[str, Any]) -> Dict[str, Any]:
        """A step of a proof about the atoms as one about what they stand for."""
        changed = {side: [self.back(text) for text in given[side]] for side in ("left", "right")}
        return {**given, **changed, **({"main": self.back(given["main"])} if "main" in given else {})}


def rebuilt(whole: Formula, change: Callable[[Formula], Formula]) -> Formula:
    """The formula with its parts changed."""
    if isinstance(whole, Not):
        return Not(change(whole.part))
    if isinstance(whole, formulas.Binary):
        return type(whole)(change(whole.left), change(whole.right))
    return whole


if __name__ == "__main__":
    from .client import guarded
    from .script import main
    sys.exit(guarded(main))
