"""A proof as a file for Coq: one lemma for each different subproof, over a type with an inhabitant, in classical logic.

The sequent A, B |- C, D is `A -> B -> C \\/ D` under quantifiers for its free variables. Each lemma is proved by those of its premises: what
its rule says of the main formula is asserted, the rest is propositional. Terms are of the type U; the predicate `=` is one of its own.
"""
from __future__ import annotations

import re
from typing import Dict, Iterable, Iterator, List, Mapping, Sequence, Set, Tuple

from . import formulas
from .formulas import All, And, Atom, Bound, Falsity, Formula, Imp, Not, Term, Truth, Var
from .proofs import Proof, Step, steps
from .rules import PARTS, Definition, Definitions, parts

WORDS = set("""as at cofix classic else end exists exists2 fix for forall fun if IF in inhabitant let match mod Prop return Set SProp then
    Type using U where with True False not and or""".split())
Symbol = Tuple[str, str, int]  # predicate or function, its name, its number of arguments

HEAD = """Require Import Classical.

Section Proof.
Variable U : Type.
Variable inhabitant : U.
"""
# What is said of the main formula and its part before the rest is left to `tauto`.
ASSERTED: Dict[str, str] = {
    "allL": "assert ({main} -> {part}) by (let h := fresh in intro h; exact (h {by})).",
    "exR": "assert ({part} -> {main}) by (let h := fresh in intro h; exists {by}; exact h).",
    "defL": "assert ({main} <-> {part}) by (split; exact (fun h => h)).",
    "defR": "assert ({main} <-> {part}) by (split; exact (fun h => h)).",
}
OPENED: Dict[str, str] = {
    "allR": "destruct (classic {main}) as [|h]; [tauto|]. apply not_all_ex_not in h. destruct h as [{by} h].",
    "exL": "destruct (classic {main}) as [h|]; [|tauto]. destruct h as [{by} h].",
}


class Names:
    """Names for Coq: those that are there where they can be kept, each for one thing."""

    def __init__(self, taken: Iterable[str]) -> None:
        self.taken: Set[str] = {*WORDS, *taken}
        self.given: Dict[Symbol, str] = {}

    def name(self, symbol: Symbol) -> str:
        if symbol not in self.given:
            plain = re.sub(r"\W", "_", "equal" if symbol[1] == "=" else symbol[1], flags=re.ASCII)
            plain = plain if plain[:1].isalpha() else f"n{plain}"
            name, number = plain, 0
            while name in self.taken:
                number += 1
                name = f"{plain}_{number}"
            self.taken.add(name)
            self.given[symbol] = name
        return self.given[symbol]


class Writer:
    """Writes the lemmas of one proof."""

    def __init__(self, proof: Proof, definitions: Definitions) -> None:
        self.steps = steps(proof)
        self.definitions = definitions
        self.names = Names([f"step{number}" for number in range(len(self.steps))] + [f"x{depth}" for depth in range(1_000)] + ["h"])
        self.variables = [variables_of(step) for step in self.steps]

    # Formulas; `images` has the text for each free variable

    def term(self, part: Term, images: Mapping[str, str], depth: int) -> str:
        if isinstance(part, Bound):
            return f"x{depth - 1 - part.index}"
        if isinstance(part, Var):
            return images.get(part.name, "inhabitant")
        return self.applied("function", part.name, part.args, images, depth)

    def applied(self, kind: str, name: str, args: Sequence[Term], images: Mapping[str, str], depth: int) -> str:
        words = [self.names.name((kind, name, len(args))), *(self.term(arg, images, depth) for arg in args)]
        return f"({' '.join(words)})" if args else words[0]

    def formula(self, whole: Formula, images: Mapping[str, str], depth: int = 0) -> str:
        if isinstance(whole, Atom):
            return self.applied("predicate", whole.name, whole.args, images, depth)
        if isinstance(whole, (Truth, Falsity)):
            return "True" if isinstance(whole, Truth) else "False"
        if isinstance(whole, Not):
            return f"(~ {self.formula(whole.part, images, depth)})"
        if isinstance(whole, formulas.Quantified):
            quantifier = "forall" if isinstance(whole, All) else "exists"
            return f"({quantifier} x{depth} : U, {self.formula(whole.body, images, depth + 1)})"
        sign = "->" if isinstance(whole, Imp) else "/\\" if isinstance(whole, And) else "\\/"
        return f"({self.formula(whole.left, images, depth)} {sign} {self.formula(whole.right, images, depth)})"

    def plain(self, names: Iterable[str]) -> Dict[str, str]:
        """Variables that stand for themselves."""
        return {name: self.names.name(("variable", name, 0)) for name in names}

    # Lemmas

    def lines(self) -> Iterator[str]:
        lemmas = [line for number in range(len(self.steps)) for line in self.lemma(number)]
        defined = [line for one in ordered(self.definitions) for line in self.definition(one)]
        yield HEAD
        for (kind, name, count), text in self.names.given.items():
            if kind != "variable" and not (kind == "predicate" and (name, count) in self.definitions):
                yield f"Variable {text} : {'U -> ' * count}{'Prop' if kind == 'predicate' else 'U'}."
        yield from defined
        yield ""
        yield from lemmas
        yield "End Proof."

    def definition(self, one: Definition) -> Iterator[str]:
        images = self.plain(one.variables)
        name = self.names.name(("predicate", one.symbol, len(one.variables)))
        bound = "".join(f" ({images[variable]} : U)" for variable in one.variables)
        yield f"Definition {name}{bound} : Prop := {self.formula(one.body, images)}."

    def lemma(self, number: int) -> Iterator[str]:
        step, images = self.steps[number], self.plain(self.variables[number])
        bound = f"forall {' '.join(images.values())} : U, " if images else ""
        yield f"(* {step['rule']} *)"
        yield f"Lemma step{number} : {bound}{self.sequent(step, images)}."
        yield " ".join([f"Proof. do {len(images) + len(step['left'])} intro.", *self.tactics(step, images), "tauto. Qed."])

    def sequent(self, step: Step, images: Mapping[str, str]) -> str:
        left, right = ([self.formula(formulas.formula(text), images) for text in step[side]] for side in ("left", "right"))
        return " -> ".join([*left, " \\/ ".join(right) or "False"])

    def tactics(self, step: Step, images: Dict[str, str]) -> Iterator[str]:
        """What is done before the rest is propositional: what the rule says, cases for the auxiliary formulas, and the premises."""
        rule = step["rule"]
        if PARTS[rule] and rule != "weak":
            whole = formulas.formula(step["main"])
            by = step.get("term") or step.get("var") or ""
            if rule in OPENED:
                images = {**images, **self.plain([by])}
            found = [whole] if rule == "cut" else parts(rule, whole, by, self.definitions)
            if rule in ASSERTED or rule in OPENED:
                told = {"main": self.formula(whole, images), "part": self.formula(found[0], images)}
                yield {**ASSERTED, **OPENED}[rule].format(by=self.term(formulas.term(by), images, 0) if by else "", **told)
            yield from (f"destruct (classic {self.formula(part, images)});" for part in found)
        for premise in step["premises"]:
            arguments = " ".join(images.get(name, "inhabitant") for name in self.variables[premise])
            yield f"pose proof (step{premise} {arguments});" if arguments else f"pose proof step{premise};"


def variables_of(step: Step) -> List[str]:
    """The free variables of a step's conclusion."""
    texts = [text for side in ("left", "right") for text in step[side]]
    return list(dict.fromkeys(name for text in texts for name in formulas.free_variables(formulas.formula(text))))


def ordered(definitions: Definitions) -> List[Definition]:
    """The definitions, each behind those whose symbols its body has."""
    found: List[Definition] = []

    def put(one: Definition) -> None:
        for atom in formulas.atoms_of(one.body):
            below = definitions.get((atom.name, len(atom.args)))
            if below is not None and below is not one and below not in found:
                put(below)
        if one not in found:
            found.append(one)

    for one in definitions.values():
        put(one)
    return found


def coq(proof: Proof, definitions: Definitions) -> Iterator[str]:
    """The lines of the file."""
    return Writer(proof, definitions).lines()
