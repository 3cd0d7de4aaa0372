"""Proofs in LK: built rule by rule, written as the steps of an `lk` job, read back, and freed of needless weakenings.

Each builder computes its conclusion: the premises without their auxiliary formulas, and the main formula. So

    p = ax("man(socrates)")
    q = ax("mortal(socrates)")
    proof = allL(impL(p, q), "socrates", "![X]: (man(X) => mortal(X))")

proves `man(socrates), ![X]: (man(X) => mortal(X)) |- mortal(socrates)`, and `lk_job(proof, "proof")` is the job that says so. What
is built here is checked by gaptd alone.

    python3 -m gaptd.proofs [--prune] FILE NAME

prints the proof NAME of a file of jobs without needless `weak`, as a job that gaptd has checked.
"""
from __future__ import annotations

import argparse
import json
import sys
from dataclasses import dataclass, replace
from typing import Any, Callable, Dict, Iterable, List, Mapping, Optional, Sequence, Tuple

from . import formulas
from .client import Session, add_program, guarded, send_file
from .explain import History
from .formulas import Formula
from .rules import RULES, Definition, Definitions, RuleError, Sequent, auxiliary, main_sequent

Step = Dict[str, Any]


class ProofError(ValueError):
    """An inference that can't be built, or a list of steps that is no proof tree."""


@dataclass(frozen=True, eq=False, repr=False)
class Proof:
    """A proof by its last inference. `main`, `term` and `var` are there where the rule has them."""

    rule: str
    end: Sequent
    premises: Tuple["Proof", ...] = ()
    main: Optional[str] = None
    term: Optional[str] = None
    var: Optional[str] = None

    @property
    def label(self) -> str:
        """The rule with its term, eigenvariable or cut formula."""
        detail = self.main if self.rule == "cut" else self.term or self.var
        return f"{self.rule} {detail}" if detail else self.rule

    def __str__(self) -> str:
        return f"{self.label}: {self.end}"

    def _repr_html_(self) -> str:
        """The drawing that a notebook shows."""
        from . import page  # (it stands on this module)
        return page.picture(str(self.end), self)


# Builders

def sole(side: Iterable[str], rule: str) -> Formula:
    """The one formula of a premise's side, which is the part of a main formula that isn't given."""
    texts = list(side)
    if len(texts) != 1:
        raise ProofError(f"{rule} needs its main formula: the side that has its part has {len(texts)} formulas")
    return formulas.formula(texts[0])


def infer(rule: str, premises: Sequence[Proof], main: Optional[str] = None, term: Optional[str] = None, var: Optional[str] = None,
          definitions: Optional[Definitions] = None) -> Proof:
    """The inference by a rule over premises. Each premise must have one of its auxiliary formulas, if there are any."""
    main = formulas.canonical(main) if main is not None else None
    term = formulas.term_text(formulas.term(term)) if term is not None else None
    var = formulas.variable(var) if var is not None else None
    try:
        added = auxiliary(rule, main, term or var or "", definitions)
    except RuleError as error:
        raise ProofError(str(error)) from error
    end = main_sequent(rule, main)
    for premise, aux in zip(premises, added):
        if aux and premise.end - aux == premise.end:
            raise ProofError(f"{rule} takes {aux} from a premise, but that ends with {premise.end}")
        end = end | (premise.end - aux)
    if var is not None and end.with_free(var):
        raise ProofError(f"{rule} by {var}, which is free in {end.with_free(var)}")
    return Proof(rule, end, tuple(premises), main, term, var)


def ax(main: str) -> Proof:
    """A |- A."""
    return infer("ax", (), main)


def topR() -> Proof:
    """|- $true."""
    return infer("topR", ())


def botL() -> Proof:
    """$false |-."""
    return infer("botL", ())


def negL(p: Proof, main: Optional[str] = None) -> Proof:
    """~A on the left, over A on the right. Without `main`, A is the only formula on the premise's right."""
    return infer("negL", [p], main or formulas.formula_text(formulas.Not(sole(p.end.right, "negL"))))


def negR(p: Proof, main: Optional[str] = None) -> Proof:
    """~A on the right, over A on the left. Without `main`, A is the only formula on the premise's left."""
    return infer("negR", [p], main or formulas.formula_text(formulas.Not(sole(p.end.left, "negR"))))


def andL(p: Proof, main: str) -> Proof:
    """A & B on the left, over A and B on the left."""
    return infer("andL", [p], main)


def andR(p: Proof, q: Proof, main: Optional[str] = None) -> Proof:
    """A & B on the right, over A on the right and over B on the right; without `main` these are the only formulas there."""
    if main is None:
        main = formulas.formula_text(formulas.And(sole(p.end.right, "andR"), sole(q.end.right, "andR")))
    return infer("andR", [p, q], main)


def orL(p: Proof, q: Proof, main: Optional[str] = None) -> Proof:
    """A | B on the left, over A on the left and over B on the left; without `main` these are the only formulas there."""
    if main is None:
        main = formulas.formula_text(formulas.Or(sole(p.end.left, "orL"), sole(q.end.left, "orL")))
    return infer("orL", [p, q], main)


def orR(p: Proof, main: str) -> Proof:
    """A | B on the right, over A and B on the right."""
    return infer("orR", [p], main)


def impL(p: Proof, q: Proof, main: Optional[str] = None) -> Proof:
    """A => B on the left, over A on the right and over B on the left; without `main` these are the only formulas there."""
    if main is None:
        main = formulas.formula_text(formulas.Imp(sole(p.end.right, "impL"), sole(q.end.left, "impL")))
    return infer("impL", [p, q], main)


def impR(p: Proof, main: Optional[str] = None) -> Proof:
    """A => B on the right, over A on the left and B on the right; without `main` these are the only formulas there."""
    if main is None:
        main = formulas.formula_text(formulas.Imp(sole(p.end.left, "impR"), sole(p.end.right, "impR")))
    return infer("impR", [p], main)


def allL(p: Proof, term: str, main: str) -> Proof:
    """A universal formula on the left, over its instance by a term."""
    return infer("allL", [p], main, term=term)


def allR(p: Proof, var: str, main: str) -> Proof:
    """A universal formula on the right, over its instance by an eigenvariable."""
    return infer("allR", [p], main, var=var)


def exL(p: Proof, var: str, main: str) -> Proof:
    """An existential formula on the left, over its instance by an eigenvariable."""
    return infer("exL", [p], main, var=var)


def exR(p: Proof, term: str, main: str) -> Proof:
    """An existential formula on the right, over its instance by a term."""
    return infer("exR", [p], main, term=term)


def cut(p: Proof, q: Proof, main: Optional[str] = None) -> Proof:
    """A cut, over A on the right and over A on the left; without `main`, A is the only formula that stands there in both."""
    return infer("cut", [p, q], main or formulas.formula_text(sole(p.end.right & q.end.left, "cut")))


def weak(p: Proof, left: Iterable[str] = (), right: Iterable[str] = ()) -> Proof:
    """The same end sequent with more formulas."""
    return Proof("weak", p.end | Sequent.of(left, right), (p,))


def defL(p: Proof, main: str, definition: Definition) -> Proof:
    """A defined atom on the left, over its unfolding."""
    return infer("defL", [p], main, definitions={(definition.symbol, len(definition.variables)): definition})


def defR(p: Proof, main: str, definition: Definition) -> Proof:
    """A defined atom on the right, over its unfolding."""
    return infer("defR", [p], main, definitions={(definition.symbol, len(definition.variables)): definition})


# Steps

def subproofs(proof: Proof) -> List[Proof]:
    """The subproofs that are different objects, premises before what stands on them, the proof itself last."""
    found: Dict[int, Proof] = {}
    waiting = [(proof, False)]
    while waiting:
        part, are_premises_done = waiting.pop()
        if id(part) in found:
            continue
        if are_premises_done:
            found[id(part)] = part
        else:
            waiting.append((part, True))
            waiting.extend((premise, False) for premise in reversed(part.premises))
    return list(found.values())


def steps(proof: Proof) -> List[Step]:
    """The steps of the `lk` job for a proof: equal subproofs once, the root last."""
    result: List[Step] = []
    numbers: Dict[tuple, int] = {}
    places: Dict[int, int] = {}
    for part in subproofs(proof):
        premises = [places[id(premise)] for premise in part.premises]
        key = (part.rule, part.main, part.term, part.var, part.end, tuple(premises))
        if key not in numbers:
            numbers[key] = len(result)
            result.append(step(part, premises))
        places[id(part)] = numbers[key]
    return result


def step(proof: Proof, premises: List[int]) -> Step:
    """The step for the last inference of a proof."""
    given = {"rule": proof.rule, "main": proof.main, "term": proof.term, "var": proof.var, "premises": premises,
             "left": formulas.rising(proof.end.left), "right": formulas.rising(proof.end.right)}
    return {name: value for name, value in given.items() if value is not None}


def from_steps(given: Sequence[Mapping[str, Any]]) -> Proof:
    """The proof that a list of steps stands for, as `lk` takes it and `show` gives it. It isn't checked."""
    if not given:
        raise ProofError("there is no step")
    built: List[Proof] = []
    for number, one in enumerate(given):
        try:
            built.append(from_step(one, built))
        except (KeyError, ValueError) as error:
            raise ProofError(f"step {number}: {error}") from error
    return built[-1]


def from_step(one: Mapping[str, Any], earlier: Sequence[Proof]) -> Proof:
    """The proof that a step makes of those of the steps before it."""
    form = RULES[one["rule"]]
    wrong = [k for k in one["premises"] if not 0 <= k < len(earlier)]
    if wrong:
        raise ProofError(f"its premise {wrong[0]} is no earlier step")
    return Proof(one["rule"], Sequent.of(one["left"], one["right"]), tuple(earlier[k] for k in one["premises"]),
                 formulas.canonical(one["main"]) if form.names_main else None,
                 formulas.term_text(formulas.term(one["term"])) if form.field == "term" else None,
                 formulas.variable(one["var"]) if form.field == "var" else None)


def lk_job(proof: Proof, name: str) -> Dict[str, Any]:
    """The job that asks gaptd to check a proof."""
    return {"job": name, "op": "lk", "steps": steps(proof)}


# Weakening

def without_weak(proof: Proof) -> Proof:
    """The proof without the inferences by `weak` whose premise does in their place.

    A premise may be any subsequent of what its rule wants, so no rule needs a weakening above it. At the root the last rule is
    given the whole end sequent, or a `weak` where its eigenvariable is free in that."""
    kept: Dict[int, Proof] = {}
    for part in subproofs(proof):
        premises = tuple(kept[id(premise)] for premise in part.premises)
        kept[id(part)] = premises[0] if part.rule == "weak" else replace(part, premises=premises)
    return ending(kept[id(proof)], proof.end)


def ending(proof: Proof, end: Sequent) -> Proof:
    """The proof with a larger end sequent."""
    if proof.end == end:
        return proof
    if proof.var is not None and end.with_free(proof.var):
        return Proof("weak", end, (proof,))
    return replace(proof, end=end)


def pruned(proof: Proof, definitions: Optional[Definitions] = None) -> Proof:
    """The proof without formulas and inferences that it doesn't need: from the leaves down each conclusion has what is left of its premises
    without their auxiliary formulas, and the main formula. A premise that has none of its auxiliary formulas takes the inference's place.
    Without their definitions inferences by `defL` and `defR` stay as they are.
    """
    kept: Dict[int, Proof] = {}
    for part in subproofs(proof):
        kept[id(part)] = pruned_inference(part, tuple(kept[id(premise)] for premise in part.premises), definitions)
    return ending(kept[id(proof)], proof.end)


def pruned_inference(part: Proof, premises: Tuple[Proof, ...], definitions: Optional[Definitions] = None) -> Proof:
    """The last inference of a proof over premises with smaller end sequents, as small as can be."""
    if part.rule in ("defL", "defR") and definitions is None:
        return replace(part, premises=premises)
    end = main_sequent(part.rule, part.main)
    for premise, aux in zip(premises, auxiliary(part.rule, part.main, part.term or part.var or "", definitions)):
        if premise.end - aux == premise.end:
            return premise
        end = end | (premise.end - aux)
    return replace(part, premises=premises, end=end)


def shorten(session: Session, name: str, as_name: Optional[str] = None, by: Callable[[Proof], Proof] = without_weak, **fields: Any
            ) -> Tuple[str, Proof]:
    """The name of a job by which gaptd has checked a shorter proof of the same sequent, and that proof.

    It is shortened `by` a function on proofs. `fields` are further ones of the job `lk`, as `using`."""
    ok = session.run("show", of=name).ok
    if "steps" not in ok:
        raise ProofError(f"{name} holds expansion trees, and no proof that could be shortened")
    shown = from_steps(ok["steps"])
    shorter = by(shown)
    reply = session.run("lk", as_name or f"{name.replace('.', '-')}-short", steps=steps(shorter), **fields)
    if Sequent.of(reply.ok["left"], reply.ok["right"]) != shown.end:
        raise ProofError("the shorter proof has another end sequent")
    return str(reply.job), shorter


def main() -> int:
    parser = argparse.ArgumentParser(prog="python3 -m gaptd.proofs", description="A proof without needless weakenings, as a job.")
    add_program(parser)
    parser.add_argument("--prune", action="store_true", help="leave out formulas and inferences that aren't needed too")
    parser.add_argument("file", help="a file of jobs; - is the standard input")
    parser.add_argument("name", help="the job whose proof is taken")
    words = parser.parse_args()
    from .show import holding_proof  # (it stands on this module)
    history = History()
    with Session(words.program) as session:
        for job, reply in send_file(session, words.file):
            history.add(job, reply)
        holding_proof(words.name, history)
        using = history.using(words.name)
        fields: Dict[str, Any] = {"using": using} if using else {}
        name, proof = shorten(session, words.name, by=pruned if words.prune else without_weak, **fields)
    print(json.dumps({**lk_job(proof, name), **fields}, separators=(",", ":")))
    return 0


if __name__ == "__main__":
    sys.exit(guarded(main))
