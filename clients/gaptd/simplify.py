"""Interpolants without needless parts, and proofs of sequents without strong quantifiers.

    python3 -m gaptd.simplify interpolant FILE NAME           proofs of both parts with a simpler interpolant
    python3 -m gaptd.simplify skolemize FILE NAME             a proof that herbrand and cutintro take
    python3 -m gaptd.simplify back FILE NAME SKOLEMIZED       from such a proof one of the sequent of NAME

What is printed are jobs, and all of them have been checked by the program. The functions are counted over the whole sequent, so `back` names a
job with the same sequent as the one that `skolemize` named.
"""
from __future__ import annotations

import argparse
import json
import sys
from typing import Any, Dict, Iterator, List, Mapping, Sequence, Tuple

from . import formulas
from .client import Reply, Session, add_program, guarded, send_file
from .equivalences import Equivalence, simplified
from .expansions import Expansion
from .explain import History
from .operations import HELD, PAIR, PROBLEM, PROOF, kind_held, without_suffix
from .proofs import Proof, cut, from_steps, lk_job, pruned, shorten, steps, weak
from .rules import Sequent
from .show import accepted
from .skolem import Skolemized

BUDGET = 1_000_000_000
Job = Dict[str, Any]


class SimplifyError(ValueError):
    """A job that holds another thing than what is asked for."""


# Interpolants

def interpolant(session: Session, name: str, job: Mapping[str, Any], formula: str) -> Tuple[str, Proof, Proof]:
    """The simpler form of the interpolant of a job, and proofs without cuts of both parts with it."""
    found = simplified(formulas.formula(formula))
    text = formulas.formula_text(found.second)
    first, second = (Sequent.of(job[part]["left"], job[part]["right"]) for part in ("first", "second"))
    there = with_other(session, f"{name}.first", found, first | Sequent.of([], [text]))
    back = with_other(session, f"{name}.second", found, second | Sequent.of([text], []))
    return text, there, back


def with_other(session: Session, name: str, found: Equivalence, end: Sequent) -> Proof:
    """The proof of a part with the second formula of an equivalence for the first one: by a cut, which the program eliminates."""
    given, middle = from_steps(session.run("show", of=name).ok["steps"]), formulas.formula_text(found.first)
    if found.first == found.second:
        return given
    is_first = name.endswith(".first")
    whole = cut(given, found.there, middle) if is_first else cut(found.back, given, middle)
    with_cut = session.run("lk", steps=steps(weak(whole, end.left, end.right)))
    without = session.run("eliminate", proof=with_cut.job)
    return checked(shorten(session, str(without.job), by=pruned)[1], end)


def checked(proof: Proof, end: Sequent) -> Proof:
    if proof.end != end:
        raise SimplifyError(f"the proof is of {proof.end}, and one of {end} was expected")
    return proof


def interpolant_jobs(session: Session, name: str, history: History) -> Iterator[Job]:
    job, reply = accepted(name, history)
    if HELD.get(job["op"]) != PAIR or name != reply.job:
        raise SimplifyError(f"{name} is a job by {job['op']}, and no interpolate")
    before = reply.ok["formula"]
    text, first, second = interpolant(session, name, job, before)
    print(f"simplify: the interpolant {before} " + (f"becomes {text}" if text != before else "has no needless part"), file=sys.stderr)
    yield lk_job(first, f"{name[:50]}-first")
    yield lk_job(second, f"{name[:50]}-second")


# Strong quantifiers

def expansion_of(session: Session, name: str) -> Expansion:
    """The expansion trees of a proof, whose cuts are eliminated before."""
    if session.run("measure", proof=name).ok["cuts"]:
        name = str(session.run("eliminate", proof=name).job)
    trees = session.run("expand", proof=name, budget=BUDGET)
    return Expansion.read(session.run("show", of=trees.job).ok)


def proof_jobs(session: Session, expansion: Expansion, name: str, end: Tuple[Sequence[str], Sequence[str]]) -> List[Job]:
    """The jobs that make a proof of expansion trees, which have been checked, and the end sequent too."""
    trees = {"nodes": list(expansion.nodes), "left": list(expansion.left), "right": list(expansion.right)}
    jobs = [{"job": f"{name}-instances", "op": "expansion", **trees, "budget": BUDGET},
            {"job": name, "op": "fromexp", "expansion": f"{name}-instances", "budget": BUDGET}]
    last = [reply.checked() for reply in session.batch(jobs)][-1].ok
    if Sequent.of(last["left"], last["right"]) != Sequent.of(*end):
        raise SimplifyError(f"the proof is of {Sequent.of(last['left'], last['right'])}, and one of {Sequent.of(*end)} was expected")
    return jobs


def with_sequent(name: str, history: History, *kinds: str) -> Tuple[Mapping[str, Any], Reply]:
    """A job that holds a value of one of these kinds, with its reply, which says a sequent."""
    job, reply = accepted(name, history)
    if kind_held(job["op"], reply.ok) not in kinds or name != without_suffix(name):
        raise SimplifyError(f"{name} is a job by {job['op']}, and holds no{' and no'.join(kind.lstrip('a') for kind in kinds)}")
    if "left" not in reply.ok:
        raise SimplifyError(f"{name} is a job by {job['op']}, whose reply tells of no sequent")
    return job, reply


def skolemize_jobs(session: Session, name: str, history: History) -> List[Job]:
    """The jobs for a proof of the sequent without strong quantifiers, from a proof of the sequent."""
    _, reply = with_sequent(name, history, PROOF)
    skolemized = Skolemized(reply.ok["left"], reply.ok["right"])
    expansion = skolemized.there(expansion_of(session, name))
    return proof_jobs(session, expansion, f"{name[:40]}-skolemized", (skolemized.side(True), skolemized.side(False)))


def back_jobs(session: Session, name: str, proof: str, history: History) -> List[Job]:
    """The jobs for a proof of the sequent of a proof or a problem, from a proof of the sequent without strong quantifiers."""
    _, reply = with_sequent(name, history, PROOF, PROBLEM)
    with_sequent(proof, history, PROOF)
    skolemized = Skolemized(reply.ok["left"], reply.ok["right"])
    expansion = skolemized.back(expansion_of(session, proof))
    return proof_jobs(session, expansion, f"{name[:40]}-back", (reply.ok["left"], reply.ok["right"]))


def main() -> int:
    parser = argparse.ArgumentParser(prog="python3 -m gaptd.simplify", description="Simpler interpolants, and sequents without strong quantifiers.")
    add_program(parser)
    parser.add_argument("what", choices=("interpolant", "skolemize", "back"), help="proofs with a simpler interpolant; a proof without strong "
                        "quantifiers; a proof of the sequent again")
    parser.add_argument("file", help="a file of jobs; - is the standard input")
    parser.add_argument("name", help="the job: an interpolate; a proof; a proof or a problem")
    parser.add_argument("proof", nargs="?", help="for back: the job with a proof of the sequent without strong quantifiers")
    words = parser.parse_args()
    if (words.what == "back") != (words.proof is not None):
        parser.error("back, and nothing else, takes two names of jobs")
    with Session(words.program) as session:
        history = History()
        for job, reply in send_file(session, words.file):
            history.add(job, reply)
        if words.what == "back":
            jobs = back_jobs(session, words.name, words.proof, history)
        else:
            jobs = list((interpolant_jobs if words.what == "interpolant" else skolemize_jobs)(session, words.name, history))
    for job in jobs:
        print(json.dumps(job, separators=(",", ":")))
    return 0


if __name__ == "__main__":
    sys.exit(guarded(main))
