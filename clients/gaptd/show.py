"""Proofs, expansion trees, interpolations, problems, Herbrand sequents, models and refutations to look at.

    python3 -m gaptd.show [--html | --latex] [--short | --prune] [--proof] FILE NAME ..

runs the jobs of a file and shows what the named ones hold: as text, as one page of HTML in which subtrees fold when they are clicked, or as
LaTeX with the package bussproofs. Of an interpolation both proofs are shown, of a problem and of a job `herbrand` the sequent, of a job `sat`
the model, or the refutation with the clause of each step. With `--proof` it is the proof in LK that the refutation stands for, as it is on a
page and in LaTeX. With `--short` proofs are shown without needless weakenings, with `--prune` without formulas and inferences that aren't
needed; gaptd has checked the shorter proofs.
"""
from __future__ import annotations

import argparse
import sys
from dataclasses import dataclass
from pathlib import Path
from typing import Any, Callable, Iterable, Iterator, List, Mapping, NamedTuple, Optional, Sequence, Tuple, Union

from . import clauses, formulas, latex, page, readable, tptp
from .client import Reply, Session, add_program, guarded, send_file
from .expansions import Expansion
from .explain import History, explain, found_instead, refutation_text
from .operations import HELD, NOTHING, PAIR, PROOF, SEARCHES, kind_held, near, without_suffix
from .progress import Progress
from .proofs import Proof, from_steps, pruned, shorten, steps, without_weak
from .rules import Sequent

Shorter = Callable[[Proof], Proof]
Job = Mapping[str, Any]
Write = Callable[[str], str]
# An expansion tree is written with its shared parts repeated, up to so many lines.
MOST_LINES = 2_000
WIDTH = 120  # of a row of atoms


class ShowError(ValueError):
    """A name that stands for nothing that can be shown."""


class Model(NamedTuple):
    """A model of clauses: which of their atoms are true in it, and which are false."""

    true: Sequence[str]
    false: Sequence[str]


class Refutation(NamedTuple):
    """The steps of a refutation, each as a text, with the clauses that they derive."""

    steps: Sequence[str]
    derived: Sequence[clauses.Clause]


@dataclass(frozen=True)
class Section:
    """A part of what is shown: a heading, and a proof, an expansion, a sequent, a model or a refutation."""

    title: str
    shown: Union[Proof, Expansion, Sequent, Model, Refutation]

    def drawn(self) -> Tuple[str, page.Shown]:
        """The heading, and what can be drawn: a model as the sequent that it makes false."""
        if isinstance(self.shown, Model):
            return f"{self.title}: what is true on the left, what is false on the right", Sequent.of(*self.shown)
        assert not isinstance(self.shown, Refutation)
        return self.title, self.shown


def named_sections(session: Session, name: str, history: History, by: Optional[Shorter] = None, is_proof: bool = False) -> List[Section]:
    """What a job of a file holds, or what its reply tells of: a sequent, a model, and a refutation where that isn't to be shown as a proof.
    Raises ShowError."""
    job, reply = accepted(name, history)
    operation = job["op"]
    if operation == "problem":
        return [Section(f"{name}: the problem's sequent", Sequent.of(reply.ok["left"], reply.ok["right"]))]
    if operation == "define":
        arguments = f" of {reply.ok['arity']} arguments" if reply.ok["arity"] else ""
        return [Section(f"{name}: {reply.ok['symbol']}{arguments} stands for", Sequent.of([], [reply.ok["body"]]))]
    if operation in SEARCHES and name == reply.job and not (is_proof and "steps" in reply.ok):
        return [found_section(name, reply, history.jobs[job["problem"]][0]["text"])]
    if operation == "herbrand":
        tuples = f"{reply.ok['count']} tuple{'s' * (reply.ok['count'] != 1)}"
        return [Section(f"{name}: the Herbrand sequent, of {tuples}", Sequent.of(reply.ok["left"], reply.ok["right"]))]
    if HELD.get(operation) == NOTHING:
        raise ShowError(f"{name} is a job by {operation}, which holds nothing that could be shown. Its reply is {reply.ok}")
    if HELD.get(operation) != PAIR and name != reply.job:
        raise ShowError(f"{reply.job} is a job by {operation}, and only an interpolation's proofs are named with a suffix")
    interpolant = str(reply.ok["formula"]) if name == reply.job and HELD.get(operation) == PAIR else ""
    return sections(session, name, interpolant, by, history.using(name))


def found_section(name: str, reply: Reply, problem: str) -> Section:
    """What a search found among the clauses of a problem text."""
    if "steps" in reply.ok:
        return Section(f"{name}: a refutation, in which each step derives a clause", refutation(reply.ok["steps"], problem))
    title = f"{name}: {found_instead(reply.ok)}"
    if "clauses" in reply.ok:
        closed = [[*(f"~({atom})" for atom in one["left"]), *one["right"]] for one in reply.ok["clauses"]]
        return Section(title, Sequent.of((" | ".join(literals) for literals in closed), []))
    true = reply.ok["true"]
    atoms = {literal.atom for clause in tptp.clauses_of(problem) for literal in clause.literals}
    return Section(title, Model(true, formulas.rising(set(map(formulas.formula_text, atoms)) - set(true))))


def refutation(found: Sequence[Job], problem: str) -> Refutation:
    """A refutation of the clauses of a problem text, with what each step derives."""
    inputs = tptp.clauses_of(problem)
    names = [formulas.name_text(entry.name) for entry in tptp.entries(problem) if entry.language == "cnf"]
    derived: List[clauses.Clause] = []
    with Progress(len(found)) as progress:
        for step in found:
            derived.append(clauses.derive(step, inputs, derived))
            progress.step()
    return Refutation([refutation_text(step, names) for step in found], derived)


def accepted(name: str, history: History) -> Tuple[Job, Reply]:
    """The job that a name is about, and its reply. Raises ShowError where there is none, or it was refused."""
    base = without_suffix(name)
    if base not in history.jobs:
        like = near(base, history.jobs)
        raise ShowError(f"there is no job {base} in the file" + (f"; names like it are {', '.join(like)}" if like else ""))
    job, reply = history.jobs[base]
    if reply.error is not None:
        reason = explain(job, reply.error, history).splitlines()[0]
        raise ShowError(f"{base} is refused as {reply.error['kind']}: {reason}")
    return job, reply


def holding_proof(name: str, history: History) -> Job:
    """The job of a file that holds the proof of this name. Raises ShowError where there is none."""
    job, reply = accepted(name, history)
    base, held = without_suffix(name), kind_held(job["op"], reply.ok)
    if held not in (PROOF, PAIR):
        raise ShowError(f"{base} is a job by {job['op']}, which holds no proof")
    if held == PAIR and base == name:
        raise ShowError(f"{base} is a job by {job['op']}, which holds a pair of proofs: say {base}.first or {base}.second")
    if held == PROOF and base != name:
        raise ShowError(f"{base} is a job by {job['op']}, and only an interpolation's proofs are named with a suffix")
    return job


def sections(session: Session, name: str, interpolant: str = "", by: Optional[Shorter] = None, using: Sequence[str] = ()) -> List[Section]:
    """What a job holds, its proofs shortened if it is said how. Of an interpolation, whose interpolant is given, both proofs. `using` names
    the definitions that its proofs use."""
    if interpolant:
        return [Section(f"{name}: the interpolant {interpolant}, {which} proof", section.shown)
                for which in ("first", "second") for section in sections(session, f"{name}.{which}", by=by, using=using)]
    shown = session.run("show", of=name).ok
    if "steps" not in shown:
        return [Section(name, Expansion.read(shown))]
    fields = {"using": list(using)} if using else {}
    return [Section(name, shorten(session, name, by=by, **fields)[1] if by else from_steps(shown["steps"]))]


def proof_text(proof: Proof, write: Write = str) -> str:
    """The steps of a proof, one in a line: number, rule with its premises, conclusion. Cuts have a star."""
    rows: List[List[str]] = []
    for number, one in enumerate(steps(proof)):
        detail = write(one["main"]) if one["rule"] == "cut" else one.get("term") or one.get("var")
        over = " ".join(map(str, one["premises"]))
        star = "*" if one["rule"] == "cut" else ""
        rows.append([f"{star}{number}", " ".join(filter(None, [one["rule"], detail, over and f"over {over}"])),
                     f"{', '.join(map(write, one['left']))} |- {', '.join(map(write, one['right']))}".strip()])
    first, second = (max(len(row[k]) for row in rows) for k in (0, 1))
    return "\n".join(f"{row[0]:>{first}}  {row[1]:{min(second, 40)}}  {row[2]}" for row in rows)


def expansion_text(expansion: Expansion, write: Write = str) -> str:
    """The trees of an expansion, instances indented below their quantifier, each behind its term."""
    lines: List[str] = []
    for line in expansion_lines(expansion, write):
        lines.append(line)
        if len(lines) == MOST_LINES:
            lines.append("..")
            break
    return "\n".join(lines)


def expansion_lines(expansion: Expansion, write: Write) -> Iterator[str]:
    texts = [write(formulas.formula_text(whole)) for whole in expansion.formulas()]
    quantified = expansion.quantified()
    for side in ("left", "right"):
        yield f"{side}:"
        waiting = [(root, "", 1) for root in reversed(getattr(expansion, side))]
        while waiting:
            number, edge, depth = waiting.pop()
            node = expansion.nodes[number]
            mark = {"wk": " (not used)", "strong": f" (eigenvariable {node.get('var')})"}.get(node["kind"], "")
            yield "  " * depth + (f"{edge}: " if edge else "") + texts[number] + mark
            if quantified[number]:
                waiting.extend((below, by, depth + 1) for below, by in reversed(expansion.children(node)))


def sequent_text(end: Sequent, write: Write = str) -> str:
    """A sequent with its formulas below each other."""
    return "\n".join(["left:", *(f"  {write(text)}" for text in formulas.rising(end.left)),
                      "right:", *(f"  {write(text)}" for text in formulas.rising(end.right))])


def model_text(model: Model, write: Write = str) -> str:
    """The atoms of a model, in rows."""
    return "\n".join(["true:", *rows(map(write, model.true)), "false:", *rows(map(write, model.false))])


def rows(texts: Iterable[str]) -> Iterator[str]:
    """The texts in indented lines, as many in each as have room in it."""
    line = ""
    for one in texts:
        if line and len(line) + len(one) + 2 > WIDTH:
            yield f"  {line},"
            line = ""
        line += f", {one}" if line else one
    if line:
        yield f"  {line}"


def refutation_lines(shown: Refutation, write: Write = str) -> str:
    """The steps of a refutation, one in a line: number, what is done, the clause that is derived."""
    first, second = len(str(len(shown.steps) - 1)), max(map(len, shown.steps))
    return "\n".join(f"{number:>{first}}  {step:{min(second, 40)}}  {write(str(clause))}"
                     for number, (step, clause) in enumerate(zip(shown.steps, shown.derived)))


def text(shown: Sequence[Section], write: Write = str) -> str:
    """The sections as plain text; `write` may write canonical texts in another way."""
    return "\n\n".join(f"{section.title}\n\n{body_text(section, write)}" for section in shown) + "\n"


def body_text(section: Section, write: Write) -> str:
    shown = section.shown
    if isinstance(shown, Sequent):
        return sequent_text(shown, write)
    if isinstance(shown, Model):
        return model_text(shown, write)
    if isinstance(shown, Refutation):
        return refutation_lines(shown, write)
    return proof_text(shown, write) if isinstance(shown, Proof) else expansion_text(shown, write)


def main() -> int:
    parser = argparse.ArgumentParser(prog="python3 -m gaptd.show", description="Shows what jobs hold.")
    add_program(parser)
    form = parser.add_mutually_exclusive_group()
    form.add_argument("--html", action="store_true", help="one page with drawings")
    form.add_argument("--latex", action="store_true", help="a LaTeX document")
    shorter = parser.add_mutually_exclusive_group()
    shorter.add_argument("--short", dest="by", action="store_const", const=without_weak, help="without weakenings that other rules absorb")
    shorter.add_argument("--prune", dest="by", action="store_const", const=pruned, help="without what a proof doesn't need")
    parser.add_argument("--readable", action="store_true", help="formulas as a person writes them: quantifiers in blocks, bound variables "
                        "X, Y, Z, and <=>; not with --latex")
    parser.add_argument("--proof", action="store_true", help="of a refutation the proof in LK that it stands for; so it always is but for plain "
                        "text")
    parser.add_argument("--output", type=Path, help="the file to write; the standard output without it")
    parser.add_argument("file", help="a file of jobs; - is the standard input")
    parser.add_argument("names", nargs="+", help="the jobs to show")
    words = parser.parse_args()
    with Session(words.program) as session:
        history = History()
        for job, reply in send_file(session, words.file):
            history.add(job, reply)
        is_proof = bool(words.proof or words.by or words.html or words.latex)
        shown = [section for name in words.names for section in named_sections(session, name, history, words.by, is_proof)]
    write: Write = readable.formula if words.readable else str
    if words.html:
        written = page.page(" and ".join(words.names), [section.drawn() for section in shown], write)
    else:
        written = latex.document([section.drawn() for section in shown]) if words.latex else text(shown, write)
    if words.output:
        words.output.write_text(written, encoding="utf-8")
    else:
        sys.stdout.write(written)
    return 0


if __name__ == "__main__":
    sys.exit(guarded(main))
