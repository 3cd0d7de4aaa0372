"""All faulty steps of proofs in one run, and steps whose sides are left out, filled in.

    python3 -m gaptd.lint FILE ..           names the faults of each job `lk`
    python3 -m gaptd.lint --fill FILE ..    prints the jobs, with the sides of their steps filled in

The program names the first fault of a job. Here each step is looked at by itself, over the conclusions that its premises state, as if these
were right. `left` and `right` may be left out of a step: they are then what the premises have without their auxiliary formulas, and the main
formula. The program decides all the same: each job is sent to it, what it accepts has no fault, and a fault that only it finds is told too.
"""
from __future__ import annotations

import argparse
import sys
from dataclasses import dataclass
from typing import Any, Callable, Dict, Iterable, Iterator, List, Mapping, Optional, Tuple

from . import formulas
from .client import Session, add_program, encoded, guarded, reading_jobs
from .explain import STEP_CAUSES, History, end_of, explain, inference_text, pointed, step_text
from .formulas import TextError
from .operations import near
from .progress import Progress
from .rules import RULES, Definitions, RuleError, Sequent, auxiliary, main_sequent

Step = Dict[str, Any]
SIDES = ("left", "right")


@dataclass(frozen=True)
class Finding:
    """Something about a step. `cause` is one of LANGUAGE's causes of a faulty step, or `field` or `formula` for a field that can't be read, or
    `sides` where sides that are left out can't be derived, or `unused` for what the program allows and hardly was meant."""

    step: int
    cause: str
    lines: Tuple[str, ...]
    place: int = 0

    @property
    def is_fault(self) -> bool:
        return self.cause != "unused"


@dataclass(frozen=True)
class Examined:
    """A job `lk` with the sides of its steps filled in as far as they can be derived, and what was found, by rising step."""

    job: Dict[str, Any]
    findings: List[Finding]

    @property
    def is_filled(self) -> bool:
        return not any(finding.cause == "sides" for finding in self.findings)

    @property
    def faults(self) -> List[Finding]:
        return [finding for finding in self.findings if finding.is_fault]


def examine(job: Mapping[str, Any], definitions: Optional[Definitions] = None) -> Examined:
    """Looks at all steps of a job `lk`."""
    given = job.get("steps")
    if not isinstance(given, list):
        return Examined(dict(job), [])  # (the program says so)
    proof = Steps(definitions or {})
    for one in given:
        proof.add(one)
    return Examined({**job, "steps": proof.steps}, proof.findings)


class Steps:
    """Steps as they are filled in, with what was found. `ends` has the conclusion of each, or None where it isn't known."""

    def __init__(self, definitions: Definitions) -> None:
        self.definitions = definitions
        self.steps: List[Any] = []
        self.ends: List[Optional[Sequent]] = []
        self.findings: List[Finding] = []

    def add(self, given: Any) -> None:
        number = len(self.steps)
        step = dict(given) if isinstance(given, dict) else given
        self.steps.append(step)
        unread = list(field_faults(step, f"steps/{number}"))
        self.findings += [Finding(number, cause, tuple(lines)) for cause, lines in unread]
        self.ends.append(None)
        if not unread:
            self.examine(number, step)
        elif isinstance(step, dict) and not any(True for side in SIDES for _ in side_faults(step, side, "")):
            self.ends[number] = end_of(step) if all(side in step for side in SIDES) else None

    def examine(self, number: int, step: Step) -> None:
        """Fills in a step that can be read, and looks for its faults in the order in which the program does."""
        added, cause = self.added(number, step)
        if all(side in step for side in SIDES):
            self.ends[number] = end_of(step)
        elif added is not None and not cause:
            self.fill(number, step, added)
        if cause:
            self.fault(number, cause)
        if not all(side in step for side in SIDES):
            if cause:
                self.find(number, "sides", "its sides are left out, and can't be derived as long as it has this fault")
            return
        if added is not None and not cause:
            self.conclusion(number, step, added)

    def added(self, number: int, step: Step) -> Tuple[Optional[List[Sequent]], str]:
        """The auxiliary formulas of each premise, or the cause for which there are none."""
        form = RULES[step["rule"]]
        if any(k >= number for k in step["premises"]):
            return None, "reference"
        if len(step["premises"]) != form.premises:
            return None, "premises"
        try:
            return auxiliary(step["rule"], main_of(step), step.get(form.field, ""), self.definitions), ""
        except RuleError:
            return None, "shape"

    def fill(self, number: int, step: Step, added: List[Sequent]) -> None:
        """Puts the sides into a step that are left out: those of its premises without auxiliary formulas, and the main formula."""
        missing = [side for side in SIDES if side not in step]
        unknown = [k for k in step["premises"] if self.ends[k] is None]
        if unknown:
            self.find(number, "sides", f"its sides are left out, and can't be derived: those of its premise, step {unknown[0]}, aren't known")
            return
        if step["rule"] == "weak" and len(missing) == 2:
            self.find(number, "sides", "its sides are left out, and can't be derived: a weakening has to say to which sequent")
            return
        end = main_sequent(step["rule"], main_of(step))
        for place, (k, aux) in enumerate(zip(step["premises"], added)):
            premise = self.ends[k] or Sequent()
            if aux and premise - aux == premise:
                self.find(number, "unused", f"its premise {place}, step {k}, has none of the auxiliary formulas {aux}: it ends with {premise}",
                          place)
            end = end | (premise - aux)
        for side in missing:
            step[side] = formulas.rising(getattr(end, side))
        self.ends[number] = end_of(step)

    def conclusion(self, number: int, step: Step, added: List[Sequent]) -> None:
        """The faults of a step with a right shape."""
        end = end_of(step)
        if not main_sequent(step["rule"], main_of(step)) <= end:
            self.fault(number, "main_missing")
        if RULES[step["rule"]].field == "var" and end.with_free(step["var"]):
            self.fault(number, "eigen_free")
        for place, (k, aux) in enumerate(zip(step["premises"], added)):
            premise = self.ends[k]
            if premise is not None and not premise <= end | aux:
                self.fault(number, "premise", place)

    def fault(self, number: int, cause: str, place: int = 0) -> None:
        self.find(number, cause, *STEP_CAUSES[cause](self.steps, number, place, self.definitions), place=place)

    def find(self, number: int, cause: str, *lines: str, place: int = 0) -> None:
        self.findings.append(Finding(number, cause, tuple(lines), place))


def main_of(step: Step) -> Optional[str]:
    return step["main"] if RULES[step["rule"]].names_main else None


# Fields

Fault = Tuple[str, List[str]]  # `field` or `formula`, and what is said of it


def field_faults(step: Any, path: str) -> Iterator[Fault]:
    """The fields of a step that can't be read. Sides may be left out."""
    if not isinstance(step, dict):
        yield "field", [f"the field {path} is no object"]
        return
    rule = step.get("rule")
    if not isinstance(rule, str) or rule not in RULES:
        yield "field", [said_of(step, "rule", path), *rules_like(rule)]
    else:
        yield from named_faults(step, rule, path)
    if not is_list_of(step.get("premises"), lambda one: isinstance(one, int) and not isinstance(one, bool) and one >= 0):
        yield "field", [said_of(step, "premises", path) + ": it is a list of the numbers of earlier steps"]
    for side in SIDES:
        yield from side_faults(step, side, path)


def named_faults(step: Step, rule: str, path: str) -> Iterator[Fault]:
    """The faults of the main formula, and of the term or the eigenvariable."""
    form = RULES[rule]
    if form.names_main:
        yield from text_faults(step, "main", path, formulas.formula)
    if form.field:
        yield from text_faults(step, form.field, path, formulas.term if form.field == "term" else formulas.variable)


def text_faults(step: Step, field: str, path: str, read: Callable[[str], Any]) -> Iterator[Fault]:
    text = step.get(field)
    if not isinstance(text, str):
        yield "field", [said_of(step, field, path)]
        return
    yield from unreadable(text, read, f"{path}/{field}")


def side_faults(step: Step, side: str, path: str) -> Iterator[Fault]:
    if side not in step:
        return
    if not is_list_of(step[side], lambda one: isinstance(one, str)):
        yield "field", [said_of(step, side, path) + ": it is a list of formulas"]
        return
    for place, text in enumerate(step[side]):
        yield from unreadable(text, formulas.formula, f"{path}/{side}/{place}")


def unreadable(text: str, read: Callable[[str], Any], path: str) -> Iterator[Fault]:
    """The fault of a text that can't be read."""
    try:
        read(text)
    except TextError as error:
        at = len(text[:error.at].encode("utf-8", "replace"))
        lines = pointed(text.encode("utf-8", "replace").decode(), at)
        yield "formula", [f"the text of {path} has a fault at byte {at}: {error.what}", *lines]
    except RecursionError:
        yield "formula", [f"the text of {path} is nested too deeply"]


def said_of(step: Step, field: str, path: str) -> str:
    return f"the field {path}/{field} " + (f"can't be {step[field]!r}" if field in step else "is missing")


def rules_like(rule: Any) -> List[str]:
    like = near(rule, RULES) if isinstance(rule, str) else []
    return [f"  rules like it: {', '.join(like)}"] if like else [f"  the rules are {', '.join(RULES)}"]


def is_list_of(given: Any, fits: Callable[[Any], bool]) -> bool:
    return isinstance(given, list) and all(map(fits, given))


# Files of jobs

class Linter:
    """Looks at the jobs of a session: each `define` and each `lk` is sent to the program, whose word counts."""

    def __init__(self, session: Session) -> None:
        self.session = session
        self.history = History()
        self.error: Mapping[str, Any] = {}

    def lint(self, job: Any) -> Tuple[Any, List[str]]:
        """A job, if it is an `lk` with its sides filled in, and what is said of it: nothing where nothing was found."""
        if not isinstance(job, dict) or job.get("op") not in ("lk", "define"):
            return job, []
        if job["op"] == "define":
            return job, self.refusal(job)
        using = job.get("using")
        examined = examine(job, self.history.definitions(job) if is_list_of(using, lambda one: isinstance(one, str)) else {})
        return examined.job, self.said(examined)

    def said(self, examined: Examined) -> List[str]:
        lines = list(finding_lines(examined.findings, examined.job.get("steps", [])))
        if not examined.is_filled:
            return lines
        refusal = self.refusal(examined.job)
        if not refusal:
            return list(finding_lines((one for one in examined.findings if not one.is_fault), examined.job["steps"]))
        is_known = any(self.names(finding) for finding in examined.faults)
        return lines if is_known else [*lines, "the program says:", *(f"  {line}" for line in refusal)]

    def names(self, finding: Finding) -> bool:
        """Whether a fault is the one for which the program refused the last job."""
        error = self.error
        if finding.cause in ("field", "formula"):
            return error["kind"] == finding.cause and f"{error['field']}/".startswith(f"steps/{finding.step}/")
        return error["kind"] == "step" and (error["step"], error["cause"], error.get("premise", 0)) == (
            finding.step, finding.cause, finding.place)

    def refusal(self, job: Dict[str, Any]) -> List[str]:
        """Why the program refuses a job; nothing where it accepts it."""
        (_, reply), = self.session.send_all([job])
        if reply.error is None:
            self.history.add(job, reply)
            return []
        self.error = reply.error
        return [f"refused as {reply.error['kind']}", *explain(job, reply.error, self.history).splitlines()]


def finding_lines(findings: Iterable[Finding], steps: List[Any]) -> Iterator[str]:
    """Findings under the steps that they are about, each of which is written once."""
    last = -1
    for finding in findings:
        if finding.cause in ("field", "formula"):
            yield from finding.lines
            continue
        if finding.step != last:
            last, step = finding.step, steps[finding.step]
            yield f"step {last} is {step_text(step) if all(side in step for side in SIDES) else inference_text(step)}"
        yield from (f"  {line}" for line in finding.lines)


def main() -> int:
    parser = argparse.ArgumentParser(prog="python3 -m gaptd.lint", description="All faulty steps of the jobs lk of some files.")
    add_program(parser)
    parser.add_argument("--fill", action="store_true", help="print the jobs with the sides of their steps filled in, and "
                        "what is found on standard error")
    parser.add_argument("files", nargs="*", default=["-"], help="files of jobs in JSON of any layout, each a session; the standard input without")
    words = parser.parse_args()
    found = [one for path in words.files for one in linted(path, words.program, words.fill)]
    faulty = sum(found)
    print(f"{faulty} of {len(found)} jobs with findings", file=sys.stderr if words.fill else sys.stdout)
    return 1 if faulty else 0


def linted(path: str, program: Optional[str], is_filling: bool) -> Iterator[bool]:
    """Whether something is said of each job of a file; what it is, is printed."""
    jobs = list(reading_jobs(path))
    with Session(program) as session, Progress(len(jobs)) as progress:
        linter = Linter(session)
        for number, job in enumerate(jobs, 1):
            filled, lines = linter.lint(job)
            name = job.get("job") if isinstance(job, dict) else None
            report([f"{path}, job {name or 'without a name'} (number {number}):", *(f"  {line}" for line in lines)] if lines else [], is_filling)
            if is_filling:
                sys.stdout.buffer.write(encoded(filled) + b"\n")
            progress.step()
            yield bool(lines)


def report(lines: Iterable[str], is_filling: bool) -> None:
    for line in lines:
        print(line, file=sys.stderr if is_filling else sys.stdout)


if __name__ == "__main__":
    sys.exit(guarded(main))
