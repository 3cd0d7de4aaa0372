"""Says in words why a job was refused: what its step should have been, and what is too much or missing.

    python3 -m gaptd.explain FILE

runs the jobs of a file, in JSON of any layout, and explains each refusal. Nothing here decides: it reads the job again beside gaptd's
answer.
"""
from __future__ import annotations

import argparse
import difflib
import sys
from typing import Any, Callable, Dict, Iterable, Iterator, List, Mapping, Optional, Sequence, Set, Tuple

from . import clauses, formulas, tptp
from .client import NAME_LENGTH, Reply, Session, add_program, guarded, send_file
from .operations import ASKED, HELD, NOTHING, PAIR, SEARCHES, kind_held, near, without_suffix
from .rules import RULES, Definition, Definitions, Sequent, auxiliary, main_sequent

Job = Mapping[str, Any]
Error = Mapping[str, Any]


class History:
    """The jobs of a session by name, with their replies."""

    def __init__(self) -> None:
        self.jobs: Dict[str, Tuple[Job, Reply]] = {}

    def add(self, job: Any, reply: Reply) -> None:
        if reply.job is not None:
            self.jobs.setdefault(reply.job, (job, reply))

    def using(self, name: str) -> List[str]:
        """The definitions that a job uses, or that the jobs use from whose proofs its own is made."""
        found: Dict[str, None] = {}
        seen: Set[int] = set()
        waiting = [name]
        while waiting:
            job, _ = self.jobs.get(without_suffix(waiting.pop()), ({}, None))
            if not isinstance(job, dict) or id(job) in seen:
                continue
            seen.add(id(job))
            found.update(dict.fromkeys(one for one in job.get("using", ()) if isinstance(one, str)))
            waiting.extend(job[field] for field in ("proof", "expansion") if isinstance(job.get(field), str))
        return list(found)

    def definitions(self, job: Job) -> Definitions:
        """The definitions that a job uses."""
        found: Dict[Tuple[str, int], Definition] = {}
        for name in job.get("using", []):
            given, _ = self.jobs.get(name, ({}, None))
            if given.get("op") == "define":
                variables = tuple(given["vars"])
                symbol = formulas.unquoted(given["symbol"].strip())
                found[symbol, len(variables)] = Definition(symbol, variables, formulas.formula(given["body"]))
        return found


def explain(job: Job, error: Error, history: Optional[History] = None) -> str:
    """Why the job was refused with this error object, in some lines of text."""
    explainer = EXPLAINERS.get(error["kind"], other)
    return "\n".join(explainer(job, error, history or History()))


def refusal_lines(job: Job, reply: Reply, history: History) -> Iterator[str]:
    """A refusal in words, with the job's name and number before it."""
    assert reply.error is not None
    yield f"job {reply.job or 'without a name'} (number {reply.n}) is refused as {reply.error['kind']}:"
    for line in explain(job, reply.error, history).splitlines():
        yield "  " + line


# Steps of proofs

def step(job: Job, error: Error, history: History) -> Iterator[str]:
    steps, number = job["steps"], error["step"]
    given = steps[number]
    yield f"step {number} is {step_text(given)}"
    cause = STEP_CAUSES[error["cause"]]
    yield from cause(steps, number, error.get("premise", 0), history.definitions(job))


def step_text(given: Job) -> str:
    """A step in one line: its rule, what it names, its conclusion and its premises."""
    return f"{inference_text(given)}:  {end_of(given)}"


def inference_text(given: Job) -> str:
    """A step without its conclusion."""
    form = RULES[given["rule"]]
    words = [given["rule"]]
    if form.names_main:
        words.append(formulas.canonical(given["main"]))
    if form.field:
        words.append(f"by {given[form.field]}")
    if given["premises"]:
        words.append("over " + " and ".join(f"step {k}" for k in given["premises"]))
    return " ".join(words)


def end_of(given: Job) -> Sequent:
    return Sequent.of(given["left"], given["right"])


def wanted_of(given: Job, definitions: Definitions) -> List[Sequent]:
    """For each premise the largest end sequent that it may have: the conclusion with the premise's auxiliary formulas."""
    form = RULES[given["rule"]]
    added = auxiliary(given["rule"], given["main"] if form.names_main else None, given.get(form.field, ""), definitions)
    return [end_of(given) | aux for aux in added]


Steps = List[Dict[str, Any]]


def reference(steps: Steps, number: int, premise: int, definitions: Definitions) -> Iterator[str]:
    wrong = [k for k in steps[number]["premises"] if k >= number]
    yield f"its premise {wrong[0]} is no earlier step: steps are counted from 0, and only steps 0 to {number - 1} come before it" \
        if number else f"it is the first step, so it can have no premise, and {wrong[0]} is named"


def premises(steps: Steps, number: int, premise: int, definitions: Definitions) -> Iterator[str]:
    rule = steps[number]["rule"]
    yield f"{rule} takes {RULES[rule].premises} premise{'s' * (RULES[rule].premises != 1)}, and the step names " \
          f"{len(steps[number]['premises'])}"


def shape(steps: Steps, number: int, premise: int, definitions: Definitions) -> Iterator[str]:
    given = steps[number]
    connective = RULES[given["rule"]].connective
    whole = formulas.formula(given["main"])
    if connective is formulas.Atom and isinstance(whole, formulas.Atom):
        yield f"{given['rule']} takes an atom whose symbol `using` defines, and {formulas.formula_text(whole)} has no definition there"
        return
    yield f"{given['rule']} takes {formulas.KIND_NAMES[connective] if connective else 'another formula'}, and the main formula is " \
          f"{formulas.KIND_NAMES[type(whole)]}: {bracketed(whole)}"
    if given["main"].lstrip()[:1] in ("!", "?", "~") and isinstance(whole, formulas.Binary):
        yield "a quantifier or a ~ takes only the unit behind it: put parentheses around all that it shall take"


def bracketed(whole: formulas.Formula) -> str:
    """The canonical text, with the parts of a binary formula in parentheses."""
    if not isinstance(whole, formulas.Binary):
        return formulas.formula_text(whole)
    sign = {formulas.And: "&", formulas.Or: "|", formulas.Imp: "=>"}[type(whole)]
    return f"({formulas.formula_text(whole.left)}) {sign} ({formulas.formula_text(whole.right)})"


def main_missing(steps: Steps, number: int, premise: int, definitions: Definitions) -> Iterator[str]:
    given = steps[number]
    main = main_sequent(given["rule"], given["main"] if RULES[given["rule"]].names_main else None)
    for side, texts in (("left", main.left - end_of(given).left), ("right", main.right - end_of(given).right)):
        for text in texts:
            yield f"the {side} of its conclusion must have the main formula {text}"
            near = difflib.get_close_matches(text, getattr(end_of(given), side), 1)
            if near:
                yield f"  the nearest formula there is {near[0]}"


def eigen_free(steps: Steps, number: int, premise: int, definitions: Definitions) -> Iterator[str]:
    given = steps[number]
    having = end_of(given).with_free(given["var"])
    texts = ", ".join(formulas.rising(having.left | having.right))
    yield f"the eigenvariable {given['var']} may not be free in the conclusion, and it is in {texts}"


def premise(steps: Steps, number: int, premise: int, definitions: Definitions) -> Iterator[str]:
    given = steps[number]
    above = given["premises"][premise]
    end, wanted = end_of(steps[above]), wanted_of(given, definitions)[premise]
    added = wanted - end_of(given)
    yield f"its premise {premise} is {step_text(steps[above])}"
    yield f"that may have the formulas of the conclusion" + (f", and the auxiliary formulas {added}" if added else "")
    surplus, unused = end - wanted, added - end
    for side in ("left", "right"):
        for text in formulas.rising(getattr(surplus, side)):
            yield f"  too much on the {side}: {text}"
        for text in formulas.rising(getattr(unused, side)):
            yield f"  not there on the {side}: {text}"


StepCause = Callable[[Steps, int, int, Definitions], Iterator[str]]
STEP_CAUSES: Dict[str, StepCause] = {
    "reference": reference, "premises": premises, "shape": shape, "main_missing": main_missing, "eigen_free": eigen_free,
    "premise": premise,
}


# Refutations

def refutation(job: Job, error: Error, history: History) -> Iterator[str]:
    problem, _ = history.jobs.get(job["problem"], ({}, None))
    if "text" not in problem:
        yield f"step {error['step']} is wrong: {error['cause']}"
        return
    inputs = tptp.clauses_of(problem["text"])
    derived: List[clauses.Clause] = []
    for number, given in enumerate(job["steps"][:error["step"] + 1]):
        try:
            derived.append(clauses.derive(given, inputs, derived))
        except clauses.RefutationError as wrong:
            yield f"{number:4}  {refutation_text(given):32} is wrong: {wrong}"
            return
        yield f"{number:4}  {refutation_text(given):32} {derived[-1]}"
    yield "the last clause isn't empty" if derived else "there is no step"


def not_ground(job: Job, error: Error, history: History) -> Iterator[str]:
    name, number = job["problem"], error["clause"]
    problem, _ = history.jobs.get(name, ({}, None))
    found = [entry for entry in tptp.entries(problem.get("text", "")) if entry.language == "cnf"]
    if number >= len(found):
        yield f"{job['op']} takes clauses without variables, and clause {number} of {name} (counted from 0) has one"
        return
    clause = tptp.clause_of(found[number])
    variables = sorted(clause.variables())
    has = f"the variable{'s' * (len(variables) > 1)} {' and '.join(variables)}"
    yield f"{job['op']} takes clauses without variables, and clause {number} of {name} (counted from 0) has {has}"
    yield f"  it is {formulas.name_text(found[number].name)}: {clause}"
    yield "  what begins with a capital is a variable; write instances of the clause, with terms in place of its variables, or ask prove"


def refutation_text(given: Job, names: Sequence[str] = ()) -> str:
    """A step in one line; with the names of the clauses an input is told with its name."""
    if "input" in given:
        return f"input {given['input']}" + (f", {names[given['input']]}" if names else "")
    if "subst" in given:
        return f"subst {given['subst']} " + " ".join(f"{name}:={text}" for name, text in given["map"].items())
    return f"resolve {given['resolve'][0]} {given['resolve'][1]} on {given['atom']}"


# Texts, fields and names

def at_field(job: Job, path: str) -> Any:
    """What stands at a path, None if nothing does."""
    found: Any = job
    for part in path.split("/"):
        try:
            found = found[int(part)] if isinstance(found, list) else found[part]
        except (KeyError, IndexError, ValueError, TypeError):
            return None
    return found


def pointed(text: str, at: int) -> Iterator[str]:
    """The line of a text around a byte, and a caret under it."""
    raw = text.encode()
    begin = raw.rfind(b"\n", 0, at) + 1
    end = raw.find(b"\n", at)
    line = raw[begin:end if end >= 0 else len(raw)].decode("utf-8", "replace")
    column = len(raw[begin:at].decode("utf-8", "replace"))
    first = max(0, column - 60)
    yield "  " + line[first:column + 60]
    yield "  " + " " * (column - first) + "^"


def text_fault(job: Job, error: Error, history: History) -> Iterator[str]:
    path = error.get("field", "text")
    whole = f"the text of {path}" if "field" in error else "the problem text"
    yield f"{whole} has a fault at byte {error['at']}: {TEXT_FAULTS.get(error['what'], error['what'])}"
    text = at_field(job, path)
    if isinstance(text, str):
        yield from pointed(text, error["at"])


TEXT_FAULTS: Dict[str, str] = {
    "token": "a byte that begins no token, or can't stand in quotes",
    "defined_word": "only $true and $false may begin with $",
    "number": "numbers are no terms; write a name, as n1 or '1'",
    "distinct": "there are no texts in double quotes",
    "open_quote": "a quote that isn't closed",
    "open_comment": "a comment that isn't closed",
    "expected": "no formula goes on like this; a chain with different connectives needs parentheses",
    "deep": "past a limit: 200 levels, 1,000 members of a chain, 1,000 variables of a quantifier",
    "include": "includes aren't followed; python3 -m gaptd.tptp does that",
    "language": "entries are fof and cnf",
    "name_twice": "an earlier entry has this name",
    "role": "no role of this language",
    "clause": "a cnf entry is a disjunction of literals",
}


def bad_field(job: Job, error: Error, history: History) -> Iterator[str]:
    path = error["field"]
    found = at_field(job, path)
    yield f"the field {path} " + ("is missing" if found is None else f"can't be {found!r}")
    if path.endswith("/rule") and isinstance(found, str):
        yield from listed("rules", found, RULES)
    elif path == "job":
        yield f"  a job's name is 1 to {NAME_LENGTH} letters, digits, _ and -"


def bad_operation(job: Job, error: Error, history: History) -> Iterator[str]:
    yield f"there is no operation {job.get('op')}"
    yield from listed("operations", str(job.get("op")), HELD)


def listed(what: str, word: str, known: Iterable[str]) -> Iterator[str]:
    """The known words that a wrong one is like, or where there are none all of them."""
    like = near(word, known)
    yield f"  {what} like it: {', '.join(like)}" if like else f"  the {what} are {', '.join(known)}"


def unknown_name(job: Job, error: Error, history: History) -> Iterator[str]:
    yield f"no earlier job has the name {error['name']}"
    name, _, suffix = error["name"].rpartition(".")
    if name in history.jobs:
        yield f"  there is a job {name}, and .{suffix} is no suffix: the two proofs of a pair end in .first and .second"
        return
    like = near(error["name"], history.jobs)
    if like:
        yield f"  names like it: {', '.join(like)}"


def wrong_kind(job: Job, error: Error, history: History) -> Iterator[str]:
    name = without_suffix(error["name"])
    given, reply = history.jobs.get(name, ({}, None))
    if reply is None or reply.error is None:
        yield from holds_another(job, error["name"], given, reply.ok if reply else {})
        return
    yield f"{error['name']} was refused itself (and keeps its name all the same):"
    for line in explain(given, reply.error, history).splitlines():
        yield "  " + line


def holds_another(job: Job, name: str, given: Job, ok: Mapping[str, Any]) -> Iterator[str]:
    """What an accepted job holds that has this reply, and what the field asks for that names it."""
    base, operation = without_suffix(name), str(given.get("op", "another operation"))
    held = kind_held(operation, ok)
    found = operation in SEARCHES and held == NOTHING
    yield f"{base} is a job by {operation}, which holds {held}" + (f": it found {found_instead(ok)}, and no refutation" if found else "")
    if base != name and held != PAIR:
        yield "  only a pair of proofs is named with a suffix"
        return
    for field, kinds in ASKED.items():
        if (name == job.get(field) or (field == "using" and name in (job.get(field) or ()))) and held not in kinds:
            yield f"  the field {field} asks for {' or '.join(kinds)}" + (f": say {name}.first or {name}.second" if held == PAIR else "")
            return


def found_instead(ok: Mapping[str, Any]) -> str:
    """What a search found in place of a refutation."""
    return "saturated clauses" if "clauses" in ok else "a model"


def falsified(job: Job, error: Error, history: History) -> Iterator[str]:
    yield "the sequent is false if just these atoms are true: " + (", ".join(error["true"]) or "none")


SENTENCES: Dict[str, str] = {
    "line_too_long": "the line has more than 16,777,216 bytes",
    "json": "the line isn't JSON as gaptd reads it: UTF-8, at most 127 levels, no lone surrogate",
    "name_taken": "an earlier line has the name {job}, which it keeps even if it was refused: take another one",
    "empty": "the list of steps is empty",
    "budget": "the budget doesn't suffice: set the field budget, at most 1000000000",
    "memory": "memory ran out while this job, or one that it names, was run",
    "cut": "the proof has a cut, at step {step} of what show gives: eliminate the cuts first",
    "quantified": "on the {side} there is a quantifier in {formula}",
    "partition": "on the {side}, {formula} is not in just the sequents that it should be in",
    "not_prenex": "on the {side}, {formula} is not weak quantifiers alone (! on the left, ? on the right) over a formula without any",
    "defined": "on the {side}, {formula} has a defined symbol: unfold it first",
    "node": "node {node} of the expansion is wrong: {cause}",
    "root": "root {root} of the expansion is wrong: {cause}",
    "eigen_twice": "two strong quantifiers have the variable {var}",
    "eigen_free": "the variable {var} of a strong quantifier is free in the sequent",
    "cycle": "each of these variables has to come before the next, and the last before the first: {cycle}",
    "too_many": "the proof has {count} instances, more than cut introduction takes",
    "def_twice": "the definition {name} has the symbol of one before it",
    "def_free": "the variable {var} is free in the body and is none of the definition's variables",
    "def_large": "the body is too large when it is unfolded",
    "rounds": "the rounds reach no refutation, and a further one would add clauses: set the field rounds, at most 1000 (10 without it)",
}


class Blanks(Dict[str, Any]):
    def __missing__(self, key: str) -> str:
        return "?"


def other(job: Job, error: Error, history: History) -> Iterator[str]:
    known = job if isinstance(job, dict) else {}
    yield SENTENCES.get(error["kind"], f"refused as {dict(error)}").format_map(Blanks({**known, **error}))


Explainer = Callable[[Job, Error, History], Iterable[str]]
EXPLAINERS: Dict[str, Explainer] = {
    "step": step, "refutation": refutation, "formula": text_fault, "tptp": text_fault, "field": bad_field, "unknown_name": unknown_name,
    "kind": wrong_kind, "falsified": falsified, "op": bad_operation, "not_ground": not_ground,
}


def main() -> int:
    parser = argparse.ArgumentParser(prog="python3 -m gaptd.explain", description="Explains the refusals of a file of jobs.")
    add_program(parser)
    parser.add_argument("file", nargs="?", default="-", help="a file of jobs; the standard input without it")
    words = parser.parse_args()
    history = History()
    with Session(words.program) as session:
        exchanged = send_file(session, words.file)
    refused = 0
    for job, reply in exchanged:
        if reply.error is not None:
            refused += 1
            print("\n".join(refusal_lines(job, reply, history)))
        history.add(job, reply)
    print(f"{refused} of {len(exchanged)} jobs refused")
    return 1 if refused else 0


if __name__ == "__main__":
    sys.exit(guarded(main))
