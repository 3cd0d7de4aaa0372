"""What the scripts of this folder share: runs of the program, files of jobs with their replies, and which bytes are right.

Where memory runs out while a job is run, its reply is the `memory` line, and so is that of a job that names such a job, unless another of its
fields has a fault. Everything else is as in the file of replies. So the bytes that were written tell which replies are right.
"""
from __future__ import annotations

import json
import re
import subprocess
import sys
from pathlib import Path
from typing import Any, Callable, Dict, FrozenSet, Iterator, List, NamedTuple, Optional, Sequence, Set, Tuple

EXAMPLES = Path(__file__).resolve().parents[1] / "examples"
SECONDS = 300.0
LINE_LIMIT = 1 << 24
NOTES = {0: b"", 1: b"", 3: b"gaptd: read fault\n", 4: b"gaptd: write fault\n", 5: b"gaptd: out of memory\n", 6: b"gaptd: input too long\n"}

# Faults that are met before a job's names are looked up, and faults behind these that are met without work: want of memory never stands in
# the place of one.
EARLY = frozenset(("line_too_long", "json", "field", "op", "formula", "tptp", "name_taken"))
LATE = frozenset(("empty", "step"))

# The fields of each operation that name jobs, in the order in which they are looked up, with what they take. `using` is a list of names.
PROOF, PROBLEM, TREES, DEFINITION = frozenset(["proof"]), frozenset(["problem"]), frozenset(["trees"]), frozenset(["definition"])
FIELDS: Dict[str, Sequence[Tuple[str, FrozenSet[str]]]] = {
    "proves": (("proof", PROOF), ("problem", PROBLEM)), **{op: (("problem", PROBLEM),) for op in ("resolution", "sat", "prove")},
    "fromexp": (("expansion", TREES),), "show": (("of", PROOF | TREES),), "lk": (("using", DEFINITION),), "define": (("using", DEFINITION),),
    **{op: (("proof", PROOF),) for op in ("subst", "cutelim", "eliminate", "unfold", "expand", "interpolate", "herbrand", "cutintro", "measure")},
}
HOLDS = {"problem": "problem", "define": "definition", "expansion": "trees", "expand": "trees", "interpolate": "pair",
         **{op: "proof" for op in ("lk", "subst", "resolution", "cutelim", "eliminate", "unfold", "tautology", "fromexp", "cutintro")}}
# Operations that look for a refutation.
SEARCHES = ("sat", "prove")


class Run(NamedTuple):
    """How the program ended: its status, which is negative where a signal ended it, and what it wrote on each of its outputs."""

    status: int
    out: bytes
    notes: bytes


class Wrong(Exception):
    """What is wrong with a run."""


def run(*command: str, source: Any = b"", sink: Any = subprocess.PIPE, **more: Any) -> Run:
    """Runs the program on bytes or on an open file. What it writes to a file isn't told."""
    given = {"input": source} if isinstance(source, bytes) else {"stdin": source}
    try:
        done = subprocess.run(command, stdout=sink, stderr=subprocess.PIPE, timeout=SECONDS, **given, **more)
    except subprocess.TimeoutExpired:
        raise Wrong(f"it hasn't ended after {SECONDS:g} seconds") from None
    return Run(done.returncode, done.stdout or b"", done.stderr)


def line_of(reply: Any) -> bytes:
    """A reply as the program writes it."""
    return json.dumps(reply, separators=(",", ":"), sort_keys=True, ensure_ascii=False).encode() + b"\n"


def lines_of(data: bytes) -> List[bytes]:
    """The lines with their newlines, which the last one may lack."""
    return re.findall(rb"[^\n]*\n|[^\n]+", data)


def jobs_of(data: bytes) -> List[bytes]:
    """The lines that are jobs."""
    return [line for line in data.split(b"\n") if len(line) > LINE_LIMIT or line.strip(b" \t\r")]


def has_error(replies: Sequence[bytes]) -> bool:
    return any(line.startswith(b'{"error":') for line in replies)


def kind_of(reply: Any) -> Optional[str]:
    return reply.get("error", {}).get("kind")


def short(line: bytes) -> str:
    return repr(line if len(line) < 200 else line[:200] + b"..")


def names_in(job: Dict[str, Any]) -> Iterator[Tuple[str, FrozenSet[str]]]:
    """The names of jobs in a job, with what each may stand for."""
    for field, takes in FIELDS.get(job.get("op", ""), ()):
        names = job.get(field, []) if field == "using" else [job[field]]
        yield from ((name, takes) for name in names)


class Exchange:
    """A file of jobs with the replies beside it."""

    def __init__(self, path: Path) -> None:
        self.name, self.data = path.stem, path.read_bytes()
        self.whole = path.with_suffix(".replies").read_bytes()
        self.kept = lines_of(self.whole)
        self.replies = [json.loads(line) for line in self.kept]
        self.first: Dict[str, int] = {}
        for place, reply in enumerate(self.replies):
            if reply["job"] is not None:
                self.first.setdefault(reply["job"], place)
        lines = jobs_of(self.data)
        self.jobs = [{} if kind_of(reply) in EARLY else json.loads(line) for line, reply in zip(lines, self.replies)]
        if len(lines) != len(self.kept) or any(self.allowed(place, set())[0] != line for place, line in enumerate(self.kept)):
            raise ValueError(f"the replies beside {path} aren't those to its jobs")

    def error(self, place: int, **error: Any) -> bytes:
        return line_of({"error": error, "job": self.replies[place]["job"], "n": place + 1})

    def holds(self, place: int) -> Optional[str]:
        """What a job holds that is no error: a refutation that a search found is held as a proof; a model, or saturated clauses, aren't."""
        op, ok = self.jobs[place]["op"], self.replies[place]["ok"]
        return ("proof" if "steps" in ok else None) if op in SEARCHES else HOLDS.get(op)

    def named(self, place: int, name: str) -> Tuple[Optional[int], Optional[str]]:
        """The earlier job that a name stands for, and what it holds with ample memory."""
        whole, suffix = re.fullmatch(r"(.*?)(\.first|\.second)?", name, re.DOTALL).groups()
        job = self.first.get(whole, place)
        if job >= place:
            return None, None
        holds = None if kind_of(self.replies[job]) else self.holds(job)
        return job, (("proof" if holds == "pair" else None) if suffix else holds)

    def allowed(self, place: int, lacking: Set[int]) -> Tuple[bytes, bool]:
        """The reply to a job where these earlier ones lacked memory, and whether the `memory` line may stand in its place."""
        job, kind, needs = self.jobs[place], kind_of(self.replies[place]), False
        for name, takes in names_in(job):
            earlier, holds = self.named(place, name)
            if earlier is None:
                return self.error(place, kind="unknown_name", name=name), False
            if earlier in lacking or kind_of(self.replies[earlier]) == "memory":
                needs = True
            elif holds not in takes:
                return self.error(place, kind="kind", name=name), False
        if needs:
            return self.error(place, kind="memory"), False
        return self.kept[place], kind not in (EARLY if job.get("using") else EARLY | LATE)

    def rights(self, place: int, lacking: Set[int]) -> List[bytes]:
        """The lines that may be the reply to a job."""
        line, may_lack = self.allowed(place, lacking)
        return [line, self.error(place, kind="memory")] if may_lack else [line]

    def judge(self, done: Run) -> str:
        """How a run ended for which memory was wanting. A run that mustn't end so is wrong."""
        lines = lines_of(done.out)
        rest = lines.pop() if lines and not lines[-1].endswith(b"\n") else b""
        if done.status not in (0, 1, 5) or done.notes != NOTES[done.status]:
            raise Wrong(f"its status is {done.status} and its note {short(done.notes)}")
        if len(lines) + (rest != b"") > len(self.kept):
            raise Wrong("there are more replies than jobs")
        lacking: Set[int] = set()
        for place, line in enumerate(lines):
            if line not in self.rights(place, lacking):
                raise Wrong(f"the reply to job {place + 1} is {short(line)}, and it should be {short(self.allowed(place, lacking)[0])}")
            if line == self.error(place, kind="memory"):
                lacking.add(place)
        if rest and not any(right.startswith(rest) for right in self.rights(len(lines), lacking)):
            raise Wrong(f"the part of a reply to job {len(lines) + 1} is {short(rest)}")
        if done.status == 5:
            return "with status 5"
        if rest or len(lines) < len(self.kept) or done.status != has_error(lines):
            raise Wrong(f"its status is {done.status}, with {len(lines)} replies to {len(self.kept)} jobs")
        return "with all replies" if done.out == self.whole else "with memory replies"


def guarded(main: Callable[[], int]) -> int:
    """Runs a script. What keeps it from its trials is one line on standard error, and status 1."""
    try:
        return main()
    except (Wrong, ValueError, OSError, subprocess.CalledProcessError) as error:
        print(f"{Path(sys.argv[0]).name}: {error}", file=sys.stderr)
        return 1


def told(tally: Dict[str, int]) -> str:
    """Counts in words."""
    return ", ".join(f"{count} {what}" for what, count in sorted(tally.items()) if count) or "none"
