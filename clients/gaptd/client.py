"""A session with gaptd.

    with Session() as session:
        proof = session.run("lk", "proof", steps=[..])
        print(proof.ok["right"])
        shorter = session.run("cutelim", proof=proof.job)

`run` sends one job and an empty line, so that the reply comes at once, and raises the class of `gaptd.errors` that fits a refusal.
`batch` sends many jobs and reads replies while it writes, so neither side ever waits for the other.

    python3 -m gaptd.client FILE    sends the jobs of a file, in JSON of any layout, and prints the replies
"""
from __future__ import annotations

import argparse
import collections
import json
import os
import queue
import shlex
import subprocess
import sys
import threading
from contextlib import contextmanager
from dataclasses import dataclass
from pathlib import Path
from types import TracebackType
from typing import Any, Callable, Deque, Dict, IO, Iterable, Iterator, List, Mapping, Optional, Sequence, Set, Tuple, Type, Union

from .errors import GaptdError, ProgramEnded, ProgramMissing, ProtocolError, refusal
from .files import faults_in, read_text
from .operations import NOTHING, kind_held, without_suffix
from .progress import Progress

Job = Mapping[str, Any]
Program = Union[str, Sequence[str]]

NAME_LENGTH = 64
LINE_LENGTH = 1 << 24
NAMING_FIELDS = ("proof", "problem", "expansion", "of")


def default_program() -> List[str]:
    """The words of the environment variable GAPTD, or gaptd.sh at the top of the repository."""
    words = shlex.split(os.environ.get("GAPTD", ""))
    return words or [str(Path(__file__).resolve().parents[2] / "gaptd.sh")]


@dataclass(frozen=True)
class Reply:
    """A reply: the name that its job was sent by, its number, and the Ok object or the error."""

    job: Optional[str]
    n: int
    ok: Dict[str, Any]
    error: Optional[Dict[str, Any]] = None

    def checked(self) -> "Reply":
        """The reply, or the exception for its error."""
        if self.error is not None:
            raise refusal(self.job, self.n, self.error)
        return self

    def line(self) -> str:
        """The reply as the program writes it."""
        answer = {"ok": self.ok} if self.error is None else {"error": self.error}
        return json.dumps({**answer, "job": self.job, "n": self.n}, separators=(",", ":"), sort_keys=True, ensure_ascii=False)

    @staticmethod
    def read(line: bytes, n: int) -> "Reply":
        """The reply that a line is, if it is the one to job `n`."""
        try:
            given = json.loads(line)
            reply = Reply(given["job"], given["n"], given.get("ok", {}), given.get("error"))
        except (ValueError, KeyError, TypeError, AttributeError) as error:
            raise ProtocolError(f"no reply: {line[:200]!r}") from error
        if reply.n != n:
            raise ProtocolError(f"the reply to job {n} is due, and one to job {reply.n} came")
        return reply


class Names:
    """Names for jobs. Each job gets a name that no earlier one had, and a name in a field stands for the last accepted job so named."""

    def __init__(self) -> None:
        self.taken: Set[str] = set()
        self.attempts: Dict[str, int] = {}
        self.standing: Dict[str, str] = {}
        # While names are provisional: what each name that was changed stood for before.
        self.before: Optional[Dict[str, Optional[str]]] = None

    def stand(self, wanted: str, name: str) -> None:
        """From now on a name stands for the job `name`."""
        if self.before is not None:
            self.before.setdefault(wanted, self.standing.get(wanted))
        self.standing[wanted] = name

    @contextmanager
    def provisional(self) -> Iterator[None]:
        """Afterwards each name stands for the job again that it stood for before; that costs no more than what was changed."""
        self.before = {}
        try:
            yield
        finally:
            changed, self.before = self.before, None
            for wanted, name in changed.items():
                if name is None:
                    del self.standing[wanted]
                else:
                    self.standing[wanted] = name

    def fresh(self, wanted: str) -> str:
        """The wanted name, or where it is taken the name with a number."""
        name = wanted
        while name in self.taken:
            self.attempts[wanted] = self.attempts.get(wanted, 1) + 1
            ending = f"-{self.attempts[wanted]}"
            name = wanted[:NAME_LENGTH - len(ending)] + ending
        self.taken.add(name)
        return name

    def resolve(self, name: Any) -> Any:
        """The name under which the job stands that is called so."""
        if not isinstance(name, str):
            return name
        job = without_suffix(name)
        return self.standing.get(job, job) + name[len(job):]

    def prepare(self, job: Job) -> Dict[str, Any]:
        """The job as it is sent, by a fresh name and with the names in its fields resolved."""
        sent = dict(job)
        for field in NAMING_FIELDS:
            if field in sent:
                sent[field] = self.resolve(sent[field])
        if isinstance(sent.get("using"), (list, tuple)):
            sent["using"] = [self.resolve(name) for name in sent["using"]]
        sent["job"] = self.fresh(str(job.get("job") or job.get("op") or "job"))
        return sent


class Session:
    """One run of the program. `program` is its command; `timeout`, the seconds that a reply may take."""

    def __init__(self, program: Optional[Program] = None, timeout: Optional[float] = None) -> None:
        words = shlex.split(program) if isinstance(program, str) else list(program or default_program())
        self.program, self.timeout = words, timeout
        self.names = Names()
        self.accepted: List[Tuple[str, Dict[str, Any]]] = []
        self.start()

    def start(self) -> None:
        self.count = 0
        self.notes: Deque[str] = collections.deque(maxlen=20)
        self.lines: "queue.SimpleQueue[Optional[bytes]]" = queue.SimpleQueue()
        try:
            self.process = subprocess.Popen(self.program, stdin=subprocess.PIPE, stdout=subprocess.PIPE, stderr=subprocess.PIPE)
        except OSError as error:
            raise ProgramMissing(self.program, error) from error
        assert self.process.stdin and self.process.stdout and self.process.stderr
        self.input: IO[bytes] = self.process.stdin
        self.readers = [threading.Thread(target=self.take_lines, args=(self.process.stdout, self.lines), daemon=True),
                        threading.Thread(target=self.take_notes, args=(self.process.stderr, self.notes), daemon=True)]
        for reader in self.readers:
            reader.start()

    @staticmethod
    def take_lines(output: IO[bytes], lines: "queue.SimpleQueue[Optional[bytes]]") -> None:
        with output:
            for line in output:
                lines.put(line)
        lines.put(None)

    @staticmethod
    def take_notes(output: IO[bytes], notes: Deque[str]) -> None:
        with output:
            for line in output:
                text = line.decode("utf-8", "replace").rstrip()
                notes.append(text)
                print(text, file=sys.stderr)

    def exchange(self, lines: Iterable[bytes], replied: Callable[[], None] = lambda: None) -> List[Reply]:
        """Sends lines as they are, none of them empty, and gives their replies; `replied` is called at each. Raises ProgramEnded if the
        program ends before."""
        due, is_broken = list(lines), False
        try:
            for line in due:
                self.input.write(line + b"\n")
            self.input.write(b"\n")
            self.input.flush()
        except (BrokenPipeError, ValueError):
            is_broken = True
        replies: List[Reply] = []
        while len(replies) < len(due) or is_broken:
            line = self.next_line()
            if line is None:
                raise ProgramEnded(self.end(), list(self.notes), replies)
            self.count += 1
            replies.append(Reply.read(line, self.count))
            replied()
        return replies

    def next_line(self) -> Optional[bytes]:
        try:
            return self.lines.get(timeout=self.timeout)
        except queue.Empty:
            raise TimeoutError(f"no reply in {self.timeout} seconds") from None

    def send_all(self, jobs: Iterable[Any], replied: Callable[[], None] = lambda: None) -> List[Tuple[Any, Reply]]:
        """Sends jobs by their own names, and gives each with its reply. Their names are then taken."""
        given = list(jobs)
        replies = self.exchange((encoded(job) for job in given), replied)
        for job, reply in zip(given, replies):
            if reply.job is not None and reply.job not in self.names.taken:
                self.names.taken.add(reply.job)
                self.note(reply.job, job, reply)
        return list(zip(given, replies))

    def batch(self, jobs: Iterable[Job]) -> List[Reply]:
        """Sends jobs by fresh names, and gives their replies, refusals too. A job may name another one of the batch before it."""
        with self.names.provisional():
            sent = [self.prepared(job) for job in jobs]
        replies = self.exchange(encoded(job) for _, job in sent)
        for (wanted, job), reply in zip(sent, replies):
            if reply.job not in (job["job"], None):
                raise ProtocolError(f"the reply to {job['job']} is due, and one to {reply.job} came")
            self.note(wanted, job, reply)
        return replies

    def prepared(self, job: Job) -> Tuple[str, Dict[str, Any]]:
        """The name that a job wants, which stands for it from now on, and the job as it is sent."""
        prepared = self.names.prepare(job)
        wanted = str(job.get("job") or prepared["job"])
        self.names.stand(wanted, prepared["job"])
        return wanted, prepared

    def note(self, wanted: str, job: Dict[str, Any], reply: Reply) -> None:
        """Remembers an accepted job; one that holds nothing isn't sent again by `restart`."""
        if reply.error is None:
            self.names.stand(wanted, job["job"])
            if kind_held(str(job.get("op")), reply.ok) != NOTHING:
                self.accepted.append((wanted, job))

    def run(self, op: str, name: Optional[str] = None, **fields: Any) -> Reply:
        """Sends one job and gives its reply, whose `job` is the name that it got. Raises the class that fits a refusal."""
        return self.batch([{"job": name, "op": op, **fields}])[0].checked()

    def restart(self, keep: Optional[Iterable[str]] = None) -> None:
        """Starts the program again, and sends again the accepted jobs that hold something.

        With `keep` only these are sent, and those that they are made of: all else is forgotten, and its names are free."""
        if keep is not None:
            self.forget_all_but([without_suffix(self.names.resolve(name)) for name in keep])
        self.end()
        self.start()
        for reply in self.exchange(encoded(job) for _, job in self.accepted):
            reply.checked()

    def forget_all_but(self, waiting: List[str]) -> None:
        """Strikes accepted jobs out, but for those that were sent by these names and those that they are made of."""
        held = {job["job"]: (wanted, job) for wanted, job in self.accepted}
        kept: Set[str] = set()
        while waiting:
            name = waiting.pop()
            if name not in held:
                raise ValueError(f"no job {name} is held that could be kept")
            if name not in kept:
                kept.add(name)
                waiting.extend(without_suffix(one) for one in names_in(held[name][1]))
        self.accepted = [(wanted, job) for wanted, job in self.accepted if job["job"] in kept]
        self.names = Names()
        for wanted, job in self.accepted:
            self.names.stand(wanted, self.names.fresh(job["job"]))

    def close(self) -> int:
        """Ends the input, and gives the program's status: 0 if all jobs were answered Ok, 1 if one was refused."""
        try:
            self.input.close()
        except BrokenPipeError:
            pass
        for reader in self.readers:
            reader.join(self.timeout)
        return self.process.wait(self.timeout)

    def end(self) -> int:
        """Closes the session, and ends a program that doesn't end by itself."""
        try:
            self.input.close()
        except BrokenPipeError:
            pass
        try:
            status = self.process.wait(5)
        except subprocess.TimeoutExpired:
            self.process.kill()
            status = self.process.wait()
        for reader in self.readers:
            reader.join(5)
        return status

    def __enter__(self) -> "Session":
        return self

    def __exit__(self, kind: Optional[Type[BaseException]], error: Optional[BaseException], trace: Optional[TracebackType]) -> None:
        if kind is None:
            self.close()
        else:
            self.end()


def names_in(job: Job) -> List[str]:
    """The names of other jobs in a job's fields."""
    return [job[field] for field in NAMING_FIELDS if isinstance(job.get(field), str)] + list(job.get("using") or ())


def encoded(job: Any) -> bytes:
    """A job as one line of JSON."""
    return json.dumps(job, separators=(",", ":")).encode()


def reading_jobs(path: str) -> Iterator[Any]:
    """The JSON values of a file one after the other, in any layout; of the standard input where the path is -."""
    text = read_text(path)
    decoder, at = json.JSONDecoder(), 0
    while True:
        while at < len(text) and text[at] in " \t\r\n":
            at += 1
        if at == len(text):
            return
        with faults_in(path):
            job, at = decoder.raw_decode(text, at)
        yield job


def send_file(session: Session, path: str) -> List[Tuple[Any, Reply]]:
    """Sends the jobs of a file by their own names, and gives each with its reply. A terminal is told how far that is."""
    jobs = list(reading_jobs(path))
    with Progress(len(jobs)) as progress:
        return session.send_all(jobs, progress.step)


def add_program(parser: argparse.ArgumentParser) -> None:
    parser.add_argument("--program", help="the command of gaptd; else $GAPTD, else gaptd.sh of this repository")


def guarded(main: Callable[[], int]) -> int:
    """Runs a script. What goes wrong with its files or with the program is said on standard error, with status 1; broken off it ends with
    130, and silently where nobody reads what it writes."""
    try:
        status = main()
        sys.stdout.flush()
        return status
    except KeyboardInterrupt:
        return 130
    except BrokenPipeError:
        os.dup2(os.open(os.devnull, os.O_WRONLY), 1)  # (for what is flushed at the end)
        return 1
    except OSError as error:
        fault = f"{error.filename}: {error.strerror}" if error.filename and error.strerror else str(error)
    except (GaptdError, ValueError) as error:
        fault = str(error)
    except RecursionError:
        fault = "something is nested too deeply"
    print(f"{Path(sys.argv[0]).stem}: {fault}", file=sys.stderr)
    return 1


def main() -> int:
    parser = argparse.ArgumentParser(prog="python3 -m gaptd.client", description="Sends jobs and prints their replies.")
    add_program(parser)
    parser.add_argument("file", nargs="?", default="-", help="a file of jobs in JSON of any layout; the standard input without it")
    words = parser.parse_args()
    with Session(words.program) as session:
        for _, reply in send_file(session, words.file):
            print(reply.line())
        return session.close()


if __name__ == "__main__":
    sys.exit(guarded(main))
