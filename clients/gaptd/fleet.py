"""Many files of jobs over many processes or machines: each file is a session of its own.

    python3 -m gaptd.fleet [--workers N] FILE ..

runs the program on each file, and writes the replies beside it, as NAME.replies. Files whose replies are there already, and no older than
the file, are left alone: so what was broken off goes on where it was. A file is run whole or not at all.

    for outcome in run(paths, executor=executor): ..

does so by any executor of `concurrent.futures`, and gives what became of each file as soon as it is done.
"""
from __future__ import annotations

import argparse
import concurrent.futures
import contextlib
import os
import shlex
import subprocess
import sys
from concurrent.futures import Executor
from dataclasses import dataclass, replace
from pathlib import Path
from typing import Dict, Iterable, Iterator, List, Optional, Sequence

from .client import add_program, default_program, guarded
from .errors import STATUSES
from .progress import Progress

REFUSED = b'{"error":'


@dataclass(frozen=True)
class Outcome:
    """What became of a file: how many replies there are, how many of them are refusals, and the `fault` for which there are none."""

    path: Path
    replies: int = 0
    refused: int = 0
    fault: str = ""

    @property
    def is_good(self) -> bool:
        return not self.fault and not self.refused

    def __str__(self) -> str:
        if self.fault:
            return f"{self.path}: {self.fault}"
        return f"{self.path}: {self.refused} of {self.replies} jobs refused" if self.refused else f"{self.path}: {self.replies} replies"


def replies_path(path: Path) -> Path:
    return path.with_suffix(".replies")


def is_done(path: Path) -> bool:
    """Whether the replies to a file stand beside it, and are no older than it."""
    try:
        return replies_path(path).stat().st_mtime_ns >= path.stat().st_mtime_ns
    except OSError:
        return False


def run_file(path: Path, program: Sequence[str]) -> Outcome:
    """Runs the program on a file. The replies take their name once they are complete."""
    part = path.with_name(f"{path.name}.{os.getpid()}.part")
    try:
        with path.open("rb") as jobs, part.open("wb") as replies:
            done = subprocess.run(list(program), stdin=jobs, stdout=replies, stderr=subprocess.PIPE, check=False)
        if done.returncode not in (0, 1):
            return Outcome(path, fault=status_text(done.returncode, done.stderr))
        os.replace(part, replies_path(path))
        return counted(path)
    except OSError as error:
        return Outcome(path, fault=f"{error.strerror or error}" + (f": {error.filename}" if error.filename else ""))
    finally:
        part.unlink(missing_ok=True)


def status_text(status: int, said: bytes) -> str:
    meaning = STATUSES.get(status, "it was ended from outside or crashed")
    last = said.decode("utf-8", "replace").strip().splitlines()[-1:]
    return "; ".join([f"the program ended with status {status}: {meaning}", *last])


def counted(path: Path) -> Outcome:
    """The outcome that the replies beside a file tell of."""
    with replies_path(path).open("rb") as replies:
        refused = [line.startswith(REFUSED) for line in replies]
    return Outcome(path, len(refused), sum(refused))


def run(paths: Iterable[Path], program: Optional[Sequence[str]] = None, executor: Optional[Executor] = None, workers: Optional[int] = None
        ) -> Iterator[Outcome]:
    """Runs the program on files, and gives the outcome of each as it is done. Without an executor it is by so many processes.

    An executor on another machine must find the files and the program there by the same paths."""
    words = list(program or default_program())
    if executor is None:
        with concurrent.futures.ProcessPoolExecutor(workers) as processes:
            yield from run(paths, words, processes)
        return
    futures = {executor.submit(run_file, path.absolute(), words): path for path in paths}
    try:
        for future in concurrent.futures.as_completed(futures):
            yield outcome_of(future, futures[future])
    finally:
        for future in futures:
            future.cancel()


def outcome_of(future: "concurrent.futures.Future[Outcome]", path: Path) -> Outcome:
    """What became of a file, under the path that was given."""
    try:
        return replace(future.result(), path=path)
    except Exception as error:  # (whatever befell the worker befell this file)
        return Outcome(path, fault=f"its worker failed: {error or type(error).__name__}")


@contextlib.contextmanager
def by_scheduler(address: str) -> Iterator[Executor]:
    """The executor of a Dask scheduler."""
    try:
        from distributed import Client  # type: ignore[import-not-found]
    except ImportError as error:
        raise ValueError("--scheduler needs the Python package distributed, of Dask") from error
    with Client(address) as client:
        yield client.get_executor()


def different(paths: Sequence[Path]) -> List[Path]:
    """The paths, each once. Raises ValueError where two files have the same place for their replies, or one is that of another."""
    places: Dict[Path, Path] = {}
    for path in dict.fromkeys(paths):
        other = places.setdefault(replies_path(path), path)
        if other != path:
            raise ValueError(f"the replies to {other} and to {path} have the same name, {replies_path(path)}")
    wrong = next((path for path in paths if path.suffix == ".replies"), None)
    if wrong is not None:
        raise ValueError(f"{wrong} is a file of replies, and no file of jobs")
    return list(places.values())


def main() -> int:
    parser = argparse.ArgumentParser(prog="python3 -m gaptd.fleet", description="Runs many files of jobs, each a session, side by side.")
    add_program(parser)
    parser.add_argument("--workers", type=int, help="how many files are run at a time; as many as there are processors without it")
    parser.add_argument("--scheduler", help="the address of a Dask scheduler whose workers run the files in place of processes here")
    parser.add_argument("--again", action="store_true", help="run files too whose replies are there")
    parser.add_argument("files", nargs="+", type=Path, help="files of jobs, one a line")
    words = parser.parse_args()
    if words.workers is not None and words.workers < 1:
        parser.error("--workers is at least 1")
    paths = different(words.files)
    due = [path for path in paths if words.again or not is_done(path)]
    failed = [outcome for outcome in map(counted, (path for path in paths if path not in due)) if not outcome.is_good]
    program = shlex.split(words.program) if words.program else None
    with by_scheduler(words.scheduler) if words.scheduler else contextlib.nullcontext() as executor, Progress(len(due)) as progress:
        for outcome in run(due, program, executor, words.workers):
            progress.step(outcome.path.name)
            failed += [] if outcome.is_good else [outcome]
    for outcome in sorted(failed, key=lambda outcome: paths.index(outcome.path)):
        print(outcome)
    print(f"{len(due)} of {len(paths)} files run, {len(failed)} with failures")
    return 1 if failed else 0


if __name__ == "__main__":
    sys.exit(guarded(main))
