"""What several tests need."""
from __future__ import annotations

import functools
import io
import json
import os
import runpy
import subprocess
import sys
import unittest
import warnings
from pathlib import Path
from typing import Any, Callable, Dict, Iterator, List, Tuple
from unittest import mock

from gaptd.client import Session, default_program
from gaptd.errors import UnknownOperation

CLIENTS = Path(__file__).resolve().parents[1]
TOP = CLIENTS.parent
EXAMPLES = TOP / "examples"
SECONDS = 30.0


def session() -> Session:
    return Session(timeout=SECONDS)


@functools.lru_cache(maxsize=None)
def knows(op: str) -> bool:
    """Whether the program has an operation."""
    with session() as one:
        reply = one.batch([{"op": op}])[0]
    return reply.error is None or reply.error["kind"] != UnknownOperation.kind


def needs(op: str) -> Callable[[Callable[..., None]], Callable[..., None]]:
    """Skips a test where the program doesn't have an operation."""
    def decorate(test: Callable[..., None]) -> Callable[..., None]:
        @functools.wraps(test)
        def run(self: unittest.TestCase) -> None:
            if not knows(op):
                self.skipTest(f"the program has no operation {op}")
            test(self)
        return run
    return decorate


Done = subprocess.CompletedProcess


def command(*words: str, given: str = "") -> "Done[str]":
    """Runs python3 -m with these words in the folder of the package; but within this process, which takes a tenth of the time."""
    source, said, noted = (io.TextIOWrapper(io.BytesIO(text.encode()), "utf-8", write_through=True) for text in (given, "", ""))
    folder = os.getcwd()
    os.chdir(CLIENTS)
    try:
        with warnings.catch_warnings(), mock.patch.multiple(sys, argv=list(words), stdin=source, stdout=said, stderr=noted):
            warnings.simplefilter("ignore", RuntimeWarning)  # (the module is there already)
            runpy.run_module(words[0], run_name="__main__", alter_sys=True)
            status: Any = 0
    except SystemExit as ended:
        status = ended.code
    finally:
        os.chdir(folder)
    return Done(words, status or 0, *(one.buffer.getvalue().decode() for one in (said, noted)))  # type: ignore[attr-defined]


def process(*words: str, given: str = "") -> "Done[str]":
    """Runs python3 -m with these words in the folder of the package."""
    return subprocess.run([sys.executable, "-m", *words], cwd=CLIENTS, input=given, capture_output=True, text=True, timeout=SECONDS,
                          env={**os.environ, "GAPTD": " ".join(default_program())})


def exchanges(pattern: str = "*") -> Iterator[Tuple[Any, Dict[str, Any]]]:
    """The jobs of the example files that are JSON objects, with the replies that are kept."""
    for path in sorted(EXAMPLES.glob(f"{pattern}.jobs")):
        jobs = [line for line in path.read_bytes().splitlines() if line.strip(b" \t\r")]
        replies = path.with_suffix(".replies").read_bytes().splitlines()
        for line, reply in zip(jobs, replies):
            try:
                job = json.loads(line)
            except ValueError:
                continue
            if isinstance(job, dict):
                yield job, json.loads(reply)


def steps_of(op: str, pattern: str = "*") -> List[Tuple[Any, Dict[str, Any]]]:
    return [(job, reply) for job, reply in exchanges(pattern) if job.get("op") == op]
