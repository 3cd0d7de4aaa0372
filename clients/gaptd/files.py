"""Texts of files, and faults that say in which file they are."""
from __future__ import annotations

import gzip
import json
import re
import sys
import zlib
from contextlib import contextmanager
from pathlib import Path
from typing import Iterator, Union

from .formulas import TextError

GZIPPED = b"\x1f\x8b"


def read_text(path: Union[str, Path]) -> str:
    """The text of a file, or of the standard input where the path is -."""
    try:
        return sys.stdin.read() if str(path) == "-" else Path(path).read_text(encoding="utf-8")
    except UnicodeDecodeError as error:
        raise ValueError(f"{file_name(path)}: byte {error.start} isn't UTF-8") from error


def read_bytes(path: Union[str, Path]) -> bytes:
    """The bytes of a file, or of the standard input where the path is -. What is gzipped is unpacked."""
    given = sys.stdin.buffer.read() if str(path) == "-" else Path(path).read_bytes()
    if not given.startswith(GZIPPED):
        return given
    try:
        return gzip.decompress(given)
    except (OSError, EOFError, zlib.error) as error:
        raise ValueError(f"{file_name(path)} is gzipped, and can't be unpacked: {error}") from error


def file_name(path: Union[str, Path]) -> str:
    return "the standard input" if str(path) == "-" else str(path)


def job_name(path: Path) -> str:
    """A name for a file's job: its own, with - for what a name of a job can't have."""
    stem = Path(path.stem).stem if path.suffix == ".gz" else path.stem
    return "problem" if str(path) == "-" else re.sub(r"[^A-Za-z0-9_-]", "-", stem)[:64] or "problem"


@contextmanager
def faults_in(path: Union[str, Path]) -> Iterator[None]:
    """Puts the file's name, and where it is known the line, before a fault of the text that is read meanwhile."""
    try:
        yield
    except TextError as error:
        raise error.in_file(file_name(path)) from error
    except json.JSONDecodeError as error:
        raise ValueError(f"{file_name(path)}, line {error.lineno}, column {error.colno}: no JSON: {error.msg}") from error
    except RecursionError as error:
        raise ValueError(f"{file_name(path)}: it is nested too deeply") from error
