"""Problems in files: TPTP with its includes resolved, and DIMACS, as jobs of the operation `problem`.

    python3 -m gaptd.tptp FILE [--job NAME]

prints the job as one line. A name that ends in .cnf or .dimacs, or a text that begins as DIMACS does, is read as DIMACS: variable 7 becomes
the atom `x7`, and the k-th clause the entry `ck`. Included files are looked for beside the file that includes them, and then in the folder
that the environment variable TPTP names.
"""
from __future__ import annotations

import argparse
import json
import os
import re
import sys
from dataclasses import dataclass
from pathlib import Path
from typing import Any, Dict, Iterator, List, Optional, Sequence, Tuple

from . import dimacs, formulas
from .clauses import Clause
from .client import guarded
from .files import faults_in, job_name, read_text
from .formulas import TextError

# What an entry consists of, as far as its end is looked for: quoted texts and comments hide brackets and points.
PIECE = re.compile(r"""
    (?P<space>\s+|%[^\n]*|/\*.*?\*/)
  | (?P<quoted>'(?:[^'\\]|\\.)*'|"(?:[^"\\]|\\.)*")
  | (?P<word>[A-Za-z0-9_$]+)
  | (?P<sign>.)
""", re.VERBOSE | re.DOTALL)
Piece = Tuple[str, str, int]  # its kind, its text, its place
OPENING, CLOSING = ("(", "["), (")", "]")


@dataclass(frozen=True)
class Entry:
    """An entry of a TPTP file: `fof(name, role, body, annotations..).`, or an `include` with its arguments in `fields`."""

    language: str
    fields: Tuple[str, ...]
    text: str
    at: int

    @property
    def name(self) -> str:
        return formulas.unquoted(self.fields[0])

    @property
    def role(self) -> str:
        return self.fields[1] if len(self.fields) > 1 else ""

    @property
    def body(self) -> str:
        return self.fields[2] if len(self.fields) > 2 else ""

    @property
    def annotations(self) -> Tuple[str, ...]:
        return self.fields[3:]


def pieces(text: str) -> Iterator[Piece]:
    """The pieces of a text that are neither white space nor comments."""
    for found in PIECE.finditer(text):
        if found.lastgroup != "space":
            yield str(found.lastgroup), found.group(), found.start()


def entries(text: str) -> Iterator[Entry]:
    """The entries of a TPTP text. Bodies aren't looked into. Raises TextError."""
    found: List[Piece] = []
    depth = 0
    for piece in pieces(text):
        found.append(piece)
        sign = piece[1] if piece[0] == "sign" else ""
        depth += (sign in OPENING) - (sign in CLOSING)
        if depth < 0:
            raise TextError(text, piece[2], "a bracket too many")
        if sign == "." and depth == 0:
            yield entry_of(found, text)
            found = []
    if found:
        raise TextError(text, found[0][2], "an entry without its point at the end")


def entry_of(found: Sequence[Piece], text: str) -> Entry:
    signs = [piece[1] for piece in found]
    at = found[0][2]
    if len(found) < 5 or signs[1] != "(" or signs[-2] != ")":
        raise TextError(text, at, "no entry of TPTP, which is language(name,role,formula).")
    return Entry(formulas.unquoted(signs[0]), tuple(split_fields(found[2:-2], text)), text[at:found[-1][2] + 1], at)


def split_fields(inside: Sequence[Piece], text: str) -> Iterator[str]:
    """The texts between the commas that stand in no bracket."""
    depth, begin = 0, 0
    for place, (kind, sign, _) in enumerate(inside):
        if kind == "sign":
            depth += (sign in OPENING) - (sign in CLOSING)
            if sign == "," and depth == 0:
                yield text_of(inside[begin:place], text)
                begin = place + 1
    yield text_of(inside[begin:], text)


def text_of(some: Sequence[Piece], text: str) -> str:
    return text[some[0][2]:some[-1][2] + len(some[-1][1])] if some else ""


def resolved(path: Path, text: str, around: Sequence[Path] = ()) -> Iterator[Entry]:
    """The entries of a file with this text, those of included files in place of each `include`."""
    if path.resolve() in around:
        raise TextError("", 0, "it includes itself", str(path))
    with faults_in(path):
        found = list(entries(text))
    for entry in found:
        if entry.language == "include":
            wanted = chosen(entry)
            there = included(entry.name, path)
            for inside in resolved(there, read_text(there), [*around, path.resolve()]):
                if wanted is None or inside.name in wanted:
                    yield inside
        else:
            yield entry


def chosen(include: Entry) -> Optional[List[str]]:
    """The names of the entries that an `include` wants, None where it wants all."""
    if len(include.fields) < 2 or not include.fields[1].startswith("["):
        return None
    inside = include.fields[1][1:-1]
    return [formulas.unquoted(name) for name in split_fields(list(pieces(inside)), inside)]


def included(name: str, by: Path) -> Path:
    """The file that an `include` means."""
    folders = [by.parent] + ([Path(os.environ["TPTP"])] if os.environ.get("TPTP") else [])
    for folder in folders:
        if (folder / name).is_file():
            return folder / name
    raise FileNotFoundError(f"{by} includes {name}, which is not in {' or '.join(map(str, folders))}")


def problem_text(path: Path) -> str:
    """The text of a problem file, without includes and in TPTP's syntax."""
    text = read_text(path)
    if path.suffix in (".cnf", ".dimacs") or re.match(r"(c\b[^\n]*\n|\s)*p\s+cnf\s", text):
        with faults_in(path):
            return "".join(dimacs.entry(number, clause) for number, clause in enumerate(dimacs.Reader(text), 1))
    return "".join(f"{entry.text}\n" for entry in resolved(path, text))


def problem_job(path: Path, name: str) -> Dict[str, Any]:
    """The job that asks gaptd to read a problem file."""
    return {"job": name, "op": "problem", "text": problem_text(path)}


def clauses_of(text: str) -> List[Clause]:
    """The clauses of a problem's `cnf` entries, in order. Raises TextError."""
    return [clause_of(entry) for entry in entries(text) if entry.language == "cnf"]


def clause_of(entry: Entry) -> Clause:
    try:
        return Clause.read(entry.body)
    except TextError as error:
        raise TextError(error.text, error.at, f"the entry {entry.name}: {error.what}") from error


def main() -> int:
    parser = argparse.ArgumentParser(prog="python3 -m gaptd.tptp", description="A problem file as a job of gaptd.")
    parser.add_argument("file", type=Path, help="a file in TPTP or DIMACS; - is the standard input")
    parser.add_argument("--job", help="the name of the job; the file's without it")
    words = parser.parse_args()
    print(json.dumps(problem_job(words.file, words.job or job_name(words.file)), separators=(",", ":")))
    return 0


if __name__ == "__main__":
    sys.exit(guarded(main))
