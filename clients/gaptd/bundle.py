"""Several files of jobs as the sessions of one run of the program with `--sessions`, which share what they have in common.

    python3 -m gaptd.bundle FILE ..           prints the bundle
    python3 -m gaptd.bundle --run FILE ..     runs it, and writes the replies to each file beside it, as NAME.replies

In a bundle the lines behind `@K` belong to session K. Each file is a session of its own, in order, so there are at most 16.
"""
from __future__ import annotations

import argparse
import re
import shlex
import subprocess
import sys
from pathlib import Path
from typing import Dict, List, Sequence

from .client import add_program, default_program, guarded
from .errors import STATUSES, GaptdError, ProgramMissing
from .fleet import different, replies_path
from .progress import waiting

MOST_SESSIONS, MOST_BYTES = 16, 64 * 1024 * 1024
SWITCH = re.compile(rb"@(0|[1-9][0-9]*)")


class BundleError(ValueError):
    """Files that make no bundle, or replies that aren't those to one."""


def bundle(parts: Sequence[bytes]) -> bytes:
    """The bundle of some files of jobs. Raises BundleError."""
    if len(parts) > MOST_SESSIONS:
        raise BundleError(f"a bundle has at most {MOST_SESSIONS} sessions, and there are {len(parts)} files")
    for number, part in enumerate(parts):
        if re.search(rb"^@", part, re.MULTILINE):
            raise BundleError(f"file {number + 1} has a line that begins with @, which is no job")
    ended = [part if part.endswith(b"\n") or not part else part + b"\n" for part in parts]
    written = b"".join(b"@%d\n%s" % (number, part) for number, part in enumerate(ended))
    if len(written) > MOST_BYTES:
        raise BundleError(f"a bundle has at most {MOST_BYTES} bytes, and this one has {len(written)}")
    return written


def unbundled(replies: bytes) -> List[bytes]:
    """The replies of each session, in the order of their numbers. Raises BundleError."""
    found: Dict[int, List[bytes]] = {}
    session = -1
    for line in replies.splitlines(keepends=True):
        switch = SWITCH.fullmatch(line.rstrip(b"\n"))
        if switch:
            session = int(switch.group(1))
            found[session] = []
        elif session < 0:
            raise BundleError("the replies don't begin with a session")
        else:
            found[session].append(line)
    return [b"".join(found[number]) for number in sorted(found)]


def run(parts: Sequence[bytes], program: Sequence[str]) -> List[bytes]:
    """The replies to each of some files of jobs, by one run of the program."""
    words = [*program, "--sessions"]
    try:
        done = subprocess.run(words, input=bundle(parts), stdout=subprocess.PIPE, check=False)
    except OSError as error:
        raise ProgramMissing(words, error) from error
    if done.returncode not in (0, 1):
        meaning = {**STATUSES, 6: "a bundle is too large", 7: "a line that begins with @ is no session"}.get(done.returncode, "")
        raise GaptdError(f"the program ended with status {done.returncode}: {meaning or 'it was ended from outside or crashed'}")
    found = unbundled(done.stdout)
    if len(found) != len(parts):
        raise GaptdError(f"there are replies to {len(found)} of {len(parts)} sessions: the program may not take --sessions")
    return found


def main() -> int:
    parser = argparse.ArgumentParser(prog="python3 -m gaptd.bundle", description="Several files of jobs as the sessions of one run.")
    add_program(parser)
    parser.add_argument("--run", action="store_true", help="run the program, and write the replies beside the files")
    parser.add_argument("files", nargs="+", type=Path, help="files of jobs, one a line")
    words = parser.parse_args()
    paths = different(words.files) if words.run else words.files
    parts = [path.read_bytes() for path in paths]
    if not words.run:
        sys.stdout.buffer.write(bundle(parts))
        return 0
    program = shlex.split(words.program) if words.program else default_program()
    with waiting("the program runs"):
        found = run(parts, program)
    for path, replies in zip(paths, found):
        replies_path(path).write_bytes(replies)
        print(f"{replies_path(path)}: {len(replies.splitlines())} replies")
    return 0


if __name__ == "__main__":
    sys.exit(guarded(main))
