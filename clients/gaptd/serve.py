"""One program for many clients, over a Unix socket or a port of this machine; or a page that follows a file.

    python3 -m gaptd.serve --socket PATH        or --port N
    python3 -m gaptd.serve --connect PATH       passes its input to the server, and the server's replies to its output
    python3 -m gaptd.serve --page FILE          a page for a browser, with what `live` shows of the file

A client sends lines as to the program, and gets a reply to each at once. Its jobs have names of their own, and are counted by themselves: it
can neither see nor disturb others, but for the time that their jobs take, since one is run after the other. `--connect`, with a path or a
port, is a command that stands for the program: `python3 -m gaptd.explain --program "python3 -m gaptd.serve --connect PATH" FILE`.

The program keeps all that it ever made. A client forgets by a job `forget` of this server, with the names that it still wants:

    {"job":"f","op":"forget","keep":["a"]}
    {"job":"f","n":7,"ok":{"held":2}}

Then the program is started again with these jobs, those that they are made of, and what other clients hold; the names of the rest are free. So
it is too where clients that have gone held many jobs.
"""
from __future__ import annotations

import argparse
import contextlib
import json
import os
import re
import signal
import socket
import socketserver
import sys
import threading
from pathlib import Path
from typing import Any, BinaryIO, Dict, Iterable, List, Optional, Set, Tuple, Union

from . import live
from .client import NAME_LENGTH, NAMING_FIELDS, Reply, Session, add_program, guarded
from .errors import GaptdError, ProgramEnded
from .operations import without_suffix

NAME = re.compile(r"[A-Za-z0-9_-]{1,%d}" % NAME_LENGTH)
FORGOTTEN = 10_000  # jobs of clients that have gone, at which the program is started again
Address = Union[str, Tuple[str, int]]


class Names:
    """The names of a client's jobs, and those by which the program has them."""

    def __init__(self, client: int) -> None:
        self.client, self.count = client, 0
        self.there: Dict[str, str] = {}
        self.back: Dict[str, str] = {}

    def sent(self, name: Any) -> Any:
        """The name that the program knows; a text that can be no name stays as it is."""
        if not isinstance(name, str):
            return name
        base = without_suffix(name)
        if not NAME.fullmatch(base):
            return name
        if base not in self.there:
            self.count += 1
            self.there[base] = f"c{self.client}-{self.count}"
            self.back[self.there[base]] = base
        return self.there[base] + name[len(base):]

    def sent_job(self, job: Dict[str, Any]) -> Dict[str, Any]:
        changed = {field: self.sent(job[field]) for field in NAMING_FIELDS if field in job}
        if isinstance(job.get("job"), str) and NAME.fullmatch(job["job"]):
            changed["job"] = self.sent(job["job"])
        if isinstance(job.get("using"), list):
            changed["using"] = [self.sent(name) for name in job["using"]]
        return {**job, **changed}

    def own(self, name: str) -> str:
        """The client's own name."""
        base = without_suffix(name)
        return self.back.get(base, base) + name[len(base):]

    def forget_all_but(self, kept: Set[str]) -> None:
        """Frees the names of jobs that the program doesn't hold any more."""
        self.there = {own: name for own, name in self.there.items() if name in kept}
        self.back = {name: own for own, name in self.there.items()}


class Hub:
    """The one session, and the clients that are there. All that touches the session is done by one thread at a time."""

    def __init__(self, session: Session) -> None:
        self.session = session
        self.lock = threading.Lock()
        self.clients: Dict[int, Names] = {}
        self.number = 0

    def enter(self) -> Names:
        with self.lock:
            self.number += 1
            self.clients[self.number] = Names(self.number)
            return self.clients[self.number]

    def leave(self, names: Names) -> None:
        with self.lock:
            del self.clients[names.client]
            held = self.held_by(self.clients.values())
            if len(self.session.accepted) - len(held) >= FORGOTTEN:
                self.session.restart(keep=held)

    def held_by(self, some: Iterable[Names]) -> List[str]:
        """The jobs that the program holds for some clients, by its names."""
        known = {name for one in some for name in one.back}
        return [job["job"] for _, job in self.session.accepted if job["job"] in known]

    def reply(self, names: Names, line: bytes, number: int) -> Reply:
        """The reply to a line of a client, by its own names and its own number."""
        try:
            job = json.loads(line.decode("utf-8"))
        except (ValueError, RecursionError):
            job = None
        with self.lock:
            if isinstance(job, dict) and job.get("op") == "forget":
                return self.forget(names, job, number)
            try:
                if isinstance(job, dict):
                    (_, reply), = self.session.send_all([names.sent_job(job)])
                else:
                    reply, = self.session.exchange([line])
            except ProgramEnded as error:
                self.recover()
                own = job.get("job") if isinstance(job, dict) else None
                return Reply(own, number, {}, {"kind": "program_ended", "status": error.status})
        return returned(names, reply, number)

    def recover(self) -> None:
        """Starts a program again that has ended; where it can't take again what it held, with nothing."""
        try:
            self.session.restart()
        except GaptdError:
            self.session.restart(keep=[])

    def forget(self, names: Names, job: Dict[str, Any], number: int) -> Reply:
        name, keep = job.get("job"), job.get("keep")
        if not isinstance(name, str) or not isinstance(keep, list) or not all(isinstance(one, str) for one in keep):
            return Reply(None, number, {}, {"kind": "field", "field": "keep" if isinstance(name, str) else "job"})
        held = self.held_by([names])
        unknown = next((one for one in keep if names.there.get(without_suffix(one)) not in held), None)
        if unknown is not None:
            return Reply(name, number, {}, {"kind": "unknown_name", "name": unknown})
        others = self.held_by(one for one in self.clients.values() if one is not names)
        self.session.restart(keep=[*others, *(names.there[without_suffix(one)] for one in keep)])
        names.forget_all_but({sent["job"] for _, sent in self.session.accepted})
        return Reply(name, number, {"held": len(names.there)})


def returned(names: Names, reply: Reply, number: int) -> Reply:
    """A reply of the program as the client gets it."""
    error = reply.error
    if error is not None and isinstance(error.get("name"), str):
        error = {**error, "name": names.own(error["name"])}
    return Reply(names.own(reply.job) if reply.job is not None else None, number, reply.ok, error)


class Handler(socketserver.StreamRequestHandler):
    """One client: a reply for each of its lines that isn't empty."""

    server: "Server"

    def handle(self) -> None:
        hub = self.server.hub
        names, number = hub.enter(), 0
        try:
            for line in self.rfile:
                line = line.rstrip(b"\n")
                if not line.strip(b" \t\r"):
                    continue
                number += 1
                self.wfile.write(hub.reply(names, line, number).line().encode() + b"\n")
        except ConnectionError:
            pass  # (it has gone)
        finally:
            hub.leave(names)


class Server(socketserver.ThreadingMixIn, socketserver.TCPServer):
    """The server at a path, or at a host with a port."""

    daemon_threads = True
    allow_reuse_address = True

    def __init__(self, address: Address, hub: Hub) -> None:
        self.hub = hub
        self.address_family = socket.AF_UNIX if isinstance(address, str) else socket.AF_INET
        super().__init__(address, Handler)  # type: ignore[arg-type]
        if isinstance(address, str):
            os.chmod(address, 0o600)

    @property
    def place(self) -> str:
        """What `--connect` takes."""
        return str(self.server_address if self.address_family == socket.AF_UNIX else self.server_address[1])

    def server_close(self) -> None:
        super().server_close()
        if self.address_family == socket.AF_UNIX:
            with contextlib.suppress(OSError):
                Path(self.place).unlink()


def connect(place: str) -> int:
    """Passes the standard input on to a server, and its replies to the standard output."""
    address: Address = ("127.0.0.1", int(place)) if place.isdigit() else place
    with socket.socket(socket.AF_UNIX if isinstance(address, str) else socket.AF_INET) as link:
        try:
            link.connect(address)
        except OSError as error:
            raise OSError(f"there is no server at {place}: {error.strerror or error}") from error
        threading.Thread(target=pass_on, args=(sys.stdin.buffer, link), daemon=True).start()
        with link.makefile("rb") as replies:
            for line in replies:
                sys.stdout.buffer.write(line)
                sys.stdout.buffer.flush()
    return 0


def pass_on(given: BinaryIO, link: socket.socket) -> None:
    with contextlib.suppress(OSError):
        for line in given:
            link.sendall(line)
        link.shutdown(socket.SHUT_WR)


def main() -> int:
    parser = argparse.ArgumentParser(prog="python3 -m gaptd.serve", description="One program for many clients; or a page that follows a "
                                     "file while it is written.")
    add_program(parser)
    place = parser.add_mutually_exclusive_group()
    place.add_argument("--socket", help="serve at a Unix socket, which only this user can open")
    place.add_argument("--connect", metavar="PATH|PORT", help="be a client of the server there")
    place.add_argument("--page", metavar="FILE", type=Path, help="serve a page that shows goals, explanations and drawings of a file of jobs "
                       "or of tactics, anew each time it is saved")
    parser.add_argument("--port", type=int, help="serve at a port of this machine; 0, or a page without it, takes a free one")
    words = parser.parse_args()
    if words.port is not None and not 0 <= words.port < 65536:
        parser.error("a port is a number below 65536")
    if words.port is not None and (words.socket, words.connect) != (None, None):
        parser.error("--port is not for --socket and --connect")
    if words.connect is not None:
        return connect(words.connect)
    if words.page is not None:
        return serve_page(words.page, words.port or 0, words.program)
    if words.socket is None and words.port is None:
        parser.error("one of --socket, --port, --connect and --page is needed")
    return serve(words.socket if words.socket is not None else ("127.0.0.1", words.port), words.program)


def serve(address: Address, program: Optional[str]) -> int:
    session = Session(program)
    try:
        with Server(address, Hub(session)) as server:
            attend(server)
    finally:
        session.end()
    return 0


def serve_page(path: Path, port: int, program: Optional[str]) -> int:
    path.open("rb").close()  # (a file that isn't there is said now)
    Session(program).close()  # (and so is a program)
    with live.Server(port, path, program) as server:
        attend(server)
    return 0


def attend(server: Union[Server, live.Server]) -> None:
    """Serves until it is broken off."""
    signal.signal(signal.SIGTERM, signal.default_int_handler)  # (so that the socket's file goes then too)
    print(f"serving at {server.place}", flush=True)
    server.serve_forever()


if __name__ == "__main__":
    sys.exit(guarded(main))
