"""A page that follows a file while it is written: `python3 -m gaptd.serve --page FILE` gives its address.

Each time the file is saved, the page shows anew: of a file of tactics, `NAME.tactics`, the open goals where it ends or where its first fault is,
and drawings of the theorems that are complete; of any other file, which has jobs, an explanation of each refusal, the answers of questions
such as `proves`, and drawings of what the jobs hold.
"""
from __future__ import annotations

import contextlib
import http.server
import json
import re
import threading
from dataclasses import dataclass, field
from pathlib import Path
from typing import Iterator, List, Optional, Sequence, Tuple

from . import page
from .client import Reply, Session, send_file
from .errors import GaptdError
from .explain import History, refusal_lines
from .page import Drawn, Shown
from .script import Script, Sessions, run_file
from .show import ShowError, named_sections

ADDED = Path(__file__).with_name("live.html")
MOST = 40  # drawings of a page: those of the last jobs or theorems
PAUSE, PATIENCE = 0.2, 20.0  # seconds between looks at the file, and until the page is told that nothing is new
ASKED = re.compile(r"/shown\?after=([0-9]{1,18})")


@dataclass(frozen=True)
class View:
    """What the page shows: a text, whether all is well, and drawings under their headings."""

    says: str
    is_good: bool
    shown: Sequence[Tuple[str, Shown]] = ()

    def written(self, number: int) -> bytes:
        """The view as the page gets it."""
        drawings: List[Drawn] = [page.drawing(title, one, str) for title, one in self.shown[-MOST:]]
        return json.dumps({"number": number, "says": self.says, "good": self.is_good, "drawings": drawings}).encode()


# What is seen in a file

def view(path: Path, program: Optional[str] = None) -> View:
    """What is to be shown of a file as it stands."""
    try:
        return view_of_tactics(path, program) if path.suffix == ".tactics" else view_of_jobs(path, program)
    except (GaptdError, ValueError, OSError) as error:
        return View(str(error), False)


def view_of_tactics(path: Path, program: Optional[str]) -> View:
    with contextlib.closing(Sessions(program)) as sessions:
        script = Script(sessions.get)
        fault = ""
        try:
            run_file(str(path), script)
        except ValueError as error:
            fault = f"{error}\n\n"
        jobs = list(script.jobs())
        for reply in sessions.get().batch(jobs) if jobs else ():
            reply.checked()
    checked = [f"the program has checked the proof{'s' * (len(script.proved) > 1)}"] if script.proved else []
    return View(fault + "\n".join([*script.said, *checked]), not fault, list(script.proved.items()))


def view_of_jobs(path: Path, program: Optional[str]) -> View:
    history, refused = History(), 0
    lines: List[str] = []
    shown: List[Tuple[str, Shown]] = []
    with Session(program) as session:
        exchanged = send_file(session, str(path))
        for job, reply in exchanged:
            history.add(job, reply)
            refused += reply.error is not None
            lines += refusal_lines(job, reply, history) if reply.error is not None else answer_lines(job["op"], reply)
        for _, reply in reversed(exchanged):
            if len(shown) < MOST:
                shown = drawings_of(session, reply, history) + shown
    return View("\n".join([f"{refused} of {len(exchanged)} jobs refused", *lines]), not refused, shown)


def answer_lines(operation: str, reply: Reply) -> Iterator[str]:
    """What is told of a reply that nothing is drawn for."""
    if operation in ("proves", "measure"):
        yield f"{reply.job}: " + ", ".join(f"{key} {json.dumps(value)}" for key, value in sorted(reply.ok.items()))


def drawings_of(session: Session, reply: Reply, history: History) -> List[Tuple[str, Shown]]:
    """What a job holds, or its reply tells of, to be drawn; nothing of other jobs."""
    if reply.error is not None or reply.job is None:
        return []
    try:
        return [section.drawn() for section in named_sections(session, reply.job, history, is_proof=True)]
    except ShowError:
        return []


# Following it

@dataclass
class Follower:
    """The view of a file as it was last saved, and how often there was a new one."""

    path: Path
    program: Optional[str] = None
    number: int = 0
    answer: bytes = View("", True).written(0)
    changed: threading.Condition = field(default_factory=threading.Condition)

    def stamp(self) -> Tuple[int, ...]:
        """What is another once the file was saved."""
        found = self.path.stat()
        return found.st_mtime_ns, found.st_size, found.st_ino

    def follow(self, is_over: threading.Event) -> None:
        """Looks at the file whenever it was saved, until all is over."""
        seen: Tuple[int, ...] = ()
        while True:
            with contextlib.suppress(OSError):  # (an editor may be about to put it back)
                found = self.stamp()
                if found != seen:
                    seen = found
                    self.put(view(self.path, self.program))
            if is_over.wait(PAUSE):
                return

    def put(self, seen: View) -> None:
        with self.changed:
            self.number += 1
            self.answer = seen.written(self.number)
            self.changed.notify_all()

    def after(self, number: int) -> bytes:
        """The view, once it is another one than that of this number, or after some time."""
        with self.changed:
            self.changed.wait_for(lambda: self.number not in (0, number), PATIENCE)
            return self.answer


class Handler(http.server.BaseHTTPRequestHandler):
    """The page, and what it shows."""

    server: "Server"

    def do_GET(self) -> None:
        asked = ASKED.fullmatch(self.path)
        if self.headers.get("Host") not in self.server.hosts:  # (a page of another site that has a name for this machine)
            self.send_error(403)
        elif asked:
            self.give("application/json", self.server.follower.after(int(asked.group(1))))
        elif self.path == "/":
            self.give("text/html; charset=utf-8", self.server.page)
        else:
            self.send_error(404)

    def give(self, kind: str, content: bytes) -> None:
        with contextlib.suppress(ConnectionError):  # (the page was closed meanwhile)
            self.send_response(200)
            self.send_header("Content-Type", kind)
            self.send_header("Content-Length", str(len(content)))
            self.send_header("Cache-Control", "no-store")
            self.end_headers()
            self.wfile.write(content)

    def log_message(self, form: str, *args: object) -> None:
        """Nothing is written of a request."""


class Server(http.server.ThreadingHTTPServer):
    """The server of the page that follows a file, at a port of this machine."""

    daemon_threads = True

    def __init__(self, port: int, path: Path, program: Optional[str] = None) -> None:
        super().__init__(("127.0.0.1", port), Handler)
        self.follower = Follower(path, program)
        self.hosts = [f"{host}:{self.server_port}" for host in ("127.0.0.1", "localhost")]
        self.page = page.page(path.name, []).replace("</body>", ADDED.read_text(encoding="utf-8") + "</body>").encode()
        self.is_over = threading.Event()
        self.watcher = threading.Thread(target=self.follower.follow, args=(self.is_over,), daemon=True)

    @property
    def place(self) -> str:
        return f"http://127.0.0.1:{self.server_port}/"

    def serve_forever(self, poll_interval: float = 0.5) -> None:
        self.watcher.start()
        super().serve_forever(poll_interval)

    def server_close(self) -> None:
        self.is_over.set()
        super().server_close()
