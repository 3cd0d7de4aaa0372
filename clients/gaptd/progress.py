"""One line on a terminal that tells how far work is, once that has taken two seconds; where standard error is no terminal, nothing."""
from __future__ import annotations

import shutil
import sys
import threading
import time
from contextlib import contextmanager
from typing import Iterator, Optional, Type
from types import TracebackType

PATIENCE, PAUSE = 2.0, 0.2  # seconds before the line is shown, and between its changes
BAR = 30


class Progress:
    """A line that is overwritten, and wiped at the end: a text, or with `total` a bar. It is also there while nothing is told."""

    def __init__(self, total: int = 0) -> None:
        self.total, self.count = total, 0
        self.is_shown = sys.stderr.isatty()
        self.next = time.monotonic() + PATIENCE
        self.width = 0
        self.text = self.bar() if total else ""
        self.lock, self.is_over = threading.Lock(), threading.Event()
        self.teller = threading.Thread(target=self.keep_telling, daemon=True)

    def tell(self, text: str) -> None:
        """Shows a text, now or once the last one isn't too fresh."""
        self.text = text
        self.show()

    def show(self) -> None:
        with self.lock:
            if self.is_shown and self.text and time.monotonic() >= self.next:
                self.next = time.monotonic() + PAUSE
                self.write(self.text[:shutil.get_terminal_size().columns - 1])

    def keep_telling(self) -> None:
        while not self.is_over.wait(PAUSE):
            self.show()

    def step(self, text: str = "") -> None:
        """One more of `total` is done."""
        self.count += 1
        self.tell(self.bar(text))

    def bar(self, text: str = "") -> str:
        done = BAR * self.count // max(1, self.total)
        return f"[{'#' * done}{'.' * (BAR - done)}] {self.count} of {self.total} {text}"

    def write(self, text: str) -> None:
        sys.stderr.write("\r" + text.ljust(self.width))
        sys.stderr.flush()
        self.width = len(text)

    def __enter__(self) -> "Progress":
        if self.is_shown:
            self.teller.start()
        return self

    def __exit__(self, kind: Optional[Type[BaseException]], error: Optional[BaseException], trace: Optional[TracebackType]) -> None:
        if self.is_shown:
            self.is_over.set()
            self.teller.join()
        if self.width:
            self.write("")
            sys.stderr.write("\r")


@contextmanager
def waiting(text: str) -> Iterator[None]:
    """Meanwhile the text is shown, and how many seconds it has been: for work of which nobody knows how far it is."""
    begun, done = time.monotonic(), threading.Event()

    def tell() -> None:
        while not done.wait(PAUSE):
            progress.tell(f"{text}: {time.monotonic() - begun:.0f} seconds")

    with Progress() as progress:
        teller = threading.Thread(target=tell, daemon=True)
        teller.start()
        try:
            yield
        finally:
            done.set()
            teller.join()
