"""A browser without a screen, driven by its own protocol over two pipes, for pages that change."""
from __future__ import annotations

import json
import os
import select
import shutil
import subprocess
import sys
import tempfile
import time
from types import TracebackType
from typing import Any, Dict, Optional, Type

from tests.support import SECONDS

NAMES = ("chromium", "chromium-browser", "google-chrome", "chrome")
OPTIONS = ("--headless", "--no-sandbox", "--disable-gpu", "--no-first-run", "--disable-background-networking", "--remote-debugging-pipe")
# Becomes the browser, which reads from 3 and writes to 4.
STARTER = "import os, sys; os.dup2(int(sys.argv[1]), 3); os.dup2(int(sys.argv[2]), 4); os.execvp(sys.argv[3], sys.argv[3:])"


def installed() -> Optional[str]:
    """The browser's command, or that of the environment variable BROWSER_FOR_TESTS."""
    return next(filter(None, map(shutil.which, NAMES)), None) or os.environ.get("BROWSER_FOR_TESTS")


class Browser:
    """A browser with one page."""

    def __init__(self, command: str, address: str) -> None:
        self.folder = tempfile.mkdtemp()
        asked, self.asking = os.pipe()
        self.answers, answering = os.pipe()
        words = [command, *OPTIONS, f"--user-data-dir={self.folder}", "about:blank"]
        self.process = subprocess.Popen([sys.executable, "-c", STARTER, str(asked), str(answering), *words], stdin=subprocess.DEVNULL,
                                        stdout=subprocess.DEVNULL, stderr=subprocess.DEVNULL, pass_fds=[asked, answering])
        os.close(asked)
        os.close(answering)
        self.number, self.rest = 0, b""
        self.target: Dict[str, Any] = {}
        page = self.ask("Target.createTarget", url=address)["targetId"]
        self.target = {"sessionId": self.ask("Target.attachToTarget", targetId=page, flatten=True)["sessionId"]}

    def ask(self, method: str, **params: Any) -> Dict[str, Any]:
        """What a command of the protocol gives. Events that come meanwhile are passed over."""
        self.number += 1
        os.write(self.asking, json.dumps({"id": self.number, "method": method, "params": params, **self.target}).encode() + b"\0")
        while True:
            message = self.message()
            if message.get("id") == self.number:
                if "error" in message:
                    raise AssertionError(f"{method}: {message['error']}")
                return message["result"]

    def message(self) -> Dict[str, Any]:
        while b"\0" not in self.rest:
            if not select.select([self.answers], [], [], SECONDS)[0]:
                raise AssertionError("the browser says nothing")
            some = os.read(self.answers, 1 << 16)
            if not some:
                raise AssertionError("the browser has ended")
            self.rest += some
        first, self.rest = self.rest.split(b"\0", 1)
        return json.loads(first)

    def value(self, expression: str) -> Any:
        """What an expression is on the page."""
        found = self.ask("Runtime.evaluate", expression=expression, returnByValue=True, awaitPromise=True)
        if "exceptionDetails" in found:
            raise AssertionError(f"{expression}: {found['exceptionDetails']}")
        return found["result"].get("value")

    def wait(self, expression: str) -> None:
        """Waits until an expression is true on the page."""
        end = time.monotonic() + SECONDS
        while not self.value(f"!!({expression})"):
            if time.monotonic() > end:
                raise AssertionError(f"it never is: {expression}; the page has {self.value('document.body.innerText')}")
            time.sleep(0.02)

    def __enter__(self) -> "Browser":
        return self

    def __exit__(self, kind: Optional[Type[BaseException]], error: Optional[BaseException], trace: Optional[TracebackType]) -> None:
        os.close(self.asking)
        os.close(self.answers)
        self.process.terminate()
        self.process.wait(SECONDS)
        shutil.rmtree(self.folder, ignore_errors=True)  # (what is left of the browser may still write there)
