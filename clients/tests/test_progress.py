from __future__ import annotations

import io
import time
import unittest
from unittest import mock

from gaptd import progress


class Terminal(io.StringIO):
    def isatty(self) -> bool:
        return True


class Lines(unittest.TestCase):
    def written(self, terminal: io.StringIO, seconds: float) -> str:
        """What is written of three steps that take so many seconds each."""
        now = [0.0]
        with mock.patch("sys.stderr", terminal), mock.patch("time.monotonic", lambda: now[0]):
            with progress.Progress(3) as one:
                for name in "abc":
                    now[0] += seconds
                    one.step(name)
        return terminal.getvalue()

    def test_work_that_takes_long(self) -> None:
        self.assertEqual(self.written(Terminal(), 1.5).split("\r"), [
            "", "[####################..........] 2 of 3 b", "[##############################] 3 of 3 c", " " * 41, ""])

    def test_waiting(self) -> None:
        terminal = Terminal()
        with mock.patch("sys.stderr", terminal), mock.patch.multiple(progress, PATIENCE=0.0, PAUSE=0.001):
            with self.assertRaises(ValueError), progress.waiting("the program runs"):
                time.sleep(0.1)
                raise ValueError
        first, *_, last, end = terminal.getvalue().split("\r")[1:]
        self.assertEqual((first, last.strip(), end), ("the program runs: 0 seconds", "", ""))
        with mock.patch("sys.stderr", io.StringIO()), progress.waiting("the program runs"):
            pass

    def test_one_long_step(self) -> None:
        """The line is there while nothing is told, with what was told last, also if that was too soon to be shown."""
        for total, texts, wanted in ((3, [], f"[{'.' * 30}] 0 of 3"), (0, ["E runs"], "E runs"), (0, [], "")):
            terminal = Terminal()
            with self.subTest(wanted), mock.patch("sys.stderr", terminal), mock.patch.multiple(progress, PATIENCE=0.05, PAUSE=0.001):
                with progress.Progress(total) as one:
                    for text in texts:
                        one.tell(text)
                    time.sleep(0.2)
                self.assertEqual(terminal.getvalue().split("\r")[1 if wanted else 0].strip(), wanted)

    def test_work_that_is_soon_done_and_no_terminal(self) -> None:
        self.assertEqual(self.written(Terminal(), 0.5), "")
        self.assertEqual(self.written(io.StringIO(), 5), "")
