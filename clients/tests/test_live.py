"""The page that follows a file: what it shows, its server, and how it changes in a browser."""
from __future__ import annotations

import http.client
import json
import os
import subprocess
import sys
import tempfile
import threading
import unittest
from pathlib import Path
from typing import Any, Dict, Tuple

from gaptd import live
from gaptd.client import default_program
from tests.browser import Browser, installed
from tests.support import CLIENTS, EXAMPLES, SECONDS, command

BEGUN = """theorem swap
  assume some: ?[X]: ![Y]: r(X,Y)
  prove goal: ![Y]: ?[X]: r(X,Y)
  exL
  allR
"""
AXIOM = '{"job":"a","op":"lk","steps":[{"rule":"ax","main":"p","premises":[],"left":["p"],"right":["p"]}]}\n'


class Views(unittest.TestCase):
    def setUp(self) -> None:
        folder = tempfile.TemporaryDirectory()
        self.addCleanup(folder.cleanup)
        self.folder = Path(folder.name)

    def seen(self, name: str, text: str) -> live.View:
        path = self.folder / name
        path.write_text(text)
        return live.view(path)

    def test_goals(self) -> None:
        open_ones = self.seen("a.tactics", BEGUN)
        self.assertEqual((open_ones.is_good, list(open_ones.shown)), (False, []))
        self.assertIn("swap isn't complete\nthe goal\n  some: ![Y]: r(X,Y)\n  |-\n  goal: ?[X]: r(X,Y)", open_ones.says)
        done = self.seen("a.tactics", BEGUN + "allL Y\nexR X\nax\nqed\n")
        self.assertEqual(done.says, "swap is complete: ?[X]: ![Y]: r(X,Y) |- ![X]: ?[Y]: r(Y,X)\nthe program has checked the proof")
        self.assertEqual((done.is_good, [title for title, _ in done.shown]), (True, ["swap"]))
        fault = self.seen("a.tactics", BEGUN + "allL Y\nexR X\nax\nqed\ntheorem b\nprove p\nimpR\n")
        self.assertIn("a.tactics, line 12, impR: impR takes an implication on the right: there is none\nthe goal\n  |-\n  goal: p\n\nswap is",
                      fault.says)
        self.assertEqual((fault.is_good, len(fault.shown)), (False, 1))

    def test_jobs(self) -> None:
        text = AXIOM + '{"job":"m","op":"measure","proof":"a"}\n{"job":"b","op":"lk","steps":[]}\n{"job":"e","op":"cutelim","proof":"a"}\n'
        found = self.seen("a.jobs", text)
        self.assertEqual(found.says.splitlines(), [
            "1 of 4 jobs refused", "m: cuts 0, nodes 1, quants 0, size 1", "job b (number 3) is refused as empty:",
            "  the list of steps is empty"])
        self.assertEqual((found.is_good, [title for title, _ in found.shown]), (False, ["a", "e"]))
        self.assertIn("line 1, column 2: no JSON", self.seen("a.jobs", "{").says)
        self.assertEqual(self.seen("a.jobs", "").says, "0 of 0 jobs refused")

    def test_each_operation(self) -> None:
        """All that a job may hold is drawn, and no more drawings than a page has."""
        found = live.view(EXAMPLES / "each_operation.jobs")
        self.assertIn("v: proves true", found.says.splitlines())
        titles = [title for title, _ in found.shown]
        for title in ("t", "g: the problem's sequent", "x", "h: the Herbrand sequent, of 1 tuple", "i: the interpolant ![V0]: p(V0), second proof",
                      "d: even of 1 arguments stands for"):
            self.assertIn(title, titles)
        written = json.loads(live.View("", True, list(found.shown) * 10).written(7))
        self.assertEqual((written["number"], len(written["drawings"])), (7, live.MOST))


class Serving(unittest.TestCase):
    def setUp(self) -> None:
        folder = tempfile.TemporaryDirectory()
        self.addCleanup(folder.cleanup)
        self.path = Path(folder.name) / "a.tactics"
        self.path.write_text(BEGUN)
        self.server = live.Server(0, self.path)
        threading.Thread(target=self.server.serve_forever, args=(0.02,), daemon=True).start()
        self.addCleanup(self.server.server_close)
        self.addCleanup(self.server.shutdown)

    def save(self, text: str) -> None:
        """Writes the file as editors do, by another one that takes its name."""
        other = self.path.with_suffix(".new")
        other.write_text(text)
        os.replace(other, self.path)

    def get(self, path: str, **headers: str) -> Tuple[int, bytes]:
        link = http.client.HTTPConnection("127.0.0.1", self.server.server_port, timeout=SECONDS)
        self.addCleanup(link.close)
        link.request("GET", path, headers=headers)
        answer = link.getresponse()
        return answer.status, answer.read()

    def shown(self, after: int) -> Dict[str, Any]:
        return json.loads(self.get(f"/shown?after={after}")[1])

    def test_what_is_given(self) -> None:
        status, written = self.get("/")
        self.assertEqual((status, written.count(b"<script")), (200, 3))
        self.assertIn(b"<title>a.tactics</title>", written)
        self.assertEqual([self.get(path)[0] for path in ("/a.tactics", "/shown?after=x", "/../etc/passwd")], [404] * 3)
        self.assertEqual(self.get("/", Host="example.org")[0], 403)

    def test_an_answer_comes_once_the_file_is_saved(self) -> None:
        self.assertEqual(self.shown(0)["number"], 1)
        threading.Timer(0.1, self.save, [BEGUN + "allL Y\n"]).start()
        found = self.shown(1)
        self.assertEqual(found["number"], 2)
        self.assertIn("some_1: r(X,Y)", found["says"])

    def test_a_browser(self) -> None:
        """Goals, a fault, a drawing and its folds are there as the file is saved, and the page isn't loaded again."""
        program = installed()
        if program is None:
            self.skipTest("there is no browser")
        with Browser(program, self.server.place) as browser:
            says = "(document.getElementById('says') || {textContent: ''})"
            nodes = "document.querySelectorAll('g.node').length"
            browser.wait(f"{says}.textContent.includes('goal: ?[X]: r(X,Y)')")
            self.assertEqual([browser.value(f"{says}.className"), browser.value(nodes)], ["wrong", 0])
            browser.value("window.isSame = true")
            proved = BEGUN + "allL Y\nexR X\nax\nqed\n"
            self.save(proved)
            browser.wait(f"{says}.textContent.includes('swap is complete')")
            self.assertEqual([browser.value(f"{says}.className"), browser.value(nodes)], ["", 5])
            browser.value("document.querySelector('g.node').dispatchEvent(new Event('click'))")
            self.assertEqual(browser.value(nodes), 1)
            self.save(proved + "theorem more\nprove p => p\nimpR\nax\nqed\ntheorem last\nprove q\nfly\n")
            browser.wait(f"{says}.textContent.includes('there is no command fly')")
            self.assertEqual(browser.value("[...document.querySelectorAll('h2')].map((one) => one.textContent)"), ["swap", "more"])
            self.assertEqual(browser.value(nodes), 3)  # what was folded is so still
            browser.value("document.getElementById('unfold').click()")
            self.assertEqual(browser.value(nodes), 7)
            self.save("theorem more\nprove p => p\nimpR\nax\nqed\n")
            browser.wait(f"{nodes} === 2")
            self.assertTrue(browser.value("window.isSame"))


class Command(unittest.TestCase):
    def test_a_page_of_a_file(self) -> None:
        words = [sys.executable, "-m", "gaptd.serve", "--program", " ".join(default_program()), "--page", str(EXAMPLES / "cuts.jobs")]
        with subprocess.Popen(words, cwd=CLIENTS, stdout=subprocess.PIPE, stderr=subprocess.PIPE, text=True) as process:
            assert process.stdout is not None and process.stderr is not None
            self.assertRegex(process.stdout.readline(), r"^serving at http://127\.0\.0\.1:[0-9]+/\n$")
            process.terminate()
            self.assertEqual((process.wait(SECONDS), process.stderr.read()), (130, ""))

    def test_faults(self) -> None:
        done = command("gaptd.serve", "--page", "/nonexistent.jobs")
        self.assertEqual((done.returncode, done.stdout), (1, ""))
        self.assertIn("serve: /nonexistent.jobs: No such file or directory", done.stderr)
        self.assertIn("the program can't be started by /nonexistent",
                      command("gaptd.serve", "--program", "/nonexistent", "--page", str(EXAMPLES / "cuts.jobs")).stderr)
        for words in ([], ["--port", "1", "--socket", "a"]):
            with self.subTest(words):
                self.assertEqual(command("gaptd.serve", *words).returncode, 2)


if __name__ == "__main__":
    unittest.main()
