"""The scripts under one command, the installed package, and bundles."""
from __future__ import annotations

import os
import shutil
import subprocess
import sys
import tempfile
import unittest
from pathlib import Path
from typing import Callable

from gaptd import bundle
from gaptd.__main__ import SCRIPTS
from gaptd.client import default_program
from tests.support import CLIENTS, EXAMPLES, SECONDS, command

LINE = '{"job":"a","op":"lk","steps":[{"rule":"ax","main":"p","premises":[],"left":["p"],"right":["p"]}]}\n'
REPLY = '{"job":"a","n":1,"ok":{"cuts":0,"left":["p"],"quants":0,"right":["p"]}}\n'


class OneCommand(unittest.TestCase):
    def test_the_list(self) -> None:
        done = command("gaptd")
        self.assertEqual(done.returncode, 0, done.stderr)
        self.assertEqual(command("gaptd", "--help").stdout, done.stdout)
        self.assertEqual(command("gaptd", "fly").returncode, 2)
        self.assertIn("  tactics   proofs from the goal", done.stdout)

    def test_each_script_has_help(self) -> None:
        for name in SCRIPTS:
            with self.subTest(name):
                done = command("gaptd", name, "--help")
                self.assertEqual((done.returncode, done.stderr), (0, ""))
                self.assertTrue(done.stdout.startswith("usage: "))

    def test_a_script(self) -> None:
        done = command("gaptd", "show", str(EXAMPLES / "cuts.jobs"), "a")
        self.assertIn("*4  cut p & q over 2 3", done.stdout)
        self.assertTrue(command("gaptd", "show", str(EXAMPLES / "cuts.jobs"), "z").stderr.startswith("show: there is no job z in the file"))


class Installed(unittest.TestCase):
    def test_pip_installs_the_package(self) -> None:
        """In a fresh virtual environment, from a copy, since pip builds beside the sources. The page's templates come with it."""
        with tempfile.TemporaryDirectory() as folder:
            shutil.copytree(CLIENTS, Path(folder) / "clients", ignore=shutil.ignore_patterns("__pycache__"))
            python = f"{folder}/there/bin/python"
            # (with the pip and the setuptools that are there already, so that nothing is fetched)
            for words in ([sys.executable, "-m", "venv", "--system-site-packages", "--without-pip", f"{folder}/there"],
                          [python, "-m", "pip", "install", "--quiet", "--no-index", "--no-build-isolation", f"{folder}/clients"]):
                done = subprocess.run(words, cwd=folder, capture_output=True, text=True, check=False, timeout=SECONDS)
                if done.returncode:
                    self.skipTest("venv, pip, setuptools or wheel isn't there, or too old: " + done.stderr.strip()[-200:])
            environment = {**os.environ, "GAPTD": " ".join(default_program())}
            shown = subprocess.run([f"{folder}/there/bin/gaptd-clients", "show", "--html", str(EXAMPLES / "cuts.jobs"), "a"], cwd=folder,
                                   env=environment, capture_output=True, text=True, check=False, timeout=SECONDS)
            templates = subprocess.run([python, "-c", "from gaptd import live, page; print(live.ADDED.is_file(), page.TEMPLATE)"],
                                       cwd=folder, capture_output=True, text=True, check=False, timeout=SECONDS).stdout
        self.assertEqual(shown.returncode, 0, shown.stderr)
        self.assertIn("<!DOCTYPE html>", shown.stdout)
        self.assertTrue(templates.startswith(f"True {folder}/there/"), templates)


def needs_sessions(test: Callable[..., None]) -> Callable[..., None]:
    """Skips a test where the program doesn't take --sessions."""
    def run(self: unittest.TestCase) -> None:
        done = subprocess.run([*default_program(), "--sessions"], input=b"", capture_output=True, check=False)
        if done.returncode == 2:
            self.skipTest("the program doesn't take --sessions")
        test(self)

    return run


class Bundles(unittest.TestCase):
    def setUp(self) -> None:
        folder = tempfile.TemporaryDirectory()
        self.addCleanup(folder.cleanup)
        self.paths = [Path(folder.name) / f"{name}.jobs" for name in "ab"]
        for path, text in zip(self.paths, (LINE + '{"job":"b","op":"measure","proof":"a"}', LINE)):
            path.write_text(text)

    def test_a_bundle(self) -> None:
        done = command("gaptd.bundle", *map(str, self.paths))
        self.assertEqual(done.stdout, f'@0\n{LINE}{{"job":"b","op":"measure","proof":"a"}}\n@1\n{LINE}')
        self.assertEqual(bundle.unbundled(f"@0\n{REPLY}{REPLY}@1\n{REPLY}".encode()), [(REPLY * 2).encode(), REPLY.encode()])

    def test_what_is_no_bundle(self) -> None:
        for parts, what in (([b""] * 17, "at most 16 sessions"), ([b"{}\n", b"{}\n@1\n"], "file 2 has a line that begins with @")):
            with self.subTest(what), self.assertRaisesRegex(bundle.BundleError, what):
                bundle.bundle(parts)
        with self.assertRaisesRegex(bundle.BundleError, "don't begin with a session"):
            bundle.unbundled(REPLY.encode())
        done = command("gaptd.bundle", "--run", "--program", "false", str(self.paths[0]))
        self.assertEqual((done.returncode, done.stdout), (1, ""))

    def test_files_are_not_written_over(self) -> None:
        kept = self.paths[0].with_suffix(".replies")
        kept.write_text(REPLY)
        done = command("gaptd.bundle", "--run", str(kept))
        self.assertEqual((done.returncode, done.stderr), (1, f"bundle: {kept} is a file of replies, and no file of jobs\n"))
        self.assertEqual(kept.read_text(), REPLY)

    @needs_sessions
    def test_sessions_side_by_side(self) -> None:
        done = command("gaptd.bundle", "--run", *map(str, self.paths))
        self.assertEqual(done.returncode, 0, done.stderr)
        self.assertEqual([path.with_suffix(".replies").read_text() for path in self.paths],
                         [REPLY + '{"job":"b","n":2,"ok":{"cuts":0,"nodes":1,"quants":0,"size":1}}\n', REPLY])
