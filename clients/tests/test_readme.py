"""The examples of the READMEs do what they show."""
from __future__ import annotations

import os
import re
import subprocess
import sys
import tempfile
import unittest
from concurrent.futures import ThreadPoolExecutor
from pathlib import Path
from typing import Iterator, List, Tuple

from gaptd import live
from gaptd.client import default_program
from tests.support import CLIENTS, SECONDS, TOP, knows


def blocks(path: Path) -> Iterator[List[str]]:
    """The indented blocks of a page, without their indentation. Empty lines stand within a block."""
    found: List[str] = []
    for line in path.read_text().splitlines() + ["end"]:
        if line.startswith("    ") or (found and not line):
            found.append(line[4:])
        elif found:
            yield found
            found = []


def run(words: List[str], folder: Path, given: str = "") -> str:
    """What a command writes, where the program is the one under test."""
    there = os.pathsep.join([str(CLIENTS), os.environ.get("PYTHONPATH", "")])
    environment = {**os.environ, "PYTHONPATH": there, "GAPTD": " ".join(default_program())}
    done = subprocess.run(words, cwd=folder, env=environment, capture_output=True, text=True, input=given, timeout=SECONDS, check=False)
    return done.stdout


def said_by(line: str, folder: Path) -> str:
    """What a line of a shell writes in a folder."""
    return run(["sh", "-c", re.sub(r"\S*gaptd\.sh\b", lambda _: " ".join(default_program()), line)], folder).rstrip()


def commands(path: Path) -> Iterator[Tuple[str, str]]:
    """The commands of a page and what they are said to write."""
    for block in blocks(path):
        if block[0].startswith("$ "):
            yield block[0][2:], "\n".join(block[1:]).rstrip()


def is_known(line: str) -> bool:
    """Whether the program has the operation that a command needs beside the usual ones."""
    return knows("sat") or not re.search(r"gaptd\.dimacs|\bsat\b", line)


class Pages(unittest.TestCase):
    def test_commands(self) -> None:
        shown = [(folder, line, wanted) for folder in (TOP, CLIENTS) for line, wanted in commands(folder / "README.md") if is_known(line)]
        with ThreadPoolExecutor(4) as pool:
            found = list(pool.map(lambda one: said_by(one[1], one[0]), shown))
        for (_, line, wanted), said in zip(shown, found):
            with self.subTest(line):
                self.assertEqual(said, wanted)
        self.assertGreaterEqual(len(shown), 15)

    def test_ten_lines_of_python(self) -> None:
        program, = ["\n".join(block) for block in blocks(TOP / "README.md") if block[0].startswith("import json, subprocess")]
        self.assertLessEqual(len(program.strip().splitlines()), 10)
        program = program.replace('["./gaptd.sh"]', repr(default_program()))
        self.assertEqual(run([sys.executable, "-W", "ignore", "-c", program], TOP).splitlines(), [
            "{'job': 'a', 'n': 1, 'ok': {'cuts': 0, 'left': ['p'], 'quants': 0, 'right': ['p']}}",
            "{'job': 'b', 'n': 2, 'ok': {'cuts': 0, 'nodes': 1, 'quants': 0, 'size': 1}}",
        ])

    def test_programs_of_clients(self) -> None:
        """Each block that is a program prints the block behind it."""
        found = list(blocks(CLIENTS / "README.md"))
        count = 0
        for program, wanted in zip(found, found[1:]):
            if program[0].startswith("from gaptd"):
                with self.subTest(program[0]):
                    self.assertEqual(run([sys.executable, "-c", "\n".join(program)], TOP).rstrip(), "\n".join(wanted).rstrip())
                    count += 1
        self.assertGreaterEqual(count, 2)

    def test_a_dialogue(self) -> None:
        prompt = "gaptd> "
        dialogue, = [block for block in blocks(CLIENTS / "README.md") if block[0].startswith(prompt)]
        given = "".join(f"{line[len(prompt):]}\n" for line in dialogue if line.startswith(prompt))
        said = run([sys.executable, "-m", "gaptd.tactics"], CLIENTS, given).splitlines()[1:]
        self.assertEqual(said, [line for line in dialogue if line and not line.startswith(prompt)])

    def test_a_page_that_follows_a_file(self) -> None:
        """The block with tactics, and what the page says of them."""
        found = [[line for line in block if line] for block in blocks(CLIENTS / "README.md")]
        place, = [place for place, block in enumerate(found) if block[0] == "theorem swap"]
        with tempfile.TemporaryDirectory() as folder:
            path = Path(folder) / "swap.tactics"
            path.write_text("\n".join(found[place]))
            self.assertEqual(live.view(path).says.strip(), f"{folder}/" + "\n".join(found[place + 1]))

    def test_the_beginning_of_the_textbook(self) -> None:
        block, = ["\n".join(block).rstrip() for block in blocks(CLIENTS / "README.md") if block[0] == "theorem no-cycle"]
        self.assertIn(block, (TOP / "examples" / "textbook.tactics").read_text())
