"""Each path that is tried here comes out, and stands in the table of docs/LANGUAGE.md."""
from __future__ import annotations

import re
import unittest
from typing import Any, Dict, Set

from gaptd.client import encoded
from tests.support import TOP, session

AXIOM: Dict[str, Any] = {"rule": "ax", "main": "p", "premises": [], "left": ["p"], "right": ["p"]}


def lk(without: str = "", **changed: Any) -> Dict[str, Any]:
    return {"op": "lk", "steps": [{key: value for key, value in {**AXIOM, **changed}.items() if key != without}]}


def resolution(step: Any) -> Dict[str, Any]:
    return {"op": "resolution", "problem": "c", "steps": [step]}


# A job for each path; the first step stands for any.
JOBS: Dict[str, Dict[str, Any]] = {
    "job": {"job": "no name", "op": "show"},
    "op": {"op": 3},
    "text": {"op": "problem"},
    "proof": {"op": "measure"},
    "problem": {"op": "proves", "proof": "a"},
    "expansion": {"op": "fromexp", "proof": "a"},
    "of": {"op": "show"},
    "rounds": {"op": "prove", "problem": "a", "rounds": 1001},
    "width": {"op": "cutintro", "proof": "a", "width": 1},
    "budget": {"op": "cutelim", "proof": "a", "budget": 0},
    "map": {"op": "subst", "proof": "a", "map": {"x": "a"}},
    "map/X": {"op": "subst", "proof": "a", "map": {"X": "f("}},
    "steps": {"op": "lk"},
    "steps/0": resolution({}),
    "steps/0/rule": lk(rule="fly"),
    "steps/0/main": lk("main"),
    "steps/0/term": lk(rule="allL", term="f("),
    "steps/0/var": lk(rule="allR", var=" X"),
    "steps/0/premises": lk("premises"),
    "steps/0/premises/1": lk(premises=[0, "a"]),
    "steps/0/left": lk("left"),
    "steps/0/right": lk(right=3),
    "steps/0/left/0": lk(left=[3]),
    "steps/0/right/0": lk(right=["p("]),
    "steps/0/input": resolution({"input": "a"}),
    "steps/0/subst": resolution({"subst": "a"}),
    "steps/0/map": resolution({"subst": 0}),
    "steps/0/map/X": resolution({"subst": 0, "map": {"X": 3}}),
    "steps/0/resolve": resolution({"resolve": [0]}),
    "steps/0/resolve/1": resolution({"resolve": [0, "a"]}),
    "steps/0/atom": resolution({"resolve": [0, 0], "atom": "p("}),
}


def paths() -> Set[str]:
    """The paths of the table, with the first step in place of the fourth."""
    text = (TOP / "docs" / "LANGUAGE.md").read_text()
    table = re.search(r"\| Path \|.*?\n\n", text, re.DOTALL)
    assert table
    cells = [row.split("|")[1] for row in table.group().strip().splitlines()[2:]]
    return {path.replace("steps/3", "steps/0") for cell in cells for path in re.findall(r"`([^`]*)`", cell)}


class Paths(unittest.TestCase):
    def test_each_path(self) -> None:
        with session() as one:
            for path, job in JOBS.items():
                with self.subTest(path):
                    reply, = one.exchange([encoded({"job": "a", **job})])
                    self.assertEqual((reply.error or {}).get("field"), path)

    def test_the_table_has_them(self) -> None:
        self.assertLessEqual(set(JOBS), paths())
