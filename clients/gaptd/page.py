"""One page of HTML that stands by itself, with drawings of proofs and expansion trees. `page.html` beside this file does the drawing."""
from __future__ import annotations

import html
import json
from pathlib import Path
from typing import Any, Callable, Dict, Iterable, List, Sequence, Tuple, Union

from . import formulas
from .expansions import Expansion
from .proofs import Proof, subproofs
from .rules import Sequent

Shown = Union[Proof, Expansion, Sequent]
Drawn = Dict[str, Any]
Write = Callable[[str], str]
TEMPLATE = Path(__file__).with_name("page.html")


class Formulas:
    """The formulas of a drawing, each once: its text, as `write` writes it, and its free variables."""

    def __init__(self, write: Write) -> None:
        self.write = write
        self.numbers: Dict[str, int] = {}
        self.table: List[Drawn] = []

    def number(self, text: str) -> int:
        if text not in self.numbers:
            self.numbers[text] = len(self.table)
            self.table.append({"text": self.write(text), "free": sorted(formulas.variables_of(text))})
        return self.numbers[text]

    def side(self, texts: Iterable[str], main: str) -> List[Drawn]:
        """The formulas of a side, the main formula marked."""
        return [{"formula": self.number(text), "main": text == main} for text in formulas.rising(texts)]


def proof_drawing(title: str, proof: Proof, write: Write) -> Drawn:
    """A proof: the nodes by number, each with its sequent, its rule and the nodes above it."""
    table = Formulas(write)
    found = subproofs(proof)
    numbers = {id(part): number for number, part in enumerate(found)}
    nodes = []
    for part in found:
        main = "" if part.rule == "cut" else part.main or ""
        nodes.append({"left": table.side(part.end.left, main), "right": table.side(part.end.right, main), "sign": "⊢", "rule": part.label,
                      "mark": "cut" if part.rule == "cut" else "", "eigenvariable": part.var or "",
                      "above": [{"node": numbers[id(premise)], "edge": ""} for premise in part.premises]})
    return {"title": title, "kind": "proof", "formulas": table.table, "nodes": nodes, "root": len(nodes) - 1}


def expansion_drawing(title: str, expansion: Expansion, write: Write) -> Drawn:
    """An expansion: its nodes, and one more as the root, with the sequent and a tree for each of its formulas."""
    table = Formulas(write)
    texts = [formulas.formula_text(whole) for whole in expansion.formulas()]
    nodes = []
    for text, node in zip(texts, expansion.nodes):
        nodes.append({"left": table.side([text], ""), "right": [], "sign": "", "rule": node["kind"], "mark": node["kind"],
                      "eigenvariable": node.get("var", ""),
                      "above": [{"node": below, "edge": by} for below, by in expansion.children(node)]})
    left, right = ([texts[root] for root in side] for side in (expansion.left, expansion.right))
    above = [{"node": root, "edge": side} for side in ("left", "right") for root in getattr(expansion, side)]
    nodes.append({"left": table.side(left, ""), "right": table.side(right, ""), "sign": "⊢", "rule": "", "mark": "", "eigenvariable": "",
                  "above": above})
    return {"title": title, "kind": "expansion", "formulas": table.table, "nodes": nodes, "root": len(nodes) - 1}


def sequent_drawing(title: str, sequent: Sequent, write: Write) -> Drawn:
    """A sequent by itself: one node."""
    table = Formulas(write)
    node = {"left": table.side(sequent.left, ""), "right": table.side(sequent.right, ""), "sign": "⊢", "rule": "", "mark": "",
            "eigenvariable": "", "above": []}
    return {"title": title, "kind": "sequent", "formulas": table.table, "nodes": [node], "root": 0}


def drawing(title: str, shown: Shown, write: Write) -> Drawn:
    if isinstance(shown, Sequent):
        return sequent_drawing(title, shown, write)
    return proof_drawing(title, shown, write) if isinstance(shown, Proof) else expansion_drawing(title, shown, write)


def page(title: str, shown: Sequence[Tuple[str, Shown]], write: Write = str) -> str:
    """The page, as one text; `write` may write canonical texts in another way."""
    drawings = [drawing(heading, what, write) for heading, what in shown]
    data = json.dumps(drawings, separators=(",", ":")).replace("<", "\\u003c")
    return TEMPLATE.read_text(encoding="utf-8").replace("@TITLE@", html.escape(title)).replace("@DATA@", data)


def picture(title: str, shown: Shown, height: int = 480) -> str:
    """A drawing for a cell of a notebook: the page in a frame."""
    inside = html.escape(page(title, [(title, shown)]))
    return f'<iframe srcdoc="{inside}" style="width: 100%; height: {height}px; border: 1px solid #ccc"></iframe>'
