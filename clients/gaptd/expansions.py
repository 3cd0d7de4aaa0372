"""Expansion trees, as the operation `expansion` takes them and `show` gives them."""
from __future__ import annotations

from dataclasses import dataclass
from typing import Any, List, Mapping, Sequence, Tuple

from . import formulas
from .formulas import And, Formula, Imp, Not, Or

Node = Mapping[str, Any]
CONNECTIVES = {"not": Not, "and": And, "or": Or, "imp": Imp}


@dataclass(frozen=True)
class Expansion:
    """A list of nodes, each over earlier ones, and which of them are the trees of the left and of the right side."""

    nodes: Sequence[Node]
    left: Sequence[int]
    right: Sequence[int]

    @staticmethod
    def read(shown: Mapping[str, Any]) -> "Expansion":
        """The expansion of an Ok object of `show`, or of a job `expansion`."""
        return Expansion(shown["nodes"], shown["left"], shown["right"])

    def formulas(self) -> List[Formula]:
        """The formula of which each node is a tree."""
        found: List[Formula] = []
        for node in self.nodes:
            connective = CONNECTIVES.get(node["kind"])
            parts = [found[k] for k, _ in self.children(node)]
            found.append(connective(*parts) if connective else formulas.formula(node["formula"]))
        return found

    @staticmethod
    def children(node: Node) -> List[Tuple[int, str]]:
        """The nodes below a node, each with the term of its instance or the variable of a strong quantifier, or nothing."""
        if node["kind"] == "weak":
            return [(instance["of"], instance["term"]) for instance in node["instances"]]
        if node["kind"] in ("leaf", "wk"):
            return []
        below = node["of"] if isinstance(node["of"], (list, tuple)) else [node["of"]]
        return [(k, node.get("var", "")) for k in below]

    def _repr_html_(self) -> str:
        """The drawing that a notebook shows."""
        from . import page  # (it stands on this module)
        return page.picture("expansion trees", self)

    def quantified(self) -> List[bool]:
        """Whether each node has a quantifier in its tree."""
        found: List[bool] = []
        for node in self.nodes:
            found.append(node["kind"] in ("weak", "strong") or any(found[k] for k, _ in self.children(node)))
        return found
