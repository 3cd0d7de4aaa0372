"""Proofs in LaTeX with the package bussproofs, and expansion trees with the fractions of amsmath."""
from __future__ import annotations

from typing import Dict, Iterator, List, Sequence, Tuple, Union

from . import formulas
from .expansions import Expansion
from .formulas import All, And, Atom, Bound, Ex, Falsity, Formula, Imp, Not, Printer, Term, Truth, Var
from .proofs import Proof, subproofs
from .rules import Sequent

Shown = Union[Proof, Expansion, Sequent]

# Each drawing is a page of its own, as large as it has to be.
PREAMBLE = r"""\documentclass{article}
\usepackage{textcomp}
\usepackage{amsmath}
\usepackage{bussproofs}
\EnableBpAbbreviations
\newsavebox{\drawing}
\newcommand{\drawn}[2]{\savebox{\drawing}{\vbox{\hbox{\textbf{#1}}\bigskip\hbox{#2}}}%
  \pdfpagewidth=\dimexpr\wd\drawing+2cm\pdfpageheight=\dimexpr\ht\drawing+\dp\drawing+2cm%
  \shipout\vbox{\kern-1in\kern1cm\hbox{\kern-1in\kern1cm\usebox{\drawing}}}}
\ifdefined\pdfpagewidth\else\let\pdfpagewidth\pagewidth\let\pdfpageheight\pageheight\fi
\begin{document}
"""

ESCAPES: Dict[str, str] = {
    "\\": r"\textbackslash{}", "{": r"\{", "}": r"\}", "$": r"\$", "&": r"\&", "#": r"\#", "^": r"\textasciicircum{}", "_": r"\_",
    "~": r"\textasciitilde{}", "%": r"\%", "'": r"\textquotesingle{}", "`": r"\textasciigrave{}",
    "<": r"\textless{}", ">": r"\textgreater{}", "|": r"\textbar{}",
}
RULE_LABELS: Dict[str, str] = {
    "ax": r"\mathrm{ax}", "topR": r"\top R", "botL": r"\bot L", "negL": r"\lnot L", "negR": r"\lnot R",
    "andL": r"\land L", "andR": r"\land R", "orL": r"\lor L", "orR": r"\lor R", "impL": r"{\to} L", "impR": r"{\to} R",
    "allL": r"\forall L", "allR": r"\forall R", "exL": r"\exists L", "exR": r"\exists R",
    "defL": r"\mathrm{def}\,L", "defR": r"\mathrm{def}\,R", "cut": r"\mathbf{cut}", "weak": r"\mathrm{weak}",
}
# A subproof gets a drawing of its own where its parts would be wider than so many letters, or higher than so many inferences.
MOST_WIDE, MOST_HIGH = 160, 40


def escaped(text: str) -> str:
    return "".join(ESCAPES.get(letter, letter) for letter in text)


def name(text: str) -> str:
    """A name: upright, in quotes no more."""
    return r"\mathrm{%s}" % escaped(text) if text.isidentifier() else r"\text{%s}" % escaped(text)


def term(part: Term, around: Sequence[str] = ()) -> str:
    if isinstance(part, Var):
        return variable(part.name)
    if isinstance(part, Bound):
        return variable(around[-1 - part.index])
    return applied(part.name, part.args, around)


def variable(text: str) -> str:
    """A variable; a numbered one with its number below."""
    numbered = formulas.NUMBERED.match(text)
    return f"v_{{{numbered.group(1)}}}" if numbered else r"\mathit{%s}" % escaped(text)


def applied(symbol: str, args: Sequence[Term], around: Sequence[str]) -> str:
    return name(symbol) + (f"({', '.join(term(arg, around) for arg in args)})" if args else "")


class Writer:
    """Writes one formula, with the bound variables that its canonical text has."""

    def __init__(self, whole: Formula) -> None:
        self.printer = Printer(whole)

    def formula(self, part: Formula, depth: int = 0) -> str:
        if isinstance(part, Atom):
            return self.atom(part, "=", depth)
        if isinstance(part, (Truth, Falsity)):
            return r"\top" if isinstance(part, Truth) else r"\bot"
        if isinstance(part, Not):
            if isinstance(part.part, Atom) and formulas.is_equation(part.part):
                return self.atom(part.part, r"\neq", depth)
            return r"\lnot " + self.unit(part.part, depth)
        if isinstance(part, (All, Ex)):
            sign = r"\forall" if isinstance(part, All) else r"\exists"
            return f"{sign} {variable(self.printer.around(depth + 1)[-1])}\\, {self.unit(part.body, depth + 1)}"
        if isinstance(part, Imp):
            return f"{self.unit(part.left, depth)} \\to {self.unit(part.right, depth)}"
        sign = r" \land " if isinstance(part, And) else r" \lor "
        return sign.join(self.unit(member, depth) for member in formulas.members(part))

    def atom(self, part: Atom, sign: str, depth: int) -> str:
        around = self.printer.around(depth)
        if formulas.is_equation(part):
            return f"{term(part.args[0], around)} {sign} {term(part.args[1], around)}"
        return applied(part.name, part.args, around)

    def unit(self, part: Formula, depth: int) -> str:
        text = self.formula(part, depth)
        return f"({text})" if isinstance(part, formulas.Binary) else text


def formula(text: str) -> str:
    """The formula that a text is, for math mode."""
    whole = formulas.formula(text)
    return Writer(whole).formula(whole)


def sequent(end: Sequent) -> str:
    left, right = (", ".join(formula(text) for text in formulas.rising(side)) for side in (end.left, end.right))
    return f"{left} \\vdash {right}".strip()


def label(proof: Proof) -> str:
    """The rule, with its term or eigenvariable."""
    by = term(formulas.term(proof.term)) if proof.term else variable(proof.var) if proof.var else ""
    return RULE_LABELS[proof.rule] + (f"\\ {by}" if by else "")


class Drawings:
    """The drawings of a proof: subproofs that are used twice, or that are too large for one drawing, have drawings of their own."""

    def __init__(self, proof: Proof) -> None:
        self.parts: Dict[int, int] = {}
        self.order: List[Proof] = []
        self.choose(proof)
        self.order.append(proof)

    def choose(self, root: Proof) -> None:
        """Picks the subproofs with drawings of their own, those first that others need."""
        found = subproofs(root)
        users: Dict[int, int] = {}
        for proof in found:
            for premise in proof.premises:
                users[id(premise)] = users.get(id(premise), 0) + 1
        width: Dict[int, int] = {}
        height: Dict[int, int] = {}
        for proof in found:
            wide = sorted(proof.premises, key=lambda premise: width[id(premise)], reverse=True)
            for premise in wide:
                if premise.premises and (sum(width[id(one)] for one in proof.premises) > MOST_WIDE or height[id(premise)] >= MOST_HIGH):
                    self.part(premise, width, height)
            width[id(proof)] = max(len(str(proof.end)), sum(width[id(premise)] for premise in proof.premises))
            height[id(proof)] = 1 + max((height[id(premise)] for premise in proof.premises), default=0)
            if users.get(id(proof), 0) > 1 and proof.premises:
                self.part(proof, width, height)

    def part(self, proof: Proof, width: Dict[int, int], height: Dict[int, int]) -> None:
        if id(proof) not in self.parts:
            self.parts[id(proof)] = len(self.parts) + 1
            self.order.append(proof)
        width[id(proof)], height[id(proof)] = len(str(proof.end)), 2

    def lines(self, root: Proof) -> Iterator[str]:
        """The commands of bussproofs for one drawing."""
        waiting = [(root, False)]
        while waiting:
            proof, are_premises_done = waiting.pop()
            if proof is not root and id(proof) in self.parts:
                yield f"\\AXC{{$\\pi_{{{self.parts[id(proof)]}}}$}}\\noLine\\UIC{{${sequent(proof.end)}$}}"
            elif are_premises_done or not proof.premises:
                yield from self.inference(proof)
            else:
                waiting.append((proof, True))
                waiting.extend((premise, False) for premise in reversed(proof.premises))

    @staticmethod
    def inference(proof: Proof) -> Iterator[str]:
        if not proof.premises:
            yield r"\AXC{}"
        command = "BIC" if len(proof.premises) == 2 else "UIC"
        yield f"\\RL{{\\scriptsize${label(proof)}$}}\\{command}{{${sequent(proof.end)}$}}"


def proof_drawings(title: str, proof: Proof) -> Iterator[str]:
    """The pages of a proof, with the parts before the whole."""
    drawings = Drawings(proof)
    for part in drawings.order:
        number = drawings.parts.get(id(part))
        heading = escaped(title) + (f", $\\pi_{{{number}}}$" if number and part is not proof else "")
        body = "\n".join(drawings.lines(part))
        yield f"\\drawn{{{heading}}}{{%\n{body}\n\\DisplayProof}}\n"


def expansion_drawings(title: str, expansion: Expansion) -> Iterator[str]:
    """A page for each tree of an expansion: a formula below the line, its parts or instances above, each by its term."""
    texts = [formula(formulas.formula_text(whole)) for whole in expansion.formulas()]
    quantified = expansion.quantified()
    written: List[str] = []
    for number, node in enumerate(expansion.nodes):
        above = [(f"{{}}^{{{by_text(by)}}}\\;" if by else "") + written[below] for below, by in expansion.children(node)]
        whole = f"[{texts[number]}]" if node["kind"] == "wk" else texts[number]
        written.append(r"\dfrac{%s}{%s}" % (r" \quad ".join(above), whole) if above and quantified[number] else whole)
    for side in ("left", "right"):
        for root in getattr(expansion, side):
            yield f"\\drawn{{{escaped(title)}, on the {side}}}{{$\\displaystyle {written[root]}$}}\n"


def by_text(by: str) -> str:
    return term(formulas.term(by))


def sequent_drawings(title: str, end: Sequent) -> Iterator[str]:
    """A page for a sequent by itself, with its formulas below each other."""
    left, right = ([formula(text) for text in formulas.rising(side)] for side in (end.left, end.right))
    rows = r" \\ ".join([*left, r"\vdash", *right])
    yield f"\\drawn{{{escaped(title)}}}{{$\\begin{{array}}{{l}} {rows} \\end{{array}}$}}\n"


def drawings(title: str, shown: Shown) -> Iterator[str]:
    """The pages of what is shown."""
    if isinstance(shown, Sequent):
        return sequent_drawings(title, shown)
    return proof_drawings(title, shown) if isinstance(shown, Proof) else expansion_drawings(title, shown)


def document(shown: Sequence[Tuple[str, Shown]]) -> str:
    """A LaTeX document with a page for each drawing."""
    pages = [one for title, what in shown for one in drawings(title, what)]
    return PREAMBLE + "".join(pages) + "\\end{document}\n"
