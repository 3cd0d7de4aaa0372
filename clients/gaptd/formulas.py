"""Formulas and terms as texts in TPTP's first-order syntax: read as gaptd reads them, and printed as it prints them.

`canonical` gives the text that gaptd prints for the formula of a text. What formulas are as data is in `syntax`, whose names can be used as
names of this module too.
"""
from __future__ import annotations

import functools
import re
import sys
from typing import Callable, Dict, Iterable, Iterator, List, Sequence, Set, Tuple, Type, Union

from .syntax import (KIND_NAMES, NUMBERED, All, And, App, Atom, Binary, Bound, Ex, Falsity, Formula, Imp, Not, Or, Quantified, Term, Truth,
                     Var, atoms_of, binding, closure, formula_key, free_variables, instance, is_equation, map_terms, members, substitute,
                     substitute_term, subterms, symbols_of, term_variables, terms_of)

__all__ = [
    "KIND_NAMES", "NUMBERED", "All", "And", "App", "Atom", "Binary", "Bound", "Ex", "Falsity", "Formula", "Imp", "Not", "Or", "Quantified",
    "Term", "Truth", "Var", "atoms_of", "binding", "closure", "formula_key", "free_variables", "instance", "is_equation", "map_terms",
    "members", "substitute", "substitute_term", "subterms", "symbols_of", "term_variables", "terms_of", "TextError", "Printer", "applied",
    "canonical", "formula", "formula_text", "name_text", "rising", "term", "term_text", "unquoted", "variable", "variables_of",
]


class TextError(ValueError):
    """A text is no formula (term, problem); `at` is the place of the faulty token."""

    def __init__(self, text: str, at: int, what: str, file: str = "") -> None:
        line, column = text.count("\n", 0, at) + 1, at - text.rfind("\n", 0, at)
        plain = f"{what} at {at} in {text!r}" if len(text) < 200 else f"{what} at {at}"
        super().__init__(f"{file}, line {line}, column {column}: {what}" if file else plain)
        self.text, self.at, self.what, self.file = text, at, what, file

    def in_file(self, file: str) -> "TextError":
        """The same fault with the name of the file whose text it is, if that isn't said yet."""
        return self if self.file else TextError(self.text, self.at, self.what, file)


# Reading

Token = Tuple[str, str, int]  # its kind, its text, its place

TOKEN = re.compile(r"""
    (?P<space>[ \t\n\r]+|%[^\n]*|/\*.*?\*/)
  | (?P<variable>[A-Z][A-Za-z0-9_]*)
  | (?P<name>[a-z][A-Za-z0-9_]*|'(?:[ -&(-\[\]-~]|\\['\\])+')
  | (?P<word>\$[A-Za-z0-9_]*)
  | (?P<sign><=>|<~>|=>|<=|!=|~\||~&|[()\[\],.:!?~&|=])
""", re.VERBOSE | re.DOTALL)

LOWER_WORD = re.compile(r"[a-z][A-Za-z0-9_]*\Z")


def scan(text: str) -> Iterator[Token]:
    """The tokens of a text, without what stands between them, and at last one of the kind `end`."""
    at = 0
    while at < len(text):
        found = TOKEN.match(text, at)
        if found is None:
            raise TextError(text, at, "no token")
        if found.lastgroup != "space":
            yield str(found.lastgroup), found.group(), at
        at = found.end()
    yield "end", "", at


def unquoted(name: str) -> str:
    """The name that a name token stands for."""
    return re.sub(r"\\(.)", r"\1", name[1:-1]) if name.startswith("'") else name


class Reader:
    """Reads formulas and terms from a list of tokens. `levels` has for each name the quantifiers around that bind it."""

    def __init__(self, text: str) -> None:
        self.text = text
        self.tokens = list(scan(text))
        self.at = 0
        self.depth = 0
        self.levels: Dict[str, List[int]] = {}

    def peek(self) -> str:
        kind, text, _ = self.tokens[self.at]
        return text if kind in ("sign", "word") else kind

    def take(self, wanted: str = "") -> str:
        kind, text, _ = self.tokens[self.at]
        if wanted and self.peek() != wanted:
            raise self.fault(f"expected {wanted}, found {text or 'the end'}")
        self.at += 1
        return text

    def fault(self, what: str) -> TextError:
        return TextError(self.text, self.tokens[self.at][2], what)

    def end(self) -> None:
        if self.peek() != "end":
            raise self.fault(f"nothing can follow here, found {self.tokens[self.at][1]}")

    def formula(self) -> Formula:
        first = self.unit()
        sign = self.peek()
        if sign in ("&", "|"):
            connective: Type[Union[And, Or]] = And if sign == "&" else Or
            while self.peek() == sign:
                self.take()
                first = connective(first, self.unit())
            return first
        if sign in BINARY_SIGNS:
            self.take()
            return BINARY_SIGNS[sign](first, self.unit())
        return first

    def unit(self) -> Formula:
        sign = self.peek()
        if sign == "(":
            self.take()
            inside = self.formula()
            self.take(")")
            return inside
        if sign == "~":
            self.take()
            return Not(self.unit())
        if sign in ("!", "?"):
            return self.quantified()
        if sign in ("$true", "$false"):
            self.take()
            return Truth() if sign == "$true" else Falsity()
        return self.atom()

    def quantified(self) -> Formula:
        quantifier: Type[Union[All, Ex]] = All if self.take() == "!" else Ex
        self.take("[")
        names = [self.take("variable")]
        while self.peek() == ",":
            self.take()
            names.append(self.take("variable"))
        self.take("]")
        self.take(":")
        for level, name in enumerate(names, self.depth):
            self.levels.setdefault(name, []).append(level)
        self.depth += len(names)
        body = self.unit()
        self.depth -= len(names)
        for name in names:
            self.levels[name].pop()
            body = quantifier(body)
        return body

    def atom(self) -> Formula:
        first = self.term()
        if self.peek() in ("=", "!="):
            equal = self.take() == "="
            atom = Atom("=", (first, self.term()))
            return atom if equal else Not(atom)
        if isinstance(first, App):
            return Atom(first.name, first.args)
        raise self.fault("expected = or != behind a variable")

    def term(self) -> Term:
        if self.peek() == "variable":
            variable = self.take()
            levels = self.levels.get(variable)
            return Bound(self.depth - 1 - levels[-1]) if levels else Var(variable)
        if self.peek() != "name":
            raise self.fault(f"expected a formula or a term, found {self.tokens[self.at][1] or 'the end'}")
        name = unquoted(self.take())
        args: List[Term] = []
        if self.peek() == "(":
            self.take()
            args.append(self.term())
            while self.peek() == ",":
                self.take()
                args.append(self.term())
            self.take(")")
        return App(name, tuple(args))


def equivalence(left: Formula, right: Formula) -> Formula:
    return And(Imp(left, right), Imp(right, left))


BINARY_SIGNS: Dict[str, Callable[[Formula, Formula], Formula]] = {
    "=>": Imp,
    "<=": lambda left, right: Imp(right, left),
    "<=>": equivalence,
    "<~>": lambda left, right: Not(equivalence(left, right)),
    "~|": lambda left, right: Not(Or(left, right)),
    "~&": lambda left, right: Not(And(left, right)),
}


@functools.lru_cache(maxsize=1 << 16)
def formula(text: str) -> Formula:
    """The formula that a text is. Raises TextError."""
    reader = Reader(text)
    result = reader.formula()
    reader.end()
    return result


@functools.lru_cache(maxsize=1 << 16)
def term(text: str) -> Term:
    """The term that a text is. Raises TextError."""
    reader = Reader(text)
    result = reader.term()
    reader.end()
    return result


def variable(text: str) -> str:
    """The text, if it is one variable. Raises TextError."""
    if not re.fullmatch(r"[A-Z][A-Za-z0-9_]*", text):
        raise TextError(text, 0, "a variable is a capital letter, then letters, digits and _")
    return text


# Printing

def name_text(name: str) -> str:
    """A name as it is printed: in quotes where it needs them."""
    if LOWER_WORD.match(name):
        return name
    return "'" + name.replace("\\", "\\\\").replace("'", "\\'") + "'"


def applied(name: str, args: Sequence[str]) -> str:
    return name_text(name) + (f"({','.join(args)})" if args else "")


def term_text(part: Term, around: Sequence[str] = ()) -> str:
    """The canonical text of a term; `around` has the names of the bound variables, the outermost first."""
    if isinstance(part, Var):
        return part.name
    if isinstance(part, Bound):
        return around[-1 - part.index]
    return applied(part.name, [term_text(arg, around) for arg in part.args])


class Printer:
    """Prints one formula, with numbered variables that aren't free in it for the bound ones."""

    def __init__(self, whole: Formula) -> None:
        free = set(free_variables(whole))
        self.names: Iterator[str] = (name for name in map("V{}".format, range(sys.maxsize)) if name not in free)
        self.given: List[str] = []

    def around(self, depth: int) -> List[str]:
        while len(self.given) < depth:
            self.given.append(next(self.names))
        return self.given[:depth]

    def text(self, part: Formula, depth: int = 0) -> str:
        if isinstance(part, Atom):
            return self.atom(part, " = ", depth)
        if isinstance(part, Truth):
            return "$true"
        if isinstance(part, Falsity):
            return "$false"
        if isinstance(part, Not):
            if is_equation(part.part):
                return self.atom(part.part, " != ", depth)
            return "~" + self.unit(part.part, depth)
        if isinstance(part, Quantified):
            sign = "!" if isinstance(part, All) else "?"
            return f"{sign}[{self.around(depth + 1)[-1]}]: {self.unit(part.body, depth + 1)}"
        if isinstance(part, Imp):
            return f"{self.unit(part.left, depth)} => {self.unit(part.right, depth)}"
        sign = " & " if isinstance(part, And) else " | "
        return sign.join(self.unit(member, depth) for member in members(part))

    def atom(self, part: Formula, sign: str, depth: int) -> str:
        assert isinstance(part, Atom)
        args = [term_text(arg, self.around(depth)) for arg in part.args]
        return sign.join(args) if is_equation(part) else applied(part.name, args)

    def unit(self, part: Formula, depth: int) -> str:
        text = self.text(part, depth)
        return f"({text})" if isinstance(part, Binary) else text


def formula_text(whole: Formula) -> str:
    """The canonical text of a formula."""
    return Printer(whole).text(whole)


@functools.lru_cache(maxsize=1 << 16)
def canonical(text: str) -> str:
    """The canonical text of the formula that a text is. Raises TextError."""
    return formula_text(formula(text))


@functools.lru_cache(maxsize=1 << 16)
def variables_of(text: str) -> Set[str]:
    """The free variables of the formula that a text is."""
    return set(free_variables(formula(text)))


@functools.lru_cache(maxsize=1 << 16)
def text_key(text: str) -> tuple:
    return formula_key(formula(text))


def rising(texts: Iterable[str]) -> List[str]:
    """The texts, by rising formula."""
    return sorted(texts, key=text_key)
