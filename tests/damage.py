"""Hostile lines by random numbers: lines of the examples that are damaged, and lines that are made up."""
from __future__ import annotations

import json
import re
from random import Random
from typing import Callable, Iterator, List, Match

from judging import EXAMPLES, LINE_LIMIT

# Examples that take long with another budget, number of rounds or step, whose lines are long, or that memory is wanting for.
LEFT_OUT = ("chains", "from_clauses", "herbrand", "larger_cuts", "two_halves", "patterns", "rounds", "text_limits", "too_large", "want_of_memory")
STOCK = [path.read_bytes().split(b"\n") for path in sorted(EXAMPLES.glob("*.jobs")) if path.stem not in LEFT_OUT]
NEIGHBOURS = 40

NUMBERS = ["0", "-0", "-1", "00", "01", "1.0", "1e0", "1E+2", "0.5", "1e400", "-1e400", "1e-400", "+1", ".5", "1.", "NaN", "Infinity", "0x10",
           *(str(number) for number in (10 ** 9, 10 ** 9 + 1, 2 ** 32, 2 ** 53 + 1, 2 ** 63, 2 ** 64 - 1, 2 ** 64, 10 ** 400))]
NAMES = ["", "a", "-", "_", "a b", "a.first", "a.second", "a.first.second", ".first", "a\0", "ä", "A" * 63, "A" * 64, "A" * 65, "\U0001f600", "a\n",
         " a", "a/b", "..", "\ufeff", "\u2028", "0", "null"]
# Bytes that are no UTF-8 or seldom stand in it, characters that a text in JSON mustn't have, and escapes, some of which stand for no text.
ODD = [b"\xff", b"\x80", b"\xc0\x80", b"\xe2\x82", b"\xed\xa0\x80", b"\xed\xbf\xbf", b"\xf4\x8f\xbf\xbf", b"\xf4\x90\x80\x80", b"\xf8\x88\x80\x80\x80",
       b"\xef\xbb\xbf", b"\xef\xbf\xbe", b"\xc3\xa9", b"\xf0\x9f\x98\x80", b"\xcc\x81", b"\x00", b"\x01", b"\x1f", b"\x7f", b"\t", b"\r", b"\x0c",
       rb"\u0000", rb"\ud800", rb"\udc00", rb"\ud83d\ude00", rb"\ude00\ud83d", rb"\uD83Dx", rb"\u00e9", rb"\x41", b"\\", rb"\"", rb"\u12", rb"\/", rb"\b"]
SIGNS = b"()[]{},.:!?~&|=<>%'\"/*$ -+_0Aaq\\"
KEYS = ["job", "op", "steps", "proof", "of", "text", "map", "budget", "left", "right", "nodes", "premises", "main", "term", "var", "rule", "X", ""]
BROKEN = ["null", "true", "false", "[]", "{}", "nul", "[,]", "{,}", "[1,]", '{"a":1,}', '""', "''", "[[]]", '["p"]', "[0,0]"]
BLANKS = ["", " ", "\t", "\r", " \t\r ", "\v", "\xa0"]


def nest(random: Random) -> str:
    """As many levels as are read, or one more, or some less, since it may stand within others."""
    opening, closing = random.choice([("[", "]"), ('{"a":', "}"), ("[0,", "]")])
    levels = random.randrange(123, 129)
    return opening * levels + "1" + closing * levels


def long_text(random: Random) -> str:
    """A text as long or as deep as a limit, a little more or less, or very long."""
    return random.choice(["~" * random.randrange(196, 203) + "p", "&".join("p" * random.randrange(998, 1003)), "x" * random.choice([64, 65, 10 ** 5])])


def value(random: Random) -> str:
    """A value in JSON, or nearly."""
    return random.choice([
        lambda: random.choice(NUMBERS), lambda: random.choice(BROKEN), lambda: json.dumps(random.choice(NAMES), ensure_ascii=random.random() < 0.5),
        lambda: nest(random), lambda: json.dumps(long_text(random)),
    ])()


def member(random: Random) -> str:
    return f'"{random.choice(KEYS)}":{value(random)}'


def at(random: Random, line: bytes) -> int:
    return random.randrange(len(line) + 1)


def repeated(random: Random, line: bytes, _: bytes) -> bytes:
    begin, end = sorted((at(random, line), at(random, line)))
    return line[:end] + line[begin:]


def with_bytes(random: Random, line: bytes, _: bytes) -> bytes:
    """With odd bytes or a sign, and sometimes without what stood behind them."""
    begin, more = at(random, line), random.choice([random.choice(ODD), bytes([random.choice(SIGNS)]), b""])
    return line[:begin] + more + line[begin + random.choice([0, 1, random.randrange(20)]):]


def in_place_of(pattern: bytes, more: Callable[[Random, Match[bytes]], str]) -> Callable[[Random, bytes, bytes], bytes]:
    """What puts something else in one of the places of the line that fit, or between the bytes there."""
    def damage(random: Random, line: bytes, _: bytes) -> bytes:
        places = list(re.finditer(pattern, line))
        one = random.choice(places) if places else None
        return line[:one.start()] + more(random, one).encode() + line[one.end():] if one else line

    return damage


def other_name(random: Random, found: Match[bytes]) -> str:
    return f'"{found[1].decode()}":{json.dumps(random.choice(NAMES), ensure_ascii=False)}'


DAMAGES: List[Callable[[Random, bytes, bytes], bytes]] = [
    lambda random, line, other: line[:at(random, line)],
    lambda random, line, other: line[:at(random, line)] + other[at(random, other):],
    repeated, with_bytes, with_bytes, with_bytes,
    in_place_of(rb"\b\d+\b", lambda random, _: random.choice(NUMBERS)),
    in_place_of(rb'"(job|proof|problem|of|expansion)":"[^"]*"', other_name),
    in_place_of(rb'"[^"]*"(?!:)', lambda random, _: value(random)),
    in_place_of(rb'(?<=[{,])(?="\w+":)', lambda random, _: member(random) + ","),
    in_place_of(rb"(?=})", lambda random, _: "," + member(random)),
    in_place_of(rb"[A-Za-z&|~(]", lambda random, found: f"\\u{found[0][0]:04x}"),
    in_place_of(rb"(?<=[\[{,:])", lambda random, _: random.choice(BLANKS)),
]


def made_up(random: Random) -> bytes:
    """A line that is of no example."""
    return random.choice([
        lambda: bytes(random.choices(range(256), k=random.randrange(200))), lambda: value(random).encode(), lambda: nest(random).encode(),
        lambda: random.choice(BLANKS).encode(), lambda: ("{" + ",".join(member(random) for _ in range(random.randrange(6))) + "}").encode(),
    ])()


def damaged(random: Random, line: bytes, other: bytes) -> bytes:
    """The line as it is, damaged once or twice, or another one in its place."""
    chance = random.random()
    if chance < 0.1:
        return made_up(random)
    for _ in range(0 if chance < 0.4 else 1 if chance < 0.85 else 2):
        line = random.choice(DAMAGES)(random, line, other)
    return line


def session(random: Random, most: int) -> bytes:
    """An input of at least so many lines. Neighbours in a file of examples stay neighbours, so that most names stand for what they stood for."""
    lines: List[bytes] = []
    while len(lines) < most:
        file = random.choice(STOCK)
        begin = random.randrange(max(1, len(file) - NEIGHBOURS + 1))
        lines += [damaged(random, line, random.choice(file)) for line in file[begin:begin + NEIGHBOURS]]
    return random.choice([b"\n"] * 9 + [b"\r\n"]).join(lines) + random.choice([b"", b"\n"])


def longest() -> Iterator[bytes]:
    """Inputs with lines as long as a line may be, and by one byte longer."""
    job = b'{"job":"%s","op":"lk","steps":[{"rule":"ax","main":"p","premises":[],"left":["p"],"right":["p"]}]}'
    unknown = b'{"job":"unknown","op":"show","of":"%s"}'
    for size in (LINE_LIMIT, LINE_LIMIT + 1):
        lines = [b"x" * size, (job % b"early").ljust(size), b" " * size, (job % b"late").rjust(size), b"\r" * size,
                 unknown % (b"x" * (size - len(unknown) + 2)), b"\xff" * size, b"[" * size]
        yield b"\n".join([job % b"first", *lines, job % b"last"])
