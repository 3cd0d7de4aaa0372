"""Jobs for measuring threads and speed, as lines: the same bytes each time.

A heavy proof is of: if each place that is reached leads one step on to a place that is reached, then 2^n steps lead from a to some such place.
Lemma n says that of every place that is reached. It follows from lemma n - 1, which is used twice, and stands there by a cut. Without cuts the
proof takes each step by itself, and cut elimination takes several times as long from one n to the next.
"""
from __future__ import annotations

import functools
import sys
from pathlib import Path
from typing import Any, Callable, Iterable, Iterator

sys.path.insert(0, str(Path(__file__).resolve().parents[1] / "clients"))

from gaptd.client import encoded
from gaptd.proofs import Proof, allL, allR, andL, andR, ax, cut, exL, exR, impL, impR, lk_job

Lines = Iterator[bytes]
BUDGET = 1_000_000_000
LEVEL = 4  # of heavy proofs
AGAIN = 16  # how often the windows come in which all jobs are about one proof
BLANK = b"\n"
NUMBER = "zz"  # stands in a line for the number that makes its names differ from those of others


def line(**fields: Any) -> bytes:
    return encoded(fields) + b"\n"


def numbered(text: bytes, number: int) -> bytes:
    return text.replace(NUMBER.encode(), b"%d" % number)


# Heavy proofs

def is_reached(place: str) -> str:
    return f"r{NUMBER}({place})"


def leads(level: int, one: str, two: str) -> str:
    return f"s{level}_{NUMBER}({one},{two})"


def onward(level: int, place: str, variable: str = "W") -> str:
    """That 2^level steps lead from a place to one that is reached."""
    return f"?[{variable}]: ({leads(level, place, variable)} & {is_reached(variable)})"


def lemma(level: int) -> str:
    return f"![U]: ({is_reached('U')} => {onward(level, 'U')})"


def doubled(level: int) -> Proof:
    """That 2^level steps from X to Y, and so many from Y to Z, are twice as many from X to Z."""
    first, second, both = leads(level, "X", "Y"), leads(level, "Y", "Z"), leads(level + 1, "X", "Z")
    matrix = f"(({first} & {second}) => {both})"
    proof = allL(impL(andR(ax(first), ax(second)), ax(both)), "Z", f"![Z]: {matrix}")
    return allL(allL(proof, "Y", f"![Y]: ![Z]: {matrix}"), "X", f"![X]: ![Y]: ![Z]: {matrix}")


def by_lemma(level: int, place: str, reached: str, proof: Proof) -> Proof:
    """A proof about a place that 2^level steps reach from another one, over the lemma that there is such a place."""
    proof = exL(andL(proof, f"{leads(level, place, reached)} & {is_reached(reached)}"), reached, onward(level, place))
    return allL(impL(ax(is_reached(place)), proof, f"{is_reached(place)} => {onward(level, place)}"), place, lemma(level))


def next_lemma(level: int) -> Proof:
    """The lemma of the next level, from that of this one."""
    proof = exR(andR(doubled(level), ax(is_reached("Z"))), "Z", onward(level + 1, "X"))
    proof = by_lemma(level, "X", "Y", by_lemma(level, "Y", "Z", proof))
    return allR(impR(proof, f"{is_reached('X')} => {onward(level + 1, 'X')}"), "X", lemma(level + 1))


def first_lemma() -> Proof:
    """The lemma on one step, from the axiom that g takes it."""
    step = f"{leads(0, 'X', 'g(X)')} & {is_reached('g(X)')}"
    proof = exR(andR(ax(leads(0, "X", "g(X)")), ax(is_reached("g(X)"))), "g(X)", onward(0, "X"))
    proof = allL(impL(ax(is_reached("X")), andL(proof, step)), "X", f"![X]: ({is_reached('X')} => ({step}))")
    return allR(impR(proof, f"{is_reached('X')} => {onward(0, 'X')}"), "X", lemma(0))


@functools.lru_cache(maxsize=None)
def heavy_line(level: int) -> bytes:
    proof = first_lemma()
    for below in range(level):
        proof = cut(proof, next_lemma(below), lemma(below))
    use = allL(impL(ax(is_reached("a")), ax(onward(level, "a"))), "a", lemma(level))
    return encoded(lk_job(cut(proof, use, lemma(level)), f"heavy{NUMBER}")) + b"\n"


def heavy(number: int, level: int = LEVEL) -> bytes:
    """The job `lk` of a heavy proof, by the name `heavy` with the number. Two numbers have no symbol in common but a and g."""
    return numbered(heavy_line(level), number)


def freed(number: int, name: str) -> bytes:
    return line(job=name, op="cutelim", proof=f"heavy{number}", budget=BUDGET)


# Workloads

def equal(level: int = LEVEL) -> Lines:
    """A heavy proof, in its window the elimination of its cuts by sixty jobs, and all that again under other names."""
    for turn in range(AGAIN):
        yield heavy(0, level).replace(b'"heavy0"', b'"heavy0-%d"' % turn, 1)
        for place in range(60):
            yield line(job=f"free{turn}-{place}", op="cutelim", proof=f"heavy0-{turn}", budget=BUDGET)
        yield BLANK


def independent(level: int = LEVEL) -> Lines:
    """A window of heavy proofs, and one in which their cuts are eliminated."""
    yield from (heavy(number, level) for number in range(64))
    yield from (freed(number, f"free{number}") for number in range(64))


def one_session(first: int = 0, level: int = LEVEL) -> Lines:
    """Eight heavy proofs, from that by this number on, and one window later the elimination of their cuts."""
    yield from (heavy(number, level) for number in range(first, first + 8))
    yield BLANK
    yield from (freed(number, f"free{number}") for number in range(first, first + 8))


def bundle(sessions: Iterable[Lines]) -> Lines:
    """Sessions as the parts of a bundle."""
    for number, lines in enumerate(sessions):
        yield b"@%d\n" % number
        yield from lines


def wide(depth: int = 8) -> bytes:
    """The job `wide`: a proof of 2^(depth + 1) - 1 inferences about one variable."""
    proofs = [ax(f"p{place}(X)") for place in range(1 << depth)]
    while len(proofs) > 1:
        proofs = [andR(one, two) for one, two in zip(proofs[::2], proofs[1::2])]
    return encoded(lk_job(proofs[0], "wide")) + b"\n"


def after_maps(before: Callable[[int], str], level: int = LEVEL - 1) -> Lines:
    """Four windows, each with sixteen maps and then 47 heavy jobs. `before` says which proof a map is of."""
    yield wide()
    for number in range(4 * 47):
        yield heavy(number, level)
    yield BLANK
    for window in range(4):
        for place in range(16 * window, 16 * window + 16):
            yield line(job=f"map{place}", op="subst", proof=before(place), map={"X": f"f{place}(X)"})
        for number in range(47 * window, 47 * window + 47):
            yield freed(number, f"free{number}")
        yield BLANK


def chain() -> Lines:
    """Each map is of the proof that the map before it made."""
    return after_maps(lambda place: f"map{place - 1}" if place % 16 else "wide")


def no_chain() -> Lines:
    """The same, but all maps are of one proof."""
    return after_maps(lambda place: "wide")


# Small jobs, by the number of lines. The names of jobs are told apart by numbers.

def axiom(name: bytes, term: bytes) -> bytes:
    sides = b'"left":["p(%b)"],"right":["p(%b)"]' % (term, term)
    return b'{"job":"%b","op":"lk","steps":[{"rule":"ax","main":"p(%b)","premises":[],%b}]}\n' % (name, term, sides)


def measures(count: int) -> Lines:
    yield axiom(b"one", b"X")
    for number in range(1, count):
        yield b'{"job":"m%d","op":"measure","proof":"one"}\n' % number


def maps(count: int) -> Lines:
    """Each makes a proof that wasn't there."""
    yield axiom(b"one", b"X")
    for number in range(1, count):
        yield b'{"job":"s%d","op":"subst","proof":"one","map":{"X":"c%d"}}\n' % (number, number)


def cuts(count: int) -> Lines:
    """Pairs of a proof of two steps that wasn't there, and the elimination of its cut."""
    for number in range(count // 2):
        sides = b'"left":["p(c%d)"],"right":["p(c%d)"]' % (number, number)
        steps = b"".join((b'{"rule":"ax","main":"p(c%d)","premises":[],%b},' % (number, sides),
                          b'{"rule":"cut","main":"p(c%d)","premises":[0,0],%b}' % (number, sides)))
        yield b'{"job":"k%d","op":"lk","steps":[%b]}\n' % (number, steps)
        yield b'{"job":"e%d","op":"cutelim","proof":"k%d"}\n' % (number, number)


def new_axioms(count: int) -> Lines:
    return (axiom(b"a%d" % number, b"c%d" % number) for number in range(count))


def one_axiom(count: int) -> Lines:
    return (axiom(b"a%d" % number, b"X") for number in range(count))


def size(lines: Iterable[bytes]) -> int:
    """How many jobs lines have, without empty ones and switches. (One piece may have several lines.)"""
    return sum(part.count(b"\n") - (part == BLANK or part.startswith(b"@")) for part in lines)
