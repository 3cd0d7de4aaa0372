"""A search for a proof of a sequent: by connections and by tableaux in turn, each for a time that grows.

What is found are expansion trees, which gaptd checks.
"""
from __future__ import annotations

import sys
import threading
import time
from typing import Callable, Iterable, List, TypeVar

from .bindings import Tick
from .connections import Connections
from .expansions import Expansion
from .matrix import Found, Matrix, Trees
from .tableaux import Tableau

FIRST_SECONDS, TIMES = 1.5, 4  # what each way gets in the first round, and how many times more in each next one
DEPTH, STACK = 100_000, 256 * 1024 * 1024  # a search is as deep a recursion as its proof has inferences
Tell = Callable[[str], None]
Kind = TypeVar("Kind", Connections, Tableau)


class NotFound(ValueError):
    """A search has ended, or its time was over, without a proof."""


class TimeOver(Exception):
    """The time of one way to search is over."""


def by_connections(matrix: Matrix, tick: Tick) -> List[Found]:
    """Raises NotFound where there is no proof."""
    goals = [number for number, one in enumerate(matrix.clauses) if one.is_goal]
    found = deepened(Connections([one.clause for one in matrix.clauses], goals, tick))
    return [(matrix.clauses[number].places, images) for number, images in found.used()]


def by_tableaux(matrix: Matrix, tick: Tick) -> List[Found]:
    """Raises NotFound where there is no proof."""
    return list(deepened(Tableau(matrix, tick)).used())


def deepened(search: Kind) -> Kind:
    """The search with a proof, found with the smallest limit that has one. Raises NotFound where no limit has."""
    most = 1
    while not search.run(most):
        if not search.is_cut:
            raise NotFound("the search has ended without a proof")
        most += 1
    return search


def found_by_any(matrix: Matrix, seconds: float, tell: Tell) -> List[Found]:
    """What the first way found that came to an end with a proof. Raises NotFound."""
    end, share = time.process_time() + seconds, FIRST_SECONDS
    while time.process_time() < end:
        for name, way in (("connections", by_connections), ("tableaux", by_tableaux)):
            try:
                return way(matrix, ticking(name, min(end, time.process_time() + share), tell))
            except (TimeOver, RecursionError):
                pass
        share *= TIMES
    raise NotFound(f"no proof was found within {seconds:g} seconds")


def ticking(name: str, end: float, tell: Tell) -> Tick:
    def tick(tries: int) -> None:
        tell(f"{name}: {tries} literals tried")
        if time.process_time() >= end:
            raise TimeOver

    return tick


def expansion_of(matrix: Matrix, found: Iterable[Found]) -> Expansion:
    trees = Trees(matrix)
    for places, images in found:
        trees.add(places, images)
    return trees.expansion()


def prove(matrix: Matrix, seconds: float, tell: Tell = lambda text: None) -> Expansion:
    """An expansion proof of a sequent, found within so many seconds of processor time. Raises NotFound."""
    return with_deep_stack(lambda: expansion_of(matrix, found_by_any(matrix, seconds, tell)))


def with_deep_stack(work: Callable[[], Expansion]) -> Expansion:
    """What the work gives or raises, done in a thread whose stack suffices for deep recursion."""
    results: List[Expansion] = []
    errors: List[BaseException] = []

    def run() -> None:
        try:
            results.append(work())
        except BaseException as error:  # (it is raised again by the caller)
            errors.append(error)

    depth, stack = sys.getrecursionlimit(), threading.stack_size(STACK)
    sys.setrecursionlimit(max(depth, DEPTH))
    try:
        thread = threading.Thread(target=run, daemon=True)
        thread.start()
        thread.join()
    finally:
        threading.stack_size(stack)
        sys.setrecursionlimit(depth)
    if errors:
        raise errors[0]
    return results[0]
