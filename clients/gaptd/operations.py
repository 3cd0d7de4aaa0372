"""The operations of gaptd: what each job holds, and what each field that names a job asks for."""
from __future__ import annotations

import difflib
from typing import Any, Dict, Iterable, List, Mapping, Tuple

PROOF, PAIR, PROBLEM, EXPANSION, DEFINITION = "a proof", "a pair of proofs", "a problem", "expansion trees", "a definition"
NOTHING = "nothing"

# What a job by an operation holds once it is accepted; of the searches `kind_held` tells more.
HELD: Dict[str, str] = {
    "lk": PROOF, "problem": PROBLEM, "resolution": PROOF, "proves": NOTHING, "subst": PROOF, "cutelim": PROOF, "eliminate": PROOF,
    "tautology": PROOF, "expansion": EXPANSION, "expand": EXPANSION, "fromexp": PROOF, "interpolate": PAIR, "herbrand": NOTHING,
    "cutintro": PROOF, "measure": NOTHING, "show": NOTHING, "define": DEFINITION, "unfold": PROOF, "sat": PROOF, "prove": PROOF,
}
# What a field that names a job may name. (A pair is named by `.first` and `.second`, which are proofs.)
ASKED: Dict[str, Tuple[str, ...]] = {
    "proof": (PROOF,), "problem": (PROBLEM,), "expansion": (EXPANSION,), "of": (PROOF, EXPANSION), "using": (DEFINITION,),
}
# Operations that look for a refutation. They hold a proof only where they found one.
SEARCHES = ("sat", "prove")
SUFFIXES = (".first", ".second")


def kind_held(operation: str, ok: Mapping[str, Any]) -> str:
    """What an accepted job by an operation holds, where its reply has this Ok object."""
    return NOTHING if operation in SEARCHES and "steps" not in ok else HELD.get(operation, "another value")


def without_suffix(name: str) -> str:
    """The job that a name is about: the name without `.first` or `.second`."""
    for suffix in SUFFIXES:
        if name.endswith(suffix):
            return name[:-len(suffix)]
    return name


def near(word: str, known: Iterable[str]) -> List[str]:
    """Known words that a mistyped one may stand for, the nearest first. Capitals don't count."""
    by_lower = {one.lower(): one for one in known}
    return [by_lower[one] for one in difflib.get_close_matches(word.lower(), by_lower, 3)]
