"""The scripts of the package under one command: `python3 -m gaptd NAME ..`, or `gaptd-clients NAME ..` where it is installed."""
from __future__ import annotations

import importlib
import sys
from typing import Dict

from .client import guarded

SCRIPTS: Dict[str, str] = {
    "client": "sends the jobs of a file, in JSON of any layout, and prints the replies",
    "explain": "says in words why jobs of a file are refused",
    "lint": "names all faulty steps of proofs at once, and fills in sides that are left out",
    "show": "shows what jobs of a file hold: text, HTML, LaTeX",
    "proofs": "a proof without needless weakenings, as a job",
    "simplify": "an interpolant without needless parts; a sequent without strong quantifiers, and back",
    "tactics": "proofs from the goal: a dialogue, or the jobs for the theorems of a file",
    "fof": "a problem with formulas, proved: the problem and its proof as jobs",
    "export": "a proof in TSTP, for Coq, or in words",
    "tptp": "a problem in TPTP, includes resolved, or in DIMACS, as a job",
    "tstp": "a refutation by E or SPASS as jobs",
    "dimacs": "a file in DIMACS answered as SAT solvers answer it, with a refutation for checkers",
    "serve": "one program for many clients, over a socket",
    "fleet": "many files of jobs over many processes, each a session",
    "bundle": "several files of jobs as the sessions of one run",
}
MODULES = {"tactics": "script"}


def main() -> int:
    if len(sys.argv) < 2 or sys.argv[1] not in SCRIPTS:
        is_asked = sys.argv[1:2] in ([], ["--help"], ["-h"])
        known = [f"  {name:8}  {what}" for name, what in SCRIPTS.items()]
        lines = ["usage: python3 -m gaptd SCRIPT ..", "", *known, "", "each takes --help"]
        print("\n".join(lines), file=sys.stdout if is_asked else sys.stderr)
        return 0 if is_asked else 2
    name = sys.argv.pop(1)
    sys.argv[0] = name
    module = importlib.import_module(f".{MODULES.get(name, name)}", __package__)
    return guarded(module.main)


if __name__ == "__main__":
    sys.exit(main())
