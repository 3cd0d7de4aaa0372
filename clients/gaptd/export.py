"""Proofs for other provers, and for people.

    python3 -m gaptd.export --tstp FILE NAME     in TSTP: each sequent as a closed formula that follows from those of its premises
    python3 -m gaptd.export --coq FILE NAME      for Coq: each inference as a lemma
    python3 -m gaptd.export --words FILE NAME    in words: each inference as a sentence

The sequent A, B |- C, D is the formula `(A & B) => (C | D)` under universal quantifiers for its free variables. What is written can be
checked step by step by any prover of first-order logic. A defined predicate is given by an equivalence.
"""
from __future__ import annotations

import argparse
import sys
from typing import Callable, Dict, Iterator, Sequence, Tuple

from . import formulas, readable
from .client import Session, add_program, guarded, send_file
from .coq import coq
from .explain import History
from .formulas import And, Atom, Falsity, Formula, Imp, Or, Var
from .proofs import Proof, Step, from_steps, steps
from .rules import Definition, Definitions
from .show import holding_proof


DEFINED = ("defL", "defR")


# TSTP

def closed(step: Step) -> Formula:
    """The formula that says what the conclusion of a step says."""
    left, right = ([formulas.formula(text) for text in step[side]] for side in ("left", "right"))
    goal = joined(Or, right) if right else Falsity()
    return formulas.closure(Imp(joined(And, left), goal) if left else goal)


def joined(connective: Callable[[Formula, Formula], Formula], some: Sequence[Formula]) -> Formula:
    whole = some[0]
    for one in some[1:]:
        whole = connective(whole, one)
    return whole


def tstp(proof: Proof, definitions: Definitions) -> Iterator[str]:
    """The entries of a proof, one for each different subproof, the end sequent last; before them the definitions that are unfolded."""
    made = steps(proof)
    atoms = [formulas.formula(step["main"]) for step in made if step["rule"] in DEFINED]
    symbols = list(dict.fromkeys(symbol_of(atom) for atom in atoms))
    for number, symbol in enumerate(symbols):
        yield f"fof(d{number},definition,{formulas.formula_text(equivalence_of(definitions[symbol]))})."
    for number, step in enumerate(made):
        parents = [f"s{premise}" for premise in step["premises"]]
        if step["rule"] in DEFINED:
            parents.append(f"d{symbols.index(symbol_of(formulas.formula(step['main'])))}")
        source = f"inference({step['rule']},[status(thm)],[{','.join(parents)}])"
        yield f"fof(s{number},plain,{formulas.formula_text(closed(step))},{source})."


def symbol_of(atom: Formula) -> Tuple[str, int]:
    assert isinstance(atom, Atom)
    return atom.name, len(atom.args)


def equivalence_of(one: Definition) -> Formula:
    """The formula that says what a definition says."""
    atom = Atom(one.symbol, tuple(map(Var, one.variables)))
    return formulas.closure(And(Imp(atom, one.body), Imp(one.body, atom)))


# Words

SENTENCES: Dict[str, str] = {
    "ax": "{main} is on both sides.",
    "topR": "$true is on the right.",
    "botL": "$false is on the left.",
    "negL": "By {0}, since {main} is against what is on the right there.",
    "negR": "By {0}: what is assumed there can't be, so {main}.",
    "andL": "By {0}, whose assumptions are the two parts of {main}.",
    "andR": "By {0} and {1}, which give the two parts of {main}.",
    "orL": "By {0} in the first case of {main}, and by {1} in the second.",
    "orR": "By {0}, which gives a part of {main}.",
    "impL": "By {0} what {main} asks for holds, and by {1} what it gives suffices.",
    "impR": "By {0}, whose assumption and goal are the two parts of {main}.",
    "allL": "By {0}, as {main} holds of {term}.",
    "allR": "By {0}, where {var} was arbitrary, so {main}.",
    "exL": "By {0}, where {var} is one of those that {main} tells of.",
    "exR": "By {0}, as {term} is one of those that {main} tells of.",
    "defL": "By {0}, which is about what {main} stands for.",
    "defR": "By {0}, which is about what {main} stands for.",
    "cut": "By {0} we have {main}, and by {1} that suffices.",
    "weak": "By {0}, which says more.",
}


def words(proof: Proof, definitions: Definitions) -> Iterator[str]:
    """A paragraph for each different subproof, numbered from 1, the end sequent last."""
    for number, step in enumerate(steps(proof), 1):
        told = {name: phrase(step[name]) if name == "main" else step[name] for name in ("main", "term", "var") if name in step}
        reason = SENTENCES[step["rule"]].format(*(f"({premise + 1})" for premise in step["premises"]), **told)
        yield f"({number}) {said(step)} {reason}"


def said(step: Step) -> str:
    """A sequent as a sentence."""
    left, right = ([phrase(text) for text in step[side]] for side in ("left", "right"))
    goal = f"then {' or '.join(right)}" if right else "there is a contradiction"
    if not left:
        return f"{' or '.join(right).strip() or 'There is a contradiction'}."
    return f"If {' and '.join(left)}, {goal}."


def phrase(text: str) -> str:
    """A formula in a sentence: one of two parts is in parentheses."""
    whole = readable.formula(text)
    return f"({whole})" if isinstance(formulas.formula(text), formulas.Binary) else whole


FORMS: Dict[str, Callable[[Proof, Definitions], Iterator[str]]] = {"tstp": tstp, "coq": coq, "words": words}


def proof_of(session: Session, name: str, history: History) -> Proof:
    """The proof that a job of a file holds. Raises ShowError."""
    holding_proof(name, history)
    return from_steps(session.run("show", of=name).ok["steps"])


def main() -> int:
    parser = argparse.ArgumentParser(prog="python3 -m gaptd.export", description="A proof in TSTP, for Coq, or in words.")
    add_program(parser)
    form = parser.add_mutually_exclusive_group(required=True)
    form.add_argument("--tstp", dest="form", action="store_const", const="tstp", help="entries of TSTP with their inferences")
    form.add_argument("--coq", dest="form", action="store_const", const="coq", help="lemmas for Coq, one for each inference")
    form.add_argument("--words", dest="form", action="store_const", const="words", help="a sentence for each inference")
    parser.add_argument("file", help="a file of jobs; - is the standard input")
    parser.add_argument("name", help="the job whose proof is written")
    given = parser.parse_args()
    history = History()
    with Session(given.program) as session:
        for job, reply in send_file(session, given.file):
            history.add(job, reply)
        proof = proof_of(session, given.name, history)
    for line in FORMS[given.form](proof, history.definitions({"using": history.using(given.name)})):
        print(line)
    return 0


if __name__ == "__main__":
    sys.exit(guarded(main))
