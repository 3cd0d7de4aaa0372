from __future__ import annotations

import unittest

from gaptd import formulas
from gaptd.formulas import TextError, canonical
from tests.support import exchanges, session, steps_of

TEXTS = {
    "! [X] : ( p(X)=>? [Y] :r(X ,Y))": "![V0]: (p(V0) => ?[V1]: r(V0,V1))",
    "?[X]: r(X,V0)": "?[V1]: r(V1,V0)",
    "~ (a = b)": "a != b",
    "(p & q) & (r & s)": "p & q & (r & s)",
    "p <= q": "q => p",
    "p <=> q": "(p => q) & (q => p)",
    "p <~> q": "~((p => q) & (q => p))",
    "p ~| q": "~(p | q)",
    "p ~& q": "~(p & q)",
    "![X]: p(X) & q": "![V0]: p(V0) & q",
    "![X,Y]: ?[X]: r(X,Y)": "![V0]: ![V1]: ?[V2]: r(V2,V1)",
    "'Socrates' != 'plato'": "'Socrates' != plato",
    "'='(a,b) | '='(a)": "a = b | '='(a)",
    "'it\\'s' % said\n | /* or */ $true": "'it\\'s' | $true",
    "~![V0]: ~(p(V0) | q(V1))": "~![V0]: ~(p(V0) | q(V1))",
}


class Texts(unittest.TestCase):
    def test_canonical_texts(self) -> None:
        for text, wanted in TEXTS.items():
            with self.subTest(text):
                self.assertEqual(canonical(text), wanted)
                self.assertEqual(canonical(wanted), wanted)

    def test_texts_that_are_no_formulas(self) -> None:
        for text, at in {"p & q | r": 6, "p(X,)": 4, "X": 1, "p &": 3, "p q": 2, "![x]: p": 2, "p(1)": 2, "p & 'q": 4}.items():
            with self.subTest(text), self.assertRaises(TextError) as caught:
                formulas.formula(text)
            self.assertEqual(caught.exception.at, at)

    def test_the_program_prints_the_same(self) -> None:
        jobs = [{"job": f"t{i}", "op": "lk", "steps": [{"rule": "ax", "main": text, "premises": [], "left": [text], "right": [text]}]}
                for i, text in enumerate(TEXTS)]
        with session() as one:
            for job, reply in zip(TEXTS.values(), one.batch(jobs)):
                self.assertEqual(reply.checked().ok["left"], [job])

    def test_sides_of_all_examples(self) -> None:
        count = 0
        for job, reply in steps_of("lk"):
            if "ok" in reply:
                count += 1
                for side in ("left", "right"):
                    self.assertEqual(formulas.rising({canonical(text) for text in job["steps"][-1][side]}), reply["ok"][side])
        self.assertGreater(count, 100)

    def test_keys_of_deep_terms(self) -> None:
        """Deep formulas that differ inside are compared in time linear in their depth, by keys that aren't nested."""
        texts = ["p(" + "f(" * 150 + end + ")" * 151 for end in ("c", "b", "a", "X", "V7")]
        self.assertEqual(formulas.rising(texts * 100)[::100], [texts[k] for k in (3, 4, 2, 1, 0)])
        key = formulas.formula_key(formulas.formula(texts[0]))
        self.assertFalse([one for one in key if isinstance(one, tuple)])

    def test_a_chain_of_a_thousand_members(self) -> None:
        text = " & ".join(["p"] * 1_000)
        self.assertEqual(canonical(text), text)

    def test_printed_sides_rise(self) -> None:
        for _, reply in exchanges():
            for side in ("left", "right"):
                texts = reply.get("ok", {}).get(side, [])
                if texts and isinstance(texts[0], str):
                    self.assertEqual(formulas.rising(reversed(texts)), texts)


class Binding(unittest.TestCase):
    def test_an_instance(self) -> None:
        whole = formulas.formula("![X]: (p(X) => ?[Y]: r(X,Y,Z))")
        assert isinstance(whole, formulas.All)
        self.assertEqual(formulas.formula_text(formulas.instance(whole, formulas.term("f(V0)"))), "p(f(V0)) => ?[V1]: r(f(V0),V1,Z)")

    def test_substitution_is_at_once(self) -> None:
        images = {"X": formulas.term("Y"), "Y": formulas.term("X")}
        image = formulas.substitute(formulas.formula("r(X,Y) | ?[Z]: s(X,Z)"), images)
        self.assertEqual(formulas.formula_text(image), "r(Y,X) | ?[V0]: s(Y,V0)")

    def test_free_variables_by_first_occurrence(self) -> None:
        self.assertEqual(formulas.free_variables(formulas.formula("p(X) <= (q(Y,X) & ?[Z]: p(Z))")), ["Y", "X"])
