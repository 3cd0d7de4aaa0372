from __future__ import annotations

import shutil
import subprocess
import tempfile
import unittest
from pathlib import Path
from typing import Dict, List

from gaptd import export, tptp
from gaptd.client import reading_jobs
from gaptd.coq import coq
from gaptd.explain import History
from gaptd.formulas import formula
from gaptd.operations import PAIR, PROOF, SUFFIXES, kind_held
from gaptd.proofs import allL, allR, ax, cut, defL, defR, exR, from_steps, impL, impR, topR, weak
from gaptd.rules import Definition
from tests.support import EXAMPLES, SECONDS, command, needs, session, steps_of
from tests.test_proofs import samples


class Tstp(unittest.TestCase):
    def test_the_command(self) -> None:
        done = command("gaptd.export", "--tstp", str(EXAMPLES / "cuts.jobs"), "a")
        self.assertEqual(done.returncode, 0, done.stderr)
        self.assertEqual(done.stdout.splitlines(), [
            "fof(s0,plain,p => p,inference(ax,[status(thm)],[])).",
            "fof(s1,plain,q => q,inference(ax,[status(thm)],[])).",
            "fof(s2,plain,(p & q) => (p & q),inference(andR,[status(thm)],[s0,s1])).",
            "fof(s3,plain,(p & q) => p,inference(andL,[status(thm)],[s0])).",
            "fof(s4,plain,(p & q) => p,inference(cut,[status(thm)],[s2,s3])).",
        ])

    def test_sides_and_variables(self) -> None:
        wanted = [([], [], "$false"), (["p(X)"], [], "![X]: (p(X) => $false)"), ([], ["p(X)", "q(Y)"], "![X,Y]: (p(X) | q(Y))")]
        for left, right, text in wanted:
            self.assertEqual(export.closed({"left": left, "right": right}), export.formulas.formula(text))

    @needs("define")
    def test_definitions(self) -> None:
        jobs = """{"job":"d","op":"define","symbol":"e","vars":["X"],"body":"p(X,a)"}
            {"job":"a","op":"lk","using":["d"],"steps":[{"rule":"ax","main":"p(b,a)","premises":[],"left":["p(b,a)"],"right":["p(b,a)"]},
            {"rule":"defR","main":"e(b)","premises":[0],"left":["p(b,a)"],"right":["e(b)"]}]}"""
        done = command("gaptd.export", "--tstp", "-", "a", given=jobs)
        self.assertEqual(done.stdout.splitlines()[0], "fof(d0,definition,![V0]: ((e(V0) => p(V0,a)) & (p(V0,a) => e(V0)))).")
        self.assertIn("fof(s1,plain,p(b,a) => e(b),inference(defR,[status(thm)],[s0,d0])).", done.stdout)

    def test_e_checks_each_inference(self) -> None:
        program = shutil.which("eprover")
        if program is None:
            self.skipTest("eprover is not installed")
        lines: List[str] = []
        for number, proof in enumerate([*samples(), from_steps(steps_of("lk", "textbook")[0][0]["steps"])]):
            lines += [line.replace("fof(s", f"fof(s{number}_").replace("[s", f"[s{number}_").replace(",s", f",s{number}_") for line in
                      export.tstp(proof, {})]
        bodies: Dict[str, str] = {}
        with tempfile.TemporaryDirectory() as folder:
            path = Path(folder) / "a.p"
            for entry in tptp.entries("\n".join(lines)):
                bodies[entry.name] = entry.body
                parents = entry.annotations[0].split("[")[-1].strip("])").split(",")
                axioms = [f"fof({parent},axiom,{bodies[parent]})." for parent in parents if parent]
                path.write_text("\n".join([*axioms, f"fof(goal,conjecture,{entry.body})."]))
                done = subprocess.run([program, "--auto", "--silent", "--cpu-limit=5", str(path)], capture_output=True, text=True,
                                      timeout=SECONDS, check=False)
                self.assertIn("SZS status Theorem", done.stdout, entry.text)


class Each(unittest.TestCase):
    def test_each_operation(self) -> None:
        """The proofs of all operations that hold one are written in each form."""
        path, history, count = str(EXAMPLES / "each_operation.jobs"), History(), 0
        with session() as one:
            for job, reply in one.send_all(reading_jobs(path)):
                history.add(job, reply)
                held = kind_held(job["op"], reply.ok)
                names = [f"{job['job']}{suffix}" for suffix in SUFFIXES] if held == PAIR else [job["job"]] if held == PROOF else []
                for name in names:
                    proof = export.proof_of(one, name, history)
                    definitions = history.definitions({"using": history.using(name)})
                    for form, write in export.FORMS.items():
                        with self.subTest(name, form=form):
                            self.assertGreaterEqual(len(list(write(proof, definitions))), 1)
                    count += 1
        self.assertGreaterEqual(count, 12)


class Words(unittest.TestCase):
    def test_the_command(self) -> None:
        done = command("gaptd.export", "--words", str(EXAMPLES / "cuts.jobs"), "a")
        self.assertEqual(done.stdout.splitlines()[2:], [
            "(3) If p and q, then (p & q). By (1) and (2), which give the two parts of (p & q).",
            "(4) If (p & q), then p. By (1), whose assumptions are the two parts of (p & q).",
            "(5) If p and q, then p. By (3) we have (p & q), and by (4) that suffices.",
        ])

    def test_each_rule_has_a_sentence(self) -> None:
        for job, reply in steps_of("lk"):
            if "ok" in reply and "using" not in job and len(job["steps"]) < 100:
                self.assertEqual(len(list(export.words(from_steps(job["steps"]), {}))) > 0, True)

    def test_what_is_no_proof(self) -> None:
        done = command("gaptd.export", "--words", str(EXAMPLES / "expansion.jobs"), "drinker")
        self.assertEqual((done.returncode, done.stderr), (1, "export: drinker is a job by expansion, which holds no proof\n"))


class Coq(unittest.TestCase):
    def test_a_lemma(self) -> None:
        lines = command("gaptd.export", "--coq", str(EXAMPLES / "socrates.jobs"), "proof").stdout.splitlines()
        self.assertEqual(lines[6:9], ["Variable man : U -> Prop.", "Variable socrates : U.", "Variable mortal : U -> Prop."])
        self.assertEqual(lines[-4:-1], [
            "(* allL *)",
            "Lemma step3 : (man socrates) -> (forall x0 : U, ((man x0) -> (mortal x0))) -> (mortal socrates).",
            "Proof. do 2 intro. assert ((forall x0 : U, ((man x0) -> (mortal x0))) -> ((man socrates) -> (mortal socrates))) by (let h := fresh in "
            "intro h; exact (h socrates)). destruct (classic ((man socrates) -> (mortal socrates))); pose proof step2; tauto. Qed.",
        ])

    def test_names(self) -> None:
        """One name for each symbol: of words that Coq keeps, of two symbols with one name, of names in quotes, of variables."""
        proof = ax("forall(forall,'a b',forall(X),step0) & forall(a) = X")
        text = "\n".join(coq(proof, {}))
        for line in ("Variable forall_1 : U -> U -> U -> U -> Prop.", "Variable forall_2 : U.", "Variable a_b : U.",
                     "Variable forall_3 : U -> U.", "Variable step0_1 : U.", "Variable equal : U -> U -> Prop.", "Variable a : U."):
            self.assertIn(line, text.splitlines())
        self.assertIn("Lemma step0 : forall X : U, ((forall_1 forall_2 a_b (forall_3 X) step0_1) /\\ (equal (forall_3 a) X))", text)

    def test_coq_checks_proofs(self) -> None:
        program = shutil.which("coqc")
        if program is None:
            self.skipTest("coqc is not installed")
        definition = Definition("sub", ("X", "Y"), formula("![Z]: (in(Z,X) => in(Z,Y))"))
        defined = defR(allR(impR(ax("in(X,a)")), "X", "![Z]: (in(Z,a) => in(Z,a))"), "sub(a,a)", definition)
        unfolded = defL(allL(impL(ax("in(b,a)"), ax("in(b,a)")), "b", "![Z]: (in(Z,a) => in(Z,a))"), "sub(a,a)", definition)
        lost = cut(exR(topR(), "X", "?[Y]: $true"), weak(ax("p"), ["?[Y]: $true"]))
        textbook = from_steps(steps_of("lk", "textbook")[0][0]["steps"])
        lines = ["Require Import Classical."]
        for number, proof in enumerate([*samples(), textbook, lost, defined, unfolded]):
            written = coq(proof, {("sub", 2): definition} if proof in (defined, unfolded) else {})
            lines += [f"Module M{number}.", *(line.replace(lines[0], "") for line in written), f"End M{number}."]
        with tempfile.TemporaryDirectory() as folder:
            (Path(folder) / "proofs.v").write_text("\n".join(lines))
            done = subprocess.run([program, "proofs.v"], cwd=folder, capture_output=True, text=True, timeout=SECONDS, check=False)
        self.assertEqual(done.returncode, 0, done.stderr + done.stdout)
