from __future__ import annotations

import json
import re
import shutil
import subprocess
import tempfile
import unittest
from pathlib import Path
from typing import Any, List, Tuple

from gaptd import formulas, latex, page, show
from gaptd.client import reading_jobs
from gaptd.expansions import Expansion
from gaptd.explain import History
from gaptd.operations import HELD
from gaptd.proofs import Proof, allL, allR, andL, andR, ax, cut, from_steps, infer, steps, without_weak
from gaptd.rules import Sequent
from gaptd.show import Section
from tests.browser import Browser, installed
from tests.support import CLIENTS, EXAMPLES, SECONDS, command, knows, needs, session, steps_of

CHAIN = {
    "nodes": [
        {"kind": "leaf", "formula": "p(a)"}, {"kind": "leaf", "formula": "p(f(a))"}, {"kind": "imp", "of": [0, 1]},
        {"kind": "leaf", "formula": "p(f(f(a)))"}, {"kind": "imp", "of": [1, 3]},
        {"kind": "weak", "formula": "![X]: (p(X) => p(f(X)))", "instances": [{"term": "a", "of": 2}, {"term": "f(a)", "of": 4}]},
        {"kind": "wk", "formula": "q_1('two words')"},
    ],
    "left": [0, 5, 6], "right": [3],
}
SWAP = {
    "nodes": [
        {"kind": "leaf", "formula": "r(V0,V1)"},
        {"kind": "weak", "formula": "![Y]: r(V0,Y)", "instances": [{"term": "V1", "of": 0}]},
        {"kind": "strong", "formula": "?[X]: ![Y]: r(X,Y)", "var": "V0", "of": 1},
        {"kind": "weak", "formula": "?[X]: r(X,V1)", "instances": [{"term": "V0", "of": 0}]},
        {"kind": "strong", "formula": "![Y]: ?[X]: r(X,Y)", "var": "V1", "of": 3},
    ],
    "left": [2], "right": [4],
}


def cut_proof() -> Proof:
    return cut(andR(ax("p"), ax("q")), andL(ax("p"), "p & q"))


def renamed() -> Proof:
    return allR(allL(ax("p_1(X)"), "X", "![Y]: p_1(Y)"), "X", "![Y]: p_1(Y)")


def doubled(times: int) -> Proof:
    """A proof whose tree has more than 2^times nodes."""
    proof = ax("p")
    for _ in range(times):
        proof = Proof("orL", infer("orL", [ax("p"), ax("p")], "p | p").end, (proof, proof), "p | p")
    return proof


SAMPLES: List[Tuple[str, object]] = [
    ("a cut", cut_proof()), ("an eigenvariable & a name_1", renamed()), ("shared parts", doubled(40)),
    ("a chain", Expansion.read(CHAIN)), ("swapped quantifiers", Expansion.read(SWAP)),
]


class Text(unittest.TestCase):
    def test_a_proof(self) -> None:
        self.assertEqual(show.proof_text(cut_proof()).splitlines(), [
            " 0  ax                  p |- p",
            " 1  ax                  q |- q",
            " 2  andR over 0 1       p, q |- p & q",
            " 3  andL over 0         p & q |- p",
            "*4  cut p & q over 2 3  p, q |- p",
        ])

    def test_an_expansion(self) -> None:
        self.assertEqual(show.expansion_text(Expansion.read(CHAIN)).splitlines(), [
            "left:",
            "  p(a)",
            "  ![V0]: (p(V0) => p(f(V0)))",
            "    a: p(a) => p(f(a))",
            "    f(a): p(f(a)) => p(f(f(a)))",
            "  q_1('two words') (not used)",
            "right:",
            "  p(f(f(a)))",
        ])

    def test_the_command(self) -> None:
        done = command("gaptd.show", str(EXAMPLES / "cuts.jobs"), "a", "b")
        self.assertEqual(done.returncode, 0, done.stderr)
        self.assertIn("*4  cut p & q over 2 3  p, q |- p", done.stdout)
        self.assertIn(" weak over 0 ", done.stdout)
        self.assertNotIn("weak", command("gaptd.show", "--short", str(EXAMPLES / "cuts.jobs"), "a", "b").stdout)

    def test_readable_texts(self) -> None:
        jobs = """{"job":"a","op":"lk","steps":[{"rule":"ax","main":"![X,Y]: (p(X) <=> p(Y))","premises":[],
            "left":["![X,Y]: (p(X) <=> p(Y))"],"right":["![X,Y]: (p(X) <=> p(Y))"]}]}"""
        wanted = "![X,Y]: (p(X) <=> p(Y))"
        self.assertIn(f"0  ax  {wanted} |- {wanted}\n", command("gaptd.show", "--readable", "-", "a", given=jobs).stdout)
        self.assertIn(wanted.replace("<", "\\u003c"), command("gaptd.show", "--readable", "--html", "-", "a", given=jobs).stdout)
        self.assertIn("![V0]: ![V1]:", command("gaptd.show", "-", "a", given=jobs).stdout)

    def test_sequents_of_replies(self) -> None:
        path = str(EXAMPLES / "each_operation.jobs")
        done = command("gaptd.show", path, "h", "k", "i")
        self.assertEqual(done.returncode, 0, done.stderr)
        self.assertEqual(done.stdout.splitlines()[:13], [
            "h: the Herbrand sequent, of 1 tuple", "", "left:", "  p(X)", "right:", "  p(X)", "",
            "k: the problem's sequent", "", "left:", "  ~p(a)", "  ![V0]: p(V0)", "right:"])
        self.assertIn("i: the interpolant ![V0]: p(V0), second proof", done.stdout)
        self.assertIn('"kind":"sequent"', command("gaptd.show", "--html", path, "h").stdout)
        self.assertIn(r"\mathrm{p}(\mathit{X}) \\ \vdash \\ \mathrm{p}(\mathit{X})", command("gaptd.show", "--latex", path, "h").stdout)

    @needs("sat")
    def test_models(self) -> None:
        jobs = """{"job":"c","op":"problem","text":"cnf(a,axiom,p | q). cnf(b,axiom,~p). cnf(c,axiom,r | ~q). cnf(d,axiom,s | ~s | ~r)."}
            {"job":"s","op":"sat","problem":"c"} {"job":"e","op":"problem","text":""} {"job":"t","op":"sat","problem":"e"}"""
        done = command("gaptd.show", "-", "s", "t", given=jobs)
        self.assertEqual(done.returncode, 0, done.stderr)
        _, some, title, none = done.stdout.split("\n\n")
        self.assertTrue(done.stdout.startswith("s: a model\n\n"))
        self.assertIn(some.splitlines(), (["true:", "  q, r", "false:", "  p, s"], ["true:", "  q, r, s", "false:", "  p"]))
        self.assertEqual((title, none), ("t: a model", "true:\nfalse:\n"))
        for form, drawn in (("--html", '"kind":"sequent"'), ("--latex", r"\vdash")):
            written = command("gaptd.show", form, "-", "s", given=jobs).stdout
            self.assertIn("s: a model: what is true on the left, what is false on the right", written)
            self.assertIn(drawn, written)

    def test_a_model_with_many_atoms(self) -> None:
        atoms = [f"p({number})" for number in range(100)]
        first, *rows, last = show.model_text(show.Model(atoms, [])).splitlines()
        self.assertEqual((first, " ".join(map(str.strip, rows)), last), ("true:", ", ".join(atoms), "false:"))
        self.assertTrue(110 < len(rows[0]) <= 123, rows[0])

    @needs("sat")
    def test_refutations(self) -> None:
        jobs = """{"job":"c","op":"problem","text":"cnf(one,axiom,p). fof(no,axiom,q). cnf('two words',axiom,~p)."}
            {"job":"s","op":"sat","problem":"c"}"""
        done = command("gaptd.show", "-", "s", given=jobs)
        self.assertEqual(done.returncode, 0, done.stderr)
        title, lines = done.stdout.split("\n\n")
        self.assertEqual(title, "s: a refutation, in which each step derives a clause")
        first, second, third = lines.splitlines()
        self.assertEqual(sorted([first[3:], second[3:]]), ["input 0, one          p", "input 1, 'two words'  ~p"])
        self.assertRegex(third, r"^2  resolve . . on p      \$false$")
        for words in (["--proof"], ["--short"], ["--html"]):
            with self.subTest(words):
                shown = command("gaptd.show", *words, "-", "s", given=jobs).stdout
                self.assertIn('"rule":"cut' if words == ["--html"] else "cut p over", shown)

    @needs("prove")
    def test_what_rounds_come_to(self) -> None:
        jobs = """{"job":"d","op":"problem","text":"cnf(a,axiom,p(a)). cnf(b,axiom,~q(X) | p(X))."}
            {"job":"t","op":"prove","problem":"d","rounds":1} {"job":"e","op":"problem","text":"cnf(a,axiom,p(a)). cnf(b,axiom,~p(X))."} {"job":"u","op":"prove","problem":"e"}"""
        done = command("gaptd.show", "-", "t", "u", given=jobs)
        self.assertEqual(done.returncode, 0, done.stderr)
        title, saturated, _, refutation = done.stdout.split("\n\n")
        self.assertEqual(title, "t: saturated clauses")
        self.assertEqual(sorted(saturated.splitlines()[1:-1]), ["  p(a)", "  ~q(V0) | p(V0)"])
        self.assertIn("on p(a)", refutation)
        self.assertIn("cut p(a) over", command("gaptd.show", "--proof", "-", "u", given=jobs).stdout)
        self.assertIn('"rule":"cut p(a)', command("gaptd.show", "--html", "-", "t", "u", given=jobs).stdout)

    def test_each_operation(self) -> None:
        """What each operation holds, or finds, is shown as text, on a page and in LaTeX; of the rest it is said that they hold nothing."""
        path, history = str(EXAMPLES / "each_operation.jobs"), History()
        shown, others = {}, set()
        with session() as one:
            for job, reply in one.send_all(reading_jobs(path)):
                if not knows(job["op"]):
                    continue
                history.add(job, reply)
                try:
                    shown[job["op"]] = show.named_sections(one, job["job"], history, is_proof=True)
                except show.ShowError as error:
                    self.assertIn("holds nothing that could be shown", str(error))
                    others.add(job["op"])
        self.assertEqual(others, {"proves", "measure", "show"})
        self.assertEqual({op for op in HELD if knows(op)}, set(shown) | others)
        every = [section for found in shown.values() for section in found]
        self.assertTrue(page.page("all", [section.drawn() for section in every]))
        self.assertTrue(latex.document([section.drawn() for section in every]))
        for op, found in shown.items():
            self.assertGreater(len(show.text(found).splitlines()), 2, op)

    @needs("define")
    def test_definitions(self) -> None:
        jobs = """{"job":"d","op":"define","symbol":"e","vars":[],"body":"p"}
            {"job":"a","op":"lk","using":["d"],"steps":[{"rule":"ax","main":"p","premises":[],"left":["p"],"right":["p"]},
            {"rule":"weak","premises":[0],"left":["p","q"],"right":["p"]},
            {"rule":"defR","main":"e","premises":[1],"left":["p","q"],"right":["e"]}]} {"job":"b","op":"cutelim","proof":"a"}
            {"job":"u","op":"unfold","proof":"a"} {"job":"f","op":"eliminate","proof":"u"}"""
        done = command("gaptd.show", "--short", "-", "a", "b", "u", "f", given=jobs)
        self.assertEqual(done.returncode, 0, done.stderr)
        self.assertEqual(done.stdout.count("1  defR over 0  p, q |- e"), 2)
        self.assertEqual(done.stdout.count("0  ax  p, q |- p"), 2)

    @needs("herbrand")
    def test_a_theorem_for_a_variable(self) -> None:
        """A theorem has a Herbrand sequent where its eigenvariable stands for the strong quantifier."""
        half = allL(ax("p(X)"), "X", "![Y]: p(Y)")
        with session() as one:
            one.run("lk", "whole", steps=steps(allR(half, "X", "![Y]: p(Y)")))
            one.run("lk", "half", steps=steps(half))
            replies = one.batch([{"op": "herbrand", "proof": "whole"}, {"op": "herbrand", "proof": "half"}])
        self.assertEqual([(reply.error or {}).get("kind") for reply in replies], ["not_prenex", None])

    def test_names_that_can_not_be_shown(self) -> None:
        wrong = {
            "m": "show: m is a job by measure, which holds nothing that could be shown",
            "zz": "show: there is no job zz in the file",
            "t.first": "show: t is a job by lk, and only an interpolation's proofs are named with a suffix",
        }
        for name, what in wrong.items():
            with self.subTest(name):
                done = command("gaptd.show", str(EXAMPLES / "each_operation.jobs"), name)
                self.assertEqual((done.returncode, done.stdout), (1, ""))
                self.assertIn(what, done.stderr)
        jobs = '{"job":"first","op":"lk","steps":[]}'
        self.assertIn("first is refused as empty: the list of steps is empty", command("gaptd.show", "-", "first", given=jobs).stderr)
        self.assertIn("there is no job frist in the file; names like it are first", command("gaptd.show", "-", "frist", given=jobs).stderr)

    @needs("expand")
    def test_expansions_of_the_program(self) -> None:
        with session() as one:
            one.run("expansion", "e", **CHAIN)
            section, = show.sections(one, "e")
            self.assertIn("    f(a): p(f(a)) => p(f(f(a)))", show.text([section]))
            one.run("fromexp", "t", expansion="e")
            one.run("expand", "x", proof="t")
            self.assertEqual(show.text(show.sections(one, "x")).splitlines()[2:], show.text([section]).splitlines()[2:])

    @needs("interpolate")
    def test_an_interpolation(self) -> None:
        proof = allL(ax("p(Z)"), "Z", "![X]: p(X)")
        with session() as one:
            one.run("lk", "a", steps=steps(proof))
            job = {"job": "i", "op": "interpolate", "proof": "a", "first": {"left": ["![X]: p(X)"], "right": []},
                   "second": {"left": [], "right": ["p(Z)"]}}
            reply = one.batch([job])[0].checked()
            found = show.sections(one, "i", reply.ok["formula"], without_weak)
        self.assertEqual([section.title for section in found],
                         ["i: the interpolant ![V0]: p(V0), first proof", "i: the interpolant ![V0]: p(V0), second proof"])


class Latex(unittest.TestCase):
    def test_formulas(self) -> None:
        texts = {
            "![X]: (p(X,'it\\'s') => ?[Y]: ~q_1(Y,Z7))":
                r"\forall v_{0}\, (\mathrm{p}(v_{0}, \text{it\textquotesingle{}s}) "
                r"\to \exists v_{1}\, \lnot \mathrm{q\_1}(v_{1}, \mathit{Z7}))",
            "a != b & $true": r"\mathrm{a} \neq \mathrm{b} \land \top",
        }
        for text, wanted in texts.items():
            self.assertEqual(latex.formula(text), wanted)

    def test_parts_with_drawings_of_their_own(self) -> None:
        written = latex.document([("d", doubled(40))])
        self.assertEqual(written.count(r"\DisplayProof"), 40)
        self.assertLess(len(written), 40_000)

    def test_the_document_compiles(self) -> None:
        program = shutil.which("pdflatex")
        has_package = program and subprocess.run(["kpsewhich", "bussproofs.sty"], capture_output=True, check=False).returncode == 0
        if not has_package:
            self.skipTest("there is no pdflatex with bussproofs")
        with session() as one:
            eliminated = [job["job"] for job, reply in one.send_all(reading_jobs(str(EXAMPLES / "eliminations.jobs")))
                          if job["op"] == "cutelim" and reply.error is None]
            kept = [(name, section.shown) for name in eliminated for section in show.sections(one, name)]
        with tempfile.TemporaryDirectory() as folder:
            (Path(folder) / "a.tex").write_text(latex.document([*SAMPLES, *kept]))
            done = subprocess.run([str(program), "-interaction=nonstopmode", "-halt-on-error", "a.tex"], cwd=folder, capture_output=True,
                                  text=True, errors="replace", timeout=SECONDS, check=False)
            self.assertEqual(done.returncode, 0, done.stdout[-2_000:])
            self.assertIn("Output written on a.pdf", done.stdout)


def wide() -> Proof:
    """A proof from many axioms, whose two premises stand more than a screen apart."""
    axioms = [f"axiom_{number}(some_constant)" for number in range(26)]
    leaf = ax(f"q({','.join(axioms)})")
    premise = Proof("weak", Sequent.of([*axioms, "p"], ["r(a)"]), (leaf,))
    return Proof("orL", Sequent.of(axioms, ["r(a)"]), (premise, premise), "p | p")


# What a user does with a page, and what is seen then.
LOOKING = """
const [frame] = page.frames();
const seen = {brief: page.byId.brief.checked, root: page.words(frame)[0], below: page.words(frame)[1], first: [frame.scrollLeft, frame.scrollTop]};
frame.scrollLeft = 6000;
frame.fire("scroll");
seen.text = page.nodes(frame)[0].children[0].attributes.x;
seen.rule = page.nodes(frame)[0].named("rule")[0].attributes.x;
page.byId.brief.checked = false;
page.byId.brief.fire("change");
seen.full = page.words(frame)[1];
seen.again = [frame.scrollLeft > 0, frame.scrollTop > 0, frame.scrollTop === frame.scrollHeight];
page.nodes(frame)[0].named("context")[0].fire("click");
seen.opened = page.words(frame)[0];
const inner = page.nodes(frame)[1];
const before = inner.children[0].attributes.x - frame.scrollLeft;
inner.fire("click");
seen.moved = Math.round(page.nodes(frame)[1].children[0].attributes.x - frame.scrollLeft - before);
seen.folded = page.nodes(frame)[1].className;
console.log(JSON.stringify(seen));
"""

# Clicks on the root of each drawing, and then on the two buttons, and writes how many nodes are drawn after each.
CLICKING = """<script>
const count = () => [...document.querySelectorAll(".drawing")].map((one) => one.querySelectorAll("g.node").length).join(",");
const counts = [count()];
for (const one of document.querySelectorAll(".drawing")) one.querySelector("g.node").dispatchEvent(new Event("click"));
counts.push(count());
document.getElementById("unfold").click();
counts.push(count());
document.getElementById("fold").click();
counts.push(count());
document.getElementById("unfold").click();
document.body.setAttribute("data-counts", counts.join(" "));
</script>"""


def bushy(leaves: int) -> Proof:
    """A proof with so many different axioms, and as many inferences but one."""
    level = [Proof("ax", Sequent.of([f"p{number}", "s"], [f"p{number}"]), (), f"p{number}") for number in range(leaves)]
    number = 0
    while len(level) > 1:
        pairs = list(zip(level[::2], level[1::2]))
        odd = level[2 * len(pairs):]
        level = []
        for pair in pairs:
            number += 1
            main = f"a{number} | b{number}"
            level.append(Proof("orL", Sequent.of([main], ["r"]), pair, main))
        level += odd
    return level[0]


class Page(unittest.TestCase):
    def browser(self, address: str) -> Browser:
        program = installed()
        if program is None:
            self.skipTest("there is no browser")
        return Browser(program, address)

    def browse(self, written: str) -> str:
        """The page's elements after its script has run."""
        with tempfile.TemporaryDirectory() as folder:
            path = Path(folder) / "page.html"
            path.write_text(written)
            with self.browser(path.as_uri()) as browser:
                browser.wait("document.readyState === 'complete' && document.querySelector('.drawing')")
                return str(browser.value("document.documentElement.outerHTML"))

    def test_the_page_stands_by_itself(self) -> None:
        written = page.page("a < b", SAMPLES)
        self.assertNotRegex(written, r"(src|href)=|@import|url\(")
        self.assertIn("<title>a &lt; b</title>", written)
        data = re.search(r'<script type="application/json" id="data">(.*?)</script>', written)
        assert data
        self.assertEqual([one["title"] for one in json.loads(data.group(1))], [title for title, _ in SAMPLES])

    def test_the_page_in_a_browser(self) -> None:
        drawn = self.browse(page.page("samples", SAMPLES[:2] + SAMPLES[3:]).replace("</body>", CLICKING + "</body>"))
        self.assertIn('data-counts="6,3,11,7 1,1,1,1 6,3,11,7 1,1,1,1"', drawn)
        self.assertEqual(len(re.findall(r'<g class="node cut"', drawn)), 1)
        self.assertRegex(drawn, r'<tspan class="eigenvariable">X</tspan>')
        self.assertRegex(drawn, r"<tspan>[^<]*\.\. ⊢ [^<]*</tspan>")
        self.assertEqual(drawn.count("NaN"), 0)

    def looked_at(self, written: str, trial: str) -> Any:
        """What a trial writes of a page, run by node with the elements that the page needs."""
        node = shutil.which("node")
        if node is None:
            self.skipTest("there is no node")
        with tempfile.TemporaryDirectory() as folder:
            for name, text in (("page.html", written), ("trial.js", trial)):
                (Path(folder) / name).write_text(text)
            done = subprocess.run([node, str(CLIENTS / "tests" / "dom.js"), f"{folder}/page.html", f"{folder}/trial.js"],
                                  capture_output=True, text=True, timeout=SECONDS, check=False)
        self.assertEqual(done.returncode, 0, done.stderr)
        return json.loads(done.stdout)

    def test_a_root_with_many_axioms(self) -> None:
        seen = self.looked_at(page.page("wide", [("w", wide())]), LOOKING)
        self.assertTrue(seen["brief"])
        self.assertEqual((seen["root"], seen["below"]), ("26 formulas ⊢ r(a)", "p, .. ⊢ .."))
        self.assertGreater(seen["first"][0], 1_000)
        self.assertTrue(6_000 < seen["text"] < 7_000, seen["text"])  # it is moved into the thousand points that are seen
        self.assertTrue(6_000 < seen["rule"] < 7_000, seen["rule"])
        self.assertTrue(seen["full"].startswith("axiom_0(some_constant), "))
        self.assertEqual(seen["again"], [True, True, True])
        self.assertTrue(seen["opened"].endswith("axiom_9(some_constant) ⊢ r(a)"))
        self.assertEqual(seen["moved"], 0)
        self.assertIn("folded", seen["folded"])

    def test_all_samples_are_drawn(self) -> None:
        samples = [*SAMPLES[:2], *SAMPLES[3:], ("a sequent", Sequent.of(["p"], ["q", "r"]))]
        words = self.looked_at(page.page("samples", samples), "console.log(JSON.stringify(page.frames().map((one) => one.textContent)));")
        self.assertEqual(words[4], "p⊢qr")
        self.assertIn(".. ⊢ ", words[0])
        self.assertFalse([one for one in words if "undefined" in one or "NaN" in one])

    def test_a_large_proof_is_drawn_in_part(self) -> None:
        drawn = self.browse(page.page("large", [("d", doubled(60))]))
        nodes = len(re.findall(r'<g class="node', drawn))
        self.assertTrue(20 < nodes < 1_000, nodes)
        self.assertIn('class="more"', drawn)

    def test_five_thousand_nodes(self) -> None:
        """They are unfolded soon, since only what is seen is drawn; what is scrolled to is drawn then, and nothing twice."""
        with tempfile.TemporaryDirectory() as folder:
            path = Path(folder) / "page.html"
            path.write_text(page.page("bushy", [("b", bushy(2_500))]))
            with self.browser(path.as_uri()) as browser:
                browser.wait("document.querySelector('g.node')")
                milliseconds = browser.value("""(() => { const begun = performance.now(); document.getElementById("unfold").click();
                    document.querySelector(".drawing").getBoundingClientRect(); return performance.now() - begun; })()""")
                count = "document.querySelectorAll('g.node').length"
                first = browser.value(count)
                browser.value("document.querySelector('.drawing').scrollTo(0, 0)")
                browser.wait(f"{count} > {first}")
                texts = browser.value("[...document.querySelectorAll('g.node > text:first-child')].map((one) => one.textContent)")
        self.assertLess(milliseconds, 5_000)  # (where the processor is free it takes a fifth of a second)
        self.assertLess(len(texts), 1_000)
        self.assertIn("p0, s ⊢ p0", texts)
        leaves = [text for text in texts if text.startswith("p")]
        self.assertEqual(len(leaves), len(set(leaves)))

    def test_a_picture_in_a_notebook(self) -> None:
        """The frame that a cell shows has the drawing in it."""
        with tempfile.TemporaryDirectory() as folder:
            path = Path(folder) / "cell.html"
            path.write_text(f"<!DOCTYPE html><body>{cut_proof()._repr_html_()}{Expansion.read(CHAIN)._repr_html_()}</body>")
            with self.browser(path.as_uri()) as browser:
                drawn = "[...document.querySelectorAll('iframe')].map((one) => one.contentDocument.querySelectorAll('g.node').length).join()"
                browser.wait(f"{drawn} === '6,11'")

    def test_pages_of_all_examples(self) -> None:
        shown = [Section(job["job"], from_steps(job["steps"])) for job, reply in steps_of("lk") if "ok" in reply]
        self.assertTrue(page.page("all", [(section.title, section.shown) for section in shown]))
        self.assertTrue(show.text(shown))
        self.assertTrue(latex.document([(section.title, section.shown) for section in shown]))
