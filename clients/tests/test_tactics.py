from __future__ import annotations

import json
import tempfile
import unittest
from pathlib import Path
from typing import Any, Callable, Dict

from gaptd import formulas, readable
from gaptd.client import Session
from gaptd.goals import TacticError
from gaptd.script import COMMANDS, Script, commands, words_of
from gaptd.tactics import Tactics
from tests.support import EXAMPLES, command, needs, session

ORDER = {"irreflexive": "![X]: ~lt(X,X)", "transitive": "![X,Y,Z]: ((lt(X,Y) & lt(Y,Z)) => lt(X,Z))"}
NO_CYCLE = {"goal": "![X,Y,Z]: ~(lt(X,Y) & lt(Y,Z) & lt(Z,X))"}


def taken(tactics: Tactics, one: Session) -> Dict[str, Any]:
    """What the program says of a finished proof."""
    return one.batch([tactics.qed("theorem")])[0].checked().ok


class Rules(unittest.TestCase):
    def test_each_rule(self) -> None:
        """A proof by each tactic that stands for a rule."""
        proofs = {
            "p |- p": lambda t: t.ax(),
            "|- $true": lambda t: t.ax(),
            "$false |-": lambda t: t.ax(),
            "p, ~p |-": lambda t: t.negL().ax(),
            "|- p, ~p": lambda t: t.negR().ax(),
            "p & q |- q": lambda t: t.andL().ax(),
            "p, q |- p & q": lambda t: t.andR().ax().ax(),
            "p | q |- p, q": lambda t: t.orL().ax().ax(),
            "p |- q | p": lambda t: t.orR().ax(),
            "p => q, p |- q": lambda t: t.impL().ax().ax(),
            "|- p => p": lambda t: t.impR().ax(),
            "![X,Y]: r(X,Y) |- r(a,f(b))": lambda t: t.allL("a", "f(b)").ax(),
            "r(a,f(b)) |- ?[X,Y]: r(X,Y)": lambda t: t.exR("a", "f(b)").ax(),
            "![X,Y]: r(X,Y) |- ![X,Y]: r(Y,X)": lambda t: t.allR("Z", "U").allL("U", "Z").ax(),
            "?[X,Y]: r(X,Y) |- ?[X,Y]: r(Y,X)": lambda t: t.exL().exR("Y", "X").ax(),
            "?[X]: ![Y]: r(X,Y) |- ![Y]: ?[X]: r(X,Y)": lambda t: t.exL("X").allR("Y").allL("Y").exR("X").ax(),
            "p |- p | q, r": lambda t: t.cut("p | q").orR().ax().ax(),
        }
        with session() as one:
            for text, prove in proofs.items():
                with self.subTest(text):
                    left, _, right = text.partition("|-")
                    tactics = Tactics(sides(left), sides(right))
                    prove(tactics)
                    reply = taken(tactics, one)
                    self.assertEqual([reply["left"], reply["right"]], [formulas.rising(map(formulas.canonical, sides(side)))
                                                                       for side in (left, right)])

    def test_a_theorem_with_a_cut(self) -> None:
        with session() as one:
            tactics = Tactics(ORDER, NO_CYCLE, one)
            tactics.cut("![X,Y]: (lt(X,Y) => ~lt(Y,X))", "asymmetric").forget("goal").decompose()
            tactics.allL("X", "Y", "X", of="transitive").allL("X", of="irreflexive").prop()
            tactics.decompose().allL("X", "Y", "Z", of="transitive").allL("X", "Z", of="asymmetric").prop()
            self.assertEqual(str(tactics), "no goal is left")
            reply = taken(tactics, one)
        self.assertEqual(reply["cuts"], 1)
        self.assertEqual(reply["right"], [formulas.canonical(NO_CYCLE["goal"])])

    def test_auto_and_a_lemma(self) -> None:
        with session() as one:
            lemma = Tactics([ORDER["irreflexive"], ORDER["transitive"]], ["![X,Y]: (lt(X,Y) => ~lt(Y,X))"], one).auto(prover="own").proof()
            tactics = Tactics(ORDER, NO_CYCLE, one).lemma(lemma, "asymmetric").auto(prover="own")
            self.assertEqual(taken(tactics, one)["cuts"], 1)
            whole = Tactics(ORDER, {"a": "![X,Y]: (lt(X,Y) => ~lt(Y,X))", "b": "p"}, one).lemma(lemma)
            self.assertEqual(taken(whole, one)["cuts"], 0)

    def test_only_what_is_needed_is_kept(self) -> None:
        tactics = Tactics(["p & q", "![X]: r(X)"], ["p"]).allL("a", of="h2").andL("h1").cut("s", "l").focus(2).ax()
        with self.assertRaisesRegex(TacticError, "1 goal is open"):
            tactics.qed("x")
        tactics.ax().undo().ax()
        self.assertEqual([step["rule"] for step in tactics.qed("x")["steps"]], ["ax", "andL"])
        with session() as one:
            self.assertEqual(taken(tactics, one)["left"], ["p & q", "![V0]: r(V0)"])


def sides(text: str) -> "list[str]":
    """The formulas of a side of a sequent, which have a space behind no comma of their own."""
    return text.strip().split(", ") if text.strip() else []


class Goals(unittest.TestCase):
    def test_what_is_shown(self) -> None:
        tactics = Tactics(ORDER, NO_CYCLE).cut("![A,B]: (lt(A,B) <=> ~lt(B,A))", "total")
        self.assertEqual(str(tactics).splitlines(), [
            "goal 1 of 2",
            "  irreflexive: ![X]: ~lt(X,X)",
            "  transitive: ![X,Y,Z]: ((lt(X,Y) & lt(Y,Z)) => lt(X,Z))",
            "  |-",
            "  goal: ![X,Y,Z]: ~(lt(X,Y) & lt(Y,Z) & lt(Z,X))",
            "  total: ![X,Y]: (lt(X,Y) <=> ~lt(Y,X))",
            "goal 2: ![X]: ~lt(X,X), ![X,Y,Z]: ((lt(X,Y) & lt(Y,Z)) => lt(X,Z)), ![X,Y]: (lt(X,Y) <=> ~lt(Y,X)) |- "
            "![X,Y,Z]: ~(lt(X,Y) & lt(Y,Z) & lt(Z,X))",
        ])

    def test_names(self) -> None:
        tactics = Tactics({"h": "p & q", "i": "![X]: p(X)"}, {"goal": "(a => b) | c"})
        tactics.andL().allL("a").allL("b").orR().impR()
        self.assertEqual([one.name for one in tactics.goal.named], ["i", "h_1", "h_2", "i_1", "i_2", "goal_2", "h1", "goal_1"])
        tactics.rename("h1", "given").forget("h_1", "p(b)")
        self.assertEqual([one.name for one in tactics.goal.named], ["i", "h_2", "i_1", "goal_2", "given", "goal_1"])

    def test_an_instance_that_is_there(self) -> None:
        """What a block's first instances come to stays where it was there before, and goes where it wasn't."""
        tactics = Tactics({"all": "![X,Y,Z]: r(X,Y,Z)", "some": "![Y,Z]: r(a,Y,Z)"}, {"goal": "r(a,b,c)"}).allL("a", "b", "c", of="all")
        self.assertEqual([str(one) for one in tactics.goal.side("left")],
                         ["all: ![X,Y,Z]: r(X,Y,Z)", "some: ![X,Y]: r(a,X,Y)", "some_1: r(a,b,c)"])
        tactics.undo().forget("some").allL("a", "b", "c", names=["new"])
        self.assertEqual([str(one) for one in tactics.goal.side("left")], ["all: ![X,Y,Z]: r(X,Y,Z)", "new: r(a,b,c)"])
        tactics.allL("a", "b", "c", of="all").ax()
        with session() as one:
            self.assertEqual(taken(tactics, one)["quants"], 3)

    def test_formulas_by_their_texts(self) -> None:
        tactics = Tactics(["p & q", "q & r"], ["r"]).andL("q&r", ["one", "two"])
        self.assertEqual([one.name for one in tactics.goal.named], ["h1", "goal", "one", "two"])

    def test_fresh_variables(self) -> None:
        tactics = Tactics(["p(X)", "q(Z)"], ["![A,B]: r(A,B)"]).allR()
        self.assertEqual(str(tactics.goal.side("right")[0]), "goal: r(Y,U)")

    def test_refusals_change_nothing(self) -> None:
        wrong: Dict[str, Callable[[Tactics], Tactics]] = {
            "say which of irreflexive, transitive": lambda t: t.allL("a"),
            "andR takes a conjunction on the right: there is none": lambda t: t.andR(),
            "andL takes a conjunction on the left, and irreflexive: .* is a universal formula": lambda t: t.andL("irreflexive"),
            "there is no formula nothing; there are irreflexive,": lambda t: t.andL("nothing"),
            "there is no formula p &; there are": lambda t: t.andL("p &"),
            "irreflexive_1 is a negation, and 2 terms were given": lambda t: t.allL("a", "b", of="irreflexive"),
            "the eigenvariable X is free in goal": lambda t: t.allR("X", "X"),
            "no formula stands on both sides": lambda t: t.ax(),
            "allL takes terms": lambda t: t.allL(),
            "give a session": lambda t: t.prop(),
            "counted from 1": lambda t: t.focus(2),
            "1 goal is open": lambda t: t.qed("x") and t,
            "which allL takes apart by terms": lambda t: t.destruct("irreflexive"),
        }
        for what, use in wrong.items():
            tactics = Tactics(ORDER, NO_CYCLE)
            before = str(tactics)
            with self.subTest(what):
                with self.assertRaisesRegex(TacticError, what):
                    use(tactics)
                self.assertEqual(str(tactics), before)
        with self.assertRaisesRegex(TacticError, "nothing was done"):
            Tactics([], ["p"]).undo()

    def test_what_is_no_tautology(self) -> None:
        with session() as one, self.assertRaisesRegex(TacticError, r"where just this is true: p, !\[X\]: q\(X\)"):
            Tactics(["p", "![X]: q(X)"], ["r", "?[Y]: s(Y)"], one).prop()


class Definitions(unittest.TestCase):
    LINES = """
        define subset: sub(X,Y) := ![Z]: (in(Z,X) => in(Z,Y))
        define same: same(X,Y) := sub(X,Y) & sub(Y,X)
        define unused: other := p
        theorem subset-transitive
          prove goal: ![X,Y,Z]: ((sub(X,Y) & sub(Y,Z)) => sub(X,Z))
          decompose
          defR
          allR U
          impR
          defL of h1_1
          defL of h1_2
          allL U of h1_1
          allL U of h1_2
          prop
        qed
        theorem same-symmetric
          assume h: same(a,b)
          prove g: same(b,a)
          defL
          defR
          prop
        qed
    """

    @needs("define")
    def test_a_file(self) -> None:
        done = command("gaptd.tactics", "-", given=self.LINES)
        self.assertEqual(done.returncode, 0, done.stderr)
        jobs = [json.loads(line) for line in done.stdout.splitlines()]
        self.assertEqual([job.get("using") for job in jobs], [None, ["subset"], None, ["subset"], ["subset", "same"]])
        replies = [json.loads(line) for line in command("gaptd.client", given=done.stdout).stdout.splitlines()]
        self.assertEqual([reply["ok"].get("right") for reply in replies[3:]],
                         [["![V0]: ![V1]: ![V2]: ((sub(V0,V1) & sub(V1,V2)) => sub(V0,V2))"], ["same(b,a)"]])
        self.assertIn("the program has checked it: 17 steps, 0 cuts", command("gaptd.tactics", given=self.LINES).stdout)

    def test_what_is_no_definition(self) -> None:
        script = Script(lambda: session())
        for line in ("define p := ", "define p(X,X) := q", "define p(a) := q", "define ~p := q", "define p"):
            with self.subTest(line), self.assertRaises(ValueError):
                script.run(line)
        script.run("define d: p(X) := q(X)")
        with self.assertRaisesRegex(TacticError, "there is a definition or a theorem d already"):
            script.run("define d: q := p")
        for line in ("theorem t", "assume p", "prove q"):
            script.run(line)
        with self.assertRaisesRegex(TacticError, "defL takes an atom with a definition on the left, and h: p is an atom on the left"):
            script.run("defL h")


class Readable(unittest.TestCase):
    def test_texts(self) -> None:
        texts = {
            "![V0]: ![V1]: ((p(V0) => p(V1)) & (p(V1) => p(V0)))": "![X,Y]: (p(X) <=> p(Y))",
            "?[V0]: ![V1]: ![V2]: r(V0,V1,V2,X)": "?[Y]: ![Z,U]: r(Y,Z,U,X)",
            "~![A]: A != b": "~![X]: X != b",
            "(p => q) & (q => p) & r": "(p <=> q) & r",
            "r & ((p => q) & (q => p))": "r & (p <=> q)",
            "(p => q) & (q => r)": "(p => q) & (q => r)",
        }
        for text, wanted in texts.items():
            with self.subTest(text):
                self.assertEqual(readable.formula(text), wanted)
                self.assertEqual(formulas.canonical(wanted), formulas.canonical(text))


class Scripts(unittest.TestCase):
    def test_words(self) -> None:
        self.assertEqual(words_of("f(a, b) X of some name as one, two"), (["f(a, b)", "X"], "some name", ["one", "two"]))
        self.assertEqual(words_of("of ![X]: p(X)"), ([], "![X]: p(X)", []))
        self.assertEqual(words_of("a,'of it'"), (["a", "'of it'"], None, []))
        self.assertEqual(words_of(""), ([], None, []))

    def test_lines(self) -> None:
        lines = ["% a comment", "prove ![X]: (p(X) &  % more", "  q)", "", "cut '%' =>", " b", "ax"]
        self.assertEqual(list(commands(lines)), [(2, "prove ![X]: (p(X) & q)"), (5, "cut '%' => b"), (7, "ax")])

    def test_the_textbook(self) -> None:
        done = command("gaptd.tactics", str(EXAMPLES / "textbook.tactics"))
        self.assertEqual(done.returncode, 0, done.stderr)
        kept = [json.loads(line) for line in (EXAMPLES / "textbook.replies").read_text().splitlines()]
        replies = [json.loads(line) for line in command("gaptd.client", given=done.stdout).stdout.splitlines()]
        self.assertEqual([(reply["job"], reply["ok"]["left"], reply["ok"]["right"]) for reply in replies],
                         [(reply["job"], reply["ok"]["left"], reply["ok"]["right"]) for reply in kept])
        self.assertTrue(all(reply["ok"]["cuts"] > 0 for reply in replies))

    @needs("define")
    def test_the_libraries(self) -> None:
        """The definitions and proofs that begin sets.jobs and orders.jobs are made of the tactics, and each is accepted."""
        for library in ("sets", "orders"):
            with self.subTest(library):
                done = command("gaptd.tactics", str(EXAMPLES / f"{library}.tactics"))
                self.assertEqual(done.returncode, 0, done.stderr)
                made = done.stdout.splitlines()
                self.assertEqual((EXAMPLES / f"{library}.jobs").read_text().splitlines()[:len(made)], made)
                replies = [json.loads(line) for line in (EXAMPLES / f"{library}.replies").read_text().splitlines()]
                self.assertTrue(all("ok" in reply for reply in replies[:len(made)]))

    def test_a_dialogue(self) -> None:
        given = ["theorem t", "prove ![X]: p(X) => p(c)", "impr", "impR", "allL c", "andL", "undo", "allL c of h1", "ax", "script", "qed",
                 "theorem u", "assume ![X]: p(X)", "prove q & p(c)", "andR", "abandon", "theorem v", "assume p", "prove p", "qed", "ax", "qed"]
        done = command("gaptd.tactics", given="\n".join(given))
        self.assertEqual((done.returncode, done.stderr), (0, ""))
        for line in ("no: there is no command impr; commands like it are impR, impL", "no: andL takes a conjunction on the left: there is none",
                     "  h1_1: p(c)", "no goal is left", "t is complete: |- ![X]: p(X) => p(c)", "the program has checked it: 3 steps, 0 cuts",
                     "no: 1 goal is open", "v is complete: p |- p"):
            self.assertIn(line, done.stdout.splitlines())
        after = done.stdout.split("no goal is left\n")[1].splitlines()
        self.assertEqual(after[:5], ["theorem t", "prove ![X]: p(X) => p(c)", "impR", "allL c of h1", "ax"])

    def test_goals_before_the_first_tactic(self) -> None:
        said = command("gaptd.tactics", given="goals\ntheorem t\ngoals\nundo\nprove p => p\ngoals\nassume q\nimpR\nundo\nundo\n").stdout
        self.assertEqual(said.splitlines()[1:], [
            "no: no theorem is at work: begin with theorem NAME",
            "no: the theorem has no formula: say assume NAME: FORMULA and prove NAME: FORMULA first",
            "no: no tactic was used that could be taken back", "the goal", "  |-", "  goal: p => p",
            "the goal", "  h: q", "  h1: p", "  |-", "  goal: p", "the goal", "  h: q", "  |-", "  goal: p => p",
            "no: nothing was done that could be undone"])

    def test_faults_of_a_file(self) -> None:
        wrong = {
            "theorem a\nprove p => q\nimpR\nax\n": "line 4, ax: no formula stands on both sides",
            "theorem a\nprove p => q\nimpR\n": "a isn't complete\nthe goal\n  h1: p\n  |-\n  goal: q",
            "theorem a\ntheorem b\n": "line 2, theorem: a isn't complete",
            "prove p\n": "line 1, prove: prove stands between theorem and the first tactic",
            "theorem a\nprove p &\n": "line 2, prove: expected a formula or a term, found the end",
            "theorem a\nprove p\nlemma b\n": "line 3, lemma: there is no theorem b",
            "theorem two words\n": "line 1, theorem: a theorem's name is",
        }
        with tempfile.TemporaryDirectory() as folder:
            path = Path(folder) / "a.tactics"
            for text, what in wrong.items():
                with self.subTest(text):
                    path.write_text(text)
                    done = command("gaptd.tactics", str(path))
                    self.assertEqual((done.returncode, done.stdout), (1, ""))
                    self.assertIn(what, done.stderr)
                    self.assertTrue(done.stderr.startswith(f"tactics: {path}"), done.stderr)

    def test_each_command_has_help(self) -> None:
        with session() as one:
            script = Script(lambda: one)
            script.run("help")
        self.assertEqual(len(script.said), len(COMMANDS))
        self.assertFalse([line for line in script.said if not line.endswith((".", "it."))])
