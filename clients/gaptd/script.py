"""Tactics as they are written in a file, or typed in a dialogue: one command a line.

    theorem men
      assume all: ![X]: (man(X) => mortal(X))
      assume h: man(socrates)
      prove goal: mortal(socrates)
      allL socrates
      impL
      ax
      ax
    qed

A line whose brackets aren't closed, or that ends in a connective, goes on in the next one. What follows a % is a comment.
"""
from __future__ import annotations

import argparse
import json
import re
import sys
from typing import Any, Callable, Dict, Iterable, Iterator, List, NamedTuple, Optional, Tuple

from . import fof, formulas, operations, readable
from .client import NAME_LENGTH, Session, add_program, default_program
from .errors import GaptdError
from .files import file_name, read_text
from .goals import TacticError
from .progress import Progress
from .proofs import Proof
from .rules import Definition
from .tactics import Tactics, lk_job, using

PROMPT = "gaptd> "


class Words(NamedTuple):
    """The parts of a tactic's line: what stands first, the formula behind `of`, and the names behind `as`."""

    first: List[str]
    of: Optional[str]
    names: List[str]


class Command(NamedTuple):
    form: str
    help: str
    run: Callable[["Script", str], None]


def words_of(rest: str) -> Words:
    """The parts of what follows a tactic's word. Terms are separated by spaces or commas outside of brackets."""
    found = re.fullmatch(r"(?P<first>.*?)(?:(?:^|\s)of\s+(?P<of>.*?))?(?:(?:^|\s)as\s+(?P<names>[\w\s,]+))?", rest.strip())
    assert found is not None
    names = re.findall(r"\w+", found.group("names") or "")
    return Words(list(split(found.group("first"))), found.group("of"), names)


def split(text: str) -> Iterator[str]:
    """The words of a text; a space or a comma in brackets or quotes separates none."""
    depth, word = 0, ""
    for piece in re.findall(r"'(?:[^'\\]|\\.)*'|.", text):
        depth += (piece in "([") - (piece in ")]")
        if depth == 0 and (piece.isspace() or piece == ","):
            if word:
                yield word
            word = ""
        else:
            word += piece
    if word:
        yield word


class Script:
    """The theorems of a file or of a dialogue: those that are proved, and the one at work."""

    def __init__(self, session: Callable[[], Session]) -> None:
        self.ask = session
        self.proved: Dict[str, Proof] = {}
        self.definitions: Dict[str, Definition] = {}
        self.name = ""
        self.left: Dict[str, str] = {}
        self.right: Dict[str, str] = {}
        self.work: Optional[Tactics] = None
        self.lines: List[str] = []
        self.said: List[str] = []

    def run(self, line: str) -> None:
        """Does one command. Raises TacticError or another ValueError, and then nothing has changed."""
        word, _, rest = line.strip().partition(" ")
        if word not in COMMANDS:
            like = operations.near(word, COMMANDS)
            raise TacticError(f"there is no command {word}" + (f"; commands like it are {', '.join(like)}" if like else "; try help"))
        COMMANDS[word].run(self, rest.strip())
        if word == "undo":
            del self.lines[-1:]
        elif word not in ("goals", "help", "script"):
            self.lines.append(line.strip())

    @property
    def tactics(self) -> Tactics:
        """The proof at work, which begins with the first tactic."""
        if not self.name:
            raise TacticError("no theorem is at work: begin with theorem NAME")
        if self.work is None:
            self.work = self.begun()
        return self.work

    def begun(self) -> Tactics:
        """The theorem at work without a tactic yet."""
        if not self.left and not self.right:
            raise TacticError("the theorem has no formula: say assume NAME: FORMULA and prove NAME: FORMULA first")
        return LazyTactics(self.left, self.right, self.definitions, self.ask)

    # Commands

    def theorem(self, rest: str) -> None:
        if self.name:
            raise TacticError(f"{self.name} isn't complete: qed, or abandon")
        if not re.fullmatch(r"[A-Za-z0-9_-]{1,%d}" % NAME_LENGTH, rest):
            raise TacticError(f"a theorem's name is 1 to {NAME_LENGTH} letters, digits, _ and -")
        if rest in self.proved or rest in self.definitions:
            raise TacticError(f"there is a theorem or a definition {rest} already")
        self.name, self.left, self.right, self.work = rest, {}, {}, None

    def assume(self, rest: str) -> None:
        self.put(self.left, rest, "assume")

    def prove(self, rest: str) -> None:
        self.put(self.right, rest, "prove")

    def put(self, side: Dict[str, str], rest: str, word: str) -> None:
        if not self.name or self.work is not None and self.work.tree.before:
            raise TacticError(f"{word} stands between theorem and the first tactic")
        name, text = named_formula(rest, "goal" if word == "prove" else "h")
        if name in self.left or name in self.right:
            raise TacticError(f"there is a formula with the name {name}")
        side[name] = formulas.canonical(text)
        self.work = None

    def cut(self, rest: str) -> None:
        name, text = named_formula(rest, "lemma")
        self.tactics.cut(text, name)

    def lemma(self, rest: str) -> None:
        if rest not in self.proved:
            raise TacticError(f"there is no theorem {rest}" + (f"; there are {', '.join(self.proved)}" if self.proved else ""))
        self.tactics.lemma(self.proved[rest], rest)

    def auto(self, rest: str) -> None:
        words = rest.split()
        seconds = [float(word) for word in words if re.fullmatch(r"[0-9.]+", word)]
        provers = [word for word in words if word in fof.NAMES]
        if len(seconds) + len(provers) != len(words):
            raise TacticError(f"auto takes a number of seconds, and one of {', '.join(fof.NAMES)}")
        given: Dict[str, Any] = {"seconds": seconds[0]} if seconds else {}
        with Progress() as progress:
            self.tactics.auto(prover=provers[0] if provers else "", tell=progress.tell, **given)

    def rename(self, rest: str) -> None:
        words = rest.split()
        if len(words) != 2:
            raise TacticError("rename takes a name and a new one")
        self.tactics.rename(*words)

    def focus(self, rest: str) -> None:
        if not rest.isdigit():
            raise TacticError("focus takes the number of an open goal")
        self.tactics.focus(int(rest))

    def undo(self, rest: str) -> None:
        if self.work is None:
            raise TacticError("no tactic was used that could be taken back")
        self.work.undo()

    def give_up(self, rest: str) -> None:
        self.name, self.work = "", None

    def goals(self, rest: str) -> None:
        if not self.name:
            raise TacticError("no theorem is at work: begin with theorem NAME")
        self.said.append(str(self.work or self.begun()))

    def script(self, rest: str) -> None:
        self.said.extend(self.lines)

    def help(self, rest: str) -> None:
        some = [rest] if rest in COMMANDS else list(COMMANDS)
        width = max(len(COMMANDS[word].form) for word in some)
        self.said.extend(f"{COMMANDS[word].form:{width}}  {COMMANDS[word].help}" for word in some)

    def qed(self, rest: str) -> None:
        proof = self.tactics.proof()
        self.proved[self.name] = proof
        self.said.append(f"{self.name} is complete: {readable.sequent(*map(formulas.rising, (proof.end.left, proof.end.right)))}")
        self.name, self.work = "", None

    def define(self, rest: str) -> None:
        found = re.fullmatch(r"(?:([\w-]+)\s*:(?!=))?\s*(.*?)\s*:=(.*)", rest, re.DOTALL)
        if found is None or self.name:
            raise TacticError("define takes NAME: ATOM := FORMULA, where no theorem is at work")
        atom, body = formulas.formula(found.group(2)), formulas.formula(found.group(3))
        arguments = [arg.name for arg in atom.args if isinstance(arg, formulas.Var)] if isinstance(atom, formulas.Atom) else []
        if not isinstance(atom, formulas.Atom) or len(set(arguments)) != len(atom.args):
            raise TacticError("what is defined is a predicate of different variables, as sub(X,Y)")
        name = found.group(1) or f"define-{atom.name}"
        if name in self.definitions or name in self.proved:
            raise TacticError(f"there is a definition or a theorem {name} already")
        self.definitions[name] = Definition(atom.name, tuple(arguments), body)

    def define_job(self, name: str) -> Dict[str, Any]:
        """The job that makes a definition."""
        one = self.definitions[name]
        return {"job": name, "op": "define", "symbol": formulas.name_text(one.symbol), "vars": list(one.variables),
                "body": formulas.formula_text(one.body), **using([one.body], self.definitions)}

    def jobs(self) -> Iterator[Dict[str, Any]]:
        """The jobs `define` of the definitions, and `lk` for the theorems that are complete."""
        yield from map(self.define_job, self.definitions)
        for name, proof in self.proved.items():
            yield lk_job(proof, name, self.definitions)


class LazyTactics(Tactics):
    """Tactics that start the program once one of them asks it."""

    def __init__(self, left: Dict[str, str], right: Dict[str, str], definitions: Dict[str, Definition], ask: Callable[[], Session]) -> None:
        super().__init__(left, right, definitions=definitions)
        self.ask = ask

    def asked(self) -> Session:
        return self.ask()


def named_formula(rest: str, name: str) -> Tuple[str, str]:
    """The name and the formula of `NAME: FORMULA`, where the name may be left out."""
    found = re.fullmatch(r"([A-Za-z]\w*)\s*:(.*)", rest, re.DOTALL)
    return (found.group(1), found.group(2).strip()) if found else (name, rest)


def by_formula(method: str) -> Callable[[Script, str], None]:
    """A command for a tactic that takes a formula and names."""
    def run(script: Script, rest: str) -> None:
        words = words_of(rest)
        of = words.of or " ".join(words.first) or None
        getattr(script.tactics, method)(of, words.names) if words.names else getattr(script.tactics, method)(*([of] if of else []))

    return run


def by_terms(method: str) -> Callable[[Script, str], None]:
    """A command for a tactic that takes terms or variables, a formula behind `of`, and names."""
    def run(script: Script, rest: str) -> None:
        words = words_of(rest)
        getattr(script.tactics, method)(*words.first, of=words.of, names=words.names)

    return run


def by_nothing(method: str) -> Callable[[Script, str], None]:
    def run(script: Script, rest: str) -> None:
        if rest:
            raise TacticError(f"{method} stands by itself")
        getattr(script.tactics, method)()

    return run


def first_line(method: str) -> str:
    return (getattr(Tactics, method).__doc__ or "").splitlines()[0]


FORMULA_TACTICS = ("negL", "negR", "andL", "andR", "orL", "orR", "impL", "impR", "defL", "defR")
COMMANDS: Dict[str, Command] = {
    "define": Command("define [NAME:] ATOM := FORMULA", "A predicate that stands for a formula, for defL and defR.", Script.define),
    "theorem": Command("theorem NAME", "A theorem begins.", Script.theorem),
    "assume": Command("assume NAME: FORMULA", "A formula on its left.", Script.assume),
    "prove": Command("prove NAME: FORMULA", "A formula on its right.", Script.prove),
    **{name: Command(f"{name} [of NAME] [as NAMES]", first_line(name), by_formula(name)) for name in FORMULA_TACTICS},
    **{name: Command(f"{name} TERMS [of NAME] [as NAME]", first_line(name), by_terms(name)) for name in ("allL", "exR")},
    **{name: Command(f"{name} [VARIABLES] [of NAME] [as NAME]", first_line(name), by_terms(name)) for name in ("allR", "exL")},
    "ax": Command("ax", first_line("ax"), by_nothing("ax")),
    "cut": Command("cut NAME: FORMULA", first_line("cut"), Script.cut),
    "lemma": Command("lemma THEOREM", "An earlier theorem: it closes the goal, or the formula on its right is cut in.", Script.lemma),
    "destruct": Command("destruct NAME [as NAMES]", first_line("destruct"), by_formula("destruct")),
    "decompose": Command("decompose", first_line("decompose"), by_nothing("decompose")),
    "prop": Command("prop", first_line("prop"), by_nothing("prop")),
    "auto": Command("auto [SECONDS] [e|spass|own|gaptd]", first_line("auto"), Script.auto),
    "forget": Command("forget NAMES", first_line("forget"), lambda script, rest: void(script.tactics.forget(*split(rest)))),
    "rename": Command("rename NAME NEW", first_line("rename"), Script.rename),
    "focus": Command("focus NUMBER", first_line("focus"), Script.focus),
    "undo": Command("undo", first_line("undo"), Script.undo),
    "goals": Command("goals", "Shows the open goals.", Script.goals),
    "qed": Command("qed", "The theorem is complete.", Script.qed),
    "abandon": Command("abandon", "Gives the theorem up.", Script.give_up),
    "script": Command("script", "Shows the commands so far.", Script.script),
    "help": Command("help [COMMAND]", "Shows the commands.", Script.help),
}


def void(_: Any) -> None:
    """Nothing, of anything."""


# Files and dialogues

def commands(lines: Iterable[str]) -> Iterator[Tuple[int, str]]:
    """The commands of some lines, each with the number of its first line, from 1."""
    begun, whole = 0, ""
    for number, line in enumerate(lines, 1):
        begun = begun if whole else number
        whole = f"{whole} {without_comment(line).strip()}".strip()
        if whole and not is_open(whole):
            yield begun, whole
            whole = ""
    if whole:
        yield begun, whole


def without_comment(line: str) -> str:
    return "".join(piece for piece in re.findall(r"'(?:[^'\\]|\\.)*'|%.*|.", line) if not piece.startswith("%"))


def is_open(text: str) -> bool:
    """Whether a bracket isn't closed, or a connective stands at the end."""
    plain = re.sub(r"'(?:[^'\\]|\\.)*'", "", text)
    return plain.endswith(("&", "|", "=>", "<=", "<=>", "<~>", ":")) or sum(map(plain.count, "([")) > sum(map(plain.count, ")]"))


class Sessions:
    """The program, started when it is first asked."""

    def __init__(self, program: Optional[str]) -> None:
        self.program = program
        self.session: Optional[Session] = None

    def get(self) -> Session:
        if self.session is None:
            self.session = Session(self.program or default_program())
        return self.session

    def close(self) -> None:
        if self.session is not None:
            self.session.end()


def run_file(path: str, script: Script) -> None:
    """Does the commands of a file. Raises ValueError with the place of the first fault and the goals there."""
    for number, line in commands(read_text(path).splitlines()):
        try:
            script.run(line)
        except (ValueError, GaptdError) as error:
            where = f"\n{script.work}" if script.work is not None else ""
            raise ValueError(f"{file_name(path)}, line {number}, {line.split()[0]}: {error}{where}") from error
    if script.name:
        raise ValueError(f"{file_name(path)}: {script.name} isn't complete\n{script.work or 'no tactic was used'}")


def dialogue(script: Script) -> int:
    """Reads commands from a person, and shows what is to be proved after each."""
    try:
        import readline  # noqa: F401  (lines can be edited and fetched again)
    except ImportError:
        pass
    print("Proofs from the goal. `help` shows the commands; theorem NAME begins.")
    for _, line in commands(typed()):
        if line in ("quit", "exit"):
            break
        try:
            script.run(line)
            if line == "qed":
                script.said.append(checked(script))
            elif script.work is not None and not script.said:
                script.said.append(str(script.work))
        except (ValueError, GaptdError) as error:
            script.said.append(f"no: {error}")
        if script.said:
            print("\n".join(script.said))
        script.said.clear()
    return 0


def checked(script: Script) -> str:
    """What the program says of the last theorem."""
    name, proof = list(script.proved.items())[-1]
    session, job = script.ask(), lk_job(proof, name, script.definitions)
    definitions = [script.define_job(one) for one in job.get("using", ())]
    *_, reply = (reply.checked() for reply in session.batch([*definitions, job]))
    size = session.run("measure", proof=reply.job).ok
    return f"the program has checked it: {size['nodes']} steps, {size['cuts']} cuts"


def typed() -> Iterator[str]:
    while True:
        try:
            yield input(PROMPT if sys.stdin.isatty() else "")
        except EOFError:
            return


def main() -> int:
    what = "Proofs from the goal by tactics: a dialogue, or the jobs for the theorems of a file."
    parser = argparse.ArgumentParser(prog="python3 -m gaptd.tactics", description=what, epilog="commands: " + ", ".join(COMMANDS))
    add_program(parser)
    parser.add_argument("file", nargs="?", help="a file of theorems; a dialogue without it")
    words = parser.parse_args()
    sessions = Sessions(words.program)
    try:
        script = Script(sessions.get)
        if words.file is None:
            return dialogue(script)
        run_file(words.file, script)
        for job in script.jobs():
            print(json.dumps(job, separators=(",", ":")))
    finally:
        sessions.close()
    return 0
