from __future__ import annotations

import io
import json
import os
import shlex
import signal
import subprocess
import sys
import tempfile
import time
import unittest
from pathlib import Path
from typing import Any, Dict
from unittest import mock

from gaptd import errors
from gaptd.client import Names, Reply, Session, default_program
from tests.support import CLIENTS, EXAMPLES, SECONDS, command, session

AXIOM = {"rule": "ax", "main": "p", "premises": [], "left": ["p"], "right": ["p"]}
AXIOM_SUMMARY = {"cuts": 0, "left": ["p"], "quants": 0, "right": ["p"]}


def axiom(name: str) -> Dict[str, Any]:
    return {"job": name, "op": "lk", "steps": [AXIOM]}


class Sessions(unittest.TestCase):
    def test_a_conversation(self) -> None:
        with session() as one:
            proof = one.run("lk", "a", steps=[AXIOM])
            self.assertEqual((proof.job, proof.n, proof.ok), ("a", 1, AXIOM_SUMMARY))
            self.assertEqual(one.run("measure", proof="a").ok, {"cuts": 0, "nodes": 1, "quants": 0, "size": 1})
            self.assertEqual(one.run("show", of="a").ok, {"steps": [AXIOM]})
            self.assertEqual(one.close(), 0)

    def test_the_status_tells_of_refusals(self) -> None:
        one = session()
        with self.assertRaises(errors.UnknownOperation):
            one.run("fly")
        self.assertEqual(one.close(), 1)

    def test_each_refusal_has_a_class(self) -> None:
        with session() as one:
            one.run("lk", "a", steps=[AXIOM])
            one.run("problem", "c", text="cnf(a,axiom,p).")
            refused: Dict[type, Dict[str, Any]] = {
                errors.NoStep: {"op": "lk", "steps": []},
                errors.BadField: {"op": "lk"},
                errors.BadFormula: {"op": "lk", "steps": [{**AXIOM, "main": "p &"}]},
                errors.BadProblem: {"op": "problem", "text": "include('a')."},
                errors.FaultyStep: {"op": "lk", "steps": [{**AXIOM, "right": []}]},
                errors.FaultyRefutation: {"op": "resolution", "problem": "c", "steps": [{"input": 1}]},
                errors.UnknownName: {"op": "show", "of": "z"},
                errors.WrongKind: {"op": "show", "of": "c"},
            }
            for wanted, job in refused.items():
                with self.subTest(wanted.__name__), self.assertRaises(wanted):
                    one.batch([job])[0].checked()

    def test_members_of_an_error_are_attributes(self) -> None:
        with session() as one, self.assertRaises(errors.FaultyStep) as caught:
            one.run("lk", steps=[AXIOM, {"rule": "weak", "premises": [0], "left": [], "right": []}])
        self.assertEqual((caught.exception.step, caught.exception.cause, caught.exception.premise), (1, "premise", 0))
        self.assertFalse(hasattr(caught.exception, "at"))

    def test_an_unknown_kind_is_a_refusal(self) -> None:
        self.assertIs(type(errors.refusal("a", 1, {"kind": "new"})), errors.JobRefused)


class Naming(unittest.TestCase):
    def test_a_refused_name_is_not_in_the_way(self) -> None:
        with session() as one:
            with self.assertRaises(errors.NoStep):
                one.run("lk", "a", steps=[])
            with self.assertRaises(errors.WrongKind):
                one.run("measure", proof="a")
            self.assertEqual(one.run("lk", "a", steps=[AXIOM]).job, "a-2")
            self.assertEqual(one.run("measure", proof="a").ok["size"], 1)

    def test_a_name_stands_for_the_last_accepted_job(self) -> None:
        weak = {"rule": "weak", "premises": [0], "left": ["p", "q"], "right": ["p"]}
        with session() as one:
            one.run("lk", "a", steps=[AXIOM])
            one.run("lk", "a", steps=[AXIOM, weak])
            with self.assertRaises(errors.NoStep):
                one.run("lk", "a", steps=[])
            self.assertEqual(one.run("measure", proof="a").ok["size"], 2)

    def test_names_within_a_batch(self) -> None:
        with session() as one:
            replies = one.batch([axiom("a"), {"op": "measure", "proof": "a"}, {"job": "a", "op": "lk", "steps": []}, axiom("a")])
            self.assertEqual([reply.job for reply in replies], ["a", "measure", "a-2", "a-3"])
            self.assertEqual(one.run("measure", proof="a").ok["size"], 1)

    def test_names_that_are_provisional(self) -> None:
        names = Names()
        names.stand("a", "a-1")
        with names.provisional():
            names.stand("a", "a-2")
            names.stand("a", "a-3")
            names.stand("b", "b-1")
            self.assertEqual([names.resolve(name) for name in ("a", "b", "b.first", "c.second")], ["a-3", "b-1", "b-1.first", "c.second"])
        self.assertEqual([names.resolve(name) for name in ("a", "b")], ["a-1", "b"])
        with self.assertRaises(KeyError), names.provisional():
            names.stand("a", "a-4")
            raise KeyError
        self.assertEqual(names.resolve("a"), "a-1")

    def test_many_names_do_not_slow_a_job_down(self) -> None:
        """A job costs what it does without the names of a hundred thousand earlier ones, which once were copied at each."""
        with session() as one:
            for number in range(100_000):
                one.names.stand(f"n{number}", f"n{number}")
            began = time.process_time()
            for _ in range(100):
                one.run("lk", "a", steps=[AXIOM])
            self.assertLess(time.process_time() - began, 0.2)

    def test_a_long_name_stays_within_its_limit(self) -> None:
        name = "n" * 64
        with session() as one:
            self.assertEqual([reply.job for reply in one.batch([axiom(name), axiom(name)])], [name, "n" * 62 + "-2"])


class Batches(unittest.TestCase):
    def test_batches_of_ten_thousand(self) -> None:
        with session() as one:
            for _ in range(2):
                replies = one.batch(axiom("a") for _ in range(10_000))
                self.assertTrue(all(reply.ok == AXIOM_SUMMARY for reply in replies))
            self.assertEqual(replies[-1].n, 20_000)

    def test_replies_larger_than_any_pipe(self) -> None:
        sides = [f"p{i}(a)" for i in range(2_000)]
        step = {"rule": "ax", "main": "p0(a)", "premises": [], "left": sides, "right": sides}
        with session() as one:
            replies = one.batch({"op": "lk", "steps": [step]} for _ in range(300))
        self.assertEqual({len(reply.ok["left"]) for reply in replies}, {2_000})


class Crashes(unittest.TestCase):
    def test_a_killed_program(self) -> None:
        one = session()
        one.run("lk", "a", steps=[AXIOM])
        os.kill(one.process.pid, signal.SIGKILL)
        with self.assertRaises(errors.ProgramEnded) as caught:
            one.batch(axiom("b") for _ in range(10_000))
        self.assertEqual(caught.exception.status, -signal.SIGKILL)
        one.restart()
        self.assertEqual(one.run("measure", proof="a").ok["size"], 1)
        self.assertEqual(one.close(), 0)

    def test_a_program_that_refuses_its_words(self) -> None:
        with mock.patch("sys.stderr", io.StringIO()) as said:
            one = Session([*default_program(), "--workers", "0"], timeout=30)
            with self.assertRaises(errors.ProgramEnded) as caught:
                one.run("lk", steps=[AXIOM])
        self.assertEqual(caught.exception.status, 2)
        self.assertIn("usage: gaptd", said.getvalue())

    def test_a_program_that_is_something_else(self) -> None:
        one = Session(["cat"], timeout=30)
        with self.assertRaises(errors.ProtocolError):
            one.run("lk", steps=[AXIOM])
        one.end()

    def test_a_reply_out_of_turn(self) -> None:
        with self.assertRaises(errors.ProtocolError):
            Reply.read(b'{"job":"a","n":2,"ok":{}}', 1)


class Command(unittest.TestCase):
    def test_jobs_in_any_layout(self) -> None:
        done = command("gaptd.client", given='{"job": "a",\n "op": "lk", "steps": [\n]}\n{"job":"b","op":"measure",\n"proof":"a"}')
        self.assertEqual(done.stdout, '{"error":{"kind":"empty"},"job":"a","n":1}\n{"error":{"kind":"kind","name":"a"},"job":"b","n":2}\n')
        self.assertEqual(done.returncode, 1)

    def test_what_is_no_json(self) -> None:
        done = command("gaptd.client", given='{"job":"a"}\n{"job" 3}\n')
        self.assertEqual((done.returncode, done.stderr),
                         (1, "client: the standard input, line 2, column 8: no JSON: Expecting ':' delimiter\n"))

    def test_files_that_can_not_be_read(self) -> None:
        with tempfile.TemporaryDirectory() as folder:
            deep, binary = Path(folder) / "deep.json", Path(folder) / "binary"
            deep.write_text("[" * 100_000)
            binary.write_bytes(b"\xff\x00")
            for path, what in ((deep, "it is nested too deeply"), (binary, "byte 0 isn't UTF-8"), (Path(folder), "Is a directory"),
                               (Path(folder) / "none", "No such file or directory")):
                with self.subTest(path.name):
                    done = command("gaptd.client", str(path))
                    self.assertEqual((done.returncode, done.stdout, done.stderr), (1, "", f"client: {path}: {what}\n"))

    def test_a_reader_that_goes(self) -> None:
        """A script whose output isn't read to its end says nothing of it."""
        jobs = "\n".join(json.dumps(axiom(f"a{number}")) for number in range(3_000))
        words = f"{shlex.quote(sys.executable)} -m gaptd.client | head -n 1"
        done = subprocess.run(words, shell=True, cwd=CLIENTS, input=jobs, capture_output=True, text=True, timeout=SECONDS, check=False,
                              env={**os.environ, "GAPTD": " ".join(default_program())})
        self.assertEqual((done.stdout[:10], done.stderr), ('{"job":"a0', ""))

    def test_a_script_that_is_broken_off(self) -> None:
        words = [sys.executable, "-m", "gaptd.client", "--program", "sh -c 'echo begun >&2; exec cat > /dev/null'"]
        with subprocess.Popen(words, cwd=CLIENTS, stdin=subprocess.PIPE, stdout=subprocess.PIPE, stderr=subprocess.PIPE, text=True,
                              preexec_fn=lambda: signal.signal(signal.SIGINT, signal.SIG_DFL)) as process:  # (else in the background it isn't)
            assert process.stdin is not None and process.stderr is not None
            process.stdin.write(json.dumps(axiom("a")))
            process.stdin.close()
            self.assertEqual(process.stderr.readline(), "begun\n")
            process.send_signal(signal.SIGINT)
            self.assertEqual((process.wait(SECONDS), process.stderr.read()), (130, ""))

    def test_a_command_that_is_not_there(self) -> None:
        done = subprocess.run([sys.executable, "-m", "gaptd.client"], cwd=CLIENTS, input="", capture_output=True, text=True, check=False,
                              env={**os.environ, "GAPTD": "/nonexistent"})
        self.assertEqual(done.returncode, 1)
        self.assertIn("client: the program can't be started by /nonexistent: No such file or directory. Its command is", done.stderr)
        self.assertIn("the environment variable GAPTD", done.stderr)

    def test_an_example(self) -> None:
        done = command("gaptd.client", str(EXAMPLES / "socrates.jobs"))
        self.assertEqual(done.stdout, (EXAMPLES / "socrates.replies").read_text())
        self.assertEqual(done.returncode, 0)
