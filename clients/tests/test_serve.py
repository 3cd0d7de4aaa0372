from __future__ import annotations

import json
import socket
import subprocess
import sys
import tempfile
import threading
import unittest
from pathlib import Path
from typing import Any, Dict, List
from unittest import mock

from gaptd import serve
from gaptd.client import default_program
from gaptd.proofs import ax
from tests.support import CLIENTS, EXAMPLES, SECONDS, command, session

AXIOM = {"rule": "ax", "main": "p", "premises": [], "left": ["p"], "right": ["p"]}
LK = {"job": "a", "op": "lk", "steps": [AXIOM]}


class Client:
    def __init__(self, path: str) -> None:
        self.link = socket.socket(socket.AF_UNIX)
        self.link.settimeout(SECONDS)
        self.link.connect(path)
        self.file = self.link.makefile("rwb")

    def raw(self, line: bytes) -> Dict[str, Any]:
        self.file.write(line + b"\n")
        self.file.flush()
        return json.loads(self.file.readline())

    def ask(self, **job: Any) -> Dict[str, Any]:
        return self.raw(json.dumps(job).encode())

    def close(self) -> None:
        self.file.close()
        self.link.close()


class Serving(unittest.TestCase):
    def setUp(self) -> None:
        folder = tempfile.TemporaryDirectory()
        self.addCleanup(folder.cleanup)
        self.path = str(Path(folder.name) / "gaptd")
        self.session = session()
        self.addCleanup(self.session.end)
        self.server = serve.Server(self.path, serve.Hub(self.session))
        thread = threading.Thread(target=self.server.serve_forever, kwargs={"poll_interval": 0.05}, daemon=True)
        thread.start()
        self.addCleanup(self.server.server_close)
        self.addCleanup(self.server.shutdown)

    def client(self) -> Client:
        one = Client(self.path)
        self.addCleanup(one.close)
        return one

    def test_names_are_apart(self) -> None:
        one, two = self.client(), self.client()
        self.assertEqual(one.ask(**LK), {"job": "a", "n": 1, "ok": {"cuts": 0, "left": ["p"], "quants": 0, "right": ["p"]}})
        self.assertEqual(two.ask(job="m", op="measure", proof="a"), {"error": {"kind": "unknown_name", "name": "a"}, "job": "m", "n": 1})
        self.assertEqual(two.ask(**LK)["n"], 2)
        self.assertEqual(one.ask(**LK), {"error": {"kind": "name_taken"}, "job": "a", "n": 2})
        self.assertEqual(one.ask(job="m", op="measure", proof="a")["ok"]["size"], 1)

    def test_lines_that_are_no_jobs(self) -> None:
        one = self.client()
        for line, error in ((b"{", {"kind": "json"}), (b"\xff", {"kind": "json"}), (b"3", {"kind": "field", "field": "job"}),
                            (b"[" * 100_000, {"kind": "json"}), (b'{"job":"a b","op":"lk"}', {"kind": "field", "field": "job"})):
            with self.subTest(line[:10]):
                self.assertEqual(one.raw(line)["error"], error)
        self.assertEqual(one.ask(job="s", op="show", of="a b.first")["error"], {"kind": "unknown_name", "name": "a b.first"})

    def test_forgetting(self) -> None:
        one, two = self.client(), self.client()
        two.ask(**LK)
        one.ask(**LK)
        one.ask(job="b", op="cutelim", proof="a")
        one.ask(**{**LK, "job": "c"})
        self.assertEqual(one.ask(job="f", op="forget", keep=["b"])["ok"], {"held": 2})
        self.assertEqual(one.ask(job="m", op="measure", proof="c")["error"]["kind"], "unknown_name")
        for client, name in ((one, "b"), (two, "a")):
            self.assertEqual(client.ask(job="n", op="measure", proof=name)["ok"]["size"], 1)
        self.assertIn("ok", one.ask(**{**LK, "job": "c2"}))
        self.assertEqual(one.ask(job="f", op="forget", keep=["zz"])["error"], {"kind": "unknown_name", "name": "zz"})
        self.assertEqual(one.ask(job="f", op="forget")["error"], {"kind": "field", "field": "keep"})

    def test_clients_that_have_gone_are_forgotten(self) -> None:
        staying = self.client()
        staying.ask(**LK)
        with mock.patch.object(serve, "FORGOTTEN", 2):
            going = self.client()
            going.ask(**LK)
            going.ask(**{**LK, "job": "b"})
            going.file.close()
            going.link.close()
            for _ in range(100):
                if len(self.session.accepted) == 1:
                    break
                threading.Event().wait(0.05)
        self.assertEqual(len(self.session.accepted), 1)
        self.assertEqual(staying.ask(job="m", op="measure", proof="a")["ok"]["size"], 1)

    def test_a_program_that_ends(self) -> None:
        one = self.client()
        one.ask(**LK)
        self.session.process.kill()
        self.session.process.wait()
        self.assertEqual(one.ask(job="m", op="measure", proof="a")["error"]["kind"], "program_ended")
        self.assertEqual(one.ask(job="n", op="measure", proof="a")["ok"]["size"], 1)

    def test_a_program_that_can_not_be_filled_again(self) -> None:
        one = self.client()
        one.ask(**LK)
        name, job = self.session.accepted[0]
        self.session.accepted.append((name, {**job, "job": "x", "steps": []}))
        self.session.process.kill()
        self.session.process.wait()
        self.assertEqual(one.ask(job="m", op="measure", proof="a")["error"]["kind"], "program_ended")
        self.assertEqual(one.ask(job="n", op="measure", proof="a")["error"]["kind"], "unknown_name")
        self.assertIn("ok", one.ask(**LK))

    def test_many_clients_at_once(self) -> None:
        found: List[int] = []

        def work(number: int) -> None:
            one = self.client()
            for step in range(20):
                sides = [f"p{number}"]
                one.ask(job=f"j{step}", op="lk", steps=[{**AXIOM, "main": sides[0], "left": sides, "right": sides}])
            found.append(one.ask(job="s", op="show", of="j7")["ok"]["steps"][0]["main"] == sides[0])

        threads = [threading.Thread(target=work, args=(number,)) for number in range(4)]
        for thread in threads:
            thread.start()
        for thread in threads:
            thread.join()
        self.assertEqual(found, [True] * 4)

    def test_a_client_as_the_program(self) -> None:
        """The examples get the replies that are kept."""
        done = command("gaptd.serve", "--connect", self.path, given=(EXAMPLES / "each_operation.jobs").read_text())
        self.assertEqual(done.stdout, (EXAMPLES / "each_operation.replies").read_text())
        done = command("gaptd.serve", "--connect", f"{self.path}-none")
        self.assertEqual((done.returncode, done.stdout), (1, ""))
        self.assertIn("serve: there is no server at", done.stderr)


class Command(unittest.TestCase):
    def test_it_ends_when_it_is_told(self) -> None:
        with tempfile.TemporaryDirectory() as folder:
            path = Path(folder) / "gaptd"
            words = [sys.executable, "-m", "gaptd.serve", "--program", " ".join(default_program()), "--socket", str(path)]
            with subprocess.Popen(words, cwd=CLIENTS, stdout=subprocess.PIPE, stderr=subprocess.PIPE) as process:
                assert process.stdout is not None and process.stderr is not None
                self.assertEqual(process.stdout.readline().decode(), f"serving at {path}\n")
                self.assertEqual(path.stat().st_mode & 0o777, 0o600)
                process.terminate()
                self.assertEqual((process.wait(SECONDS), process.stderr.read()), (130, b""))
            self.assertFalse(path.exists())

    def test_a_place_that_can_not_be_had(self) -> None:
        done = command("gaptd.serve", "--socket", "/nonexistent/gaptd")
        self.assertEqual((done.returncode, done.stdout), (1, ""))
        self.assertIn("serve: ", done.stderr)
        self.assertEqual(command("gaptd.serve", "--port", "70000").returncode, 2)


class Forgetting(unittest.TestCase):
    def test_a_session_starts_again_with_what_is_kept(self) -> None:
        with session() as one:
            for name in ("a", "b"):
                one.run("lk", name, steps=[AXIOM])
            one.run("cutelim", "c", proof="b")
            one.restart(keep=["c"])
            self.assertEqual([job["job"] for _, job in one.accepted], ["b", "c"])
            self.assertEqual(one.run("measure", proof="c").ok["size"], 1)
            self.assertEqual(one.run("lk", "a", steps=[AXIOM]).job, "a")
            with self.assertRaisesRegex(ValueError, "no job z is held"):
                one.restart(keep=["z"])
            self.assertEqual(one.run("measure", proof="a").ok["size"], 1)


class Notebooks(unittest.TestCase):
    def test_a_picture(self) -> None:
        self.assertTrue(ax("p")._repr_html_().startswith('<iframe srcdoc="&lt;!DOCTYPE html&gt;'))


if __name__ == "__main__":
    unittest.main()
