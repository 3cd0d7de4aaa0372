from __future__ import annotations

import concurrent.futures
import os
import tempfile
import unittest
from pathlib import Path
from unittest import mock

from gaptd import fleet
from gaptd.client import default_program
from tests.support import process

LINE = '{"job":"a","op":"lk","steps":[{"rule":"ax","main":"p","premises":[],"left":["p"],"right":["p"]}]}\n'
REPLY = '{"job":"a","n":1,"ok":{"cuts":0,"left":["p"],"quants":0,"right":["p"]}}\n'


class Files(unittest.TestCase):
    def setUp(self) -> None:
        folder = tempfile.TemporaryDirectory()
        self.addCleanup(folder.cleanup)
        self.folder = Path(folder.name)
        self.paths = [self.folder / f"{name}.jobs" for name in "abc"]
        for path, text in zip(self.paths, (LINE, LINE, LINE + '{"job":"b","op":"fly"}\n')):
            path.write_text(text)

    def test_the_command(self) -> None:
        words = ["gaptd.fleet", "--workers", "2", *map(str, self.paths)]
        done = process(*words)
        self.assertEqual((done.returncode, done.stderr), (1, ""))
        self.assertEqual(done.stdout, f"{self.paths[2]}: 1 of 2 jobs refused\n3 of 3 files run, 1 with failures\n")
        self.assertEqual([fleet.replies_path(path).read_text() for path in self.paths[:2]], [REPLY, REPLY])
        self.assertEqual(sorted(path.suffix for path in self.folder.iterdir()), [".jobs"] * 3 + [".replies"] * 3)
        self.assertEqual(process(*words).stdout, f"{self.paths[2]}: 1 of 2 jobs refused\n0 of 3 files run, 1 with failures\n")

    def test_what_is_done_already(self) -> None:
        fleet.replies_path(self.paths[0]).write_text(REPLY)
        self.assertEqual([fleet.is_done(path) for path in self.paths], [True, False, False])
        os.utime(self.paths[0], (2**32, 2**32))
        self.assertFalse(fleet.is_done(self.paths[0]))

    def test_any_executor(self) -> None:
        with concurrent.futures.ThreadPoolExecutor(2) as threads:
            found = {outcome.path: outcome for outcome in fleet.run(self.paths, executor=threads)}
        self.assertEqual(found[self.paths[2]], fleet.Outcome(self.paths[2], 2, 1))
        self.assertEqual(str(found[self.paths[0]]), f"{self.paths[0]}: 1 replies")

    def test_a_program_that_fails_leaves_no_replies(self) -> None:
        done = process("gaptd.fleet", "--program", "sh -c 'echo half; exit 5'", str(self.paths[0]), str(self.folder / "none.jobs"))
        self.assertEqual((done.returncode, done.stderr), (1, ""))
        first, second, _ = done.stdout.splitlines()
        self.assertEqual(first, f"{self.paths[0]}: the program ended with status 5: memory ran out outside a job")
        self.assertIn("none.jobs: No such file or directory", second)
        self.assertEqual(len(list(self.folder.iterdir())), 3)

    def test_a_program_that_is_not_there(self) -> None:
        done = process("gaptd.fleet", "--program", "/nonexistent", str(self.paths[0]))
        self.assertEqual((done.returncode, done.stderr), (1, ""))
        self.assertIn(f"{self.paths[0]}: No such file or directory: /nonexistent", done.stdout)

    def test_names_of_replies(self) -> None:
        with self.assertRaisesRegex(ValueError, "have the same name"):
            fleet.different([Path("a.jobs"), Path("a.json")])
        with self.assertRaisesRegex(ValueError, "is a file of replies"):
            fleet.different([Path("a.replies")])
        self.assertEqual(fleet.different([Path("a.jobs"), Path("a.jobs")]), [Path("a.jobs")])

    def test_two_workers_of_dask(self) -> None:
        """Each of two workers runs files, to the same outcome as by processes."""
        try:
            from distributed import LocalCluster  # type: ignore[import-not-found]
        except ImportError:
            self.skipTest("the package distributed isn't there")
        workers = self.folder / "workers"
        program = f"sh -c 'echo $PPID >> {workers}; sleep 0.2; exec {' '.join(default_program())}'"
        with LocalCluster(n_workers=2, threads_per_worker=1, host="127.0.0.1", dashboard_address=None) as cluster:
            done = process("gaptd.fleet", "--scheduler", cluster.scheduler_address, "--program", program, *map(str, self.paths))
            cluster_pids = {worker.process.pid for worker in cluster.workers.values()}
        self.assertEqual(done.returncode, 1, done.stderr)
        self.assertEqual(done.stdout, f"{self.paths[2]}: 1 of 2 jobs refused\n3 of 3 files run, 1 with failures\n")
        self.assertEqual([fleet.replies_path(path).read_text() for path in self.paths[:2]], [REPLY, REPLY])
        self.assertEqual(set(map(int, workers.read_text().split())), cluster_pids)

    def test_a_scheduler_without_its_package(self) -> None:
        with mock.patch.dict("sys.modules", {"distributed": None}), self.assertRaisesRegex(ValueError, "needs the Python package"):
            with fleet.by_scheduler("tcp://localhost:1"):
                pass


if __name__ == "__main__":
    unittest.main()
