"""gasday-fleet by Dask: on a cluster of its own, and on three workers in processes of their own, of which one is killed."""

import json
import os
import shutil
import signal
import subprocess
import tempfile
import unittest
from pathlib import Path
from unittest import mock

from fleet_helpers import NAME, NO_DASK, QUESTION, FleetTest, cells_of, dask_python, rows_of, wait_until

from gasday_fleet.cluster import Cluster, Given
from gasday_fleet.job import Call, Task
from gasday_fleet.jobs import seen_among
from gasday_fleet.program import failure, unread
from gasday_fleet.running import Stopped
from gasday_fleet.worker import Found, found
from gasday_fleet.workers import Workers
from gasday_report.texts import Fault

SCENARIOS = "scenario,element,capacity\n" + "".join(f"s{at},S1,{at}\n" for at in range(15, 45))


def slow(count: int) -> list[str]:
    """Archives that take a moment."""
    return [f"slow 0.1{at:02}" for at in range(count)]


@unittest.skipUnless(dask_python(), NO_DASK)
class DaskTest(FleetTest):
    def dask(self, *words: str) -> tuple[str, str, int]:
        return self.fleet(*words, python=dask_python())

    def local(self, *words: str) -> tuple[str, str, int]:
        return self.dask(*words, "--workers", "2")


class OwnCluster(DaskTest):
    def test_archives(self) -> None:
        """What can't be run stops nothing, and is told by its name after as many tries as there are to be."""
        names = self.archives("sound", "unsound", "die", "once mark", "hang 30", "broken", *["sound"] * 6)
        one, other = (run("audit", *names, "--untimed", "--timeout", "2", *more) for run, more in (
            (self.local, ("--retries", "1", "--output", "table.csv")), (self.serial, ())))
        self.assertEqual((one[0], one[2]), ("", 2))
        has_pages = subprocess.run([dask_python() or "", "-c", "import bokeh"], capture_output=True).returncode == 0
        self.assertEqual("gasday-fleet: Dask's dashboard is http://127.0.0.1:" in one[1], has_pages, one[1])
        for line in one[1].splitlines():
            self.assertRegex(line, "^gasday-fleet: ")
        self.assertIn("002.db: failed: gasday audit was ended by signal 9\n", one[1])
        self.assertIn("004.db: failed: gasday audit was not ready after 2 seconds\n", one[1])
        self.assertIn("12 archives: 8 sound, 1 unsound, 3 failed\n", one[1])
        self.assertEqual(self.log().count("audit die"), 2 + 1)
        self.assertEqual(self.read("table.csv").decode(), other[0])

    def test_the_program_takes_memory_as_it_does_by_itself(self) -> None:
        self.local("audit", *self.archives("environment"))
        names = self.log()[1].split()
        self.assertIn("PATH", names)
        self.assertNotIn("MALLOC_TRIM_THRESHOLD_", names)

    def test_files_that_are_sent(self) -> None:
        names = [*self.archives("sound", "unsound"), "nothing.db"]
        sent, seen = self.local("audit", *names, "--send", "--untimed"), self.serial("audit", *names, "--untimed")
        self.assertEqual((sent[0], sent[2]), (seen[0], seen[2]))

    def test_a_task_that_ends_its_workers(self) -> None:
        names = self.archives("sound 0", "kill-worker", *[f"slow 0.0{at}" for at in range(1, 8)])
        out, error, status = self.local("audit", *names, "--retries", "1")
        self.assertIn("001.db: failed: each worker that ran it ended meanwhile\n", error)
        self.assertEqual((cells_of(out, "verdict"), status), (["sound", "failed", *["sound"] * 7], 2))
        # Twice among the others, and twice by itself.
        self.assertEqual(self.log().count("audit kill-worker"), 2 + 2)

    def test_a_study(self) -> None:
        names = self.put("base.csv", QUESTION), self.put("scenarios.csv", SCENARIOS)
        one = self.serial("study", *names)
        for words in (("--workers", "1"), ("--workers", "3", "--batch", "4")):
            self.assertEqual(self.dask("study", *names, *words)[::2], one[::2])

    def test_a_batch_with_a_scenario_that_dies(self) -> None:
        names = self.put("base.csv", QUESTION), self.put("scenarios.csv", SCENARIOS)
        scenarios = SCENARIOS.replace("s20,S1,20", "s20,S1,6666")
        self.put("scenarios.csv", scenarios)
        out, error, status = self.local("study", *names, "--retries", "1")
        self.assertEqual((out, status), (self.serial("study", *names)[0], 2))
        failed = [row["scenario"] for row in rows_of(out) if row["verdict"] == "failed"]
        self.assertEqual(failed, ["s20"])

    def test_it_is_stopped_and_goes_on(self) -> None:
        names = self.archives(*slow(24))
        words = ("audit", *names, "--workers", "2", "--output", "table.csv", "--untimed")
        child = subprocess.Popen(self.words(*words, python=dask_python()), cwd=self.folder, stderr=subprocess.PIPE,
                                 start_new_session=True)
        path = self.folder / "table.csv"
        wait_until(lambda: path.exists() and path.read_bytes().count(b"\n") > 5)
        os.killpg(child.pid, signal.SIGINT)  # as a terminal does
        error = child.communicate(timeout=60)[1].decode()
        self.assertEqual(child.returncode, 2)
        self.assertRegex(error, r"24 archives: \d+ sound, \d+ not run\ngasday-fleet: stopped; --resume goes on")
        self.assertNotIn("Traceback", error)
        done = len(rows_of(path.read_bytes()))
        self.assertEqual(set(cells_of(path.read_bytes(), "verdict")), {"sound"})
        self.assertEqual(self.fleet(*words, "--resume", python=dask_python())[2], 0)
        self.assertGreaterEqual(done, 5)
        self.assertEqual(path.read_bytes().decode(), self.serial("audit", *names, "--untimed")[0])


class RunningCluster(DaskTest):
    """A scheduler and workers in processes of their own on a loopback address."""

    def setUp(self) -> None:
        super().setUp()
        at = self.folder / "scheduler.json"
        self.scheduler = self.start("dask-scheduler", "--host", "127.0.0.1", "--port", "0", "--no-dashboard",
                                    "--scheduler-file", str(at))
        wait_until(lambda: at.exists() and at.read_text().endswith("}"))
        self.address = json.loads(at.read_text())["address"]

    def start(self, command: str, *words: str, path: str = "") -> subprocess.Popen[bytes]:
        """A process of Dask's, with what is on the PATH before all else."""
        python = dask_python() or ""
        program = shutil.which(command, path=f"{Path(python).parent}:{os.environ['PATH']}") or command
        environment = {**os.environ, "PATH": f"{path}:{os.environ['PATH']}", "PYTHONPATH": ""}
        child = subprocess.Popen([python, program, *words], cwd=self.folder, env=environment, stdin=subprocess.DEVNULL,
                                 stdout=subprocess.DEVNULL, stderr=subprocess.DEVNULL)
        self.addCleanup(child.wait)
        self.addCleanup(child.kill)
        return child

    def worker(self, path: str = "bin", *words: str) -> subprocess.Popen[bytes]:
        return self.start("dask-worker", self.address, "--nthreads", "1", "--no-dashboard", "--host", "127.0.0.1",
                          "--local-directory", str(self.folder), *words, path=str(self.folder / path))

    def on_cluster(self, *words: str) -> list[str]:
        """The words of a run on this cluster, whose workers have the program on their PATH alone."""
        return [*self.words(*words, python=dask_python())[:-1], NAME, "--scheduler", self.address]

    def ended(self, child: subprocess.Popen[bytes]) -> tuple[str, int]:
        error = child.communicate(timeout=300)[1].decode()
        self.assertNotIn("Traceback", error)
        return error, child.returncode

    def begun(self, *words: str, path: str = "bin") -> subprocess.Popen[bytes]:
        environment = {**os.environ, "PATH": f"{self.folder / path}:{os.environ['PATH']}", "PYTHONDONTWRITEBYTECODE": "1",
                       "DASK_DISTRIBUTED__COMM__TIMEOUTS__CONNECT": "8s"}
        child = subprocess.Popen(self.on_cluster(*words), cwd=self.folder, env=environment, stderr=subprocess.PIPE)
        self.addCleanup(child.stderr.close)  # type: ignore[union-attr]
        return child

    def rows(self, name: str = "table.csv") -> int:
        path = self.folder / name
        return path.read_bytes().count(b"\n") - 1 if path.exists() else 0

    def wait_for_rows(self, count: int, child: subprocess.Popen[bytes], name: str = "table.csv") -> None:
        """Until the table has so many rows; a run that ends before tells why."""
        wait_until(lambda: self.rows(name) >= count or child.poll() is not None)
        self.assertIsNone(child.poll(), child.poll() and child.communicate()[1])

    def test_a_worker_is_killed(self) -> None:
        workers = [self.worker("bin", "--no-nanny") for _ in range(3)]
        names = self.archives("unsound", *slow(30))
        child = self.begun("audit", *names, "--output", "table.csv", "--untimed")
        self.wait_for_rows(8, child)
        workers[1].kill()
        error, status = self.ended(child)
        self.assertIn("31 archives: 30 sound, 1 unsound\n", error)
        self.assertEqual(status, 1)
        self.assertEqual(self.read("table.csv").decode(), self.serial("audit", *names, "--untimed")[0])
        # Two are left, and one of them is killed in a study.
        study = self.put("base.csv", QUESTION), self.put("scenarios.csv", SCENARIOS)
        child = self.begun("study", *study, "--output", "study.csv", "--batch", "2")
        self.wait_for_rows(8, child, "study.csv")
        workers[0].kill()
        self.assertEqual(self.ended(child)[1], 1)
        self.assertEqual(self.read("study.csv").decode(), self.serial("study", *study)[0])

    def test_workers_that_come_while_it_runs(self) -> None:
        """The only worker is killed, and what was given to it is given to the one that comes then."""
        first = self.worker("bin", "--no-nanny")
        names = self.archives(*slow(20))
        child = self.begun("audit", *names, "--output", "table.csv", "--untimed")
        self.wait_for_rows(3, child)
        first.kill()
        first.wait()
        self.worker("bin")
        error, status = self.ended(child)
        self.assertIn("20 archives: 20 sound\n", error)
        self.assertEqual(status, 0)
        # A run without a program here goes by the workers'.
        error, status = self.ended(self.begun("audit", names[0], "--output", "again.csv", path="nothing"))
        self.assertEqual((status, self.rows("again.csv")), (0, 1))
        self.assertIn("1 archive: 1 sound\n", error)

    def test_workers_without_the_program_or_with_another(self) -> None:
        self.fake("other", "2.0 of a test")
        for path in ("bin", "other", "nothing"):
            self.worker(path, "--name", path)
        names = self.archives(*slow(20))
        status = subprocess.run([dask_python() or "", "-c", "import sys, distributed as d\n"
                                 "with d.Client(sys.argv[1]) as c: c.wait_for_workers(3, timeout=60)", self.address]).returncode
        self.assertEqual(status, 0)
        error, status = self.ended(self.begun("audit", *names, "--output", "table.csv"))
        self.assertRegex(error, r"nothing runs on the worker tcp://127\.0\.0\.1:\d+: there is no program gasday-of-test\n")
        self.assertRegex(error, r"nothing runs on the worker tcp://127\.0\.0\.1:\d+: \S*/other/gasday-of-test is another program:"
                                r" gasday 2\.0 of a test, SHA-256 [0-9a-f]{64}\n")
        self.assertEqual((status, self.rows(), self.log("other")), (0, 20, []))
        # Where there is no program here, nobody says which of two is the right one.
        error, status = self.ended(self.begun("audit", *names, "--output", "again.csv", path="nothing"))
        self.assertIn("the workers have different programs, and there is none here that decides: ", error)
        self.assertEqual((status, self.rows("again.csv"), self.log("other")), (2, -1 + 1, []))

    def test_the_scheduler_goes(self) -> None:
        self.worker("bin")
        names = self.archives(*slow(60))
        child = self.begun("audit", *names, "--output", "table.csv", "--untimed")
        self.wait_for_rows(2, child)
        self.scheduler.kill()
        error, status = self.ended(child)
        self.assertEqual(status, 2)
        self.assertIn("not run\n", error)
        self.assertEqual(set(cells_of(self.read("table.csv"), "verdict")), {"sound"})

    def test_no_cluster(self) -> None:
        self.scheduler.kill()
        self.scheduler.wait()
        error, status = self.ended(self.begun("audit", *self.archives("sound")))
        self.assertIn("there is no cluster at", error)
        self.assertEqual(status, 2)


class Named(unittest.TestCase):
    """Workers that only seem to be there."""

    def workers(self, **there: Found | Exception) -> tuple[Workers, list[str]]:
        client, told = mock.Mock(), list[str]()
        client.nthreads.return_value = dict.fromkeys(there, 2)
        client.run.side_effect = lambda *_, workers, **__: {address: there[address] for address in workers}
        return Workers(client, NAME, "/a/file", told.append), told

    def test_faults(self) -> None:
        own = Found("/bin/gasday", "gasday 1", "aa")
        workers, told = self.workers(
            a=own, b=own._replace(sees=False), c=own._replace(code="other"), d=own._replace(sha256="bb", version="gasday 2"),
            e=Found(fault="there is no program gasday"), f=OSError("gone"), g=TypeError("odd"))
        self.assertEqual(workers.begin(own), own)
        self.assertEqual(workers.threads, {"a": 2})
        self.assertEqual(told, [f"nothing runs on the worker {words}" for words in (
            "b: it doesn't see /a/file; --send sends files",
            "c: it has other code of gasday-fleet loaded, and has to be started again",
            "d: /bin/gasday is another program: gasday 2, SHA-256 bb", "e: there is no program gasday", "g: TypeError: odd")])

    def test_a_worker_that_sees_some_folders(self) -> None:
        own = Found("/bin/gasday", "gasday 1", "aa")
        workers, told = self.workers(a=own._replace(missing="/some/folder"))
        workers.begin(own)
        self.assertEqual((workers.threads, told), ({"a": 2}, [
            "the worker a doesn't see /some/folder: what it can't read is tried on others"]))

    def test_each_folder_is_looked_for(self) -> None:
        with tempfile.TemporaryDirectory() as folder:
            there, not_there = str(Path(folder)), str(Path(folder, "nothing"))
            for seen, sees, missing in (((), True, ""), ((there,), True, ""), ((there, not_there), True, not_there),
                                        ((not_there,), False, not_there)):
                one = found("no-such-program", seen)
                self.assertEqual((one.sees, one.missing), (sees, missing))
            self.assertEqual(seen_among([there, f"{there}/a.db", __file__, not_there]), (there, str(Path(__file__).parent)))

    def test_what_one_cannot_read_is_tried_on_each_other(self) -> None:
        own = Found("/bin/gasday", "gasday 1", "aa")
        workers, _ = self.workers(a=own, b=own, c=own)
        workers.begin(own)
        client = mock.Mock()
        client.submit.side_effect = lambda *_, **__: mock.Mock()
        cluster = Cluster.__new__(Cluster)
        cluster.client, cluster.workers, cluster.retries = client, workers, 2
        cluster.ended, cluster.given, cluster.shared = mock.Mock(), {}, {}
        given = Given(Task((0,), Call(len, ("x",))), Call(len, ("x",)), 2, ())
        where = []
        while cluster.is_given_elsewhere(given, [unread("it can't be read")]):
            (future, given), = cluster.given.items()
            cluster.given.clear()
            where.append(client.submit.call_args.kwargs["workers"])
        self.assertEqual(where, [("a",), ("b",), ("c",)])
        self.assertFalse(cluster.is_given_elsewhere(given, [failure("it died")]))

    def test_none_is_left(self) -> None:
        workers, _ = self.workers(a=Found(fault="there is no program gasday"))
        with self.assertRaisesRegex(Fault, "there is no worker on which this could run"):
            workers.begin(None)

    def test_who_comes_and_goes(self) -> None:
        own = Found("/bin/gasday", "gasday 1", "aa")
        workers, told = self.workers(a=own, b=own)
        workers.begin(None)
        workers.client.nthreads.return_value = {"b": 2, "c": 4}
        workers.client.run.side_effect = lambda *_, workers, **__: dict.fromkeys(workers, own)
        workers.look()
        self.assertEqual((workers.threads, told), ({"b": 2, "c": 4}, []))
        workers.client.nthreads.side_effect = OSError("closed")
        with self.assertRaisesRegex(Stopped, "the scheduler can't be reached any more: closed"):
            workers.look()

    def test_the_code_is_sent_where_it_is_not_there(self) -> None:
        own = Found("/bin/gasday", "gasday 1", "aa")
        workers, _ = self.workers()
        workers.client.nthreads.return_value = {"a": 1}
        workers.client.run.side_effect = [{"a": ModuleNotFoundError("gasday_fleet")}, {"a": own}]
        self.assertEqual(workers.begin(None), own)
        (path,), _ = workers.client.upload_file.call_args
        self.assertRegex(path, r"/gasday-fleet-[0-9a-f]{16}\.zip$")


class WithoutDask(FleetTest):
    def test_it_is_told(self) -> None:
        """Where a Python has no Dask the way to it is told; an empty module of its name plays that there is none."""
        self.put("distributed.py", "raise ImportError")
        environment = {**os.environ, "PYTHONPATH": str(self.folder), "PYTHONDONTWRITEBYTECODE": "1"}
        done = subprocess.run(self.words("audit", *self.archives("sound")), cwd=self.folder, env=environment,
                              capture_output=True, timeout=600)
        self.assertEqual((done.stdout, done.returncode), (b"", 2))
        self.assertIn(b"finds no Dask: `apt-get install python3-distributed` installs it", done.stderr)


if __name__ == "__main__":
    unittest.main()
