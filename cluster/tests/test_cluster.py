"""What happens around the rows: workers that are killed, and the command with its words, streams and statuses."""

from __future__ import annotations

import os
import random
import signal
import subprocess
import sys
import tempfile
import time
import unittest
from pathlib import Path
from typing import Sequence

from distributed import Client, Future

import definition
import random_jobs
from jet_dask.run import Sizes
from jet_dask.workers import local_workers
from support import TOP, jet, put, run, window_job

COMMAND = TOP / "cluster" / "jet-dask"
KILL_LINES = 300


class Killed(unittest.TestCase):
    """A worker that is killed by its own process id, in each step of a run, changes nothing."""

    def test_first_pass(self) -> None:
        self.killed_in("first pass")

    def test_second_pass(self) -> None:
        self.killed_in("second pass")

    def test_frames(self) -> None:
        self.killed_in("frames")

    def killed_in(self, step: str) -> None:
        """A run on two processes of its own, of which one is killed once a few tasks of the step are done."""
        text = random_jobs.telemetry(random.Random(3), KILL_LINES, False)
        wanted = definition.run(window_job("t.csv", 40, 5, 10), lambda _: text)
        killed: list[int] = []
        with tempfile.TemporaryDirectory() as folder, local_workers(2) as cluster, Client(cluster) as client:
            job = put(Path(folder) / "kill", window_job("t.csv", 40, 5, 10), {"t.csv": text})

            def watch(name: str, futures: Sequence[Future]) -> None:
                if name == step:
                    killed.append(kill_one(client, futures))

            found = run(client, job, job.parent, Sizes(block=400, events=60, parts=3, rows=50), watch=watch)
        self.assertEqual(len(killed), 1)
        self.assertFalse(Path(f"/proc/{killed[0]}").exists())
        self.assertEqual((found.status, found.line), (0, ""))
        self.assertEqual(found.rows.decode(), wanted.rows)
        self.assertEqual(found.late_lines(), sorted(wanted.late))


def kill_one(client: Client, futures: Sequence[Future]) -> int:
    """Waits until one of the first tasks is done, and kills a worker that holds an answer of these."""
    few = list(futures)[: max(1, len(futures) // 3)]
    while not any(future.done() for future in few):
        time.sleep(0.02)
    pids = client.run(os.getpid)
    holders = {worker for workers in client.who_has(few).values() for worker in workers}
    pid: int = pids[min(holders)]
    os.kill(pid, signal.SIGKILL)
    return pid


class Command(unittest.TestCase):
    """The command, on the scheduler of two processes."""

    @classmethod
    def setUpClass(cls) -> None:
        cls.cluster = cls.enterClassContext(local_workers(2))
        cls.room = Path(cls.enterClassContext(tempfile.TemporaryDirectory()))

    def jet_dask(self, *words: str, here: Path = TOP) -> subprocess.CompletedProcess[bytes]:
        """A call of the command."""
        call = [sys.executable, str(COMMAND), *words]
        return subprocess.run(call, cwd=here, stdin=subprocess.DEVNULL, capture_output=True, check=False)

    def test_command(self) -> None:
        """Texts to its streams, and files into a folder."""
        scheduler = self.cluster.scheduler_address.removeprefix("tcp://")
        done = self.jet_dask("run", "examples/several/job.json", "--scheduler", scheduler, "--blocks", "9", "--check")
        self.assertEqual(done.returncode, 0)
        self.assertEqual(done.stderr, b"late,flow,1,4,2000,pump-8,15,0,0,0\n")
        out = self.room / "out"
        again = self.jet_dask("run", "examples/several/job.json", "--scheduler", scheduler, "--out", str(out))
        self.assertEqual((again.returncode, again.stdout, again.stderr), (0, b"", b""))
        self.assertEqual((out / "late.csv").read_bytes(), done.stderr)
        self.assertEqual(b"".join(path.read_bytes() for path in sorted(out.glob("rows-*.csv"))), done.stdout)
        full = self.jet_dask("run", "examples/several/job.json", "--scheduler", scheduler, "--out", str(out))
        self.assertEqual((full.returncode, full.stderr), (5, b"jet: fault: write rows\n"))

    def test_refused(self) -> None:
        """What `jet plan` and `jet check` refuse is refused with their line and status, and words that are none with 2."""
        wrong = put(self.room / "wrong", {"vertices": [], "edges": []}, {})
        bad = put(self.room / "bad", window_job("t.csv", 10, 5, 3), {"t.csv": b"7,a,1\nx,a,1\n"})
        for words, here in ((["run", "job.json"], wrong.parent), (["run", "none.json"], TOP), (["run", "job.json", "--check"], bad.parent)):
            with self.subTest(words=words, here=here.name):
                asked = jet("check", words[1], here=here)
                self.assertNotEqual(asked.returncode, 0)
                done = self.jet_dask(*words, here=here)
                self.assertEqual((done.returncode, done.stdout, done.stderr), (asked.returncode, b"", asked.stderr))
        words = self.jet_dask("run", "a", "--blocks", "0")
        self.assertEqual(words.returncode, 2)
        self.assertTrue(words.stderr.startswith(b"jet-dask: usage: "))


if __name__ == "__main__":
    unittest.main()
