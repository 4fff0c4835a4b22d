"""Rows, late lines and status lines of runs, against the definition and the program jet."""

from __future__ import annotations

import json
import os
import random
import sys
import tempfile
import unittest
from concurrent.futures import ThreadPoolExecutor
from pathlib import Path
from typing import Sequence

from distributed import Client

import definition
import random_jobs
from jet_dask.run import Sizes
from jet_dask.workers import local_workers
from support import TOP, Written, has_run, jet, put, run, window_job

RANDOM_JOBS = int(os.environ.get("JET_RANDOM_JOBS", "300"))
RANDOM_WINDOWS = 40
CHECKED_EACH = 5
AT_ONCE = 4
RUN_WORDS = [[], ["--workers", "1"], ["--workers", "3", "--ring", "2"], ["--workers", "8"]]
EXAMPLES = sorted(path for path in TOP.glob("examples/*/job.json"))


class Rows(unittest.TestCase):
    """One cluster of two processes for all cases."""

    @classmethod
    def setUpClass(cls) -> None:
        cls.client = cls.enterClassContext(Client(cls.enterClassContext(local_workers(2))))
        cls.room = Path(cls.enterClassContext(tempfile.TemporaryDirectory()))
        cls.has_run = has_run()
        if not cls.has_run:
            print("cluster: the program jet has no run, so its rows of jobs were not compared", file=sys.stderr)

    def agrees(self, job: Path, here: Path, found: Written) -> None:
        """A run gave what the definition says."""
        wanted = definition.run(json.loads(job.read_bytes()), lambda name: (here / name).read_bytes())
        self.assertEqual(found.line, wanted.bad or "")
        self.assertEqual(found.status, 4 if wanted.bad else 0)
        self.assertEqual(found.rows.decode(), wanted.rows)
        self.assertEqual(found.late_lines(), sorted(wanted.late))

    def agrees_with_run(self, job: Path, here: Path, found: Written, words: Sequence[str] = ()) -> bool:
        """`jet run` ends with the same status and, where nothing is late, with the same rows; whether that was so.

        What it tells as late may differ. Its rows are those of the definition without the events that it told.
        """
        if not self.has_run:
            return False
        ran = jet("run", job, *words, here=here)
        self.assertEqual(ran.returncode, found.status)
        if found.status != 0:
            return False
        told = ran.stderr.decode().splitlines(keepends=True)
        wanted = definition.run(json.loads(job.read_bytes()), lambda name: (here / name).read_bytes(), told)
        self.assertEqual(sorted(told), sorted(wanted.late))
        self.assertEqual(ran.stdout.decode(), wanted.rows)
        if told or found.late:
            return False
        self.assertEqual(ran.stdout, bytes(found.rows))
        return True

    def test_examples(self) -> None:
        """Every example job, in blocks of three sizes."""
        self.assertGreater(len(EXAMPLES), 5)
        for job in EXAMPLES:
            for block in (7, 64, 1 << 20):
                with self.subTest(job=job.parent.name, block=block):
                    found = run(self.client, job, TOP, Sizes(block=block, events=3, rows=4, parts=2))
                    self.agrees(job, TOP, found)
                    self.agrees_with_run(job, TOP, found)

    def test_example_windows(self) -> None:
        """Every example of `window` gives the outputs that stand beside it; of a bad line the status and its line, and no row."""
        for words in sorted(TOP.glob("examples/*/words")):
            for number, line in enumerate(words.read_text().splitlines(), 1):
                if line.startswith("window"):
                    with self.subTest(words=line):
                        self.window_example(words.parent, number, line.split())

    def window_example(self, folder: Path, number: int, words: list[str]) -> None:
        def beside(kind: str, default: str) -> str:
            path = folder / f"{number}.{kind}"
            return path.read_text() if path.exists() else default

        job = put(self.room / folder.name, window_job(words[4], int(words[1]), int(words[2]), int(words[3])), {})
        found = run(self.client, job, TOP, Sizes(block=16))
        self.assertEqual(found.status, int(beside("status", "0")))
        if found.status == 0:
            self.assertEqual(found.rows.decode(), beside("out", ""))
            self.assertEqual(found.late.decode(), beside("err", ""))
        else:
            self.assertEqual(found.line + "\n", beside("err", ""))
            self.assertEqual(found.rows + found.late, b"")

    def test_random_jobs(self) -> None:
        """Random jobs and files, a few side by side, and `jet run` with different words; some of them are shown to `jet check` too."""
        same = 0
        with ThreadPoolExecutor(AT_ONCE) as pool:
            for seed, (job, found) in enumerate(pool.map(self.random_job, range(RANDOM_JOBS))):
                with self.subTest(seed=seed):
                    self.agrees(job, job.parent, found)
                    same += self.agrees_with_run(job, job.parent, found, RUN_WORDS[seed % len(RUN_WORDS)])
                    if seed % CHECKED_EACH == 0:
                        checked = jet("check", "job.json", here=job.parent)
                        self.assertEqual((found.status, found.line), (checked.returncode, checked.stderr.decode().rstrip("\n")))
        if self.has_run:
            self.assertGreater(same, RANDOM_JOBS // 5)

    def random_job(self, seed: int) -> tuple[Path, Written]:
        """A random job, run in blocks and ranges of random sizes."""
        case, rng = random_jobs.case(seed), random.Random(seed)
        longest = max([1, *map(len, case.files.values())])
        job = put(self.room / f"job{seed}", case.job, case.files)
        block, events, rows = rng.choice([longest, max(20, longest // 3)]), rng.choice([8, 1000]), rng.choice([5, 1000])
        return job, run(self.client, job, job.parent, Sizes(block, events, rows, parts=rng.choice([2, 8]), buckets=1))

    def test_random_windows(self) -> None:
        """Random files under `jet window`, whose rows and late lines are those of a run, in the same order."""
        for seed in range(RANDOM_WINDOWS):
            rng = random.Random(seed)
            text, slide, lag = random_jobs.telemetry(rng, 25, False), rng.choice([1, 5, 10]), rng.choice([0, 3, 20])
            size = slide * rng.choice([1, 2, 5])
            with self.subTest(seed=seed):
                here = self.room / f"window{seed}"
                job = put(here, window_job("t.csv", size, slide, lag), {"t.csv": text})
                wanted = jet("window", size, slide, lag, "t.csv", here=here)
                found = run(self.client, job, here, Sizes(block=rng.choice([64, 200, 10000]), events=rng.choice([4, 100])))
                self.assertEqual((wanted.returncode, found.status), (0, 0))
                self.assertEqual((found.rows, found.late), (wanted.stdout, wanted.stderr))

    def test_blocks(self) -> None:
        """Blocks from 1 byte to the whole file give the same text, and files of ranges give it too, one behind the other."""
        text = random_jobs.telemetry(random.Random(7), 6, False)
        job = put(self.room / "blocks", window_job("t.csv", 20, 5, 3), {"t.csv": text})
        whole = run(self.client, job, job.parent, Sizes(block=len(text)))
        self.assertGreater(len(whole.rows), 0)
        for block in [1, 2, 11, 31, 64, len(text) - 1]:
            with self.subTest(block=block):
                found = run(self.client, job, job.parent, Sizes(block=block, events=3))
                self.assertEqual((found.rows, found.late), (whole.rows, whole.late))
        folder = self.room / "out"
        folder.mkdir()
        run(self.client, job, job.parent, Sizes(block=64, events=3, rows=2), folder)
        files = sorted(folder.iterdir())
        self.assertGreater(len(files), 1)
        self.assertEqual(b"".join(file.read_bytes() for file in files), bytes(whole.rows))

    def test_missing_files(self) -> None:
        """A file that can't be opened or read ends the run as it ends `jet check`."""
        (self.room / "folder").mkdir()
        for name in ("missing.csv", "folder"):
            with self.subTest(name=name):
                job = put(self.room / f"no-{name}", window_job(f"../{name}", 10, 5, 3), {})
                checked = jet("check", "job.json", here=job.parent)
                found = run(self.client, job, job.parent)
                self.assertEqual((found.status, found.line + "\n"), (checked.returncode, checked.stderr.decode()))


if __name__ == "__main__":
    unittest.main()
