"""A run of a job on the workers of a Dask scheduler.

The driver keeps numbers for each block and each range, and hands on texts one at a time; lines, frames and rows stay with the
workers. The order of the work: side files and a first pass over all blocks, which finds the greatest time before each
block; a second pass, which finds bad lines, and whose frames are added by range of ends and bucket of keys; rows, range by range.
"""

from __future__ import annotations

import os
import stat
from collections import deque
from dataclasses import dataclass
from typing import Callable, Iterable, Iterator, Optional, Sequence

from distributed import Client, Future

from jet_dask import faults, stages
from jet_dask.blocks import Block, Scan, cut_file
from jet_dask.columns import LineFault
from jet_dask.frames import Place
from jet_dask.job import DataFile, Job, read_job
from jet_dask.keys import PARTITIONS
from jet_dask.lines import TOO_MANY
from jet_dask.ranges import bounds_of, span_of, touched

Futures = Sequence[Future]
# what is ready later in the work is done first, so that little is kept
PICKS, MERGES, ROWS = 1, 2, 3


@dataclass(frozen=True)
class Sizes:
    """How the work is cut; no row depends on it. `block` is in bytes, `events` is about how many a range of ends has, `rows` how many
    are made at once, `parts` how many lists of frames are added in one task, and `buckets` in how many buckets for each thread of the
    workers the partitions of keys are put."""

    block: int = 1 << 24
    events: int = 1_000_000
    rows: int = 200_000
    parts: int = 8
    buckets: int = 2


@dataclass(frozen=True)
class Outlet:
    """Where a run writes: late lines and rows, and who is told of a step's name and tasks before they are waited for."""

    late: Callable[[bytes], None]
    rows: Callable[[bytes], None]
    folder: Optional[bytes]
    watch: Callable[[str, Futures], None]


@dataclass(frozen=True)
class File:
    """A file of the job with its path and its bytes."""

    data: DataFile
    path: bytes
    size: int


@dataclass(frozen=True)
class Scanned:
    """A block with its scan and what comes before it."""

    block: Block
    scan: Scan
    before: stages.Before


@dataclass(frozen=True)
class Pass:
    """The tasks of the second pass: the added frames of each range and bucket, and late lines and a report for each block."""

    merged: dict[Place, Future]
    late: list[Future]
    reports: list[Future]


def run_job(client: Client, text: bytes, here: bytes, sizes: Sizes, outlet: Outlet) -> None:
    """Runs the job of a text that `jet plan` has found valid, whose file names are taken from the folder `here`; `Stopped` tells how
    else it ended, and then nothing was written but where a write failed."""
    buckets = min(PARTITIONS, sizes.buckets * thread_count(client))
    Run(client, text, read_job(text), here, sizes, buckets, outlet).run()


def thread_count(client: Client) -> int:
    """How many threads the workers have now; it may change while a run goes on."""
    return max(1, sum(client.nthreads().values()))


@dataclass(frozen=True)
class Run:
    """One run; `buckets` is in how many buckets the partitions of keys are put, from its beginning to its end."""

    client: Client
    text: bytes
    task: Job
    here: bytes
    sizes: Sizes
    buckets: int
    outlet: Outlet

    def run(self) -> None:
        """All steps in order; nothing is written before the last."""
        sources, sides = self.opened(self.task.sources()), self.opened(self.task.sides())
        side_rows = [self.submit(stages.read_side, file.data, file.path, self.task.lines) for file in sides]
        side_faults = self.mapped(stages.side_fault, side_rows)
        scanned = self.scanned(sources)
        bounds = bounds_of([each.scan for each in scanned], self.task.windows(), self.sizes.events)
        setup = self.submit(stages.make_setup, self.text, side_rows, bounds, self.buckets)
        second = self.framed(scanned, setup, bounds)
        reports = self.waited("second pass", second.reports)
        self.judge(scanned, reports, sides, side_faults)
        self.outlet.watch("frames", list(second.merged.values()))
        for future, report in zip(second.late, reports):
            if report.late:
                self.outlet.late(future.result())
        self.write(second.merged, setup, bounds)

    def submit(self, function: Callable, *words: object, priority: int = 0) -> Future:
        """A task of its own."""
        return self.client.submit(function, *words, priority=priority, pure=False)

    def mapped(self, function: Callable, *words: Sequence, priority: int = 0) -> list[Future]:
        """A task for each place of the lists."""
        return self.client.map(function, *words, priority=priority, pure=False) if words[0] else []

    def waited(self, name: str, futures: Futures) -> list:
        """What the tasks of a step answer."""
        self.outlet.watch(name, futures)
        return self.client.gather(list(futures))

    def opened(self, files: Iterable[DataFile]) -> list[File]:
        """The files in order, each opened once so that a missing one is told before anything is read."""
        found = []
        for data in files:
            path = os.path.join(self.here, data.name.encode("utf-8"))
            try:
                found.append(File(data, path, file_size(path, data.part)))
            except (OSError, ValueError):
                raise faults.outside("open", f"part {data.part}") from None
        return found

    def scanned(self, sources: Sequence[File]) -> list[Scanned]:
        """The first pass: each block in which a line begins, with what comes before it."""
        blocks = [cut_file(file.data.part, file.path, file.size, self.sizes.block) for file in sources]
        futures = self.mapped(stages.scan_block, [block for each in blocks for block in each])
        scans = iter(self.waited("first pass", futures))
        found = []
        for file, mine in zip(sources, blocks):
            each = [next(scans) for _ in mine]
            found.extend(Scanned(*row) for row in zip(mine, each, befores(file.data.vertex, each)))
        return [each for each in found if each.scan.lines]

    def framed(self, scanned: Sequence[Scanned], setup: Future, bounds: tuple[int, ...]) -> Pass:
        """The second pass over all blocks, whose frames are added for each range and bucket."""
        blocks, befores = [each.block for each in scanned], [each.before for each in scanned]
        framed = self.mapped(stages.frame_block, blocks, befores, [setup] * len(scanned))
        picked = [
            (future, (number, bucket))
            for each, future in zip(scanned, framed)
            for number in touched(bounds, each.scan, self.task.windows())
            for bucket in range(self.buckets)
        ]
        places = [place for _, place in picked]
        parts = self.mapped(stages.pick, [future for future, _ in picked], places, priority=PICKS)
        late = self.mapped(stages.pick_late, framed, priority=PICKS)
        reports = self.mapped(stages.pick_report, framed, priority=PICKS)
        return Pass(self.merged(places, parts), late, reports)

    def judge(self, scanned: Sequence[Scanned], reports: Sequence[stages.Report], sides: Sequence[File], side_faults: Futures) -> None:
        """Stops at the first bad line of the first file that has one; or where a block is not what it was in the first pass."""
        for part in range(len(self.task.sources())):
            mine = [report for each, report in zip(scanned, reports) if each.block.part == part]
            if fault := first_fault(mine, self.task.lines):
                raise faults.bad_line(part, fault)
        for file, side_fault in zip(sides, self.client.gather(side_faults)):
            if side_fault is not None:
                raise faults.bad_line(file.data.part, side_fault)
        for each, report in zip(scanned, reports):
            greatest = each.scan.greatest if each.scan.events else None
            if (report.lines, report.greatest) != (each.scan.lines, greatest):
                raise faults.outside("read", f"part {each.block.part}")

    def merged(self, places: Sequence[Place], parts: Futures) -> dict[Place, Future]:
        """One task for each range and bucket, which adds a few lists of frames at a time."""
        lists: dict[Place, list[Future]] = {}
        for place, future in zip(places, parts):
            lists.setdefault(place, []).append(future)
        few = self.sizes.parts
        while any(len(mine) > 1 for mine in lists.values()):
            groups = [(place, mine[at : at + few]) for place, mine in lists.items() for at in range(0, len(mine), few)]
            several = [group for _, group in groups if len(group) > 1]
            merges = iter(self.mapped(stages.merge, several, priority=MERGES))
            lists = {}
            for place, group in groups:
                lists.setdefault(place, []).append(next(merges) if len(group) > 1 else group[0])
        return {place: mine[0] for place, mine in lists.items()}

    def write(self, merged: dict[Place, Future], setup: Future, bounds: tuple[int, ...]) -> None:
        """The rows, range by range: as one text, or each range to its file."""
        width = 2 * thread_count(self.client)
        if self.outlet.folder is None:
            for future in ahead(self.texts(merged, setup, bounds, width), width):
                self.outlet.rows(future.result())
        else:
            for future in ahead(self.files(merged, setup, bounds, self.outlet.folder), width):
                future.result()

    def numbered_runs(self, merged: dict[Place, Future], setup: Future, bounds: tuple[int, ...]) -> Iterator[tuple[int, Future]]:
        """The runs of each range that may have frames, with its number. The frames are let go with the last of its tasks."""
        for number in sorted({number for number, _ in merged}):
            parts = [merged.pop((number, bucket)) for bucket in range(self.buckets) if (number, bucket) in merged]
            yield number, self.submit(stages.range_runs, parts, setup, priority=ROWS)

    def texts(self, merged: dict[Place, Future], setup: Future, bounds: tuple[int, ...], width: int) -> Iterator[Future]:
        """Tasks whose answers, one behind the other, are the text of all rows."""
        cut = (
            (number, runs, self.submit(stages.range_cuts, runs, *span_of(bounds, number), self.sizes.rows, priority=ROWS))
            for number, runs in self.numbered_runs(merged, setup, bounds)
        )
        for number, runs, cuts in ahead(cut, width):
            low = span_of(bounds, number)[0]
            for end in cuts.result():
                yield self.submit(stages.range_text, runs, low, end, priority=ROWS)
                low = end

    def files(self, merged: dict[Place, Future], setup: Future, bounds: tuple[int, ...], folder: bytes) -> Iterator[Future]:
        """Tasks that write a file for each range."""
        for number, runs in self.numbered_runs(merged, setup, bounds):
            path = os.path.join(folder, b"rows-%06d.csv" % number)
            yield self.submit(stages.write_range, runs, span_of(bounds, number), self.sizes.rows, path, priority=ROWS)


def file_size(path: bytes, part: int) -> int:
    """The bytes of a file that can be opened. A folder can be opened and not read, and what has no places can't be read in blocks."""
    try:
        with open(path, "rb") as file:
            found = os.fstat(file.fileno())
    except IsADirectoryError:
        raise faults.outside("read", f"part {part}") from None
    if not stat.S_ISREG(found.st_mode):
        raise faults.outside("read", f"part {part}")
    return found.st_size


def first_fault(reports: Sequence[stages.Report], most: int) -> Optional[LineFault]:
    """The first bad line of a file of at most so many lines, of which these are the blocks in order."""
    before = 0
    for report in reports:
        if report.fault and before + report.fault.line <= most:
            return LineFault(before + report.fault.line, report.fault.number)
        before += report.lines
        if before > most:
            return LineFault(most + 1, TOO_MANY)
    return None


def befores(vertex: int, scans: Sequence[Scan]) -> Iterator[stages.Before]:
    """What comes before each block of a file of this source."""
    line, greatest = 1, None
    for scan in scans:
        yield stages.Before(vertex, line, greatest)
        line += scan.lines
        if scan.events:
            greatest = scan.greatest if greatest is None else max(greatest, scan.greatest)


def ahead(items: Iterator, width: int) -> Iterator:
    """The same items, each given when so many more were begun, so that workers are busy while one is waited for."""
    waiting: deque = deque()
    for item in items:
        waiting.append(item)
        if len(waiting) > width:
            yield waiting.popleft()
    while waiting:
        yield waiting.popleft()
