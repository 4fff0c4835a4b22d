"""What workers do: each function here is one kind of task, and needs nothing but what it is given and the files.

So a task can be run again elsewhere when its worker is lost.
"""

from __future__ import annotations

import os
import uuid
from dataclasses import dataclass
from typing import Mapping, Optional, Sequence, Union

import numpy as np

from jet_dask import blocks, faults, flow, frames, job, rows
from jet_dask.columns import LineFault
from jet_dask.frames import Frames, Place

SideFile = Union[blocks.SideRows, LineFault]


@dataclass(frozen=True)
class Setup:
    """What the second pass over any block needs: the job, the side rows by side vertex, the bounds of the ranges of ends but the
    last, and in how many buckets the partitions of keys are put."""

    task: job.Job
    sides: Mapping[int, flow.SideTable]
    bounds: tuple[int, ...]
    buckets: int


@dataclass(frozen=True)
class Before:
    """What comes before a block in its file: the number of its first line, and the greatest time if there is one. `vertex` is the
    source of the file."""

    vertex: int
    first_line: int
    greatest: Optional[int]


@dataclass(frozen=True)
class Report:
    """What the driver needs to know of a block behind the second pass: its first bad line, how many lines it has, its greatest time, and
    how long its late lines are."""

    fault: Optional[LineFault]
    lines: int
    greatest: Optional[int]
    late: int


@dataclass(frozen=True)
class Framed:
    """What the second pass makes of a block: frames by range and bucket, and late lines, or the first bad line; and what it tells of
    the block as it is now."""

    pieces: Mapping[Place, Frames]
    late: bytes
    report: Report


def scan_block(block: blocks.Block) -> blocks.Scan:
    """The first pass: lines and times."""
    try:
        return blocks.scan(block)
    except OSError:
        raise faults.outside("read", f"part {block.part}") from None


def read_side(file: job.DataFile, path: bytes, most: int) -> SideFile:
    """The rows of a side file, or its first bad line."""
    try:
        return blocks.read_side_file(path, most)
    except OSError:
        raise faults.outside("read", f"part {file.part}") from None


def side_fault(side: SideFile) -> Optional[LineFault]:
    """The first bad line of a side file, if there is one."""
    return side if isinstance(side, LineFault) else None


def make_setup(text: bytes, sides: Sequence[SideFile], bounds: tuple[int, ...], buckets: int) -> Setup:
    """What the second pass needs, from the job's text and its side files in the order of their numbers. One with a bad line counts as
    empty, since that line ends the run behind the second pass."""
    task = job.read_job(text)
    rows_of = [side.rows if isinstance(side, blocks.SideRows) else () for side in sides]
    tables = {file.vertex: flow.side_table(found) for file, found in zip(task.sides(), rows_of)}
    return Setup(task, tables, bounds, buckets)


def frame_block(block: blocks.Block, before: Before, setup: Setup) -> Framed:
    """The second pass: what the block's events bring to each window, and the first bad line."""
    try:
        parsed = blocks.parse_block(block)
    except OSError:
        raise faults.outside("read", f"part {block.part}") from None
    greatest = int(parsed.ts.max()) if len(parsed.ts) else None
    if parsed.fault:
        return Framed({}, b"", Report(parsed.fault, parsed.lines, greatest, 0))
    kind = setup.task.vertices[before.vertex].kind
    lag = kind.lag if isinstance(kind, job.Source) else 0
    behind = was_behind(parsed.ts, before.greatest, lag, setup.task.grain())
    read = flow.Events(block.part, parsed.line, parsed.ts, parsed.code, parsed.table, parsed.values, behind)
    flows = flow.flow(setup.task, read, before.vertex, setup.sides)
    windows = setup.task.windows()
    late = b"".join(rows.late_text(flows[window.entry], window.name, before.first_line) for window in windows)
    found = frames.pieces(frames.frames_of(flows, windows), windows, setup.bounds, setup.buckets)
    return Framed(found, late, Report(None, parsed.lines, greatest, len(late)))


def was_behind(ts: np.ndarray, greatest: Optional[int], lag: int, grain: int) -> np.ndarray:
    """Whether each event is below the watermark of those before it in its file: the greatest of their times less the lag, rounded
    down to the grain. `greatest` is that of the blocks before."""
    if len(ts) == 0:
        return np.zeros(0, dtype=bool)
    first = ts[0] if greatest is None else np.int64(greatest)
    seen = np.maximum.accumulate(np.concatenate([[first], ts[:-1]]))
    behind: np.ndarray = ts < (seen - lag) // grain * grain
    if greatest is None:
        behind[0] = False
    return behind


def pick(framed: Framed, place: Place) -> Optional[Frames]:
    """The frames of one range and bucket, where the block has any."""
    return framed.pieces.get(place)


def pick_late(framed: Framed) -> bytes:
    """The late lines of a block."""
    return framed.late


def pick_report(framed: Framed) -> Report:
    """What the second pass tells of a block."""
    return framed.report


def merge(parts: Sequence[Optional[Frames]]) -> Optional[Frames]:
    """The frames of all parts, added."""
    there = [each for each in parts if each is not None]
    return frames.merged(there) if len(there) > 1 else there[0] if there else None


def range_runs(parts: Sequence[Optional[Frames]], setup: Setup) -> list[rows.Runs]:
    """The frames of a range, of all buckets, in order; none where no part has any."""
    found = merge(parts)
    return [] if found is None else rows.runs(found, setup.task.windows())


def range_cuts(runs: Sequence[rows.Runs], low: int, high: int, most: int) -> list[int]:
    """The ends at which the rows of a range are cut, the last of them `high`."""
    return rows.cuts(runs, low, high, most) if runs else []


def range_text(runs: Sequence[rows.Runs], low: int, high: int) -> bytes:
    """The lines of the rows above `low` and up to `high`."""
    return rows.rows_text(runs, low, high)


def write_range(runs: Sequence[rows.Runs], span: tuple[int, int], most: int, path: bytes) -> None:
    """Writes the rows of a range to a file, at most so many at a time; the file has its name once it is whole."""
    unfinished = path + b"." + uuid.uuid4().hex.encode("ascii")
    low, high = span
    try:
        with open(unfinished, "wb") as file:
            for end in range_cuts(runs, low, high, most):
                file.write(range_text(runs, low, end))
                low = end
        os.replace(unfinished, path)
    except OSError:
        raise faults.outside("write", "rows") from None
