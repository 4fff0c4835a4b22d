"""Files in blocks that are cut at line ends.

A line belongs to the block in which it begins, so blocks of any size hold each line once, and no block reads more than its own
bytes and one line.
"""

from __future__ import annotations

from dataclasses import dataclass
from typing import Optional, Union

import numpy as np

from jet_dask import lines
from jet_dask.columns import LineFault, Parsed, parse, parse_times

SAMPLE = 32
MOST_SIDE_ROWS = 16
# a line that goes on for so many bytes is too long, however it ends
BEYOND = lines.LONGEST_LINE + 2


@dataclass(frozen=True)
class Block:
    """A part of a file: from byte `start` up to byte `stop`."""

    part: int
    path: bytes
    start: int
    stop: int


@dataclass(frozen=True)
class Scan:
    """What the first pass tells of a block: its lines, its events, their least and greatest time (0 where there are none), and a sample
    of their times in order. Of a block with a bad line the times are of no use."""

    lines: int
    events: int
    least: int
    greatest: int
    sample: tuple[int, ...]


def cut_file(part: int, path: bytes, size: int, block: int) -> list[Block]:
    """The blocks of a file of `size` bytes, each of `block` bytes but the last."""
    return [Block(part, path, start, min(start + block, size)) for start in range(0, size, block)]


def read_lines(block: Block) -> bytes:
    """The lines that begin in the block. One that has no end in sight is handed on cut, long enough to be seen as too long."""
    begin = max(block.start - 1, 0)
    with open(block.path, "rb") as file:
        file.seek(begin)
        data = file.read(block.stop - begin + BEYOND)
    last = block.stop - 1 - begin
    first = 0
    if block.start > 0:
        first = data.find(b"\n", 0, last) + 1
        if first == 0:
            return b""
    end = data.find(b"\n", last)
    return data[first:] if end < 0 else data[first : end + 1]


def parse_block(block: Block) -> Parsed:
    """The events of a block, with lines counted from 1 in the block."""
    return parse(read_lines(block))


def scan(block: Block) -> Scan:
    """The first pass over a block."""
    count, ts = parse_times(read_lines(block))
    if len(ts) == 0:
        return Scan(count, 0, 0, 0, ())
    step = -(-len(ts) // SAMPLE)
    return Scan(count, len(ts), int(ts.min()), int(ts.max()), tuple(np.sort(ts[::step]).tolist()))


@dataclass(frozen=True)
class SideRows:
    """The rows of a side file: how many lines it has, and its rows in the order of the file."""

    lines: int
    rows: tuple[lines.SideLine, ...]


def read_side_file(path: bytes, most: int) -> Union[SideRows, LineFault]:
    """The rows of a side file of at most so many lines, or its first bad line; a key has at most 16 rows."""
    rows: list[lines.SideLine] = []
    counts: dict[bytes, int] = {}
    number = 0
    with open(path, "rb") as file:
        while text := file.readline(BEYOND):
            number += 1
            line = text[:-1] if text.endswith(b"\n") else text
            read = lines.read_side(line[:-1] if line.endswith(b"\r") else line)
            if number > most:
                return LineFault(number, lines.TOO_MANY)
            if isinstance(read, lines.Fault):
                return LineFault(number, read.number)
            if read is None:
                continue
            counts[read.key] = counts.get(read.key, 0) + 1
            if counts[read.key] > MOST_SIDE_ROWS:
                return LineFault(number, lines.KEY_FULL)
            rows.append(read)
    return SideRows(number, tuple(rows))
