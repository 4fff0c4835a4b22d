"""Rows of windows from frames, and their text.

The rules are those of docs/DEFINITIONS.md, "Rows and their order", and docs/FORMATS.md, "Rows and late lines": a window has a row for an
end and a key exactly where it covers a frame of the key; rows stand in the order of end, then vertex, then the bytes of the key.
"""

from __future__ import annotations

from dataclasses import dataclass
from typing import Sequence

import numpy as np
from numpy.typing import NDArray

from jet_dask.flow import Events
from jet_dask.frames import SUMS, Frames, carried, exact_sums
from jet_dask.job import Window
from jet_dask.keys import Codes, Table

Ints = NDArray[np.int64]

# ends of rows lie within 1.002 * 10^15 of 0
BELOW_ALL = -(2 * 10**15)
ABOVE_ALL = 2 * 10**15


@dataclass(frozen=True)
class Runs:
    """The frames of one window in the order of key and end, counted in slides: the ends that begin with frame i's own and are below
    `stop[i]` have it as their last frame."""

    window: Window
    code: Codes
    unit: Ints
    stop: Ints
    frames: Frames

    def counted(self, low: int, high: int) -> tuple[Ints, Ints]:
        """The first end of each frame's run above `low`, in slides, and how many ends up to `high` it has from there on."""
        first = np.maximum(self.unit, low // self.window.slide + 1)
        return first, np.maximum(np.minimum(self.stop, high // self.window.slide + 1) - first, 0)


@dataclass(frozen=True)
class Rows:
    """Rows of one window as columns."""

    window: Ints
    end: Ints
    code: Codes
    count: Ints
    low: Ints
    middle: Ints
    high: Ints
    least: Ints
    greatest: Ints


def runs(frames: Frames, windows: Sequence[Window]) -> list[Runs]:
    """The runs of frames of which none has window, end and key of another, and whose keys are in order."""
    return [_runs(frames, window) for window in windows]


def _runs(frames: Frames, window: Window) -> Runs:
    mine = np.flatnonzero(frames.cells["window"] == window.number)
    mine = mine[np.lexsort((frames.cells["end"][mine], frames.cells["code"][mine]))]
    cells = {name: column[mine] for name, column in frames.cells.items()}
    code, unit = cells["code"], cells["end"] // window.slide
    stop = unit + window.size // window.slide
    same = np.append(code[1:] == code[:-1], False) if len(code) else np.zeros(0, dtype=bool)
    following = np.append(unit[1:], 0) if len(unit) else unit
    return Runs(window, code, unit, np.where(same, np.minimum(stop, following), stop), Frames(cells, frames.keys))


def rows_up_to(all_runs: Sequence[Runs], low: int, high: int) -> int:
    """How many rows have an end above `low` and at most `high`."""
    return sum(int(each.counted(low, high)[1].sum()) for each in all_runs)


def cuts(all_runs: Sequence[Runs], low: int, high: int, most: int) -> list[int]:
    """Ends that part the rows above `low` and up to `high`, so that those between two have at most so many rows, or one end alone;
    `high` is the last of them."""
    found: list[int] = []
    first = min(int(run.unit.min(initial=ABOVE_ALL // run.window.slide)) * run.window.slide for run in all_runs)
    last = max(int(run.stop.max(initial=BELOW_ALL // run.window.slide)) * run.window.slide for run in all_runs)
    low, last = max(low, first - 1), min(high, last)
    while rows_up_to(all_runs, low, last) > most:
        low = _cut(all_runs, low, last, most)
        found.append(low)
    return [*found, high] if not found or found[-1] < high else found


def _cut(all_runs: Sequence[Runs], low: int, high: int, most: int) -> int:
    """The greatest end up to which there are at most so many rows above `low`; or else the end of the first one."""
    fits, beyond = low, high
    while beyond - fits > 1:
        middle = (fits + beyond) // 2
        if rows_up_to(all_runs, low, middle) > most:
            beyond = middle
        else:
            fits = middle
    return fits if rows_up_to(all_runs, low, fits) > 0 else beyond


def rows_between(run: Runs, low: int, high: int) -> Rows:
    """The rows of one window above the end `low` and up to `high`."""
    first, count = run.counted(low, high)
    last = np.repeat(np.arange(len(count)), count)
    unit = first[last] + np.arange(len(last)) - np.repeat(np.cumsum(count) - count, count)
    begin = _first_covered(run, last, unit)
    cells = run.frames.cells
    return Rows(
        window=np.full(len(last), run.window.number, dtype=np.int64),
        end=unit * run.window.slide,
        code=run.code[last],
        **carried({name: _differences(cells[name], begin, last) for name in SUMS}),
        least=_extremes(cells["least"], begin, last, np.minimum),
        greatest=_extremes(cells["greatest"], begin, last, np.maximum),
    )


def _first_covered(run: Runs, last: Ints, unit: Ints) -> Ints:
    """The first frame of the key that a window covers, where `last` is the last one and the window ends at `unit`."""
    units = np.unique(run.unit)
    ids = run.code * len(units) + np.searchsorted(units, run.unit)
    oldest = np.searchsorted(units, unit - run.window.size // run.window.slide + 1)
    return np.searchsorted(ids, run.code[last] * len(units) + oldest)


def _differences(column: Ints, begin: Ints, last: Ints) -> Ints:
    """The sums of the column from `begin` up to and with `last`."""
    before = np.append(np.zeros(1, dtype=np.int64), np.cumsum(column))
    return before[last + 1] - before[begin]


def _extremes(column: Ints, begin: Ints, last: Ints, pick: np.ufunc) -> Ints:
    """The least or greatest of the column from `begin` up to and with `last`, from those of 1, 2, 4, .. neighbours."""
    answer = column[last]
    length, width = last + 1 - begin, 1
    while len(length) and width <= int(length.max()):
        mine = np.flatnonzero((length >= width) & (length < 2 * width))
        answer[mine] = pick(column[begin[mine]], column[last[mine] + 1 - width])
        column = pick(column, np.append(column[width:], column[-1:].repeat(min(width, len(column)))))
        width *= 2
    return answer


def rows_text(all_runs: Sequence[Runs], low: int, high: int) -> bytes:
    """The lines of the rows above the end `low` and up to `high`, in order."""
    found = [rows_between(run, low, high) for run in all_runs]
    columns = {name: np.concatenate([getattr(rows, name) for rows in found]) for name in Rows.__annotations__}
    order = np.lexsort((columns["code"], columns["window"], columns["end"]))
    columns = {name: column[order] for name, column in columns.items()}
    heads = {run.window.number: (run.window.name, run.window.size) for run in all_runs}
    keys = [key.decode("ascii") for key in all_runs[0].frames.keys.tolist()]
    plain = (columns[name].tolist() for name in ("window", "end", "code", "count", "least", "greatest"))
    lines = [
        f"{heads[window][0]},{end - heads[window][1]},{end},{keys[code]},{count},{total},{least},{greatest}\n"
        for total, window, end, code, count, least, greatest in zip(
            exact_sums(columns["low"], columns["middle"], columns["high"]), *plain
        )
    ]
    return "".join(lines).encode("ascii")


def late_text(entering: Events, name: str, first_line: int) -> bytes:
    """The lines of the late events among those that enter a window of this name; line 1 of the block is that of `first_line`."""
    late = entering.taken(np.flatnonzero(entering.behind))
    keys = [key.decode("ascii") for key in late.table.tolist()]
    columns = (late.line.tolist(), late.ts.tolist(), late.code.tolist(), *(column.tolist() for column in late.values))
    lines = [
        f"late,{name},{late.part},{line + first_line - 1},{ts},{keys[code]},{a},{b},{c},{d}\n"
        for line, ts, code, a, b, c, d in zip(*columns)
    ]
    return "".join(lines).encode("ascii")
