"""Frames: what is known of a key's events between two multiples of a slide.

The rules are those of docs/DEFINITIONS.md, "Multiples and windows" and "Frames". A sum is kept in three columns of 64 bits, the last
32 bits, the 32 before and all above, so that it is exact for as many events as a job can have.
"""

from __future__ import annotations

from dataclasses import dataclass
from typing import Iterable, Mapping, Sequence

import numpy as np
import pandas as pd
from numpy.typing import NDArray

from jet_dask.flow import Events
from jet_dask.job import Window
from jet_dask.keys import NO_KEYS, Table, joined_tables, partitions, sorted_table

Ints = NDArray[np.int64]
Place = tuple[int, int]

LIMB = 32
LIMB_MASK = (1 << LIMB) - 1
COUNTED = 1 << 16
PLACES = ("window", "end", "code")
SUMS = ("count", "low", "middle", "high")
COLUMNS = (*PLACES, *SUMS, "least", "greatest")


@dataclass(frozen=True)
class Frames:
    """Frames as columns: window (its number), end, code (the key's place in `keys`), count, low, middle and high of the sum, least and
    greatest."""

    cells: Mapping[str, Ints]
    keys: Table

    def taken(self, places: NDArray) -> Frames:
        """The frames at these places, with the keys in use alone, in order."""
        cells = {name: column[places] for name, column in self.cells.items()}
        keys, code = sorted_table(self.keys, cells["code"])
        return Frames({**cells, "code": code}, keys)


def frames_of(flows: Mapping[int, Events], windows: Sequence[Window]) -> Frames:
    """The frames of all windows over the events that enter them in time, as they come in one block."""
    return merged([_frames(flows[window.entry], window) for window in windows])


def _frames(entering: Events, window: Window) -> Frames:
    kept = entering.taken(np.flatnonzero(~entering.behind)) if entering.behind.any() else entering
    unit = kept.ts // window.slide + 1
    order, starts = groups(unit, kept.code, len(kept.table))
    value, firsts = kept.values[0][order], order[starts]
    if len(starts) == 0:
        return Frames({name: np.zeros(0, dtype=np.int64) for name in COLUMNS}, kept.table)
    sums = {
        "count": np.diff(np.append(starts, len(value))),
        "low": np.add.reduceat(value & LIMB_MASK, starts),
        "middle": np.add.reduceat(value >> LIMB, starts),
        "high": np.zeros(len(starts), dtype=np.int64),
    }
    cells = {
        "window": np.full(len(starts), window.number, dtype=np.int64),
        "end": unit[firsts] * window.slide,
        "code": kept.code[firsts],
        **carried(sums),
        "least": np.minimum.reduceat(value, starts),
        "greatest": np.maximum.reduceat(value, starts),
    }
    return Frames(cells, kept.table)


def merged(parts: Sequence[Frames]) -> Frames:
    """One frame for each window, end and key, of all frames with these; in no order."""
    keys, code = joined_tables([each.keys for each in parts], [each.cells["code"] for each in parts])
    if len(code) == 0:
        return Frames({name: np.zeros(0, dtype=np.int64) for name in COLUMNS}, NO_KEYS)
    keys, code = sorted_table(keys, code)
    cells = {name: np.concatenate([each.cells[name] for each in parts]) for name in COLUMNS}
    windows, names = pd.factorize(cells["window"])
    order, starts = groups(cells["end"], code * len(names) + windows, len(keys) * len(names))
    ordered = {name: column[order] for name, column in {**cells, "code": code}.items()}
    places = {name: ordered[name][starts] for name in PLACES}
    sums = carried({name: np.add.reduceat(ordered[name], starts) for name in SUMS})
    least = np.minimum.reduceat(ordered["least"], starts)
    greatest = np.maximum.reduceat(ordered["greatest"], starts)
    return Frames({**places, **sums, "least": least, "greatest": greatest}, keys)


def groups(one: Ints, other: Ints, count: int) -> tuple[Ints, Ints]:
    """An order in which those with the same two numbers stand side by side, and where each group begins in it; the second number is
    at least 0 and below `count`."""
    if len(one) == 0:
        return np.zeros(0, dtype=np.int64), np.zeros(0, dtype=np.int64)
    least = int(one.min())
    numbers = one - least if int(one.max()) - least < COUNTED else pd.factorize(one)[0]
    pair = numbers * np.int64(count) + other
    if int(pair.max()) >= COUNTED:
        pair = pd.factorize(pair)[0]
    # numbers of 16 bits are sorted by counting
    order = np.argsort(pair.astype(np.uint16) if int(pair.max()) < COUNTED else pair, kind="stable")
    pair = pair[order]
    return order, np.flatnonzero(np.append(True, pair[1:] != pair[:-1]))


def carried(sums: Mapping[str, Ints]) -> dict[str, Ints]:
    """The count, and the sum with low and middle between 0 and 2^32 again."""
    middle = sums["middle"] + (sums["low"] >> LIMB)
    return {
        "count": sums["count"],
        "low": sums["low"] & LIMB_MASK,
        "middle": middle & LIMB_MASK,
        "high": sums["high"] + (middle >> LIMB),
    }


def pieces(frames: Frames, windows: Iterable[Window], bounds: Sequence[int], buckets: int) -> dict[Place, Frames]:
    """The frames by range of ends and bucket of partitions.

    A range has the ends up to and with its bound, and above the one before; a frame belongs to each range that has an end of a window
    which covers it.
    """
    reach = {window.number: window.size - window.slide for window in windows}
    end, window = frames.cells["end"], frames.cells["window"]
    last_end = end + sum(np.where(window == number, length, 0) for number, length in reach.items())
    first = np.searchsorted(bounds, end)
    times = np.searchsorted(bounds, last_end) - first + 1
    origin = np.repeat(np.arange(len(end)), times)
    span = first[origin] + np.arange(len(origin)) - np.repeat(np.cumsum(times) - times, times)
    bucket = partitions(frames.keys)[frames.cells["code"]] % buckets
    place = span * buckets + bucket[origin]
    order = np.argsort(place, kind="stable")
    names, starts = np.unique(place[order], return_index=True)
    stops = np.append(starts[1:], len(order))
    return {
        (int(name) // buckets, int(name) % buckets): frames.taken(origin[order[start:stop]])
        for name, start, stop in zip(names, starts, stops)
    }


def exact_sums(low: Ints, middle: Ints, high: Ints) -> list[int]:
    """The sums as Python's integers, of columns that are carried."""
    sums: list[int] = ((middle << LIMB) + low).tolist()
    small = ((high == 0) & (middle < 1 << (LIMB - 1))) | ((high == -1) & (middle >= 1 << (LIMB - 1)))
    for place in np.flatnonzero(~small).tolist():
        sums[place] = (int(high[place]) << 2 * LIMB) + (int(middle[place]) << LIMB) + int(low[place])
    return sums
