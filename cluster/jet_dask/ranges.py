"""Ranges of ends: rows are made and written range by range, so that nobody holds all of them."""

from __future__ import annotations

from typing import Sequence

import numpy as np

from jet_dask.blocks import Scan
from jet_dask.job import Window
from jet_dask.rows import ABOVE_ALL, BELOW_ALL


def bounds_of(scans: Sequence[Scan], windows: Sequence[Window], events: int) -> tuple[int, ...]:
    """The last ends of all ranges but the last: about so many events lie between two, by the samples of the scans, and at least the
    longest window, so that a frame belongs to two ranges at most."""
    times = np.concatenate([np.array(scan.sample, dtype=np.int64) for scan in scans] + [np.empty(0, dtype=np.int64)])
    weights = np.concatenate([np.full(len(scan.sample), scan.events / max(1, len(scan.sample))) for scan in scans] + [np.empty(0)])
    order = np.argsort(times, kind="stable")
    passed = np.cumsum(weights[order])
    longest = max(window.size for window in windows)
    bounds: list[int] = []
    for number in range(1, int(passed[-1] // events) + 1 if len(passed) else 0):
        place = min(int(np.searchsorted(passed, number * events)), len(order) - 1)
        bound = int(times[order[place]])
        if not bounds or bound >= bounds[-1] + longest:
            bounds.append(bound)
    return tuple(bounds)


def span_of(bounds: Sequence[int], number: int) -> tuple[int, int]:
    """The range of this number: its ends are above the first answer and at most the second."""
    return (bounds[number - 1] if number else BELOW_ALL, bounds[number] if number < len(bounds) else ABOVE_ALL)


def touched(bounds: Sequence[int], scan: Scan, windows: Sequence[Window]) -> range:
    """The ranges that may have an end of a window with an event of this block."""
    if scan.events == 0:
        return range(0)
    longest = max(window.size for window in windows)
    first, last = np.searchsorted(bounds, [scan.least + 1, scan.greatest + longest])
    return range(int(first), int(last) + 1)
