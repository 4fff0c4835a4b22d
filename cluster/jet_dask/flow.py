"""What leaves each vertex, for the events of one block.

The rules are those of docs/DEFINITIONS.md, "What vertices make of events" and "The flow": a flow is a bag, and what comes in is the
sum over the stream edges. Each event keeps the number of its line and its time, and whether it was behind when it was read.
"""

from __future__ import annotations

from dataclasses import dataclass, replace
from typing import Mapping, Sequence

import numpy as np
from numpy.typing import NDArray

from jet_dask import expressions, job
from jet_dask.keys import Codes, Table, joined_tables, table_of, tagged
from jet_dask.lines import SideLine

Ints = NDArray[np.int64]


@dataclass(frozen=True)
class Events:
    """Events of one file as columns; `code` is the place of the key in the table."""

    part: int
    line: Ints
    ts: Ints
    code: Codes
    table: Table
    values: tuple[Ints, ...]
    behind: NDArray[np.bool_]

    def taken(self, places: NDArray) -> Events:
        """The events at these places, a place as often as it is named."""
        return replace(
            self,
            line=self.line[places],
            ts=self.ts[places],
            code=self.code[places],
            values=tuple(column[places] for column in self.values),
            behind=self.behind[places],
        )

    def value(self, program: expressions.Program) -> Ints:
        """The value of an expression for each event."""
        fields = dict(zip(job.VALUES, self.values), ts=self.ts, part=np.full(len(self.ts), self.part, dtype=np.int64))
        return expressions.value(program, fields, len(self.ts))


@dataclass(frozen=True)
class SideTable:
    """The rows of a side file in the order of their keys: each key once with its first row and how many it has."""

    keys: Table
    first: Ints
    count: Ints
    labels: Table
    values: tuple[Ints, ...]


def side_table(rows: Sequence[SideLine]) -> SideTable:
    """The table of the rows of a side file."""
    ordered = sorted(rows, key=lambda row: row.key)
    keys, first, count = np.unique(table_of([row.key for row in ordered]), return_index=True, return_counts=True)
    values = tuple(np.array([row.values[place] for row in ordered], dtype=np.int64) for place in range(4))
    return SideTable(keys, first, count, table_of([row.label for row in ordered]), values)


def flow(task: job.Job, read: Events, vertex: int, sides: Mapping[int, SideTable]) -> dict[int, Events]:
    """What leaves each vertex where the events of one file of a source are those read; of an accumulate vertex what enters it."""
    flows: dict[int, Events] = {}
    for number in task.order():
        kind = task.vertices[number].kind
        if isinstance(kind, job.Source):
            flows[number] = read if number == vertex else read.taken(np.zeros(0, dtype=np.int64))
        elif not isinstance(kind, (job.Side, job.Combine, job.Sink)):
            entering = together([flows[source] for source in task.inputs(number)])
            flows[number] = _made(kind, entering, sides[task.side_of(number)] if isinstance(kind, job.Join) else None)
    return flows


def together(parts: Sequence[Events]) -> Events:
    """The sum of some flows."""
    if len(parts) == 1:
        return parts[0]
    table, code = joined_tables([each.table for each in parts], [each.code for each in parts])
    return Events(
        parts[0].part,
        np.concatenate([each.line for each in parts]),
        np.concatenate([each.ts for each in parts]),
        code,
        table,
        tuple(np.concatenate([each.values[place] for each in parts]) for place in range(4)),
        np.concatenate([each.behind for each in parts]),
    )


def _made(kind: job.Kind, entering: Events, side: SideTable | None) -> Events:
    if isinstance(kind, job.Map):
        values = list(entering.values)
        for place, program in kind.sets:
            values[place] = entering.value(program)
        return replace(entering, values=tuple(values))
    if isinstance(kind, job.Filter):
        return entering.taken(np.flatnonzero(entering.value(kind.test)))
    if isinstance(kind, job.Flat):
        return together([_leg(leg, entering) for leg in kind.legs])
    if isinstance(kind, job.Join) and side is not None:
        return _joined(kind, entering, side)
    return entering


def _leg(leg: job.Leg, entering: Events) -> Events:
    chosen = entering.taken(np.flatnonzero(entering.value(leg.test)))
    values = (chosen.value(leg.value), *chosen.values[1:])
    return replace(chosen, values=values, table=tagged(chosen.table, leg.tag))


def _joined(kind: job.Join, entering: Events, side: SideTable) -> Events:
    """An event for each side row of its key; without one the event itself where the join is left."""
    place = np.searchsorted(side.keys, entering.table)
    known = np.zeros(len(place), dtype=bool)
    inside = place < len(side.keys)
    known[inside] = side.keys[place[inside]] == entering.table[inside]
    first = np.where(known, np.append(side.first, 0)[np.where(known, place, -1)], 0)
    count = np.where(known, np.append(side.count, 0)[np.where(known, place, -1)], 0)
    each = count[entering.code]
    origin = np.repeat(np.arange(len(each)), each)
    row = first[entering.code][origin] + np.arange(len(origin)) - np.repeat(np.cumsum(each) - each, each)
    met = entering.taken(origin)
    columns = (*met.values, *(column[row] for column in side.values))
    met = replace(met, values=tuple(columns[field] for field in kind.fields))
    if kind.rekey:
        met = replace(met, code=row, table=side.labels)
    return together([met, entering.taken(np.flatnonzero(each == 0))]) if kind.left else met
