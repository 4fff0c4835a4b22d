"""A job as the package sees it: what `jet plan` has found valid, read into records.

The rules are those of docs/FORMATS.md, "The job file" and "What each kind of vertex does". Nothing is judged here: a text that
`jet plan` refuses never comes this far.
"""

from __future__ import annotations

import json
import math
from dataclasses import dataclass
from typing import Any, Union

from jet_dask.expressions import Program, compile_text

MOST_LINES = 4_294_967_294
VALUES = ("v0", "v1", "v2", "v3")
SIDE_VALUES = ("s0", "s1", "s2", "s3")


@dataclass(frozen=True)
class Source:
    """Gives the events of its files; `lag` is how far each file's watermark stays behind its greatest time."""

    files: tuple[str, ...]
    lag: int


@dataclass(frozen=True)
class Side:
    """Gives the rows of its file to joins."""

    file: str


@dataclass(frozen=True)
class Map:
    """Sets values: pairs of a value's place and its expression."""

    sets: tuple[tuple[int, Program], ...]


@dataclass(frozen=True)
class Filter:
    """Lets an event pass where the test is not 0."""

    test: Program


@dataclass(frozen=True)
class Leg:
    """One event of a flat: given where the test is not 0, with the tag behind its key."""

    test: Program
    value: Program
    tag: bytes


@dataclass(frozen=True)
class Flat:
    """Makes an event for each leg."""

    legs: tuple[Leg, ...]


@dataclass(frozen=True)
class Join:
    """Makes an event for each side row of its key; `fields` are numbers below 4 for the event's values, from 4 for the row's."""

    left: bool
    rekey: bool
    fields: tuple[int, ...]


@dataclass(frozen=True)
class Accumulate:
    """The first half of a window."""

    size: int
    slide: int


@dataclass(frozen=True)
class Combine:
    """The second half of a window, whose name and number the rows have."""


@dataclass(frozen=True)
class Sink:
    """Where rows and late lines are written."""


Kind = Union[Source, Side, Map, Filter, Flat, Join, Accumulate, Combine, Sink]


@dataclass(frozen=True)
class Vertex:
    """A vertex with its place in the job."""

    number: int
    name: str
    kind: Kind


@dataclass(frozen=True)
class Edge:
    """An edge between vertices by number; `build` where it brings a join its rows."""

    source: int
    target: int
    build: bool


@dataclass(frozen=True)
class DataFile:
    """A file of the job: `part` is its number in the job, `vertex` that of its source or side vertex."""

    part: int
    vertex: int
    name: str


@dataclass(frozen=True)
class Window:
    """A window: the number and name of its combine vertex, the number of the accumulate vertex before it, and its sizes."""

    number: int
    name: str
    entry: int
    size: int
    slide: int


@dataclass(frozen=True)
class Job:
    """A valid job."""

    vertices: tuple[Vertex, ...]
    edges: tuple[Edge, ...]
    lines: int

    def sources(self) -> tuple[DataFile, ...]:
        """The files of the sources, numbered in the order of the vertices."""
        names = [(v.number, name) for v in self.vertices if isinstance(v.kind, Source) for name in v.kind.files]
        return tuple(DataFile(part, vertex, name) for part, (vertex, name) in enumerate(names))

    def sides(self) -> tuple[DataFile, ...]:
        """The side files, numbered behind those of the sources."""
        first = len(self.sources())
        names = [(v.number, v.kind.file) for v in self.vertices if isinstance(v.kind, Side)]
        return tuple(DataFile(first + place, vertex, name) for place, (vertex, name) in enumerate(names))

    def lag(self, file: DataFile) -> int:
        """The lag of a source's file."""
        kind = self.vertices[file.vertex].kind
        return kind.lag if isinstance(kind, Source) else 0

    def grain(self) -> int:
        """The greatest common divisor of the slides of all accumulate vertices."""
        return math.gcd(*(v.kind.slide for v in self.vertices if isinstance(v.kind, Accumulate)))

    def windows(self) -> tuple[Window, ...]:
        """The windows, in the order of their combine vertices."""
        found = []
        for vertex in self.vertices:
            if isinstance(vertex.kind, Combine):
                entry = next(edge.source for edge in self.edges if edge.target == vertex.number)
                kind = self.vertices[entry].kind
                if isinstance(kind, Accumulate):
                    found.append(Window(vertex.number, vertex.name, entry, kind.size, kind.slide))
        return tuple(found)

    def inputs(self, number: int) -> tuple[int, ...]:
        """The vertices whose flow comes in over stream edges, one an edge."""
        return tuple(edge.source for edge in self.edges if edge.target == number and not edge.build)

    def side_of(self, number: int) -> int:
        """The side vertex that brings a join its rows."""
        return next(edge.source for edge in self.edges if edge.target == number and edge.build)

    def order(self) -> tuple[int, ...]:
        """The vertices, each behind all those before it along the edges."""
        done: list[int] = []
        while len(done) < len(self.vertices):
            for vertex in self.vertices:
                before = {edge.source for edge in self.edges if edge.target == vertex.number}
                if vertex.number not in done and before <= set(done):
                    done.append(vertex.number)
        return tuple(done)


def read_job(text: bytes) -> Job:
    """The job of a text that `jet plan` has found valid."""
    top: dict[str, Any] = json.loads(text.decode("utf-8"))
    vertices = tuple(Vertex(number, each["name"], _kind(each)) for number, each in enumerate(top["vertices"]))
    numbers = {vertex.name: vertex.number for vertex in vertices}
    edges = tuple(Edge(numbers[each["from"]], numbers[each["to"]], each.get("build", False)) for each in top["edges"])
    return Job(vertices, edges, top.get("settings", {}).get("lines", MOST_LINES))


def _kind(each: dict[str, Any]) -> Kind:
    match each["kind"]:
        case "source":
            return Source(tuple(each["files"]), each["lag"])
        case "side":
            return Side(each["file"])
        case "map":
            return Map(tuple((VALUES.index(name), compile_text(text)) for name, text in sorted(each["set"].items())))
        case "filter":
            return Filter(compile_text(each["test"]))
        case "flat":
            return Flat(tuple(_leg(leg) for leg in each["legs"]))
        case "join":
            names = VALUES + SIDE_VALUES
            fields = tuple(names.index(name) for name in each.get("fields", VALUES))
            return Join(each["mode"] == "left", each.get("rekey", False), fields)
        case "accumulate":
            return Accumulate(each["size"], each["slide"])
        case "combine":
            return Combine()
        case _:
            return Sink()


def _leg(each: dict[str, str]) -> Leg:
    test = compile_text(each.get("test", "1"))
    return Leg(test, compile_text(each["value"]), each.get("tag", "").encode("ascii"))
