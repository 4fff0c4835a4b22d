"""The definition of a run, in plain Python and as slowly as it likes.

Written from docs/DEFINITIONS.md and docs/FORMATS.md alone: one event at a time, no columns, no blocks, no frames, and nothing of the
package that it is compared with. Every event is put into each window that covers it, and a row is the count, sum, least and greatest
of what a window holds of a key. An event is late exactly where it is below the watermark of the events before it in its own file; or,
where the late lines of some run are given, exactly where these tell so.
"""

from __future__ import annotations

import math
import re
from collections import Counter
from dataclasses import dataclass, replace
from fractions import Fraction
from typing import Any, Callable, Optional

LIMIT = 10**15
KEY = re.compile(rb"[A-Za-z0-9_\-.:/]{1,24}")
NUMBER = re.compile(rb"-?[0-9]{1,16}")


class Bad(Exception):
    """A line has this fault."""

    def __init__(self, fault: int) -> None:
        self.fault = fault


@dataclass(frozen=True)
class Event:
    part: int
    line: int
    ts: int
    key: str
    v: tuple[int, ...]


@dataclass(frozen=True)
class Row:
    key: str
    label: str
    v: tuple[int, ...]


@dataclass(frozen=True)
class Answer:
    """What a run writes: `bad` is the status line of a bad line, and then nothing is written; late lines stand in no order."""

    bad: Optional[str]
    rows: str
    late: list[str]


def lines_of(content: bytes) -> list[bytes]:
    """The lines of a file: its parts between line feeds, less one carriage return each; nothing behind the last LF is no line."""
    parts = content.split(b"\n")
    if parts[-1] == b"":
        parts.pop()
    return [part[:-1] if part[-1:] == b"\r" else part for part in parts]


def fields_of(line: bytes) -> list[bytes]:
    """The fields of a line, read from the left, byte by byte."""
    if len(line) > 512:
        raise Bad(1)
    if any(byte < 32 or byte > 126 for byte in line):
        raise Bad(2)
    stand, field, fields = "start", b"", []
    for place in range(len(line)):
        byte = line[place : place + 1]
        if stand == "quoted":
            if byte == b'"':
                stand = "closed"
            else:
                field += byte
        elif byte == b",":
            fields.append(field)
            stand, field = "start", b""
        elif stand == "start":
            if byte == b'"':
                stand = "quoted"
            else:
                stand, field = "plain", byte
        elif stand == "plain":
            if byte == b'"':
                raise Bad(3)
            field += byte
        elif byte == b'"':
            stand, field = "quoted", field + byte
        else:
            raise Bad(3)
    if stand == "quoted":
        raise Bad(3)
    return [*fields, field]


def number(field: bytes) -> int:
    if not NUMBER.fullmatch(field) or abs(int(field)) > LIMIT:
        raise Bad(5)
    return int(field)


def key(field: bytes) -> str:
    if not KEY.fullmatch(field):
        raise Bad(6)
    return field.decode()


def values(fields: list[bytes]) -> tuple[int, ...]:
    found = tuple(number(field) for field in fields)
    return found + (0,) * (4 - len(found))


def read_events(part: int, content: bytes, most: int) -> list[Event]:
    """The events of a source file; Bad with the number of the line put in where one has a fault."""

    def read(place: int, line: bytes) -> list[Event]:
        if line in (b"", b"#idle"):
            return []
        fields = fields_of(line)
        if not 3 <= len(fields) <= 6:
            raise Bad(4)
        return [Event(part, place, number(fields[0]), key(fields[1]), values(fields[2:]))]

    return read_lines(part, content, most, read)


def read_rows(part: int, content: bytes, most: int) -> list[Row]:
    """The rows of a side file, at most 16 a key."""
    counts: dict[str, int] = {}

    def read(_: int, line: bytes) -> list[Row]:
        if line == b"":
            return []
        fields = fields_of(line)
        if not 2 <= len(fields) <= 6:
            raise Bad(4)
        row = Row(key(fields[0]), key(fields[1]), values(fields[2:]))
        counts[row.key] = counts.get(row.key, 0) + 1
        if counts[row.key] > 16:
            raise Bad(8)
        return [row]

    return read_lines(part, content, most, read)


class BadLine(Exception):
    """The first bad line of a file."""


def read_lines(part: int, content: bytes, most: int, read: Callable[[int, bytes], list]) -> list:
    found = []
    for place, line in enumerate(lines_of(content), 1):
        try:
            if place > most:
                raise Bad(7)
            found += read(place, line)
        except Bad as bad:
            raise BadLine(f"jet: bad line: part {part} line {place}: fault {bad.fault}") from None
    return found


def hold(value: int) -> int:
    return max(-LIMIT, min(LIMIT, value))


class Expression:
    """The value of a text for one event, found while the text is read; what is not chosen is read too, since nothing can fail."""

    def __init__(self, text: str, event: Event) -> None:
        self.words = re.findall(r"[0-9]+|[A-Za-z][A-Za-z0-9]*|!=|<=|>=|[-+*/%(),=<>]", text)
        self.fields = {"ts": event.ts, "part": event.part, **{f"v{place}": event.v[place] for place in range(4)}}

    def value(self) -> int:
        return self.any_of()

    def at(self, *words: str) -> bool:
        return bool(self.words) and self.words[0] in words

    def any_of(self) -> int:
        found = self.all_of()
        while self.at("or"):
            self.words.pop(0)
            right = self.all_of()
            found = int(found != 0 or right != 0)
        return found

    def all_of(self) -> int:
        found = self.opposite()
        while self.at("and"):
            self.words.pop(0)
            right = self.opposite()
            found = int(found != 0 and right != 0)
        return found

    def opposite(self) -> int:
        if self.at("not"):
            self.words.pop(0)
            return int(self.opposite() == 0)
        return self.comparison()

    def comparison(self) -> int:
        left = self.sum_of()
        if not self.at("=", "!=", "<", "<=", ">", ">="):
            return left
        word = self.words.pop(0)
        right = self.sum_of()
        return int(
            {"=": left == right, "!=": left != right, "<": left < right, "<=": left <= right, ">": left > right, ">=": left >= right}[word]
        )

    def sum_of(self) -> int:
        found = self.product_of()
        while self.at("+", "-"):
            sign = 1 if self.words.pop(0) == "+" else -1
            found = hold(found + sign * self.product_of())
        return found

    def product_of(self) -> int:
        found = self.signed()
        while self.at("*", "/", "%"):
            word = self.words.pop(0)
            right = self.signed()
            if word == "*":
                found = hold(found * right)
            elif right == 0:
                found = 0
            else:
                floor = math.floor(Fraction(found, right))
                found = hold(floor) if word == "/" else hold(found - right * floor)
        return found

    def signed(self) -> int:
        if self.at("-"):
            self.words.pop(0)
            return hold(-self.signed())
        return self.atom()

    def atom(self) -> int:
        word = self.words.pop(0)
        if word == "(":
            found = self.any_of()
            self.words.pop(0)
            return found
        if word in ("min", "max", "abs", "if"):
            operands = []
            while self.words.pop(0) != ")":
                operands.append(self.any_of())
            if word == "if":
                return operands[1] if operands[0] != 0 else operands[2]
            return hold(abs(operands[0])) if word == "abs" else (min if word == "min" else max)(operands)
        return int(word) if word.isdigit() else self.fields[word]


def floor_to(time: int, step: int) -> int:
    """The greatest multiple of the step that is at most the time."""
    return time - time % step


def behind_of(events: list[Event], lag: int, grain: int) -> set[tuple[int, int]]:
    """File and line of the events below the watermark of those before them in their file."""
    found, greatest = set(), None
    for event in events:
        if greatest is not None and event.ts < floor_to(greatest - lag, grain):
            found.add((event.part, event.line))
        greatest = event.ts if greatest is None else max(greatest, event.ts)
    return found


class Definition:
    """A job over the contents of its files."""

    def __init__(self, job: dict[str, Any], contents: Callable[[str], bytes]) -> None:
        self.vertices = job["vertices"]
        self.edges = job["edges"]
        most = job.get("settings", {}).get("lines", 4294967294)
        accumulates = [vertex for vertex in self.vertices if vertex["kind"] == "accumulate"]
        grain = math.gcd(*[vertex["slide"] for vertex in accumulates])
        self.events: dict[str, list[Event]] = {}
        self.rows: dict[str, list[Row]] = {}
        self.behind: set[tuple[int, int]] = set()
        part = 0
        for vertex in self.vertices:
            if vertex["kind"] == "source":
                self.events[vertex["name"]] = []
                for name in vertex["files"]:
                    events = read_events(part, contents(name), most)
                    self.behind |= behind_of(events, vertex["lag"], grain)
                    self.events[vertex["name"]] += events
                    part += 1
        for vertex in self.vertices:
            if vertex["kind"] == "side":
                self.rows[vertex["name"]] = read_rows(part, contents(vertex["file"]), most)
                part += 1

    def vertex(self, name: str) -> dict[str, Any]:
        return next(vertex for vertex in self.vertices if vertex["name"] == name)

    def entering(self, name: str) -> list[Event]:
        """The sum of the flows over the stream edges into a vertex."""
        starts = [edge["from"] for edge in self.edges if edge["to"] == name and not edge.get("build", False)]
        return [event for start in starts for event in self.flow(start)]

    def flow(self, name: str) -> list[Event]:
        """The bag of events that leaves a vertex."""
        vertex = self.vertex(name)
        if vertex["kind"] == "source":
            return self.events[name]
        return [made for event in self.entering(name) for made in self.made(vertex, event)]

    def made(self, vertex: dict[str, Any], event: Event) -> list[Event]:
        """What a vertex makes of an event."""
        if vertex["kind"] == "map":
            new = [
                Expression(vertex["set"][f"v{place}"], event).value() if f"v{place}" in vertex["set"] else event.v[place]
                for place in range(4)
            ]
            return [replace(event, v=tuple(new))]
        if vertex["kind"] == "filter":
            return [event] if Expression(vertex["test"], event).value() != 0 else []
        if vertex["kind"] == "flat":
            return [
                replace(event, key=event.key + leg.get("tag", ""), v=(Expression(leg["value"], event).value(), *event.v[1:]))
                for leg in vertex["legs"]
                if Expression(leg.get("test", "1"), event).value() != 0
            ]
        return self.met(vertex, event)

    def met(self, vertex: dict[str, Any], event: Event) -> list[Event]:
        """What a join makes of an event."""
        build = next(edge["from"] for edge in self.edges if edge["to"] == vertex["name"] and edge.get("build", False))
        rows = [row for row in self.rows[build] if row.key == event.key]
        if not rows:
            return [event] if vertex["mode"] == "left" else []
        found = []
        for row in rows:
            names = {**{f"v{place}": event.v[place] for place in range(4)}, **{f"s{place}": row.v[place] for place in range(4)}}
            new = tuple(names[field] for field in vertex.get("fields", ["v0", "v1", "v2", "v3"]))
            found.append(replace(event, key=row.label if vertex.get("rekey", False) else event.key, v=new))
        return found

    def answer(self, told: Optional[list[str]] = None) -> Answer:
        """Rows and late lines of all windows; where late lines are told, the events of these are late."""
        rows, late = [], []
        left = Counter(told or [])
        for place, vertex in enumerate(self.vertices):
            if vertex["kind"] != "combine":
                continue
            entry = self.vertex(next(edge["from"] for edge in self.edges if edge["to"] == vertex["name"]))
            held: dict[tuple[int, str], list[int]] = {}
            for event in self.entering(entry["name"]):
                written = ",".join(str(value) for value in event.v)
                line = f"late,{vertex['name']},{event.part},{event.line},{event.ts},{event.key},{written}\n"
                if left[line] > 0 if told is not None else (event.part, event.line) in self.behind:
                    left[line] -= 1
                    late.append(line)
                    continue
                end = floor_to(event.ts, entry["slide"]) + entry["slide"]
                while end <= event.ts + entry["size"]:
                    held.setdefault((end, event.key), []).append(event.v[0])
                    end += entry["slide"]
            for (end, name), found in held.items():
                total = f"{len(found)},{sum(found)},{min(found)},{max(found)}"
                rows.append((end, place, name.encode(), f"{vertex['name']},{end - entry['size']},{end},{name},{total}\n"))
        return Answer(None, "".join(row[3] for row in sorted(rows)), late)


def run(job: dict[str, Any], contents: Callable[[str], bytes], told: Optional[list[str]] = None) -> Answer:
    """What a run of the job writes; or what one writes that tells these late lines."""
    try:
        return Definition(job, contents).answer(told)
    except BadLine as bad:
        return Answer(str(bad), "", [])
