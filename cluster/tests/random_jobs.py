"""Random jobs and files, the same for the same seed."""

from __future__ import annotations

import random
from dataclasses import dataclass
from typing import Any

KEYS = ["a", "b", "ab", "sensor-1", "sensor-2", "z/9", "k.1:x", "A", "a-very-long-key-of-24-byt"[:24]]
LABELS = ["lab", "office", "a", "b"]
SLIDES = [1, 2, 3, 5, 10]
BAD_LINES = [b"x,a,1", b"5,,1", b"5,a", b"5,a,1,2,3,4,5", b'5,"a,1', b"5,a\tb,1", b"5,a,1000000000000001", b"5,a b,1", b"#idle ", b"5" * 513]


@dataclass(frozen=True)
class Case:
    """A job and the contents of its files."""

    job: dict[str, Any]
    files: dict[str, bytes]


def expression(rng: random.Random, depth: int = 3) -> str:
    """An expression with at most so many levels."""
    kind = rng.randrange(9) if depth > 0 else rng.randrange(2)
    inner = [expression(rng, depth - 1) for _ in range(3)] if kind > 1 else []
    if kind == 0:
        return rng.choice(["ts", "part", "v0", "v1", "v2", "v3"])
    if kind == 1:
        return str(rng.choice([0, 1, 2, 3, 7, 10, 100, 999, 10**15, 999999999999999, 1 << 31]))
    if kind == 2:
        return f"({inner[0]} {rng.choice(['+', '-', '*', '/', '%'])} {inner[1]})"
    if kind == 3:
        return f"({inner[0]} {rng.choice(['=', '!=', '<', '<=', '>', '>='])} {inner[1]})"
    if kind == 4:
        return f"({inner[0]} {rng.choice(['and', 'or'])} {inner[1]})"
    if kind == 5:
        return f"({rng.choice(['not ', '-', '- -'])}{inner[0]})"
    if kind == 6:
        return f"{rng.choice(['min', 'max'])}({inner[0]},{inner[1]})"
    if kind == 7:
        return f"abs({inner[0]})"
    return f"if({inner[0]}, {inner[1]}, {inner[2]})"


def flat_expression(rng: random.Random) -> str:
    """An expression without parentheses, so that levels and grouping count."""
    words = [rng.choice(["v0", "v1", "3", "7", "-v2", "ts"])]
    for operator in rng.sample(["+", "-", "*", "/", "%"], rng.randrange(4)):
        words += [operator, rng.choice(["v0", "v1", "2", "5", "-v3"])]
    if rng.random() < 0.3:
        words += [rng.choice(["<", ">=", "!="]), "v1", rng.choice(["and", "or"]), "not", "v0"]
    return " ".join(words)


def some_expression(rng: random.Random) -> str:
    return flat_expression(rng) if rng.random() < 0.4 else expression(rng)


def value(rng: random.Random) -> int:
    """A value, now and then a very large one."""
    return rng.choice([rng.randrange(-20, 100), rng.randrange(-20, 100), 0, 10**15, -(10**15), rng.randrange(-(10**15), 10**15)])


def field(rng: random.Random, text: str) -> str:
    return f'"{text}"' if rng.random() < 0.15 else text


def telemetry(rng: random.Random, count: int, bad: bool) -> bytes:
    """A source file of so many lines, somewhat out of order; `bad` puts a bad line into it."""
    found, time = [], rng.choice([0, -50, 1000, -(10**15) + 100, 10**15 - 1000])
    for _ in range(count):
        time += rng.choice([0, 1, 1, 2, 7, 30])
        stamp = min(10**15, max(-(10**15), time - rng.choice([0, 0, 0, 1, 5, 12, 40])))
        fields = [str(stamp), rng.choice(KEYS), *(str(value(rng)) for _ in range(rng.randrange(1, 5)))]
        found.append(",".join(field(rng, text) for text in fields).encode())
        if rng.random() < 0.1:
            found.append(rng.choice([b"", b"#idle"]))
    if bad:
        found.insert(rng.randrange(len(found) + 1), rng.choice(BAD_LINES))
    text = b"".join(line + rng.choice([b"\n", b"\n", b"\r\n"]) for line in found)
    return text[:-1] if text and rng.random() < 0.2 else text


def side(rng: random.Random, bad: bool) -> bytes:
    """A side file; `bad` gives a key more rows than it may have, or a bad line."""
    found = []
    for key in rng.sample(KEYS, rng.randrange(len(KEYS))):
        for _ in range(rng.choice([1, 1, 2, 3])):
            fields = [key, rng.choice(LABELS), *(str(value(rng)) for _ in range(rng.randrange(5)))]
            found.append(",".join(field(rng, text) for text in fields).encode())
    rng.shuffle(found)
    if bad:
        found += rng.choice([[b"a,b"] * 17, [b"#idle"], [b"a,,1"]])
    return b"".join(line + b"\n" for line in found)


def stage(rng: random.Random, name: str, sides: list[str]) -> dict[str, Any]:
    """A vertex between sources and windows."""
    kind = rng.choice(["map", "filter", "flat", "join"] if sides else ["map", "filter", "flat"])
    if kind == "map":
        return {"name": name, "kind": kind, "set": {f"v{place}": some_expression(rng) for place in range(4) if rng.random() < 0.4}}
    if kind == "filter":
        return {"name": name, "kind": kind, "test": rng.choice([some_expression(rng), "v0 > 10", "v0 != 0", "1"])}
    if kind == "flat":
        legs: list[dict[str, str]] = [{"value": some_expression(rng)} for _ in range(rng.randrange(1, 4))]
        for leg in legs:
            if rng.random() < 0.5:
                leg["test"] = some_expression(rng)
            if rng.random() < 0.5:
                leg["tag"] = rng.choice([":u", ":s", "x"])
        return {"name": name, "kind": kind, "legs": legs}
    fields = [rng.choice(["v0", "v1", "v2", "v3", "s0", "s1", "s2", "s3"]) for _ in range(4)]
    join: dict[str, Any] = {"name": name, "kind": kind, "mode": rng.choice(["inner", "left"])}
    if rng.random() < 0.7:
        join["fields"] = fields
    if rng.random() < 0.5:
        join["rekey"] = True
    return join


def edge(start: str, end: str, route: str = "unicast", **more: bool) -> dict[str, Any]:
    return {"from": start, "to": end, "route": route, **more}


def case(seed: int) -> Case:
    """A job with its files."""
    rng = random.Random(seed)
    files: dict[str, bytes] = {}
    vertices: list[dict[str, Any]] = []
    edges: list[dict[str, Any]] = []
    bad = rng.random() < 0.15
    for number in range(rng.choice([1, 1, 2])):
        names = [f"source{number}-{place}.csv" for place in range(rng.choice([1, 1, 2, 3]))]
        for name in names:
            files[name] = telemetry(rng, rng.choice([0, 1, 5, 12, 20]), bad and rng.random() < 0.5)
        vertices.append({"name": f"s{number}", "kind": "source", "files": names, "lag": rng.choice([0, 3, 10, 1000])})
    streams = [vertex["name"] for vertex in vertices]
    sides = [f"t{number}" for number in range(rng.choice([0, 1, 2]))]
    for number in range(rng.randrange(5)):
        new = stage(rng, f"m{number}", sides)
        if new["kind"] == "join":
            edges.append(edge(rng.choice(sides), new["name"], "broadcast", build=True))
        edges += [edge(start, new["name"]) for start in rng.sample(streams, rng.choice([1, 1, min(2, len(streams))]))]
        vertices.append(new)
        streams.append(new["name"])
    used = {each["from"] for each in edges}
    for number in range(rng.choice([1, 1, 2, 3])):
        slide = rng.choice(SLIDES)
        accumulate = {"name": f"a{number}", "kind": "accumulate", "size": slide * rng.choice([1, 2, 3, 8]), "slide": slide}
        vertices += [accumulate, {"name": f"w{number}", "kind": "combine"}]
        edges += [edge(f"a{number}", f"w{number}", "partitioned"), edge(f"w{number}", "z")]
        open_ends = [name for name in streams if name not in used] if number == 0 else []
        starts = open_ends or rng.sample(streams, rng.choice([1, 1, min(2, len(streams))]))
        edges += [edge(start, f"a{number}") for start in starts]
    for name in sides:
        if name in used:
            files[f"{name}.csv"] = side(rng, bad and rng.random() < 0.3)
            vertices.append({"name": name, "kind": "side", "file": f"{name}.csv"})
    vertices.append({"name": "z", "kind": "sink"})
    rng.shuffle(vertices)
    rng.shuffle(edges)
    settings: dict[str, Any] = {"ahead": rng.choice([0, 5, 10_000, 10**15])}
    if rng.random() < 0.08:
        settings["lines"] = rng.choice([4, 15])
    return Case({"vertices": vertices, "edges": edges, "settings": settings}, files)
