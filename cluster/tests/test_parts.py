"""Single parts against their plain meaning: lines, expressions, sums and keys. Needs no cluster."""

from __future__ import annotations

import random
import unittest

import numpy as np

import definition
import random_jobs
from jet_dask import columns, expressions, frames, keys, lines, rows
from jet_dask.job import Window

EXPRESSIONS = {
    "7/-2": -4,
    "-7%3": 2,
    "5/0": 0,
    "5%0": 0,
    "1000000000000000*2": 10**15,
    "1000000000000000*-1000000000000000": -(10**15),
    "31622776*31622776": 31622776**2,
    "31622777*31622777": 10**15,
    "-31622777*31622777": -(10**15),
    "1 - 2 - 3": -4,
    "2 + 3 * 4": 14,
    "not 0 = 1": 1,
    "1 or 0 and 0": 1,
    "if(2 > 1, 5, 6) + min(3, max(1, 2)) + abs(-4)": 11,
    "- - 5": 5,
}
LINES = [
    b"7,a,1", b"-7,a,-1,2,3,4", b"007,a,0", b"", b"#idle", b'"7","a","1"', b"7,a,1000000000000000", b"7,a,0000000000000001",
    b"x,a,1", b"5,,x", b"1000000000000001,,x", b" 5,a,1", b"5,a b,x", b'5,"a""b",1', b'5,"a,b",1', b"5,a,", b"5,a,1,-,+", b"5,a", b"x,",
    b"5,a,1,2,3,4,5", b'5,"a,1', b'5,a"b,1', b'5,"a"b', b'""', b'"#idle"', b"#idle ", b"#IDLE", b"5,a\x7f,1", b"5,a\xc3,1", b"\r", b"5,\ra,1",
    b"x" * 512, b"x" * 513, b"5," + b"a" * 24 + b",1", b"5," + b"a" * 25 + b",1", b"00000000000000001,a,1", b"-,a,1", b"--5,a,1", b"5,a,1,",
    b'5,"","1"', b'"5,a",1', b'5,a,"1', b'5,"a"""', b',,', b'5,a,1,"2"', b'"-5",a,"-0"',
]  # fmt: skip


class Lines(unittest.TestCase):
    def wanted(self, line: bytes) -> object:
        try:
            return [(event.ts, event.key, event.v) for event in definition.read_events(0, line, 99)]
        except definition.BadLine as bad:
            return int(str(bad).rsplit(" ", 1)[1])

    def found(self, line: bytes) -> object:
        parsed = columns.parse(line)
        if parsed.fault:
            return parsed.fault.number
        names = parsed.table[parsed.code].tolist()
        values = list(zip(*(column.tolist() for column in parsed.values)))
        return list(zip(parsed.ts.tolist(), [name.decode() for name in names], values))

    def test_alone(self) -> None:
        """A line alone, with each of its ends, as a file of one line."""
        for line in LINES:
            for end in (b"", b"\n", b"\r\n", b"\r\r\n"):
                with self.subTest(line=line, end=end):
                    self.assertEqual(self.found(line + end), self.wanted(line + end))

    def test_together(self) -> None:
        """Good lines together, and then with each bad one in the midst of them."""
        good = [line for line in LINES if isinstance(self.wanted(line), list)]
        text = b"\n".join(good) + b"\n"
        self.assertEqual(self.found(text), self.wanted(text))
        for bad in [line for line in LINES if isinstance(self.wanted(line), int)]:
            with self.subTest(line=bad):
                parsed = columns.parse(text + bad + b"\n" + text)
                self.assertEqual(parsed.fault, columns.LineFault(len(good) + 1, int(str(self.wanted(bad)))))

    def test_scalar(self) -> None:
        """The reader of single lines, which tells the faults, gives what the definition does."""
        for line in LINES:
            if b"\r" not in line:
                with self.subTest(line=line):
                    read, wanted = lines.read_event(line), self.wanted(line + b"\n")
                    if isinstance(read, lines.Fault):
                        self.assertEqual(read.number, wanted)
                    else:
                        self.assertEqual([] if read is None else [(read.ts, read.key.decode(), read.values)], wanted)


class Expressions(unittest.TestCase):
    def test_worked(self) -> None:
        for text, wanted in EXPRESSIONS.items():
            with self.subTest(text=text):
                self.assertEqual(expressions.value(expressions.compile_text(text), {}, 2).tolist(), [wanted] * 2)

    def test_random(self) -> None:
        """Random expressions over columns with very large values, against one event at a time."""
        rng = random.Random(1)
        events = [definition.Event(3, 1, random_jobs.value(rng), "a", tuple(random_jobs.value(rng) for _ in range(4))) for _ in range(40)]
        fields = {f"v{place}": np.array([event.v[place] for event in events]) for place in range(4)}
        fields |= {"ts": np.array([event.ts for event in events]), "part": np.full(len(events), 3)}
        for _ in range(400):
            text = random_jobs.some_expression(rng)
            with self.subTest(text=text):
                wanted = [definition.Expression(text, event).value() for event in events]
                self.assertEqual(expressions.value(expressions.compile_text(text), fields, len(events)).tolist(), wanted)

    def test_long(self) -> None:
        """The longest text, and the deepest."""
        self.assertEqual(expressions.value(expressions.compile_text("1+" * 511 + "1"), {}, 1).tolist(), [512])
        self.assertEqual(expressions.value(expressions.compile_text("(" * 32 + "1" + ")" * 32), {}, 1).tolist(), [1])


class Sums(unittest.TestCase):
    def test_beyond_64_bits(self) -> None:
        """Sums of frames that are joined again and again, on both sides of 0, beyond what 64 and 96 bits hold."""
        for value in (10**15, -(10**15), 10**15 - 1, -1, 1):
            with self.subTest(value=value):
                one = {"window": 1, "end": 5, "code": 0, "count": 1, "low": value & frames.LIMB_MASK, "middle": value >> frames.LIMB}
                one |= {"high": 0, "least": value, "greatest": value}
                each = frames.Frames({name: np.array([cell]) for name, cell in one.items()}, keys.table_of([b"a"]))
                for _ in range(30):
                    each = frames.merged([each] * 4)
                cells = each.cells
                self.assertEqual(cells["count"].tolist(), [4**30])
                self.assertEqual(frames.exact_sums(cells["low"], cells["middle"], cells["high"]), [value * 4**30])
                text = rows.rows_text(rows.runs(each, [Window(1, "w", 0, 5, 5)]), rows.BELOW_ALL, rows.ABOVE_ALL)
                self.assertEqual(text.decode(), f"w,0,5,a,{4**30},{value * 4**30},{value},{value}\n")

    def test_partitions(self) -> None:
        """The partitions of keys, by the hash of their bytes one at a time; those of three keys are given in the formats."""
        names = [b"a", b"b", b"ab", b"sensor-1", b"z" * 40]
        hashes = []
        for name in names:
            found = 0
            for byte in name:
                found = (found * 31 + byte) % (1 << 32)
            hashes.append(found % 271)
        self.assertEqual(keys.partitions(keys.table_of(names)).tolist(), hashes)
        self.assertEqual(hashes[:3], [97, 98, 124])


if __name__ == "__main__":
    unittest.main()
