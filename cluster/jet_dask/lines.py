"""One line, read byte by byte, and its first fault.

The rules are those of docs/FORMATS.md, "The telemetry line", "The side line" and "The faults of a line". Whole blocks are read by
`columns`, which hands each line here that is not plainly good; so the faults are told here alone.
"""

from __future__ import annotations

from dataclasses import dataclass
from typing import Optional, Union

TOO_LONG, BAD_BYTE, QUOTE, FIELDS, NUMBER, KEY, TOO_MANY, KEY_FULL = 1, 2, 3, 4, 5, 6, 7, 8
LONGEST_LINE = 512
LONGEST_KEY = 24
MOST_DIGITS = 16
MOST = 10**15
KEY_BYTES = frozenset(b"ABCDEFGHIJKLMNOPQRSTUVWXYZabcdefghijklmnopqrstuvwxyz0123456789_-.:/")
IDLE = b"#idle"


@dataclass(frozen=True)
class Fault:
    """What is wrong with a line: the number of the fault."""

    number: int


@dataclass(frozen=True)
class EventLine:
    """What a line of a source file holds."""

    ts: int
    key: bytes
    values: tuple[int, ...]


@dataclass(frozen=True)
class SideLine:
    """What a line of a side file holds."""

    key: bytes
    label: bytes
    values: tuple[int, ...]


def read_event(line: bytes) -> Union[None, EventLine, Fault]:
    """What a line of a source file holds: nothing where it is empty or idle, else an event, or the first fault."""
    if line in (b"", IDLE):
        return None
    fields = _fields(line)
    if isinstance(fields, Fault):
        return fields
    if not 3 <= len(fields) <= 6:
        return Fault(FIELDS)
    ts = read_number(fields[0])
    if ts is None:
        return Fault(NUMBER)
    if not is_key(fields[1]):
        return Fault(KEY)
    values = _values(fields[2:])
    return Fault(NUMBER) if values is None else EventLine(ts, fields[1], values)


def read_side(line: bytes) -> Union[None, SideLine, Fault]:
    """What a line of a side file holds: nothing where it is empty, else a row, or the first fault."""
    if line == b"":
        return None
    fields = _fields(line)
    if isinstance(fields, Fault):
        return fields
    if not 2 <= len(fields) <= 6:
        return Fault(FIELDS)
    if not is_key(fields[0]) or not is_key(fields[1]):
        return Fault(KEY)
    values = _values(fields[2:])
    return Fault(NUMBER) if values is None else SideLine(fields[0], fields[1], values)


def read_number(field: bytes) -> Optional[int]:
    """The number of a field: an optional minus and 1 to 16 digits, at most 10^15 on either side of 0."""
    digits = field[1:] if field[:1] == b"-" else field
    if not 1 <= len(digits) <= MOST_DIGITS or not digits.isdigit():
        return None
    number = int(field)
    return number if abs(number) <= MOST else None


def is_key(field: bytes) -> bool:
    """Whether a field is a key of at most 24 bytes."""
    return 1 <= len(field) <= LONGEST_KEY and KEY_BYTES.issuperset(field)


def _values(fields: list[bytes]) -> Optional[tuple[int, ...]]:
    """The four values of the last fields, 0 where there are fewer; None where one is no number."""
    found = [read_number(field) for field in fields]
    if None in found:
        return None
    return tuple(number for number in found if number is not None) + (0,) * (4 - len(found))


def _fields(line: bytes) -> Union[list[bytes], Fault]:
    """The fields of a line, plain or quoted, or the fault of its bytes."""
    if len(line) > LONGEST_LINE:
        return Fault(TOO_LONG)
    if any(not 32 <= byte <= 126 for byte in line):
        return Fault(BAD_BYTE)
    fields, at = [], 0
    while True:
        if line[at : at + 1] == b'"':
            end = _closing(line, at + 1)
            if end is None:
                return Fault(QUOTE)
            fields.append(line[at + 1 : end].replace(b'""', b'"'))
            end += 1
        else:
            comma = line.find(b",", at)
            end = len(line) if comma < 0 else comma
            fields.append(line[at:end])
            if b'"' in fields[-1]:
                return Fault(QUOTE)
        if end == len(line):
            return fields
        if line[end : end + 1] != b",":
            return Fault(QUOTE)
        at = end + 1


def _closing(line: bytes, at: int) -> Optional[int]:
    """The place of the mark that closes a quoted field whose text begins at `at`; a doubled mark does not."""
    while True:
        mark = line.find(b'"', at)
        if mark < 0:
            return None
        if line[mark + 1 : mark + 2] != b'"':
            return mark
        at = mark + 2
