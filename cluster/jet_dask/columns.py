"""The lines of a block as columns.

A line whose fields have no quotation marks, or one before and one behind, is read here, all of a block together, eight bytes at a
time. Every good line is of this form, since neither a number nor a key has a comma or a mark; so the first line that holds something and
is not read here is the first bad one, and `lines` tells its fault.
"""

from __future__ import annotations

from dataclasses import dataclass, replace
from typing import Optional

import numpy as np
import pandas as pd
from numpy.typing import NDArray

from jet_dask import lines
from jet_dask.keys import LONGEST, NO_KEYS, Codes, Table

Ints = NDArray[np.int64]
Words = NDArray[np.uint64]
Bools = NDArray[np.bool_]
Bytes = NDArray[np.uint8]

LF, CR, MARK, COMMA, MINUS = 10, 13, 34, 44, 45
FIRST_BYTE, LAST_BYTE = 32, 126
FEWEST_COMMAS, MOST_COMMAS = 2, 5

WORD = 8
# bytes before and behind a text, so that words may begin before it and end behind it
MARGIN = 3 * WORD
# for each number of bytes up to 8 a word of which the first, or the last, so many bytes are ones; a text's first byte is the lowest
FIRST_BYTES = np.array([(1 << 8 * count) - 1 for count in range(WORD + 1)], dtype=np.uint64)
LAST_BYTES = ~FIRST_BYTES[::-1]
ZEROS = np.uint64(0x3030303030303030)
HIGH_HALVES = np.uint64(0xF0F0F0F0F0F0F0F0)
SIXES = np.uint64(0x0606060606060606)
EIGHT_DIGITS = 10**WORD


@dataclass(frozen=True)
class LineFault:
    """A bad line: its number, counted from 1 in the block or the file that was read, and its fault."""

    line: int
    number: int


@dataclass(frozen=True)
class Parsed:
    """A block: how many lines begin in it, its events by line, counted from 1, and its first bad line. With a bad line the events are of
    no use."""

    lines: int
    line: Ints
    ts: Ints
    code: Codes
    table: Table
    values: tuple[Ints, ...]
    fault: Optional[LineFault]


@dataclass(frozen=True)
class Spans:
    """The lines of a block: where each begins and ends, less its LF and one CR. `breaks` are the places of all commas and LFs; the commas
    of line i are those from `first[i]` on, `commas[i]` of them, and its LF is the next."""

    text: Bytes
    begin: Ints
    end: Ints
    breaks: Ints
    first: Ints
    commas: Ints

    def chosen(self, places: NDArray) -> Spans:
        """Only these lines."""
        parts = {name: getattr(self, name)[places] for name in ("begin", "end", "first", "commas")}
        return replace(self, **parts)

    def stop(self, field: int) -> Ints:
        """Where the field of this number ends, from 0 on; each line has it."""
        last = self.commas == field
        return np.where(last, self.end, self.breaks[np.where(last, 0, self.first + field)])


@dataclass(frozen=True)
class Plain:
    """The lines of the form that is read here: all lines of a block, the places of these, and which lines hold something."""

    spans: Spans
    places: Ints
    filled: Bools
    data: bytes
    whole: Spans


def parse(data: bytes) -> Parsed:
    """The events of whole lines."""
    plain = plain_lines(data)
    spans = plain.spans
    words = words_of(spans.text)
    stops = [spans.stop(0), spans.stop(1)]
    ts, good = numbers(words, spans.begin, stops[0])
    code, table, fine = keys(words, stops[0] + 1, stops[1])
    good &= fine
    values, begin = [], stops[1] + 1
    for field in range(FEWEST_COMMAS, MOST_COMMAS + 1):
        there = slice(None) if field == FEWEST_COMMAS else np.flatnonzero(spans.commas >= field)
        column = np.zeros(len(ts), dtype=np.int64)
        stop = spans.chosen(there).stop(field)
        column[there], fine = numbers(words, begin[there], stop)
        good[there] &= fine
        begin[there] = stop + 1
        values.append(column)
    fault = first_fault(plain, good)
    return Parsed(len(plain.filled), plain.places + 1, ts, code, table, tuple(values), fault)


def parse_times(data: bytes) -> tuple[int, Ints]:
    """How many lines there are, and the times of their events, where none is bad."""
    plain = plain_lines(data)
    ts, good = numbers(words_of(plain.spans.text), plain.spans.begin, plain.spans.stop(0))
    return len(plain.filled), ts[good]


def first_fault(plain: Plain, good: Bools) -> Optional[LineFault]:
    """The first line that holds something and was not read well, with its fault."""
    left = plain.filled.copy()
    left[plain.places[good]] = False
    if not left.any():
        return None
    place = int(np.argmax(left))
    read = lines.read_event(plain.data[plain.whole.begin[place] : plain.whole.end[place]])
    assert isinstance(read, lines.Fault), "a good line was not read in columns"
    return LineFault(place + 1, read.number)


def plain_lines(data: bytes) -> Plain:
    """The lines that have three to six fields, plain or quoted without a comma or mark inside, are not too long and have no bad byte.
    A last line without LF is a line, and nothing behind the last LF is one."""
    if data and not data.endswith(b"\n"):
        data += b"\n"
    whole = cut(np.frombuffer(data, dtype=np.uint8))
    length = whole.end - whole.begin
    filled = (length > 0) & ~is_idle(whole)
    spans, plain = unquoted(whole)
    plain &= filled & (length <= lines.LONGEST_LINE) & ~has_bad_byte(whole)
    plain &= (spans.commas >= FEWEST_COMMAS) & (spans.commas <= MOST_COMMAS)
    places = np.flatnonzero(plain)
    return Plain(spans.chosen(slice(None) if len(places) == len(plain) else places), places, filled, data, whole)


def cut(text: Bytes) -> Spans:
    """The lines of a text in which each ends with LF, each less one CR at its end."""
    breaks = np.flatnonzero((text == COMMA) | (text == LF))
    feeds = np.flatnonzero(text[breaks] == LF)
    end = breaks[feeds]
    begin = np.append(0, end[:-1] + 1)[: len(end)]
    first = np.append(0, feeds[:-1] + 1)[: len(feeds)]
    returned = (end > begin) & (text[end - 1] == CR)
    return Spans(text, begin, end - returned, breaks, first, feeds - first)


def is_idle(spans: Spans) -> Bools:
    """Whether a line is the five bytes `#idle`."""
    idle = spans.end - spans.begin == len(lines.IDLE)
    for place, byte in enumerate(lines.IDLE):
        if not idle.any():
            break
        idle &= spans.text[np.where(idle, spans.begin + place, 0)] == byte
    return idle


def has_bad_byte(spans: Spans) -> Bools:
    """Whether a line has a byte outside 32 to 126, between its beginning and its end."""
    # below 32 the difference wraps around
    bad = spans.text - np.uint8(FIRST_BYTE) > LAST_BYTE - FIRST_BYTE
    bad[spans.breaks[spans.first + spans.commas]] = False
    bad[spans.end] = False
    found = np.zeros(len(spans.begin), dtype=bool)
    if bad.any():
        found[np.searchsorted(spans.begin, np.flatnonzero(bad), side="right") - 1] = True
    return found


def unquoted(spans: Spans) -> tuple[Spans, Bools]:
    """The lines without the quotation marks that stand around whole fields, and which lines have no other marks.

    A mark opens where it has an even number of marks before it in its line; it must stand behind a comma or begin the line, and the
    next one must stand in the same field, before a comma or the line's end.
    """
    text = spans.text
    fine = np.ones(len(spans.begin), dtype=bool)
    marks = np.flatnonzero(text == MARK)
    if len(marks) == 0:
        return spans, fine
    line = np.searchsorted(spans.begin, marks, side="right") - 1
    before = np.searchsorted(line, np.arange(len(fine)))
    opens = (np.arange(len(marks)) - before[line]) % 2 == 0
    field = np.searchsorted(spans.breaks, marks)
    begins = (marks == spans.begin[line]) | (text[np.maximum(marks - 1, 0)] == COMMA)
    ends = (marks + 1 == spans.end[line]) | (text[np.minimum(marks + 1, len(text) - 1)] == COMMA)
    pairs = np.append(field[1:] == field[:-1], False)
    fine[line[np.where(opens, ~(begins & pairs), ~ends)]] = False
    left = np.ones(len(text), dtype=bool)
    left[marks[fine[line]]] = False
    return cut(text[left]), fine


def words_of(text: Bytes) -> Words:
    """The word of eight bytes that begins at each place of the text, and at `MARGIN` places before it and behind it."""
    edge = np.zeros(MARGIN, dtype=np.uint8)
    padded = np.concatenate([edge, text, edge, edge[:WORD]])
    return np.ndarray((len(text) + 2 * MARGIN,), dtype="<u8", buffer=padded, strides=(1,))


def numbers(words: Words, begin: Ints, end: Ints) -> tuple[Ints, Bools]:
    """The numbers of fields, and which fields hold one: a minus or none, 1 to 16 digits, and at most 10^15 on either side of 0."""
    negative = (words[begin + MARGIN] & np.uint64(0xFF)) == MINUS
    length = end - begin - (negative & (end > begin))
    good = (length >= 1) & (length <= lines.MOST_DIGITS)
    found, fine = _digits(words, end, np.clip(length, 0, WORD))
    good &= fine
    if len(length) and length.max() > WORD:
        more, fine = _digits(words, end - WORD, np.clip(length - WORD, 0, WORD))
        found += more * EIGHT_DIGITS
        good &= fine
    good &= found <= lines.MOST
    return np.where(negative, -found, found), good


def _digits(words: Words, end: Ints, length: Ints) -> tuple[Ints, Bools]:
    """The number that the last bytes before `end` are, at most eight, and whether all of them are digits.

    A word of eight digits is made of pairs, then fours, then eight, each by one multiplication for all.
    """
    mask = LAST_BYTES[length]
    word = (words[end + (MARGIN - WORD)] & mask) | (ZEROS & ~mask)
    fine = ((word & HIGH_HALVES) == ZEROS) & (((word + SIXES) & HIGH_HALVES) == ZEROS)
    word = word - ZEROS
    word = word * np.uint64(10) + (word >> np.uint64(8))
    pairs = np.uint64(0x000000FF000000FF)
    low = (word & pairs) * np.uint64(0x000F424000000064)
    high = ((word >> np.uint64(16)) & pairs) * np.uint64(0x0000271000000001)
    return ((low + high) >> np.uint64(32)).astype(np.int64), fine


def keys(words: Words, begin: Ints, end: Ints) -> tuple[Codes, Table, Bools]:
    """The keys of fields, as codes into a table that has each once, and which fields hold one."""
    length = end - begin
    inside = (length >= 1) & (length <= lines.LONGEST_KEY)
    length = np.where(inside, length, 0)
    if len(begin) == 0:
        return np.zeros(0, dtype=np.int64), NO_KEYS, inside
    count = max(1, -(-int(length.max()) // WORD))
    parts = [words[begin + (MARGIN + WORD * part)] & FIRST_BYTES[np.clip(length - WORD * part, 0, WORD)] for part in range(count)]
    codes = pd.factorize(parts[0])[0]
    for part in parts[1:]:
        more, names = pd.factorize(part)
        codes = pd.factorize(codes * np.int64(len(names)) + more)[0]
    firsts = np.zeros(int(codes.max()) + 1, dtype=np.int64)
    firsts[codes[::-1]] = np.arange(len(codes))[::-1]
    letters = np.stack([part[firsts] for part in parts], axis=1).astype("<u8")
    allowed = np.zeros(256, dtype=bool)
    allowed[[0, *lines.KEY_BYTES]] = True
    fine = allowed[letters.view(np.uint8)].all(axis=1)
    table = letters.view(f"S{WORD * count}").ravel().astype(f"S{LONGEST}")
    return codes.astype(np.int64), table, inside & fine[codes]
