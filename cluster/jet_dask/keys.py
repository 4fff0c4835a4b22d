"""Keys as numbers into tables.

A table is an array of byte strings; a column of events holds each key's place in it. The hash and the 271 partitions are those of
docs/DEFINITIONS.md, "Keys".
"""

from __future__ import annotations

import numpy as np
from numpy.typing import NDArray

Table = NDArray[np.bytes_]
Codes = NDArray[np.int64]

PARTITIONS = 271
LONGEST = 40
NO_KEYS: Table = np.empty(0, dtype=f"S{LONGEST}")


def table_of(names: list[bytes]) -> Table:
    """A table of these keys."""
    return np.array(names, dtype=f"S{LONGEST}")


def letters(table: Table) -> NDArray[np.uint8]:
    """The bytes of the keys, one row a key, with zeros behind shorter ones."""
    wide = np.ascontiguousarray(table, dtype=f"S{LONGEST}")
    return wide.view(np.uint8).reshape(len(wide), LONGEST)


def partitions(table: Table) -> Codes:
    """The partition of each key: the hash, 31 times itself and the byte modulo 2^32, modulo 271."""
    rows = letters(table)
    hashes = np.zeros(len(table), dtype=np.uint32)
    for place in range(LONGEST):
        byte = rows[:, place].astype(np.uint32)
        hashes = np.where(byte == 0, hashes, hashes * np.uint32(31) + byte)
    return (hashes % np.uint32(PARTITIONS)).astype(np.int64)


def tagged(table: Table, tag: bytes) -> Table:
    """Each key with the tag behind it, cut at 40 bytes."""
    return np.char.add(table, tag).astype(f"S{LONGEST}") if tag else table


def sorted_table(table: Table, codes: Codes) -> tuple[Table, Codes]:
    """The keys that are in use, in the order of their bytes and each once, and the codes into that table."""
    used, places = np.unique(codes, return_inverse=True)
    names, numbers = np.unique(table[used], return_inverse=True)
    return names, numbers[places].astype(np.int64)


def joined_tables(tables: list[Table], codes: list[Codes]) -> tuple[Table, Codes]:
    """One table behind another, and one column of codes into it."""
    firsts = np.cumsum([0] + [len(table) for table in tables])
    moved = [column + first for column, first in zip(codes, firsts)]
    return np.concatenate([NO_KEYS, *tables]), np.concatenate([np.empty(0, dtype=np.int64), *moved])
