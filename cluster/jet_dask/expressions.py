"""Expressions on whole columns.

The grammar and the meaning are those of docs/FORMATS.md, "Expressions". A text becomes a list of steps for a stack, so that it
is short to send and its depth needs none of Python's. All columns are 64-bit integers, and every answer is exact: a product that
would not fit is seen beforehand.
"""

from __future__ import annotations

import re
from dataclasses import dataclass
from typing import Callable, Mapping, Union

import numpy as np
from numpy.typing import NDArray

Column = NDArray[np.int64]
Step = Union[int, str]
Program = tuple[Step, ...]

MOST = 10**15
TOKEN = re.compile(r" *([0-9]+|[A-Za-z][A-Za-z0-9]*|!=|<=|>=|[-+*/%(),=<>])")
FIELDS = ("ts", "part", "v0", "v1", "v2", "v3")
CALLS = {"min": 2, "max": 2, "abs": 1, "if": 3}
COMPARISONS = ("=", "!=", "<", "<=", ">", ">=")


def compile_text(text: str) -> Program:
    """The steps of an expression that `jet plan` has accepted."""
    reader = _Reader(TOKEN.findall(text))
    reader.either()
    return tuple(reader.steps)


@dataclass
class _Reader:
    """Reads tokens from the left; each method reads one rule of the grammar and adds its steps."""

    tokens: list[str]

    def __post_init__(self) -> None:
        self.place = 0
        self.steps: list[Step] = []

    def next_is(self, *words: str) -> bool:
        return self.place < len(self.tokens) and self.tokens[self.place] in words

    def take(self) -> str:
        self.place += 1
        return self.tokens[self.place - 1]

    def grouped(self, operand: Callable[[], None], *words: str) -> None:
        """Operands between operators that group from the left."""
        operand()
        while self.next_is(*words):
            word = self.take()
            operand()
            self.steps.append(word)

    def either(self) -> None:
        self.grouped(self.both, "or")

    def both(self) -> None:
        self.grouped(self.negated, "and")

    def negated(self) -> None:
        if self.next_is("not"):
            self.take()
            self.negated()
            self.steps.append("not")
        else:
            self.compared()

    def compared(self) -> None:
        self.total()
        if self.next_is(*COMPARISONS):
            word = self.take()
            self.total()
            self.steps.append(word)

    def total(self) -> None:
        self.grouped(self.product, "+", "-")

    def product(self) -> None:
        self.grouped(self.signed, "*", "/", "%")

    def signed(self) -> None:
        if self.next_is("-"):
            self.take()
            self.signed()
            self.steps.append("negative")
        else:
            self.atom()

    def atom(self) -> None:
        word = self.take()
        if word.isdigit():
            self.steps.append(int(word))
        elif word == "(":
            self.either()
            self.take()
        elif word in CALLS:
            for _ in range(CALLS[word]):
                self.take()
                self.either()
            self.take()
            self.steps.append(word)
        else:
            self.steps.append(word)


def held(values: Column) -> Column:
    """Values held from -10^15 to 10^15."""
    return np.clip(values, -MOST, MOST)


def product(left: Column, right: Column) -> Column:
    """Products held in range. Where the product of floats is above 4 * 10^15 the exact one is above 10^15; all others fit."""
    large = np.abs(left.astype(np.float64) * right.astype(np.float64)) > 4.0 * MOST
    exact = np.where(large, 0, left) * right
    return np.where(large, np.where((left < 0) == (right < 0), MOST, -MOST), held(exact))


def quotient(left: Column, right: Column) -> Column:
    """The floor of the quotient, and 0 where the divisor is 0."""
    none = right == 0
    return np.where(none, 0, held(left // np.where(none, 1, right)))


def remainder(left: Column, right: Column) -> Column:
    """What the floor of the quotient leaves, with the divisor's sign, and 0 where the divisor is 0."""
    none = right == 0
    return np.where(none, 0, held(left % np.where(none, 1, right)))


BINARY: Mapping[str, Callable[[Column, Column], NDArray]] = {
    "+": lambda a, b: held(a + b),
    "-": lambda a, b: held(a - b),
    "*": product,
    "/": quotient,
    "%": remainder,
    "=": np.equal,
    "!=": np.not_equal,
    "<": np.less,
    "<=": np.less_equal,
    ">": np.greater,
    ">=": np.greater_equal,
    "and": lambda a, b: (a != 0) & (b != 0),
    "or": lambda a, b: (a != 0) | (b != 0),
    "min": np.minimum,
    "max": np.maximum,
}
UNARY: Mapping[str, Callable[[Column], NDArray]] = {
    "negative": lambda a: held(-a),
    "abs": lambda a: held(np.abs(a)),
    "not": lambda a: a == 0,
}


def value(program: Program, fields: Mapping[str, Column], length: int) -> Column:
    """The value of an expression for each of `length` events; `fields` has a column for each name of a field."""
    stack: list[Column] = []
    for step in program:
        if isinstance(step, int):
            stack.append(np.full(length, step, dtype=np.int64))
        elif step in FIELDS:
            stack.append(fields[step])
        elif step in UNARY:
            stack.append(UNARY[step](stack.pop()).astype(np.int64))
        elif step == "if":
            other, chosen, test = stack.pop(), stack.pop(), stack.pop()
            stack.append(np.where(test != 0, chosen, other))
        else:
            right, left = stack.pop(), stack.pop()
            stack.append(BINARY[step](left, right).astype(np.int64))
    return stack.pop()
