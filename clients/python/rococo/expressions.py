"""Expressions of a workload in its canonical text (docs/LANGUAGE.md): read once, and evaluated with the values that names have."""
from __future__ import annotations

import re
from dataclasses import dataclass
from typing import Mapping

TOKEN = re.compile(r"\s*(\d+|[A-Za-z]\w*|[-+*(),])")
FUNCTIONS = {"min": 2, "max": 2, "less": 2, "pick": 3}
WORD = 1 << 64


def wrapped(value: int) -> int:
    """The value modulo 2^64, as a signed integer of 64 bits."""
    return (value + WORD // 2) % WORD - WORD // 2


@dataclass(frozen=True)
class Expression:
    """An integer, a name, or an operator or function over others."""

    head: int | str
    parts: tuple[Expression, ...] = ()

    def names(self) -> set[str]:
        if self.parts:
            return set().union(*(part.names() for part in self.parts))
        return {self.head} if isinstance(self.head, str) else set()

    def value(self, values: Mapping[str, int]) -> int:
        if isinstance(self.head, int):
            return self.head
        if not self.parts:
            return values[self.head]
        return wrapped(applied(self.head, [part.value(values) for part in self.parts]))


def applied(head: str, operands: list[int]) -> int:
    match head, operands:
        case "+", [a, b]:
            return a + b
        case "-", [a, b]:
            return a - b
        case "*", [a, b]:
            return a * b
        case "min", _:
            return min(operands)
        case "max", _:
            return max(operands)
        case "less", [a, b]:
            return int(a < b)
        case "pick", [test, one, other]:
            return one if test else other
    raise ValueError(f"no operator or function: {head}")


class Reader:
    """Reads expressions from the left of a text. The text is canonical, so what is read is in the grammar."""

    def __init__(self, text: str) -> None:
        self.tokens = TOKEN.findall(text)
        self.at = 0

    def next(self) -> str | None:
        return self.tokens[self.at] if self.at < len(self.tokens) else None

    def take(self) -> str:
        self.at += 1
        return self.tokens[self.at - 1]

    def expression(self) -> Expression:
        read = self.term()
        while self.next() in ("+", "-"):
            read = Expression(self.take(), (read, self.term()))
        return read

    def term(self) -> Expression:
        read = self.atom()
        while self.next() == "*":
            read = Expression(self.take(), (read, self.atom()))
        return read

    def atom(self) -> Expression:
        token = self.take()
        if token == "(":
            read = self.expression()
            self.take()
            return read
        if token.isdigit():
            return Expression(int(token))
        if token in FUNCTIONS:
            self.take()
            parts = self.several()
            self.take()
            return Expression(token, parts)
        return Expression(token)

    def several(self) -> tuple[Expression, ...]:
        """Expressions between commas."""
        read = [self.expression()]
        while self.next() == ",":
            self.take()
            read.append(self.expression())
        return tuple(read)


def expression(text: str) -> Expression:
    return Reader(text).expression()


def expressions(text: str) -> tuple[Expression, ...]:
    return Reader(text).several()
