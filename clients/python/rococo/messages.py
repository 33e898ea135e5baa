"""Datagrams as a coordinator spells and reads them (docs/FORMATS.md, "Datagrams")."""
from __future__ import annotations

import struct
from dataclasses import dataclass
from typing import Iterable, NamedTuple

MAGIC, VERSION = b"RCO1", 2
START, STARTOK, COMMIT, COMMITOK, ENDED, READ, READOK = 1, 2, 3, 4, 8, 10, 11
SERVER, COORDINATOR = 0, 1
MOST_BYTES = 60_000
MOST_NUMBERS, MOST_VERSIONS, MOST_EDGES, MOST_FACTS, MOST_FACT_EDGES = 1024, 64, 4096, 16, 1000


class TxnId(NamedTuple):
    """A transaction or a view: its coordinator and its sequence there. Ids compare by both, in this order."""

    coord: int
    seq: int

    def __str__(self) -> str:
        return f"{self.coord}.{self.seq}"


class Edge(NamedTuple):
    """A transaction that comes before, by immediate groups (1), deferrable ones (2) or both (3), and the least shard that saw so."""

    id: TxnId
    tags: int
    shard: int


@dataclass(frozen=True)
class StartOk:
    id: TxnId
    group: int
    shard: int
    bound: tuple[int, ...]
    outs: tuple[int, ...]
    edges: tuple[Edge, ...]
    facts: tuple[tuple[TxnId, tuple[Edge, ...]], ...]


@dataclass(frozen=True)
class CommitOk:
    id: TxnId
    shard: int
    outs: tuple[int, ...]


@dataclass(frozen=True)
class ReadOk:
    id: TxnId
    round: int
    group: int
    shard: int
    versions: tuple[int, ...]
    outs: tuple[int, ...]


Answer = StartOk | CommitOk | ReadOk


def spelled_id(id: TxnId) -> bytes:
    return struct.pack(">HI", *id)


def spelled_numbers(numbers: Iterable[int]) -> bytes:
    listed = list(numbers)
    return struct.pack(f">H{len(listed)}q", len(listed), *listed)


def spelled_edges(edges: Iterable[Edge]) -> bytes:
    listed = list(edges)
    return struct.pack(">H", len(listed)) + b"".join(spelled_id(it.id) + bytes([it.tags, it.shard]) for it in listed)


class Speller:
    """Spells what one coordinator sends, under one workload's tag."""

    def __init__(self, tag: bytes, coord: int) -> None:
        self.tag, self.coord = tag, coord

    def datagram(self, kind: int, body: bytes) -> bytes:
        return MAGIC + bytes([VERSION, kind]) + self.tag + struct.pack(">BH", COORDINATOR, self.coord) + body

    def start(self, id: TxnId, procedure: int, group: int, arguments: Iterable[int], inputs: Iterable[int]) -> bytes:
        return self.datagram(START, spelled_id(id) + struct.pack(">HH", procedure, group) + spelled_numbers(arguments) + spelled_numbers(inputs))

    def commit(self, id: TxnId, edges: Iterable[Edge], facts: Iterable[tuple[TxnId, tuple[Edge, ...]]]) -> bytes:
        listed = list(facts)
        spelled = b"".join(spelled_id(of) + spelled_edges(list_) for of, list_ in listed)
        return self.datagram(COMMIT, spelled_id(id) + spelled_edges(edges) + struct.pack(">H", len(listed)) + spelled)

    def read(self, id: TxnId, round: int, procedure: int, group: int, arguments: Iterable[int]) -> bytes:
        return self.datagram(READ, spelled_id(id) + struct.pack(">IHH", round, procedure, group) + spelled_numbers(arguments))

    def ended(self, mark: int) -> bytes:
        return self.datagram(ENDED, struct.pack(">HI", self.coord, mark))


class Unreadable(ValueError):
    """The bytes are no datagram, or none that a coordinator takes."""


class Fields:
    """Reads fields from the left, each within its range."""

    def __init__(self, body: bytes) -> None:
        self.body, self.at = body, 0

    def number(self, form: str, most: int | None = None) -> int:
        size = struct.calcsize(f">{form}")
        if self.at + size > len(self.body):
            raise Unreadable("short")
        (value,) = struct.unpack_from(f">{form}", self.body, self.at)
        if most is not None and value > most:
            raise Unreadable("count")
        self.at += size
        return value

    def numbers(self, form: str, most: int) -> tuple[int, ...]:
        return tuple(self.number(form) for _ in range(self.number("H", most)))

    def id(self) -> TxnId:
        return TxnId(self.number("H", 15), self.number("I"))

    def shard(self) -> int:
        return self.number("B", 63)

    def edge(self) -> Edge:
        id, tags, shard = self.id(), self.number("B", 3), self.shard()
        if not tags:
            raise Unreadable("count")
        return Edge(id, tags, shard)

    def edges(self, most: int = MOST_EDGES) -> tuple[Edge, ...]:
        return rising(tuple(self.edge() for _ in range(self.number("H", most))))

    def facts(self) -> tuple[tuple[TxnId, tuple[Edge, ...]], ...]:
        read: list[tuple[TxnId, tuple[Edge, ...]]] = []
        left = MOST_FACT_EDGES
        for _ in range(self.number("H", MOST_FACTS)):
            of, edges = self.id(), self.edges(left)
            left -= len(edges)
            read.append((of, edges))
        return rising(tuple(read))

    def end(self) -> None:
        if self.at != len(self.body):
            raise Unreadable("rest")


def rising(entries: tuple) -> tuple:
    if any(one[0] >= other[0] for one, other in zip(entries, entries[1:])):
        raise Unreadable("order")
    return entries


def answer(datagram: bytes, tag: bytes) -> Answer:
    """What a server's datagram answers; raises Unreadable for all else, whoever sent it."""
    if len(datagram) < 17 or datagram[:4] != MAGIC or datagram[4] != VERSION or datagram[6:14] != tag:
        raise Unreadable("header")
    fields = Fields(datagram[14:])
    fields.number("H", 63 if fields.number("B", 1) == SERVER else 15)
    read = body(datagram[5], fields)
    fields.end()
    return read


def body(kind: int, fields: Fields) -> Answer:
    if kind not in (STARTOK, COMMITOK, READOK):
        raise Unreadable("kind")
    id = fields.id()
    if kind == STARTOK:
        group, shard = fields.number("H"), fields.shard()
        return StartOk(id, group, shard, fields.numbers("q", MOST_NUMBERS), fields.numbers("q", MOST_NUMBERS), fields.edges(), fields.facts())
    if kind == COMMITOK:
        return CommitOk(id, fields.shard(), fields.numbers("q", MOST_NUMBERS))
    round, group, shard = fields.number("I"), fields.number("H"), fields.shard()
    return ReadOk(id, round, group, shard, fields.numbers("Q", MOST_VERSIONS), fields.numbers("q", MOST_NUMBERS))
