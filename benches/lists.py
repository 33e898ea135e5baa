"""What the logs of nodes tell of the lists that travel: how long they are, and how many bytes and datagrams go to a transaction."""
from __future__ import annotations

import collections
from collections.abc import Iterable, Iterator
from dataclasses import dataclass, field

from running import COMMIT, FETCH, KNOWN

HEADER, ID, EDGE = 17, 6, 8


def sent(path: str) -> Iterator[bytes]:
    """The datagrams that a log says its node sent, repeats among them."""
    with open(path, encoding="ascii") as file:
        for line in file:
            if line.startswith("out ") and line.endswith("\n"):
                yield bytes.fromhex(line[4:-1])


def count_at(data: bytes, at: int) -> int:
    return int.from_bytes(data[at : at + 2], "big")


def edges_of_commit(data: bytes) -> int:
    return count_at(data, HEADER + ID)


@dataclass
class Lists:
    """By transactions: the edges of its commit's list, once for each; and all datagrams that were sent, with repeats."""

    edges: list[int] = field(default_factory=list)
    kinds: collections.Counter[int] = field(default_factory=collections.Counter)
    bytes: int = 0
    longest: int = 0

    def take(self, paths: Iterable[str]) -> None:
        seen: set[bytes] = set()
        for data in (it for path in paths for it in sent(path)):
            self.kinds[data[5]] += 1
            self.bytes += len(data)
            self.longest = max(self.longest, len(data))
            what = data[HEADER : HEADER + ID]
            if data[5] == COMMIT and what not in seen:
                seen.add(what)
                self.edges.append(edges_of_commit(data))

    def told(self, answered: int) -> str:
        mean = sum(self.edges) / max(1, len(self.edges))
        each = max(1, answered)
        asked = (self.kinds[FETCH] + self.kinds[KNOWN]) / each
        datagrams = sum(self.kinds.values()) / each
        return f"{mean:10.1f} {max(self.edges, default=0):8} {self.longest:13} {self.bytes / each:10.0f} {datagrams:10.1f} {asked:8.2f}"
