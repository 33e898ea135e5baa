"""What a server holds by what is open on it: groups that are started and not committed, lists on one cell, cells that were set, and transactions that are
answered but kept, since an earlier one of their coordinator is not answered."""
from __future__ import annotations

import contextlib
import socket
import subprocess
import tempfile
import time
from collections.abc import Callable, Iterator

from running import COORDINATOR, ENDED, HOST, cluster, commit, header, link, processor_seconds, resident, serve, start, stop, tag_of, written

WORKLOAD = """shards 1;
table t { x }
proc add(p, n) { later a at p { get v = t[0].x; set t[0].x = v + n; out v; } }
"""
STARTOK, COMMITOK = 2, 4
COORDINATORS = 16
PATIENCE = 60.0
# A transaction that tells, by its answer, that the server has taken all that was sent before.
PROBE = (15, 4_000_000)
# Where the edges of a startok begin that binds and gives nothing.
EDGES = 30
EDGE = 8


class Sender:
    """Speaks as sixteen coordinators to one server, by the datagrams that they send. Each awaits its answer, so none is lost in a burst."""

    def __init__(self, port: int) -> None:
        self.tag, self.to = tag_of(WORKLOAD), (HOST, port)
        self.link: socket.socket = link()
        self.link.settimeout(PATIENCE)

    def ask(self, data: bytes, kind: int) -> bytes:
        """Sends a datagram and awaits an answer of this kind."""
        self.link.sendto(data, self.to)
        while (answer := self.link.recv(65536))[5] != kind:
            pass
        return answer

    def start(self, coordinator: int, sequence: int, place: int) -> list[bytes]:
        """Starts a transaction, which gets the edges that stand in its startok."""
        answer = self.ask(start(self.tag, coordinator, sequence, 0, 0, [place, 1]), STARTOK)
        count = int.from_bytes(answer[EDGES : EDGES + 2], "big")
        return [answer[at : at + EDGE] for at in range(EDGES + 2, EDGES + 2 + EDGE * count, EDGE)]

    def commit(self, coordinator: int, sequence: int, edges: list[bytes]) -> None:
        """Commits one that waits, so that no answer comes."""
        self.link.sendto(commit(self.tag, coordinator, sequence, edges), self.to)

    def whole(self, coordinator: int, sequence: int, place: int) -> None:
        """A transaction from its start to its answer."""
        edges = self.start(coordinator, sequence, place)
        self.ask(commit(self.tag, coordinator, sequence, edges), COMMITOK)

    def ended(self, coordinator: int, mark: int) -> None:
        body = coordinator.to_bytes(2, "big") + mark.to_bytes(4, "big")
        self.link.sendto(header(self.tag, ENDED, COORDINATOR, coordinator) + body, self.to)


def apart(to: Sender, count: int) -> None:
    for number in range(count):
        to.start(number % COORDINATORS, number // COORDINATORS, number)


def together(to: Sender, count: int) -> None:
    for number in range(count):
        to.start(number % COORDINATORS, number // COORDINATORS, 0)


def waiting(to: Sender, count: int) -> None:
    """All but the first are committed, and wait for it."""
    for number in range(count):
        edges = to.start(number % COORDINATORS, number // COORDINATORS, 0)
        if number:
            to.commit(number % COORDINATORS, number // COORDINATORS, edges)


def cells(to: Sender, count: int) -> None:
    """Of one coordinator, which says at the end that all is answered: only cells are left."""
    for number in range(count):
        to.whole(0, number, number)
        if number % 64 == 63:
            to.ended(0, number + 1)
    to.ended(0, count)


def kept(to: Sender, count: int) -> None:
    """Of one coordinator, whose first transaction is never committed."""
    to.start(0, 0, 1)
    for number in range(1, count + 1):
        to.whole(0, number, 0)


def over(to: Sender, first: int, count: int) -> None:
    """Of another coordinator, which says of each that it is answered: so something is forgotten behind each."""
    for number in range(first, first + count):
        to.whole(1, number, 2)
        to.ended(1, number + 1)


# What is open, how often, and what makes it so.
CASES: list[tuple[str, int, Callable[[Sender, int], None]]] = [
    ("started, each on a cell of its own", 256, apart),
    ("started, each on a cell of its own", 16_384, apart),
    ("started, all on one cell", 256, together),
    ("started, all on one cell", 1_024, together),
    ("committed, waiting for one on one cell", 256, waiting),
    ("committed, waiting for one on one cell", 1_024, waiting),
    ("cells that were set, nothing open", 20_000, cells),
    ("answered, behind one that is not", 20_000, kept),
]


@contextlib.contextmanager
def fresh(port: int) -> Iterator[tuple[Sender, subprocess.Popen]]:
    """A server that knows nothing yet, and one that speaks to it."""
    with tempfile.TemporaryDirectory(prefix="rococo-opened-") as folder:
        load, nodes = written(folder, "load.rcw", WORKLOAD), written(folder, "nodes.toml", cluster([port]))
        server = serve(load, nodes, 0)
        try:
            yield Sender(port), server
        finally:
            while server.poll() is None:
                stop(load, nodes)
                time.sleep(0.05)
            server.communicate()


# How many are kept behind one that is not answered, how many of another coordinator follow, and how many more are counted.
KEPT = (0, 2_500, 10_000, 40_000)
FIRST, COUNTED = 500, 5_000


def told_of_time(port: int) -> Iterator[str]:
    """A line for each number of transactions that are kept: processor microseconds for each of another coordinator's."""
    for count in KEPT:
        with fresh(port) as (to, server):
            kept(to, count)
            over(to, 0, FIRST)
            before = processor_seconds(server)
            over(to, FIRST, COUNTED)
            to.whole(*PROBE, -1)
            spent = processor_seconds(server) - before
        yield f"{count:7} {spent * 1e6 / COUNTED:10.1f}"


def told(port: int) -> Iterator[str]:
    """A line for each case: what a server held before and behind it, in megabytes, and bytes for each."""
    for name, count, act in CASES:
        with fresh(port) as (to, server):
            to.whole(*PROBE, -1)
            before = resident(server)
            act(to, count)
            to.whole(PROBE[0], PROBE[1] + 1, -1)
            behind = resident(server)
        yield f"{name:40} {count:7} {before:8.2f} {behind:8.2f} {(behind - before) * 2**20 / count:10.0f}"
