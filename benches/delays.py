"""A network with a delay, on loopback: what stands before servers, and before coordinators as servers see them, and holds each datagram for half a round
trip. Nothing is lost, repeated or reordered by it. It is a process of its own."""
from __future__ import annotations

import collections
import contextlib
import multiprocessing
import select
import socket
import statistics
import threading
import time
from collections.abc import Iterator
from multiprocessing.connection import Connection

from running import COORDINATOR, HOST, START, header, link

COORDINATORS = 16
# Nearer than this the process does not sleep: the system wakes it too late.
NEAR = 0.0005
IDLE = 0.02
BARE = 200


class Delay:
    """Sockets before the servers at these ports, and before each coordinator."""

    def __init__(self, ports: list[int], round_trip: float) -> None:
        self.ports, self.half = ports, round_trip / 2
        self.front = [link() for _ in ports]
        self.back = [link() for _ in range(COORDINATORS)]
        self.coordinators: list[tuple[str, int] | None] = [None] * COORDINATORS
        self.places = {it: place for row in (self.front, self.back) for place, it in enumerate(row)}
        self.later: collections.deque[tuple[float, socket.socket, bytes, tuple[str, int]]] = collections.deque()
        self.passed = 0
        for it in self.places:
            it.setblocking(False)

    def take(self, here: socket.socket) -> None:
        """Holds all that came to a socket."""
        with contextlib.suppress(BlockingIOError):
            while True:
                data, sender = here.recvfrom(65536)
                self.passed += 1
                if here in self.back:
                    out, to = here, self.coordinators[self.places[here]]
                else:
                    out, to = here, (HOST, self.ports[self.places[here]])
                    if data[14] == COORDINATOR:
                        number = int.from_bytes(data[15:17], "big")
                        self.coordinators[number], out = sender, self.back[number]
                self.later.append((time.perf_counter() + self.half, out, data, to))

    def wait(self) -> float:
        left = self.later[0][0] - time.perf_counter() if self.later else IDLE
        return 0.0 if left < NEAR else min(left - NEAR / 2, IDLE)

    def lead(self, end: Connection) -> None:
        """Until it is told to end; then it tells how many datagrams it passed."""
        sockets = list(self.places)
        while not end.poll():
            for here in select.select(sockets, [], [], self.wait())[0]:
                self.take(here)
            while self.later and self.later[0][0] <= time.perf_counter():
                _, out, data, to = self.later.popleft()
                out.sendto(data, to)
        end.send(self.passed)


def lead(ports: list[int], round_trip: float, end: Connection) -> None:
    delay = Delay(ports, round_trip)
    end.send([it.getsockname()[1] for it in delay.front])
    delay.lead(end)


class Delayed:
    """A process that holds what is sent to `front`, which stand before these ports in turn."""

    def __init__(self, ports: list[int], round_trip: float) -> None:
        self.end, other = multiprocessing.Pipe()
        self.process = multiprocessing.Process(target=lead, args=(ports, round_trip, other), daemon=True)
        self.process.start()
        self.front: list[int] = self.end.recv()

    def seen(self, shard: int, ports: list[int]) -> list[int]:
        """The ports of all servers as this one's sees them: its own, and what stands before the others."""
        return [port if it == shard else self.front[it] for it, port in enumerate(ports)]

    def over(self) -> int:
        """Ends the process, and tells how many datagrams it passed."""
        self.end.send(None)
        passed = self.end.recv()
        self.process.join()
        return passed


@contextlib.contextmanager
def delayed(ports: list[int], round_trip: float) -> Iterator[Delayed]:
    made = Delayed(ports, round_trip)
    try:
        yield made
    finally:
        if made.process.is_alive():
            made.over()


def echo(here: socket.socket) -> None:
    """Hands back what comes, until an empty datagram does."""
    while True:
        data, sender = here.recvfrom(65536)
        if not data:
            return
        here.sendto(data, sender)


def bare(round_trip: float) -> float:
    """The median of round trips of single datagrams through such a network, in seconds."""
    far, near = link(), link()
    threading.Thread(target=echo, args=(far,), daemon=True).start()
    took = []
    with delayed([far.getsockname()[1]], round_trip) as network:
        data = header(bytes(8), START, COORDINATOR, 0)
        until = time.perf_counter() + 2.0
        while len(took) < BARE and time.perf_counter() < until:
            began = time.perf_counter()
            near.sendto(data, (HOST, network.front[0]))
            near.recv(65536)
            took.append(time.perf_counter() - began)
    near.sendto(b"", far.getsockname())
    return statistics.median(took)
