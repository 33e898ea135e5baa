"""A proxy on loopback between coordinators and servers, which loses, repeats and holds back datagrams, and records what passes."""
from __future__ import annotations

import random
import selectors
import socket
import struct
import threading
import time
from dataclasses import dataclass, field

from .nodes import HOST

SO_TIMESTAMPNS = 35
ROOM = 4_194_304


@dataclass
class Recorded:
    """What one coordinator sent, each with the time at which it did, and what it was given, in order."""

    sent: list[tuple[int, int, bytes]] = field(default_factory=list)
    given: list[bytes] = field(default_factory=list)

    def sends(self) -> list[tuple[int, bytes]]:
        return [(shard, datagram) for _, shard, datagram in sorted(self.sent, key=lambda it: it[0])]


def loopback() -> socket.socket:
    made = socket.socket(socket.AF_INET, socket.SOCK_DGRAM)
    made.setsockopt(socket.SOL_SOCKET, socket.SO_RCVBUF, ROOM)
    made.setsockopt(socket.SOL_SOCKET, SO_TIMESTAMPNS, 1)
    made.bind((HOST, 0))
    made.setblocking(False)
    return made


def received(link: socket.socket) -> tuple[bytes, int, tuple[str, int]]:
    """A datagram, when the system took it, in nanoseconds, and whence. On loopback that is when it was sent."""
    datagram, more, _, whence = link.recvmsg(65_536, 128)
    seconds, nanoseconds = next(struct.unpack("qq", data[:16]) for level, kind, data in more if (level, kind) == (socket.SOL_SOCKET, SO_TIMESTAMPNS))
    return datagram, seconds * 1_000_000_000 + nanoseconds, whence


class Route:
    """One coordinator's way to the servers: a socket in place of each server, and one in its own place."""

    def __init__(self, shards: int) -> None:
        self.fronts = [loopback() for _ in range(shards)]
        self.back = loopback()
        self.home: tuple[str, int] | None = None
        self.recorded = Recorded()

    def ports(self) -> list[int]:
        return [it.getsockname()[1] for it in self.fronts]


class Proxy:
    """Routes for several coordinators, led by one thread. Of each hundred datagrams so many are lost, repeated, or held back for a while."""

    def __init__(self, servers: list[int], routes: int, seed: int, lost: int = 10, repeated: int = 10, held: int = 10) -> None:
        self.servers = servers
        self.routes = [Route(len(servers)) for _ in range(routes)]
        self.random = random.Random(seed)
        self.lost, self.repeated, self.held = lost, repeated, held
        self.late: list[tuple[float, Route, int | None, bytes]] = []
        self.selector = selectors.DefaultSelector()
        for route in self.routes:
            for shard, front in enumerate(route.fronts):
                self.selector.register(front, selectors.EVENT_READ, (route, shard))
            self.selector.register(route.back, selectors.EVENT_READ, (route, None))
        self.is_over = False
        self.thread = threading.Thread(target=self.lead)
        self.thread.start()

    def lead(self) -> None:
        while not self.is_over:
            for key, _ in self.selector.select(0.005):
                self.take(*key.data)
            now = time.monotonic()
            for entry in [it for it in self.late if it[0] <= now]:
                self.late.remove(entry)
                self.give(*entry[1:])

    def take(self, route: Route, shard: int | None) -> None:
        """Takes one datagram: to a server's shard, or to the coordinator (None)."""
        try:
            datagram, at, whence = received(route.back if shard is None else route.fronts[shard])
        except BlockingIOError:
            return
        if shard is not None:
            route.home = whence
            route.recorded.sent.append((at, shard, datagram))
        drawn = self.random.randrange(100)
        if drawn < self.lost:
            return
        if drawn < self.lost + self.held:
            self.late.append((time.monotonic() + self.random.random() * 0.03, route, shard, datagram))
            return
        self.give(route, shard, datagram)
        if drawn >= 100 - self.repeated:
            self.late.append((time.monotonic() + self.random.random() * 0.03, route, shard, datagram))

    def give(self, route: Route, shard: int | None, datagram: bytes) -> None:
        if shard is not None:
            route.back.sendto(datagram, (HOST, self.servers[shard]))
        elif route.home:
            route.recorded.given.append(datagram)
            route.fronts[0].sendto(datagram, route.home)

    def close(self) -> None:
        self.is_over = True
        self.thread.join()
        self.selector.close()
        for route in self.routes:
            for link in [*route.fronts, route.back]:
                link.close()
