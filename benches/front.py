"""A front end: one coordinator's number, shared by many clients of one process. Each client calls and awaits its reply; the front keeps at most sixteen
of these calls open, and the others wait in its line, in the order in which they came."""
from __future__ import annotations

import contextlib
import os
import queue
import statistics
import sys
import threading
import time
from concurrent.futures import Future
from dataclasses import dataclass

from running import ROOT

sys.path.append(os.path.join(ROOT, "clients", "python"))
from rococo import Call, Client, Unanswered  # noqa: E402

MOST_OPEN = 16
# For so long, in seconds, it listens before it looks at its line again.
MOMENT = 0.0005

Asked = tuple[str, tuple[int, ...], "Future[list[int]]"]


class Front:
    """A thread that has the client to itself, since a client is for one thread at a time, and takes calls from a line."""

    def __init__(self, client: Client) -> None:
        self.client = client
        self.line: queue.Queue[Asked | None] = queue.Queue()
        self.open: list[tuple[Call, Future[list[int]]]] = []
        self.thread = threading.Thread(target=self.lead, daemon=True)
        self.thread.start()

    def call(self, name: str, *arguments: int) -> list[int]:
        """Calls a procedure, from any thread, and awaits its reply."""
        reply: Future[list[int]] = Future()
        self.line.put((name, arguments, reply))
        return reply.result()

    def over(self) -> None:
        """Ends the thread, once all that was called is answered."""
        self.line.put(None)
        self.thread.join()

    def lead(self) -> None:
        is_over = False
        while self.open or not is_over:
            while not is_over and len(self.open) < MOST_OPEN and not (self.open and self.line.empty()):
                asked = self.line.get()
                is_over = asked is None
                if asked:
                    name, arguments, reply = asked
                    self.open.append((self.client.submit(name, *arguments), reply))
            if self.open:
                self.listen()

    def listen(self) -> None:
        """Awaits the oldest call for a moment, and hands out all replies that came: others of the line may have room then."""
        with contextlib.suppress(Unanswered):
            self.client.wait(self.open[0][0], MOMENT)
        answered = [(call, reply) for call, reply in self.open if call.reply is not None]
        self.open = [(call, reply) for call, reply in self.open if call.reply is None]
        for call, reply in answered:
            reply.set_result(self.client.wait(call))


@dataclass
class Shared:
    """What the clients of a front had: calls a second, and the median of the milliseconds that a call took."""

    rate: float
    milliseconds: float


def shared(client: Client, clients: int, seconds: float, accounts: int) -> Shared:
    """So many clients, each with one call open at a time, for so long."""
    front, took, until = Front(client), list[float](), time.perf_counter() + seconds

    def lead(number: int) -> None:
        at = number
        while time.perf_counter() < until:
            began = time.perf_counter()
            front.call("pay", at % accounts, (at + 1) % accounts, 1)
            took.append(time.perf_counter() - began)
            at += 2 * clients

    threads = [threading.Thread(target=lead, args=(2 * it,)) for it in range(clients)]
    began = time.perf_counter()
    for it in threads:
        it.start()
    for it in threads:
        it.join()
    rate = len(took) / (time.perf_counter() - began)
    front.over()
    return Shared(rate, 1000 * statistics.median(took))
