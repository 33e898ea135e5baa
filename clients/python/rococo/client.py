"""A client of a cluster: a coordinator for another program to import. Nothing of it is proved (see the package's text)."""
from __future__ import annotations

import os
import select
import socket
import time
from dataclasses import dataclass, field
from types import TracebackType

from .cluster import addresses
from .coordinator import MOST_CALLS, MOST_PENDING, Coordinator, Sends
from .errors import RefusedCall, Unanswered
from .messages import TxnId, Unreadable, answer
from .state import StateFile
from .workload import Workload

RECEIVE_ROOM = 4_194_304
LEAST_WAIT, MOST_WAIT, LONGEST_SILENCE = 0.02, 0.32, 0.64
MANY_CAME, MANY_WAIT, HALVING = 512, 0.1, 128


class Silence:
    """When nothing was heard for so long that what has no answer is sent again. A wait that hears nothing but once doubles; answers earn it back."""

    def __init__(self) -> None:
        self.since = self.heard = time.monotonic()
        self.wait, self.came = LEAST_WAIT, 0

    def left(self) -> float:
        """How long it is until the silence is one. Not above 0: it is."""
        now = time.monotonic()
        if self.came >= MANY_CAME and now - self.since >= MANY_WAIT:
            return 0.0
        return min(self.heard + self.wait, self.since + LONGEST_SILENCE) - now

    def hear(self) -> None:
        self.heard = time.monotonic()
        self.came += 1
        if self.came % HALVING == 0:
            self.wait = max(self.wait / 2, LEAST_WAIT)

    def end(self) -> None:
        self.since = self.heard = time.monotonic()
        if self.came:
            self.wait = min(self.wait * 2, MOST_WAIT)
        self.came = 0


@dataclass
class Call:
    """A call that was submitted. `reply` is None until it is answered; `is_recovered` says that an earlier client submitted it."""

    id: TxnId
    name: str
    arguments: list[int]
    reply: list[int] | None = None
    is_recovered: bool = field(default=False)

    def __str__(self) -> str:
        return " ".join([str(self.id), self.name, *map(str, self.arguments)])


class Client:
    """One coordinator number of a cluster, from 0 to 15, which no other client and no `submit` uses as long as the servers live.

    `state` is the file in which the number's next sequence and its open calls are kept: the next client that is given it goes on where this one
    ended, however it ended. What an earlier client left is in `recovered`, sent on again, and answered like the calls of this one. Without a file
    (None) the number serves this object alone.

    The client works while it is called: `call`, `wait`, `drain`, and `submit` where sixteen calls are open. It is for one thread at a time."""

    def __init__(
        self,
        workload: Workload | str | os.PathLike[str],
        cluster: str | os.PathLike[str],
        coord: int,
        state: str | os.PathLike[str] | None,
        *,
        program: str | os.PathLike[str] | None = None,
        sync: bool = False,
    ) -> None:
        if not 0 <= coord < 16:
            raise RefusedCall("a coordinator's number is 0 to 15")
        self.workload = workload if isinstance(workload, Workload) else Workload(workload, program)
        self.servers = addresses(cluster, self.workload.shards)
        self.file = None if state is None else StateFile(state, self.workload.tag, coord, sync)
        self.core = Coordinator(self.workload, coord)
        self.socket = socket.socket(socket.AF_INET, socket.SOCK_DGRAM)
        self.socket.setsockopt(socket.SOL_SOCKET, socket.SO_RCVBUF, RECEIVE_ROOM)
        self.socket.bind(("", 0))
        self.socket.setblocking(False)
        self.silence = Silence()
        self.calls: dict[int, Call] = {}
        self.recovered: list[Call] = []
        self.recover()

    def __enter__(self) -> Client:
        return self

    def __exit__(self, kind: type[BaseException] | None, fault: BaseException | None, trace: TracebackType | None) -> None:
        self.close()

    def close(self) -> None:
        """Lets the number go. Open calls stay in the state file."""
        if self.file and self.file.lock:
            self.file.save()
            self.file.close()
        self.socket.close()

    def call(self, name: str, *arguments: int, timeout: float = 5.0) -> list[int]:
        """Submits a call and awaits its reply. Raises `RefusedCall`, and `Unanswered` where no reply came in so many seconds."""
        until = time.monotonic() + timeout
        return self.await_reply(self.submit(name, *arguments, timeout=timeout), until)

    def submit(self, name: str, *arguments: int, timeout: float = 5.0) -> Call:
        """Submits a call, and awaits nothing but a place among the sixteen that may be open. Calls that are open together may take effect in any order."""
        self.judge(name, arguments)
        until = time.monotonic() + timeout
        while self.core.is_busy():
            if time.monotonic() >= until:
                raise self.unanswered(min(self.core.open))
            self.turn(until)
        seq, sends = self.core.submit(name, arguments)
        call = self.calls[seq] = Call(TxnId(self.core.number, seq), name, list(arguments))
        if self.file:
            self.file.state.next = self.core.next
            self.file.state.open[seq] = (name, call.arguments)
            self.file.save()
        self.send(sends)
        return call

    def wait(self, call: Call, timeout: float = 5.0) -> list[int]:
        """Awaits the reply of a call. Raises `Unanswered` where none came in so many seconds; the call stays open."""
        return self.await_reply(call, time.monotonic() + timeout)

    def drain(self, timeout: float = 5.0) -> list[Call]:
        """Awaits the replies of all open calls, and tells the servers that all is answered, so that they forget what they hold of it.

        Hands out each call with a reply that nobody was given yet, by sequence, those of `recovered` too."""
        until = time.monotonic() + timeout
        while self.core.open:
            if time.monotonic() >= until:
                raise self.unanswered(min(self.core.open))
            self.turn(until)
        self.send(self.core.marks())
        return [self.hand_out(self.calls[seq]) for seq in sorted(self.calls)]

    def open_calls(self) -> list[Call]:
        """The calls without a reply, by sequence."""
        return [self.calls[seq] for seq in sorted(self.core.open)]

    def judge(self, name: str, arguments: tuple[int, ...]) -> None:
        procedure = self.workload.procedures.get(name)
        if procedure is None:
            raise RefusedCall(f"no procedure {name}: there are {', '.join(sorted(self.workload.procedures))}")
        if len(arguments) != len(procedure.arguments):
            raise RefusedCall(f"{name} takes {len(procedure.arguments)} arguments ({', '.join(procedure.arguments)}), and not {len(arguments)}")
        if not all(isinstance(value, int) and -(2**63) <= value < 2**63 for value in arguments):
            raise RefusedCall("an argument is an integer of 64 bits")
        if self.core.next >= MOST_CALLS:
            raise RefusedCall("the coordinator's sequence numbers are all used")

    def recover(self) -> None:
        """Takes up what an earlier client left."""
        if not self.file:
            return
        state = self.file.state
        self.core.next = state.next
        for seq, (name, arguments, reply) in sorted(state.answered.items()):
            self.calls[seq] = Call(TxnId(self.core.number, seq), name, arguments, reply, is_recovered=True)
            self.recovered.append(self.calls[seq])
        for seq, (name, arguments) in sorted(state.open.items()):
            self.calls[seq] = Call(TxnId(self.core.number, seq), name, arguments, is_recovered=True)
            self.recovered.append(self.calls[seq])
            self.send(self.core.begin(seq, name, arguments))

    def await_reply(self, call: Call, until: float) -> list[int]:
        while call.reply is None:
            if time.monotonic() >= until:
                raise self.unanswered(call.id.seq)
            self.turn(until)
        self.hand_out(call)
        return call.reply

    def hand_out(self, call: Call) -> Call:
        """Notes that the reply was given to whoever asked. The next save leaves it out: until then another client tells it once more."""
        self.calls.pop(call.id.seq, None)
        if self.file:
            self.file.state.answered.pop(call.id.seq, None)
        return call

    def unanswered(self, seq: int) -> Unanswered:
        call, shards = self.calls[seq], self.core.missing(seq)
        where = ", ".join(f"{shard} ({self.servers[shard][0]}:{self.servers[shard][1]})" for shard in shards)
        return Unanswered(f"{call}: no answer of shard {where} yet", shards)

    def turn(self, until: float) -> None:
        """Takes one datagram, or sends again what has no answer where it was silent for long enough. Comes back by `until`."""
        wait = max(min(self.silence.left(), until - time.monotonic()), 0.0)
        if select.select([self.socket], [], [], wait)[0]:
            self.receive()
        elif self.silence.left() <= 0:
            self.silence.end()
            self.send(self.core.tick())

    def receive(self) -> None:
        try:
            message = answer(self.socket.recv(65_536), self.workload.tag)
        except (OSError, Unreadable):
            return
        self.silence.hear()
        sends = self.core.receive(message)
        self.take_answers()
        self.send(sends)

    def take_answers(self) -> None:
        """Notes what was answered in the file, before any server is told that it was."""
        for seq, reply in self.core.answers.items():
            call = self.calls[seq]
            call.reply = reply
            if self.file:
                del self.file.state.open[seq]
                self.file.state.answered[seq] = (call.name, call.arguments, reply)
        if self.core.answers and self.file:
            self.file.save()
        self.core.answers.clear()

    def send(self, sends: Sends) -> None:
        for shard, datagram in sends:
            try:
                self.socket.sendto(datagram, self.servers[shard])
            except OSError:
                # As lost on the way: it is sent again at a silence.
                pass
