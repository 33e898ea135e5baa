"""The rules of a coordinator (docs/PROTOCOL.md, "Coordinator", "Watermarks", "Views"), with no socket, file or clock.

Each call returns what is to be sent, as pairs of a shard and a datagram, in order."""
from __future__ import annotations

from dataclasses import dataclass, field
from typing import Iterable, Mapping

from .messages import MOST_EDGES, MOST_FACT_EDGES, MOST_FACTS, Answer, CommitOk, Edge, ReadOk, Speller, StartOk, TxnId
from .workload import Procedure, Workload

MOST_PENDING = 16
MOST_CALLS = 4_294_967_295
MARK_STEP = 64
LAST_ROUND = 4_294_967_295
MOST_WRITES = 2**64 - 1

Sends = list[tuple[int, bytes]]
Facts = list[tuple[TxnId, tuple[Edge, ...]]]


@dataclass
class Transaction:
    """A call that may write, until it is answered."""

    id: TxnId
    procedure: Procedure
    arguments: tuple[int, ...]
    started: dict[int, int] = field(default_factory=dict)
    taken: dict[int, StartOk] = field(default_factory=dict)
    asked: list[int] = field(default_factory=list)
    committed: dict[int, CommitOk] = field(default_factory=dict)

    def values(self) -> dict[str, int]:
        """What is known of names: the arguments, and what groups have bound."""
        values = dict(zip(self.procedure.arguments, self.arguments))
        for group, ok in self.taken.items():
            values.update(zip(self.procedure.groups[group].binds, ok.bound))
        return values

    def ready(self) -> list[int]:
        """The groups that have yet to be started and whose inputs are known."""
        known = self.values()
        groups = enumerate(self.procedure.groups)
        return [number for number, group in groups if number not in self.started and all(name in known for name in group.inputs)]

    def missing(self) -> list[int]:
        if self.asked:
            return [shard for shard in self.asked if shard not in self.committed]
        return sorted({shard for group, shard in self.started.items() if group not in self.taken})

    def outs_on(self, shard: int) -> list[int]:
        """The groups whose outs a commitok of the shard carries, by number."""
        groups = enumerate(self.procedure.groups)
        return [number for number, group in groups if not group.is_immediate and self.started[number] == shard]

    def reply(self) -> list[int]:
        left = {shard: list(ok.outs) for shard, ok in self.committed.items()}
        outs: dict[str, list[int]] = {}
        for number, group in enumerate(self.procedure.groups):
            values = list(self.taken[number].outs) if group.is_immediate else left[self.started[number]]
            for piece in group.pieces:
                outs[piece.name] = values[:piece.outs]
                del values[:piece.outs]
        return [value for piece in self.procedure.pieces for value in outs[piece.name]]


@dataclass
class View:
    """A call that only reads, until two rounds that follow one another find the same versions."""

    id: TxnId
    procedure: Procedure
    arguments: tuple[int, ...]
    round: int = 1
    taken: dict[int, ReadOk] = field(default_factory=dict)
    before: list[tuple[int, ...]] | None = None

    def missing_groups(self) -> list[int]:
        return [number for number in range(len(self.procedure.groups)) if number not in self.taken]

    def versions(self) -> list[tuple[int, ...]]:
        return [self.taken[number].versions for number in range(len(self.procedure.groups))]

    def reply(self) -> list[int]:
        return [value for number in range(len(self.procedure.groups)) for value in self.taken[number].outs]


def united(lists: Iterable[Iterable[Edge]]) -> list[Edge]:
    """One edge for each id of the lists, with all tags and the least shard, by id."""
    found: dict[TxnId, Edge] = {}
    for edge in (edge for edges in lists for edge in edges):
        other = found.get(edge.id, edge)
        found[edge.id] = Edge(edge.id, edge.tags | other.tags, min(edge.shard, other.shard))
    return [found[id] for id in sorted(found)]


def front(facts: Mapping[TxnId, tuple[Edge, ...]]) -> Facts:
    """The longest front of the facts, by id, that travels with one message."""
    chosen: Facts = []
    edges = 0
    for id in sorted(facts):
        edges += len(facts[id])
        if len(chosen) == MOST_FACTS or edges > MOST_FACT_EDGES:
            break
        chosen.append((id, facts[id]))
    return chosen


class Coordinator:
    """One coordinator number, from its first sequence on or from a later one. `answers` holds the replies that were not fetched yet."""

    def __init__(self, workload: Workload, number: int, next: int = 0) -> None:
        self.workload, self.number, self.next = workload, number, next
        self.speller = Speller(workload.tag, number)
        self.open: dict[int, Transaction | View] = {}
        self.answers: dict[int, list[int]] = {}

    def is_busy(self) -> bool:
        return len(self.open) >= MOST_PENDING

    def mark(self) -> int:
        """The watermark: all calls with a lower sequence are answered."""
        return min(self.open, default=self.next)

    def submit(self, name: str, arguments: Iterable[int]) -> tuple[int, Sends]:
        """Gives the call the next sequence. There is such a procedure, with so many arguments, and the coordinator is not busy."""
        seq = self.next
        self.next += 1
        return seq, self.begin(seq, name, arguments)

    def begin(self, seq: int, name: str, arguments: Iterable[int]) -> Sends:
        """Begins a call that has its sequence already: also one that an earlier client left open."""
        procedure = self.workload.procedures[name]
        made = View if procedure.is_view else Transaction
        call = made(TxnId(self.number, seq), procedure, tuple(arguments))
        self.open[seq] = call
        return self.reads(call) if isinstance(call, View) else self.starts(call, call.ready())

    def receive(self, message: Answer) -> Sends:
        """Takes what a server answered, or ignores it."""
        call = self.open.get(message.id.seq) if message.id.coord == self.number else None
        match call, message:
            case Transaction(), StartOk():
                return self.take_startok(call, message)
            case Transaction(), CommitOk():
                return self.take_commitok(call, message)
            case View(), ReadOk():
                return self.take_readok(call, message)
        return []

    def tick(self) -> Sends:
        """Sends again what has no answer, by id, and then the watermark."""
        sends: Sends = []
        for seq in sorted(self.open):
            call = self.open[seq]
            if isinstance(call, View):
                sends += self.reads(call)
            elif call.asked:
                sends += self.commits(call)
            else:
                sends += self.starts(call, [group for group in sorted(call.started) if group not in call.taken])
        return sends + self.marks()

    def missing(self, seq: int) -> list[int]:
        """The shards of which the call still wants an answer."""
        call = self.open[seq]
        if isinstance(call, View):
            return sorted({self.shard(call, group) for group in call.missing_groups()})
        return call.missing()

    def shard(self, call: Transaction | View, group: int) -> int:
        values = call.values() if isinstance(call, Transaction) else dict(zip(call.procedure.arguments, call.arguments))
        return call.procedure.groups[group].place(values) % self.workload.shards

    def starts(self, call: Transaction, groups: Iterable[int]) -> Sends:
        values = call.values()
        sends: Sends = []
        for number in groups:
            group = call.procedure.groups[number]
            shard = call.started.setdefault(number, self.shard(call, number))
            inputs = [values[name] for name in group.inputs]
            sends.append((shard, self.speller.start(call.id, call.procedure.number, number, call.arguments, inputs)))
        return sends

    def take_startok(self, call: Transaction, ok: StartOk) -> Sends:
        if ok.group in call.taken or call.started.get(ok.group) != ok.shard:
            return []
        group = call.procedure.groups[ok.group]
        if (len(ok.bound), len(ok.outs)) != (len(group.binds), group.outs if group.is_immediate else 0):
            return []
        call.taken[ok.group] = ok
        sends = self.starts(call, call.ready())
        if len(call.taken) < len(call.procedure.groups):
            return sends
        call.asked = sorted(set(call.started.values()))
        return sends + self.commits(call)

    def commits(self, call: Transaction) -> Sends:
        edges = united(ok.edges for ok in call.taken.values())
        if len(edges) > MOST_EDGES:
            # It has no spelling.
            return []
        facts: dict[TxnId, tuple[Edge, ...]] = {}
        for of, list_ in (fact for ok in call.taken.values() for fact in ok.facts):
            if of != call.id:
                facts.setdefault(of, list_)
        datagram = self.speller.commit(call.id, edges, front(facts))
        return [(shard, datagram) for shard in call.missing()]

    def take_commitok(self, call: Transaction, ok: CommitOk) -> Sends:
        if ok.shard in call.committed or ok.shard not in call.asked:
            return []
        if len(ok.outs) != sum(call.procedure.groups[number].outs for number in call.outs_on(ok.shard)):
            return []
        call.committed[ok.shard] = ok
        return [] if call.missing() else self.answered(call)

    def reads(self, call: View) -> Sends:
        groups = call.missing_groups()
        read = (call.id, call.round, call.procedure.number)
        return [(self.shard(call, number), self.speller.read(*read, number, call.arguments)) for number in groups]

    def take_readok(self, call: View, ok: ReadOk) -> Sends:
        if ok.round != call.round or ok.group in call.taken or ok.group >= len(call.procedure.groups):
            return []
        group = call.procedure.groups[ok.group]
        if ok.shard != self.shard(call, ok.group) or (len(ok.versions), len(ok.outs)) != (group.reads, group.outs):
            return []
        call.taken[ok.group] = ok
        return [] if call.missing_groups() else self.end_round(call)

    def end_round(self, call: View) -> Sends:
        found = call.versions()
        if found == call.before and not any(MOST_WRITES in versions for versions in found):
            return self.answered(call)
        if call.round == LAST_ROUND:
            return []
        call.before, call.round, call.taken = found, call.round + 1, {}
        return self.reads(call)

    def answered(self, call: Transaction | View) -> Sends:
        before = self.mark()
        del self.open[call.id.seq]
        self.answers[call.id.seq] = call.reply()
        return self.marks() if self.mark() // MARK_STEP > before // MARK_STEP else []

    def marks(self) -> Sends:
        mark = self.mark()
        return [(shard, self.speller.ended(mark)) for shard in range(self.workload.shards)] if mark else []
