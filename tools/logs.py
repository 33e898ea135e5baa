"""What `tools/explain_audit` reads of logs of nodes: their lines, the messages of their datagrams, and where each group ran on a server."""
from __future__ import annotations

import pathlib
import sys
from dataclasses import dataclass, field
from typing import Iterator, NamedTuple

# In a checkout, and where it is installed.
for clients in ("clients/python", "clients"):
    sys.path.insert(0, str(pathlib.Path(__file__).resolve().parent.parent / clients))
from rococo.expressions import Expression, expressions  # noqa: E402
from rococo.messages import Edge, Fields, TxnId  # noqa: E402
from rococo.workload import Procedure, Workload  # noqa: E402
from workloads import ACCESS, PIECE, PROCEDURE, ROOT, program, program_path  # noqa: E402

KINDS = "start startok commit commitok fetch known stop ended settled read readok drained switched".split()
HEADER = 14
MOST_ARGUMENTS = 8


class Unexplained(Exception):
    """What cannot be explained."""


class Cell(NamedTuple):
    table: str
    place: int
    id: tuple[int, ...]
    column: str

    def __str__(self) -> str:
        return f"{self.table}[{','.join(map(str, (self.place, *self.id)))}].{self.column}"


@dataclass(frozen=True)
class Message:
    """A message of a datagram: its kind's word, and its fields by name."""

    kind: str
    fields: dict

    def __getattr__(self, name: str):
        return self.fields[name]


def message_of(digits: str) -> Message:
    """The message of a datagram in a log, which is one: the program has judged it."""
    bytes_ = bytes.fromhex(digits)
    kind = KINDS[bytes_[5] - 1]
    read = Fields(bytes_[HEADER:])
    role, number = read.number("B"), read.number("H")
    return Message(kind, {"sender": ("s" if role == 0 else "c") + str(number), **body(kind, read)})


def body(kind: str, read: Fields) -> dict:
    if kind == "stop":
        return {}
    if kind == "ended":
        return {"coord": read.number("H"), "mark": read.number("I")}
    id = read.id()
    match kind:
        case "start":
            return {"id": id, "proc": read.number("H"), "group": read.number("H"), "args": read.numbers("q", MOST_ARGUMENTS), "inputs": read.numbers("q", 1024)}
        case "startok":
            return {"id": id, "group": read.number("H"), "shard": read.shard(), "bound": read.numbers("q", 1024), "outs": read.numbers("q", 1024), "edges": read.edges(),
                    "facts": read.facts()}
        case "commit":
            return {"id": id, "edges": read.edges(), "facts": read.facts()}
        case "commitok":
            return {"id": id, "shard": read.shard(), "outs": read.numbers("q", 1024)}
        case "fetch":
            return {"id": id, "asker": read.shard()}
        case "known":
            return {"id": id, "edges": read.edges()}
        case "settled":
            return {"id": id, "mark": read.number("I")}
        case "read":
            return {"id": id, "round": read.number("I"), "proc": read.number("H"), "group": read.number("H"), "args": read.numbers("q", MOST_ARGUMENTS)}
        case "readok":
            return {"id": id, "round": read.number("I"), "group": read.number("H"), "shard": read.shard(), "versions": read.numbers("Q", 64), "outs": read.numbers("q", 1024)}
        case "switched":
            return {"id": id, "shard": read.shard()}
    return {"id": id}


def told(value: object) -> str:
    """A field as people read it."""
    match value:
        case Edge(id, tags, shard):
            return f"{id}{('', ' immediate', ' deferrable', ' both')[tags]} s{shard}"
        case TxnId():
            return str(value)
        case tuple():
            return "(" + ", ".join(told(it) for it in value) + ")"
    return str(value)


def in_words(line: str) -> str:
    """A line of a log with its datagram taken apart."""
    word, _, rest = line.partition(" ")
    if word not in ("in", "out"):
        return line
    message = message_of(rest)
    fields = ", ".join(f"{name} {told(value)}" for name, value in message.fields.items() if name != "sender")
    return f"{word} {message.kind} from {message.sender}" + (f": {fields}" if fields else "")


@dataclass
class Log:
    """A log by its file, with its node and its lines; line 1 says the node."""

    file: str
    node: str
    lines: list[str]

    @staticmethod
    def read(file: str) -> Log:
        lines = pathlib.Path(file).read_bytes().decode("ascii", "replace").split("\n")
        if not lines[0].startswith("node "):
            raise Unexplained(f"{file} is not what was judged: it can be read only once, or was changed meanwhile")
        return Log(file, lines[0].split(" ")[1], lines[:-1] if lines[-1] == "" else lines)

    def numbered(self, *words: str) -> Iterator[tuple[int, str]]:
        """The lines that begin with one of these words, with their numbers."""
        return ((number, line) for number, line in enumerate(self.lines, 1) if line.split(" ", 1)[0] in words)

    def submitted(self) -> Iterator[tuple[TxnId, int]]:
        coord = int(self.node[1:])
        return ((TxnId(coord, seq), number) for seq, (number, _) in enumerate(self.numbered("submit")))

    def answered(self) -> Iterator[tuple[TxnId, int]]:
        for number, line in self.numbered("answer"):
            coord, seq = line.split(" ")[1].split(".")
            yield TxnId(int(coord), int(seq)), number

    def is_of_server(self) -> bool:
        return self.node[0] == "s"


@dataclass
class Ran:
    """Groups of a transaction that ran on a server, or that are yet to run there: what they access, whether they write it, and the line at which they ran."""

    id: TxnId
    accesses: dict[Cell, bool]
    line: int | None


class Store:
    """A workload, as far as accesses are read off it."""

    def __init__(self, path: str) -> None:
        self.workload = Workload(path, program_path())
        self.by_number: dict[int, Procedure] = {it.number: it for it in self.workload.procedures.values()}
        self.statements = statements_of(program("print", path).stdout)

    def accesses(self, start: Message, bound: tuple[int, ...]) -> dict[Cell, bool]:
        """The cells of a started group, and whether it writes each. A key may be a value that an earlier piece of the group has bound, as its startok says."""
        procedure = self.by_number[start.proc]
        group = procedure.groups[start.group]
        values = {**dict(zip(procedure.arguments, start.args)), **dict(zip(group.inputs, start.inputs)), **dict(zip(group.binds, bound))}
        found: dict[Cell, bool] = {}
        for piece in group.pieces:
            for writes, table, ids, column in self.statements[procedure.name, piece.name]:
                cell = Cell(table, piece.place.value(values), tuple(it.value(values) for it in ids), column)
                found[cell] = found.get(cell, False) or writes
        return found

    def is_immediate(self, start: Message) -> bool:
        return self.by_number[start.proc].groups[start.group].is_immediate


def statements_of(printed: str) -> dict[tuple[str, str], list[tuple[bool, str, tuple[Expression, ...], str]]]:
    """Of each piece its accesses in order: whether it writes, the table, the id's expressions and the column."""
    found: dict[tuple[str, str], list] = {}
    procedure = piece = ""
    for line in printed.splitlines():
        if begun := PROCEDURE.match(line):
            procedure = begun[1]
        elif begun := PIECE.match(line):
            piece = begun[2]
            found[procedure, piece] = []
        elif access := ACCESS.match(line):
            found[procedure, piece].append((access[1] is None, access[2], expressions(access[3]), access[4]))
    return found


@dataclass
class Served:
    """What a server's log tells of groups, in the order in which they ran."""

    log: Log
    ran: list[Ran] = field(default_factory=list)
    waiting: dict[TxnId, Ran] = field(default_factory=dict)
    started: dict[tuple[TxnId, int], int] = field(default_factory=dict)
    decided: dict[TxnId, int] = field(default_factory=dict)


def served(store: Store, log: Log) -> Served:
    """An immediate group runs as its start is answered. The others of a transaction run where its first `commitok` is sent: each decided transaction with a
    group on the server is sent one, in the order in which they are decided."""
    found = Served(log)
    came: Message | None = None
    at = 0
    for number, line in log.numbered("in", "tick", "out"):
        word, _, digits = line.partition(" ")
        if word != "out":
            came, at = message_of(digits) if digits else None, number
            continue
        sent = message_of(digits)
        if sent.kind == "startok" and came and came.kind == "start" and (sent.id, sent.group) not in found.started:
            begin(store, found, came, sent, at)
        elif sent.kind == "commitok" and sent.id not in found.decided:
            found.decided[sent.id] = number
            if waited := found.waiting.pop(sent.id, None):
                found.ran.append(Ran(waited.id, waited.accesses, number))
    return found


def begin(store: Store, found: Served, start: Message, ok: Message, at: int) -> None:
    found.started[start.id, start.group] = at
    accesses = store.accesses(start, ok.bound)
    if store.is_immediate(start):
        found.ran.append(Ran(start.id, accesses, at))
        return
    waits = found.waiting.setdefault(start.id, Ran(start.id, {}, None))
    for cell, writes in accesses.items():
        waits.accesses[cell] = waits.accesses.get(cell, False) or writes
