"""What a coordinator has to know of a workload: its procedures and their groups, as `check` and `print` tell them."""
from __future__ import annotations

import hashlib
import os
import re
import shutil
import subprocess
from dataclasses import dataclass, field
from pathlib import Path
from typing import Mapping, Sequence

from .errors import WorkloadError
from .expressions import Expression, expression, expressions

PROCEDURE = re.compile(r"proc (\w+)\((.*?)\) (view )?\{$")
PIECE = re.compile(r"  (?:now|later) (\w+) at (.*) \{$")
GET = re.compile(r"    get (\w+) = \w+\[(.*)\]\.\w+;$")
SET = re.compile(r"    set \w+\[([^=]*)\]\.\w+ = (.*);$")
OUT = re.compile(r"    out (.*);$")
GROUP = re.compile(r"group \d+ (immediate|deferrable) (.*)$")


@dataclass
class Piece:
    """A piece, as far as a coordinator looks at it."""

    name: str
    place: Expression
    binds: list[str] = field(default_factory=list)
    uses: set[str] = field(default_factory=set)
    outs: int = 0


@dataclass(frozen=True)
class Group:
    """Pieces of one procedure that run together on one shard."""

    pieces: tuple[Piece, ...]
    is_immediate: bool
    inputs: tuple[str, ...]

    @property
    def binds(self) -> list[str]:
        """The names whose values its startok carries: none where it has not run by then."""
        return [name for piece in self.pieces for name in piece.binds] if self.is_immediate else []

    @property
    def reads(self) -> int:
        """How many cells it reads."""
        return sum(len(piece.binds) for piece in self.pieces)

    @property
    def outs(self) -> int:
        return sum(piece.outs for piece in self.pieces)

    def place(self, values: Mapping[str, int]) -> int:
        return self.pieces[0].place.value(values)


@dataclass(frozen=True)
class Procedure:
    """A procedure by its number, with its pieces in program order."""

    name: str
    number: int
    arguments: tuple[str, ...]
    is_view: bool
    pieces: tuple[Piece, ...]
    groups: tuple[Group, ...]


def program_path(program: str | os.PathLike[str] | None) -> str:
    """The program to ask: the one given, that of `ROCOCO`, `rococo` on the path, or that of the checkout around this package."""
    given = program or os.environ.get("ROCOCO") or shutil.which("rococo")
    if given:
        return os.fspath(given)
    beside = Path(__file__).resolve().parents[3] / "rococo"
    if beside.is_file():
        return str(beside)
    raise WorkloadError("there is no program `rococo`: name it by `program` or by the variable ROCOCO")


def answer_of(words: Sequence[str]) -> str:
    try:
        ended = subprocess.run(words, capture_output=True, text=True, check=False)
    except OSError as fault:
        raise WorkloadError(f"{words[0]}: {fault.strerror}") from fault
    if ended.returncode:
        raise WorkloadError((ended.stdout + ended.stderr).strip() or f"{words[1]} ended with status {ended.returncode}")
    return ended.stdout


class Workload:
    """An accepted workload. `tag` is what its datagrams carry: the first 8 bytes of the SHA-256 (FIPS 180-4) of the file as it is."""

    def __init__(self, path: str | os.PathLike[str], program: str | os.PathLike[str] | None = None) -> None:
        asked = program_path(program)
        checked = answer_of([asked, "check", os.fspath(path)])
        printed = answer_of([asked, "print", os.fspath(path)])
        self.tag: bytes = hashlib.sha256(Path(path).read_bytes()).digest()[:8]
        self.shards: int = int(printed.split(";", 1)[0].split()[1])
        self.procedures: dict[str, Procedure] = procedures_of(printed, groups_of(checked))


def groups_of(checked: str) -> dict[str, list[tuple[bool, list[str]]]]:
    """Of each procedure the groups: whether each is immediate, and its pieces' names. A view's lines name none."""
    found: dict[str, list[tuple[bool, list[str]]]] = {}
    name = ""
    for line in checked.splitlines():
        if line.startswith("proc "):
            name = line.split()[1]
            found[name] = []
        elif group := GROUP.match(line):
            found[name].append((group[1] == "immediate", group[2].split()))
    return found


def procedures_of(printed: str, groups: dict[str, list[tuple[bool, list[str]]]]) -> dict[str, Procedure]:
    found: dict[str, Procedure] = {}
    pieces: list[Piece] = []
    head = None
    for line in printed.splitlines():
        if begun := PROCEDURE.match(line):
            head, pieces = begun, []
        elif line == "}" and head:
            arguments = tuple(word for word in head[2].split(",") if word)
            found[head[1]] = procedure(head[1], len(found), arguments, bool(head[3]), pieces, groups[head[1]])
            head = None
        elif head:
            add_line(pieces, line)
    return found


def add_line(pieces: list[Piece], line: str) -> None:
    """Adds what a line within a procedure says."""
    if begun := PIECE.match(line):
        place = expression(begun[2])
        pieces.append(Piece(begun[1], place, uses=place.names()))
    elif got := GET.match(line):
        pieces[-1].uses |= names_in(got[2])
        pieces[-1].binds.append(got[1])
    elif written := SET.match(line):
        pieces[-1].uses |= names_in(written[1]) | expression(written[2]).names()
    elif out := OUT.match(line):
        pieces[-1].uses |= expression(out[1]).names()
        pieces[-1].outs += 1


def names_in(keys: str) -> set[str]:
    return set().union(*(key.names() for key in expressions(keys)))


def procedure(name: str, number: int, arguments: tuple[str, ...], is_view: bool, pieces: list[Piece], told: list[tuple[bool, list[str]]]) -> Procedure:
    by_name = {piece.name: piece for piece in pieces}
    told = [(False, [piece.name]) for piece in pieces] if is_view else told
    groups = tuple(group([by_name[piece] for piece in names], is_immediate, pieces) for is_immediate, names in told)
    return Procedure(name, number, arguments, is_view, tuple(pieces), groups)


def group(own: list[Piece], is_immediate: bool, pieces: list[Piece]) -> Group:
    """Its inputs are the names of other groups that it uses, in the order in which the procedure binds them."""
    bound = {name for piece in own for name in piece.binds}
    used = set().union(*(piece.uses for piece in own))
    inputs = tuple(name for piece in pieces for name in piece.binds if name in used and name not in bound)
    return Group(tuple(own), is_immediate, inputs)
