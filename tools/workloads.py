"""What the tools for people read of a workload: the places of its words in the text as it was written, and its pieces in the canonical text."""
from __future__ import annotations

import os
import pathlib
import re
import subprocess
import sys
import tempfile
from dataclasses import dataclass, field

ROOT = pathlib.Path(__file__).resolve().parent.parent
TOKEN = re.compile(r"//[^\n]*|[A-Za-z]\w*|\d+|[{}()\[\],;.=+*-]|\S")
PROCEDURE = re.compile(r"proc (\w+)\((.*?)\) (view )?\{$")
PIECE = re.compile(r"  (now|later) (\w+) at (.*) \{$")
ACCESS = re.compile(r"    (?:get (\w+) = |set )(\w+)\[(.*?)\]\.(\w+)(?: = (.*))?;$")
WORD = re.compile(r"[A-Za-z]\w*")


def program_path() -> str:
    """The program to ask, which is proved and built first where it was not."""
    return os.environ.get("ROCOCO") or str(ROOT / "rococo")


def program(*words: str) -> subprocess.CompletedProcess[str]:
    """What the program answers."""
    return subprocess.run([program_path(), *words], stdout=subprocess.PIPE, stderr=subprocess.PIPE, encoding="utf-8", errors="replace", check=False)


def check_text(text: str) -> subprocess.CompletedProcess[str]:
    """What `check` says of a text."""
    return asked_of("check", text)


def asked_of(command: str, text: str) -> subprocess.CompletedProcess[str]:
    with tempfile.NamedTemporaryFile("wb", suffix=".rcw") as file:
        file.write(text.encode("utf-8", "surrogateescape"))
        file.flush()
        return program(command, file.name)


@dataclass(frozen=True)
class Token:
    """A token of a text, with its line and column, both counted from 1, and the place in the text behind it."""

    text: str
    line: int
    column: int
    end: int


def tokens_of(text: str) -> list[Token]:
    """The tokens of a text without its comments; what is no token stands by itself, a byte each."""
    found = []
    for match in TOKEN.finditer(text):
        if not match[0].startswith("//"):
            begin = text.rfind("\n", 0, match.start()) + 1
            found.append(Token(match[0], text.count("\n", 0, match.start()) + 1, match.start() - begin + 1, match.end()))
    return found


def pieces_in(text: str) -> dict[str, Token]:
    """Where the name of each piece stands, by `PROCEDURE.PIECE`."""
    found: dict[str, Token] = {}
    tokens = tokens_of(text)
    of = ""
    for word, name, at in zip(tokens, tokens[1:], tokens[2:]):
        if word.text == "proc":
            of = name.text
        elif word.text in ("now", "later") and at.text == "at":
            found.setdefault(f"{of}.{name.text}", name)
    return found


@dataclass
class Piece:
    """A piece of the canonical text, with the number of its first line there, from 0; what it does to each column, and which names."""

    procedure: str
    name: str
    declared: str
    place: str
    line: int
    reads: set[str] = field(default_factory=set)
    writes: set[str] = field(default_factory=set)
    binds: list[str] = field(default_factory=list)
    uses: set[str] = field(default_factory=set)

    @property
    def full_name(self) -> str:
        return f"{self.procedure}.{self.name}"

    def touches(self) -> set[str]:
        return self.reads | self.writes


class Canonical:
    """A workload by its canonical text, as `print` writes it."""

    def __init__(self, text: str) -> None:
        self.lines = text.splitlines()
        self.views: set[str] = set()
        self.arguments: dict[str, list[str]] = {}
        self.pieces: dict[str, Piece] = {}
        procedure, piece = "", None
        for number, line in enumerate(self.lines):
            if begun := PROCEDURE.match(line):
                procedure = begun[1]
                self.arguments[procedure] = [word for word in begun[2].split(",") if word]
                self.views |= {procedure} if begun[3] else set()
            elif begun := PIECE.match(line):
                piece = Piece(procedure, begun[2], begun[1], begun[3], number, uses=set(WORD.findall(begun[3])))
                self.pieces[piece.full_name] = piece
            elif piece and line.startswith("    "):
                add_statement(piece, line)

    def of(self, procedure: str) -> list[Piece]:
        return [piece for piece in self.pieces.values() if piece.procedure == procedure]

    def body(self, piece: Piece) -> range:
        """The numbers of the lines of a piece's statements."""
        end = next(at for at in range(piece.line, len(self.lines)) if self.lines[at] == "  }")
        return range(piece.line + 1, end)

    def with_lines(self, changed: dict[int, str]) -> str:
        return "".join(f"{changed.get(number, line)}\n" for number, line in enumerate(self.lines))

    def declared(self, piece: Piece, word: str, place: str) -> dict[int, str]:
        """The line of a piece with another declaration or place."""
        return {piece.line: f"  {word} {piece.name} at {place} {{"}


def add_statement(piece: Piece, line: str) -> None:
    access = ACCESS.match(line)
    if not access:
        piece.uses |= set(WORD.findall(line.split("out", 1)[1]))
        return
    bound, table, keys, column, value = access.groups()
    piece.uses |= set(WORD.findall(keys)) | set(WORD.findall(value or ""))
    (piece.reads if bound else piece.writes).add(f"{table}.{column}")
    piece.binds += [bound] if bound else []


@dataclass
class Classes:
    """The class of each piece, and which pieces conflict: as `check` says of the text with all its places made one, which it never refuses."""

    classes: dict[str, str] = field(default_factory=dict)
    conflicts: list[tuple[str, str]] = field(default_factory=list)

    def with_whom(self, name: str) -> list[str]:
        return [other if one == name else one for one, other in self.conflicts if name in (one, other)]


def classes_of(canonical: Canonical) -> Classes:
    changed: dict[int, str] = {}
    for piece in canonical.pieces.values():
        changed |= canonical.declared(piece, piece.declared, "0")
    told = check_text(canonical.with_lines(changed))
    if told.returncode:
        sys.exit(f"the workload at one place is refused: {told.stdout}{told.stderr}")
    found = Classes()
    procedure = ""
    for words in map(str.split, told.stdout.splitlines()):
        if words[0] == "proc":
            procedure = words[1]
        elif words[0] == "piece":
            found.classes[f"{procedure}.{words[1]}"] = words[2]
        elif words[0] == "conflict":
            found.conflicts.append((words[1], words[2]))
    return found
