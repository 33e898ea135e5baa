"""What a coordinator number has done so far, in a file: so that one number serves many runs, and a client that was killed is brought to its end by the next."""
from __future__ import annotations

import fcntl
import json
import os
from dataclasses import dataclass, field
from pathlib import Path
from typing import Any, TextIO

from .errors import StateError

FORMAT = 1

Said = tuple[str, list[int]]


@dataclass
class State:
    """The next sequence; the calls without a reply; and the replies that nobody was given yet. Calls are by sequence, with name and arguments."""

    tag: bytes
    coord: int
    next: int = 0
    open: dict[int, Said] = field(default_factory=dict)
    answered: dict[int, tuple[str, list[int], list[int]]] = field(default_factory=dict)

    def text(self) -> str:
        told = {"format": FORMAT, "tag": self.tag.hex(), "coord": self.coord, "next": self.next, "open": self.open, "answered": self.answered}
        return json.dumps(told) + "\n"


def state_of(text: str, tag: bytes, coord: int) -> State:
    try:
        told: dict[str, Any] = json.loads(text)
        if told["format"] != FORMAT:
            raise StateError(f"a state file of format {told['format']}, where {FORMAT} is read")
        if told["tag"] != tag.hex():
            raise StateError("a state file of another workload: the bytes of the workload's file are the cluster's name")
        if told["coord"] != coord:
            raise StateError(f"a state file of coordinator {told['coord']}")
        opened = {int(seq): (name, list(args)) for seq, (name, args) in told["open"].items()}
        answered = {int(seq): (name, list(args), list(reply)) for seq, (name, args, reply) in told["answered"].items()}
        return State(tag, coord, int(told["next"]), opened, answered)
    except (KeyError, TypeError, ValueError, AttributeError) as fault:
        raise StateError(f"no state file: {fault}") from fault


class StateFile:
    """A state file that no other client holds: a lock lies beside it, in `PATH.lock`, as long as this object is not closed.

    Each `save` writes a new file and renames it, so a client that is killed at any moment leaves the file of before or the new one. With
    `sync` the disk has it too when `save` returns, so that the same holds where the machine stops."""

    def __init__(self, path: str | os.PathLike[str], tag: bytes, coord: int, sync: bool = False) -> None:
        self.path, self.sync = Path(path), sync
        self.lock: TextIO | None = open(f"{self.path}.lock", "a", encoding="utf-8")
        try:
            fcntl.flock(self.lock, fcntl.LOCK_EX | fcntl.LOCK_NB)
            self.state = state_of(self.path.read_text(encoding="utf-8"), tag, coord) if self.path.exists() else State(tag, coord)
        except BlockingIOError:
            self.close()
            raise StateError(f"{self.path}: another client holds it") from None
        except StateError as fault:
            self.close()
            raise StateError(f"{self.path}: {fault}") from fault

    def save(self) -> None:
        new = f"{self.path}.new"
        with open(new, "w", encoding="utf-8") as file:
            file.write(self.state.text())
            if self.sync:
                file.flush()
                os.fsync(file.fileno())
        os.replace(new, self.path)
        if self.sync:
            self.sync_folder()

    def sync_folder(self) -> None:
        folder = os.open(self.path.parent, os.O_RDONLY)
        try:
            os.fsync(folder)
        finally:
            os.close(folder)

    def close(self) -> None:
        if self.lock:
            self.lock.close()
            self.lock = None
