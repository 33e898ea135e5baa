"""Brings a run of `submit` that ended early to its end, out of what it wrote."""
from __future__ import annotations

import os
from pathlib import Path

from .errors import StateError
from .state import State


def left_by(output: str | os.PathLike[str], tag: bytes, coord: int) -> State:
    """What a run of `submit` with this number left, as the lines say that it wrote before it ended. A last line without its end was not written
    whole, so nothing of it was sent, and it counts for nothing."""
    state = State(tag, coord)
    text = Path(output).read_text(encoding="utf-8")
    for number, line in enumerate(text.split("\n")[:-1], 1):
        match line.split():
            case ["submit", id, name, *arguments]:
                seq = sequence(id, coord, output, number)
                state.open[seq] = (name, [int(value) for value in arguments])
                state.next = max(state.next, seq + 1)
            case ["answer", id, *_]:
                state.open.pop(sequence(id, coord, output, number), None)
            case ["unanswered", _] | ["end", *_]:
                pass
            case _:
                raise StateError(f"{output}:{number}: no line of `submit`")
    return state


def sequence(id: str, coord: int, output: str | os.PathLike[str], number: int) -> int:
    of, _, seq = id.partition(".")
    if of != str(coord) or not seq.isdigit():
        raise StateError(f"{output}:{number}: {id} is no call of coordinator {coord}")
    return int(seq)
