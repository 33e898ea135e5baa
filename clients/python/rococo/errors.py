"""What goes wrong, as exceptions."""
from __future__ import annotations


class RococoError(Exception):
    """Whatever this package raises."""


class WorkloadError(RococoError):
    """`check` or `print` refused the workload, or there is no program to ask. The text is what it said."""


class ClusterError(RococoError):
    """The cluster file is none of the workload's."""


class StateError(RococoError):
    """The state file is of another workload or coordinator, is no state file, or another client holds it."""


class RefusedCall(RococoError):
    """There is no such procedure, it takes another count of arguments, an argument has more than 64 bits, or all sequence numbers are used."""


class Unanswered(RococoError, TimeoutError):
    """A call has no answer yet. It stays open: wait for it again, or let the next client of the same state bring it to its end.

    `shards` are those of which an answer is missing; the text names them."""

    def __init__(self, what: str, shards: list[int]) -> None:
        super().__init__(what)
        self.shards = shards
