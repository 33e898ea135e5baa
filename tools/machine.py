"""What a cluster file, the bytes of a workload and this machine tell, for the tools that start nodes."""
from __future__ import annotations

import hashlib
import os
import pathlib
import socket
import subprocess
import sys
import time
import tomllib

ROOM = 4_194_304
LOOK = 0.02
REFUSED = 2


class Fault(Exception):
    """What cannot be done, and the status that says so."""

    def __init__(self, text: str, status: int = REFUSED) -> None:
        super().__init__(text)
        self.status = status


def bytes_of(workload: str) -> str:
    return hashlib.sha256(pathlib.Path(workload).read_bytes()).hexdigest()


def is_running(pid: int) -> bool:
    try:
        os.kill(pid, 0)
        return pathlib.Path(f"/proc/{pid}/stat").read_text(encoding="utf-8").rsplit(")", 1)[1].split()[0] != "Z"
    except (ProcessLookupError, FileNotFoundError):
        return False


def told_of_room() -> str:
    """How much room the system grants for datagrams that are not received yet; it tells twice of it, as half is for its own use."""
    with socket.socket(socket.AF_INET, socket.SOCK_DGRAM) as made:
        made.setsockopt(socket.SOL_SOCKET, socket.SO_RCVBUF, ROOM)
        granted = made.getsockopt(socket.SOL_SOCKET, socket.SO_RCVBUF) // 2
    less = "" if granted >= ROOM else f", less than the {ROOM} asked for: bursts are lost (sysctl -w net.core.rmem_max={ROOM})"
    return f"receive buffer granted: {granted} bytes{less}"


def servers_in(cluster: str) -> dict[int, tuple[str, int]]:
    """Where the server of each shard is. What else is wrong with the file the servers say."""
    try:
        told = tomllib.loads(pathlib.Path(cluster).read_text(encoding="utf-8"))
        if not isinstance(told["shard"], list) or not told["shard"]:
            raise ValueError("a table [[shard]] for each shard")
        return {int(entry["number"]): (str(entry["host"]), int(entry["port"])) for entry in told["shard"]}
    except (tomllib.TOMLDecodeError, UnicodeDecodeError, KeyError, TypeError, ValueError) as fault:
        why = f"no {fault}" if isinstance(fault, KeyError) else fault
        raise Fault(f"{cluster}: no cluster file: {why} (docs/FAULTS.md, \"Cluster files\")") from fault


def follow(run: subprocess.Popen[bytes], output: pathlib.Path) -> None:
    """Shows what a run writes into a file, until it has ended. It writes to no pipe, so that it goes on, and is kept whole, if nobody reads here."""
    is_read = True
    with open(output, "rb") as file:
        while True:
            has_ended = run.poll() is not None
            more = file.read()
            try:
                if more and is_read:
                    sys.stdout.buffer.write(more)
                    sys.stdout.flush()
            except BrokenPipeError:
                is_read = False
                os.dup2(os.open(os.devnull, os.O_WRONLY), sys.stdout.fileno())
            if has_ended:
                return
            time.sleep(LOOK)
