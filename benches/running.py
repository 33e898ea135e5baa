"""What the benches that run nodes on loopback share: nodes as processes, what the system says of them, and the bytes of datagrams."""
from __future__ import annotations

import functools
import hashlib
import os
import socket
import subprocess
import sys

ROOT = os.path.join(os.path.dirname(os.path.abspath(__file__)), "..")
HOST = "127.0.0.1"
# The greatest number of turns: until the node is stopped or ended.
ENDLESS = 4294967295
# What a node asks of the system for what it has not received yet, in bytes.
ROOM = 4_194_304
START, COMMIT, FETCH, KNOWN, STOP, ENDED = 1, 3, 5, 6, 7, 8
SERVER, COORDINATOR = 0, 1


@functools.cache
def program() -> str:
    """The program itself, which `./rococo` proves and builds where it was not: so the time of a process has no part of the script's."""
    subprocess.run([os.path.join(ROOT, "rococo")], stdout=subprocess.DEVNULL, stderr=subprocess.DEVNULL)
    return os.path.join(ROOT, "crates", "rococo", "out", "rococo")


def count_word(default: int) -> int:
    return int(sys.argv[1]) if len(sys.argv) > 1 else default


def written(folder: str, name: str, text: str) -> str:
    path = os.path.join(folder, name)
    with open(path, "w", encoding="utf-8") as file:
        file.write(text)
    return path


def cluster(ports: list[int]) -> str:
    return "".join(f'[[shard]]\nnumber = {shard}\nhost = "{HOST}"\nport = {port}\n\n' for shard, port in enumerate(ports))


def serve(load: str, nodes: str, shard: int, more: tuple[str, ...] = ()) -> subprocess.Popen:
    """A server that counts, once its address is bound."""
    words = [program(), "serve", load, nodes, "--shard", str(shard), "--turns", str(ENDLESS), "--counts", *more]
    server = subprocess.Popen(words, stdout=subprocess.PIPE, text=True)
    if server.stdout.readline() != f"serving {shard}\n":
        sys.exit(f"the server of shard {shard} does not serve: is its port in use?")
    return server


def submit(load: str, nodes: str, requests: str, coordinator: int, turns: int = ENDLESS, output=subprocess.PIPE, more: tuple[str, ...] = ()) -> subprocess.Popen:
    words = [program(), "submit", load, nodes, requests, "--coord", str(coordinator), "--turns", str(turns), *more]
    return subprocess.Popen(words, stdout=output, text=True)


def stop(load: str, nodes: str) -> None:
    subprocess.run([program(), "stop", load, nodes], check=True)


def link(port: int = 0) -> socket.socket:
    made = socket.socket(socket.AF_INET, socket.SOCK_DGRAM)
    made.setsockopt(socket.SOL_SOCKET, socket.SO_RCVBUF, ROOM)
    made.bind((HOST, port))
    return made


def told_of_room() -> str:
    """A line that says how much the system grants; it tells twice of it, as half is for its own use."""
    with link() as made:
        granted = made.getsockopt(socket.SOL_SOCKET, socket.SO_RCVBUF) // 2
    less = "" if granted >= ROOM else f", less than the {ROOM} asked for: more is lost in bursts (sysctl net.core.rmem_max)"
    return f"receive buffer granted: {granted} bytes{less}"


def processor_seconds(process: subprocess.Popen) -> float:
    """What a process that runs has used of the processors."""
    with open(f"/proc/{process.pid}/stat", encoding="utf-8") as file:
        fields = file.read().rsplit(")", 1)[1].split()
    return (int(fields[11]) + int(fields[12])) / os.sysconf("SC_CLK_TCK")


def resident(process: subprocess.Popen, what: str = "VmRSS") -> float:
    """Megabytes that a process which runs holds; at most so far with `VmHWM`."""
    with open(f"/proc/{process.pid}/status", encoding="utf-8") as file:
        return next(int(line.split()[1]) for line in file if line.startswith(what)) / 1024


def tag_of(workload: str) -> bytes:
    return hashlib.sha256(workload.encode()).digest()[:8]


def header(tag: bytes, kind: int, role: int, sender: int) -> bytes:
    return b"RCO1\x02" + bytes([kind]) + tag + bytes([role]) + sender.to_bytes(2, "big")


def id_bytes(coordinator: int, sequence: int) -> bytes:
    return coordinator.to_bytes(2, "big") + sequence.to_bytes(4, "big")


def start(tag: bytes, coordinator: int, sequence: int, procedure: int, group: int, numbers: list[int]) -> bytes:
    body = b"".join(number.to_bytes(8, "big", signed=True) for number in numbers)
    counts = (procedure, group, len(numbers))
    front = header(tag, START, COORDINATOR, coordinator) + id_bytes(coordinator, sequence)
    return front + b"".join(count.to_bytes(2, "big") for count in counts) + body + b"\0\0"


def commit(tag: bytes, coordinator: int, sequence: int, edges: list[bytes]) -> bytes:
    front = header(tag, COMMIT, COORDINATOR, coordinator) + id_bytes(coordinator, sequence)
    return front + len(edges).to_bytes(2, "big") + b"".join(edges) + b"\0\0"
