"""Where the server of each shard is (docs/FORMATS.md, "Cluster files")."""
from __future__ import annotations

import ipaddress
import os
import tomllib
from pathlib import Path

from .errors import ClusterError

Address = tuple[str, int]


def addresses(path: str | os.PathLike[str], shards: int) -> list[Address]:
    """The address of each shard, by number. What the program refuses is refused here too."""
    try:
        told = tomllib.loads(Path(path).read_text(encoding="utf-8"))
    except OSError as fault:
        raise ClusterError(f"{path}: {fault.strerror}") from fault
    except (tomllib.TOMLDecodeError, UnicodeDecodeError) as fault:
        raise ClusterError(f"{path}: no cluster file: {fault}") from fault
    entries = told.get("shard")
    if set(told) != {"shard"} or not isinstance(entries, list):
        raise ClusterError(f"{path}: no cluster file: it has a table [[shard]] for each shard, and nothing else")
    found = dict(entry_of(path, entry) for entry in entries)
    if sorted(found) != list(range(shards)) or len(entries) != shards:
        raise ClusterError(f"{path}: it has other shards than the workload, which has {shards}: 0 to {shards - 1}, each once")
    return [found[shard] for shard in range(shards)]


def entry_of(path: str | os.PathLike[str], entry: object) -> tuple[int, Address]:
    if not isinstance(entry, dict) or set(entry) != {"number", "host", "port"}:
        raise ClusterError(f"{path}: no cluster file: a shard has a number, a host and a port, and nothing else")
    number, host, port = entry["number"], entry["host"], entry["port"]
    if type(number) is not int:
        raise ClusterError(f"{path}: no cluster file: number = {number!r} is no integer")
    if not is_address(host):
        raise ClusterError(f"{path}: no cluster file: host = {host!r} is no text of four numbers, as \"127.0.0.1\": names are not looked up")
    if type(port) is not int or not 0 < port < 65536:
        raise ClusterError(f"{path}: no cluster file: port = {port!r} is no integer from 1 to 65535")
    return number, (host, port)


def is_address(host: object) -> bool:
    try:
        return isinstance(host, str) and str(ipaddress.IPv4Address(host)) == host
    except ValueError:
        return False
