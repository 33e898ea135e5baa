"""Servers and runs of `submit` on loopback, for the tests."""
from __future__ import annotations

import contextlib
import os
import socket
import subprocess
import tempfile
from pathlib import Path
from typing import Iterator

from rococo.workload import program_path

ROOT = Path(__file__).resolve().parents[3]
HOST = "127.0.0.1"
ENDLESS = "4294967295"
# Transfers and views over three shards; a sale of which the second group takes what the first has bound; and two pieces that are one group.
WORKLOAD = """shards 3;
table acct { bal }
table item[2] { left, sold }
table turn { n }
table told { n }
init acct[0,0].bal = 100; init acct[1,0].bal = 100; init acct[2,0].bal = 100;
init item[0,1,1].left = 5;
proc pay(f,t,n) {
  later take at f { get b = acct[0].bal; set acct[0].bal = b - n; out b; }
  later give at t { get d = acct[0].bal; set acct[0].bal = d + n; out d; }
}
proc sell(s,i,k,c) {
  now look at s { get l = item[i,k].left; set item[i,k].left = l - less(0, l); out l; }
  later book at c { get x = item[c,0].sold; set item[c,0].sold = x + less(0, l) * min(k, l + 3 - (k - l)); out x; out l; }
}
proc next(p,q) {
  now r at p { get u = turn[0].n; }
  now w at p { set turn[0].n = u + 1; }
  later l at q + u { get v = told[0].n; set told[0].n = pick(v, v - u, u); out v; }
}
proc sum(a,b,c) view {
  later x at a { get u = acct[0].bal; out u; }
  later y at b { get v = acct[0].bal; get w = item[b,0].sold; out v + w; }
  later z at c { get s = told[0].n; out s; out 7; }
}
"""


def cluster_text(ports: list[int]) -> str:
    return "".join(f'[[shard]]\nnumber = {shard}\nhost = "{HOST}"\nport = {port}\n\n' for shard, port in enumerate(ports))


def free_ports(count: int) -> list[int]:
    with contextlib.ExitStack() as held:
        sockets = [held.enter_context(socket.socket(socket.AF_INET, socket.SOCK_DGRAM)) for _ in range(count)]
        for it in sockets:
            it.bind((HOST, 0))
        return [it.getsockname()[1] for it in sockets]


class Life:
    """Servers of a workload from their start to their end, with their files in a folder."""

    def __init__(self, folder: str, text: str = WORKLOAD, shards: int = 3) -> None:
        self.folder = Path(folder)
        self.program = program_path(None)
        self.workload = self.file("store.rcw", text)
        self.ports = free_ports(shards)
        self.cluster = self.file("store.toml", cluster_text(self.ports))
        self.servers = [self.serve(shard) for shard in range(shards)]

    def file(self, name: str, text: str) -> str:
        path = self.folder / name
        path.write_text(text, encoding="utf-8")
        return str(path)

    def serve(self, shard: int) -> subprocess.Popen[str]:
        words = [self.program, "serve", self.workload, self.cluster, "--shard", str(shard), "--turns", ENDLESS]
        server = subprocess.Popen(words, stdout=subprocess.PIPE, text=True)
        assert server.stdout and server.stdout.readline() == f"serving {shard}\n"
        return server

    def submit(self, requests: list[str], coord: int, cluster: str | None = None, turns: str = ENDLESS, output: str | None = None) -> subprocess.Popen[str]:
        asked = self.file(f"requests{coord}", "".join(f"{it}\n" for it in requests))
        words = [self.program, "submit", self.workload, cluster or self.cluster, asked, "--coord", str(coord), "--turns", turns]
        with contextlib.ExitStack() as held:
            out = held.enter_context(open(output, "w", encoding="utf-8")) if output else subprocess.PIPE
            return subprocess.Popen(words, stdout=out, text=True)

    def stop(self) -> None:
        subprocess.run([self.program, "stop", self.workload, self.cluster], check=True)
        for server in self.servers:
            try:
                server.wait(5)
            except subprocess.TimeoutExpired:
                server.kill()
            if server.stdout:
                server.stdout.close()


@contextlib.contextmanager
def life(text: str = WORKLOAD, shards: int = 3) -> Iterator[Life]:
    with tempfile.TemporaryDirectory(prefix="rococo-client-") as folder:
        made = Life(folder, text, shards)
        try:
            yield made
        finally:
            made.stop()


def environment() -> dict[str, str]:
    """What a process of this package needs to find it, and the program."""
    return {**os.environ, "PYTHONPATH": str(Path(__file__).resolve().parents[1]), "ROCOCO": program_path(None)}
