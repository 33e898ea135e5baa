"""Transfers between drawn accounts, as `scale` and `beside_postgres` make them: the workload, the draws, and what the nodes of a run used."""
from __future__ import annotations

import os
import subprocess
import tempfile
import time
from collections.abc import Iterator
from dataclasses import dataclass

from delays import delayed
from lists import Lists
from running import cluster, resident, serve, stop, submit, written

AT_START = 1000
# Of one coordinator.
MOST_OPEN = 16
# The draws are those of "minimal standard" generators, whose numbers stay below 2^31, so that a script of pgbench can make them too.
FACTOR, MODULUS, STEP = 48_271, 2_147_483_647, 7_919
ENDS_WITHIN = 60


class Draws:
    """The numbers of one client, which follow from its own."""

    def __init__(self, client: int) -> None:
        self.state = (client + 1) * STEP

    def below(self, bound: int) -> int:
        self.state = self.state * FACTOR % MODULUS
        return self.state % bound

    def transfers(self, count: int, accounts: int) -> Iterator[tuple[int, int]]:
        for _ in range(count):
            yield self.below(accounts), self.below(accounts)


def workload(shards: int, accounts: int, table: str = "", procedures: str = "") -> str:
    """Transfers, and what else is asked for."""
    starts = "".join(f"init acct[{place},0].bal = {AT_START};\n" for place in range(accounts))
    return f"""shards {shards};
table acct {{ bal }}
{table}{starts}proc pay(f, t, n) {{
  later take at f {{ get b = acct[0].bal; set acct[0].bal = b - n; out b; }}
  later give at t {{ get d = acct[0].bal; set acct[0].bal = d + n; out d; }}
}}
{procedures}"""


def requests(coordinator: int, each: int, accounts: int) -> str:
    """The requests of sixteen clients, each with so many transfers, in turn: those that one coordinator has open at once."""
    clients = range(MOST_OPEN * coordinator, MOST_OPEN * (coordinator + 1))
    drawn = zip(*(Draws(client).transfers(each, accounts) for client in clients))
    return "".join(f"pay {giver} {taker} 1\n" for turn in drawn for giver, taker in turn)


def balances(clients: int, each: int, accounts: int) -> list[int]:
    """What the accounts hold once all of these clients' transfers are made, in whatever order."""
    held = [AT_START] * accounts
    for client in range(clients):
        for giver, taker in Draws(client).transfers(each, accounts):
            held[giver] -= 1
            held[taker] += 1
    return held


@dataclass
class Ran:
    """What came of a run: seconds by the clock, and processor seconds of each server and of all coordinators, and the megabytes of the largest server. A run that was ended is not whole."""

    answered: int
    seconds: float
    of_servers: list[float]
    of_clients: float
    megabytes: float
    is_whole: bool
    lists: Lists

    def rate(self) -> float:
        return self.answered / self.seconds


def is_over(process: subprocess.Popen) -> bool:
    """Whether a process has ended; it is not taken off the system's list by that."""
    return os.waitid(os.P_PID, process.pid, os.WEXITED | os.WNOHANG | os.WNOWAIT) is not None


def used_by(process: subprocess.Popen) -> float:
    """What a process that ends has used of the processors, in seconds."""
    _, status, used = os.wait4(process.pid, 0)
    process.returncode = os.waitstatus_to_exitcode(status)
    return used.ru_utime + used.ru_stime


def ended(processes: list[subprocess.Popen], deadline: float) -> bool:
    """Waits for all of them, and ends those that are not done by then: whether all were done."""
    while not all(map(is_over, processes)):
        if time.perf_counter() > deadline:
            for each in processes:
                each.kill()
            return False
        time.sleep(0.002)
    return True


def stopped(servers: list[subprocess.Popen], load: str, nodes: str) -> list[float]:
    """Stops all servers, and tells what each used. A stop that is lost is sent again."""
    deadline = time.perf_counter() + ENDS_WITHIN
    while not all(map(is_over, servers)) and time.perf_counter() < deadline:
        stop(load, nodes)
        time.sleep(0.05)
    ended(servers, deadline)
    return [used_by(it) for it in servers]


def answers(path: str) -> int:
    with open(path, encoding="utf-8") as file:
        return sum(line.startswith("answer ") for line in file)


@dataclass
class Asked:
    """A run: so many servers from this port on, and so many coordinators, each with the transfers of sixteen clients. It is ended after so many seconds.

    With a round trip, a network with this delay stands between all nodes. With logs, what they tell of the lists is told. With journals, servers wait for
    the disk."""

    shards: int
    coordinators: int
    each: int
    accounts: int
    port: int
    longest: float
    round_trip: float | None = None
    has_logs: bool = False
    has_journals: bool = False


def paid(asked: Asked) -> Ran:
    """Has the transfers made, on servers of their own."""
    ports = [asked.port + shard for shard in range(asked.shards)]
    with tempfile.TemporaryDirectory(prefix="rococo-transfers-") as folder:
        if asked.round_trip is None:
            return paid_by(asked, folder, ports, [ports] * (asked.shards + 1))
        with delayed(ports, asked.round_trip) as network:
            return paid_by(asked, folder, ports, [*(network.seen(shard, ports) for shard in range(asked.shards)), network.front])


def paid_by(asked: Asked, folder: str, ports: list[int], seen: list[list[int]]) -> Ran:
    """The same, where each server sees the others at these ports, and coordinators see them as the last entry says."""
    load = written(folder, "load.rcw", workload(asked.shards, asked.accounts))
    direct = written(folder, "nodes.toml", cluster(ports))
    clusters = [written(folder, f"{it}.toml", cluster(there)) for it, there in enumerate(seen)]
    requested = [written(folder, f"{it}.requests", requests(it, asked.each, asked.accounts)) for it in range(asked.coordinators)]
    told = [f"{folder}/{it}.told" for it in range(asked.coordinators)]
    logs = [f"{folder}/{node}.log" for node in [*(f"s{it}" for it in range(asked.shards)), *(f"c{it}" for it in range(asked.coordinators))]]
    more: list[tuple[str, ...]] = [("--log", it) if asked.has_logs else () for it in logs]
    if asked.has_journals:
        more[: asked.shards] = [("--journal", f"{folder}/s{it}.journal") for it in range(asked.shards)]
    servers = [serve(load, clusters[it], it, more[it]) for it in range(asked.shards)]
    runs: list[subprocess.Popen] = []
    try:
        began = time.perf_counter()
        for number in range(asked.coordinators):
            with open(told[number], "wb") as output:
                runs.append(submit(load, clusters[-1], requested[number], number, output=output, more=more[asked.shards + number]))
        is_whole = ended(runs, began + asked.longest)
        seconds = time.perf_counter() - began
        held = max(map(resident, servers))
        of_servers = stopped(servers, load, direct)
        found = Lists()
        if asked.has_logs:
            found.take(logs)
        return Ran(sum(map(answers, told)), seconds, of_servers, sum(map(used_by, runs)), held, is_whole, found)
    finally:
        for each in [*servers, *runs]:
            each.kill()
