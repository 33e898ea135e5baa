"""A server of PostgreSQL 15 of a bench's own: in a temporary folder, on a Unix socket alone, and stopped at the end; and runs of pgbench on it."""
from __future__ import annotations

import contextlib
import os
import pwd
import re
import shutil
import subprocess
import sys
import tempfile
import time
from collections.abc import Iterator
from dataclasses import dataclass
from typing import Any

import transfers
from running import written

PLACES = ["/usr/lib/postgresql/15/bin", "/usr/local/bin", *os.environ.get("PATH", "").split(":")]
NEEDED = ("initdb", "pg_ctl", "postgres", "psql", "pgbench")
# PostgreSQL refuses to be run by root.
USER = "postgres"
LOCKED, SERIALIZABLE = "row locks", "serializable"
THREADS = 4
MOST_TRIES = 1_000_000
# Small tables are read by their index, and locks of serializable transactions stay those of rows: both spare it false conflicts.
SETTINGS = """listen_addresses = ''
max_connections = 400
shared_buffers = 128MB
enable_seqscan = off
max_pred_locks_per_page = 64
max_pred_locks_per_transaction = 256
"""
NO_DISK = """fsync = off
synchronous_commit = off
full_page_writes = off
"""
# Each transfer is one call, and so one transaction: what a transfer of the workload does, with the same reply. Rows are written in the order of their
# numbers, so that no two transfers wait for one another: PostgreSQL finds such a deadlock after a second.
TABLE = """CREATE TABLE acct (id bigint PRIMARY KEY, bal bigint NOT NULL) WITH (fillfactor = 50);
CREATE FUNCTION pay(f bigint, t bigint, n bigint, OUT b bigint, OUT d bigint) LANGUAGE plpgsql AS $$
BEGIN
  SELECT bal INTO STRICT b FROM acct WHERE id = f;
  IF f = t THEN
    d := b - n;
    UPDATE acct SET bal = d + n WHERE id = t;
    RETURN;
  END IF;
  SELECT bal INTO STRICT d FROM acct WHERE id = t;
  UPDATE acct SET bal = CASE WHEN f < t THEN b - n ELSE d + n END WHERE id = least(f, t);
  UPDATE acct SET bal = CASE WHEN f < t THEN d + n ELSE b - n END WHERE id = greatest(f, t);
END $$;
CREATE FUNCTION pay_locked(f bigint, t bigint, n bigint, OUT b bigint, OUT d bigint) LANGUAGE plpgsql AS $$
BEGIN
  PERFORM 1 FROM acct WHERE id = least(f, t) FOR UPDATE;
  PERFORM 1 FROM acct WHERE id = greatest(f, t) FOR UPDATE;
  SELECT p.b, p.d INTO b, d FROM pay(f, t, n) p;
END $$;
"""
CALLS = {LOCKED: ("pay_locked", "read committed"), SERIALIZABLE: ("pay", "serializable")}


def found() -> dict[str, str]:
    """Where the programs of PostgreSQL 15 are."""
    paths = {name: next((f"{place}/{name}" for place in PLACES if os.access(f"{place}/{name}", os.X_OK)), None) for name in NEEDED}
    missing = [name for name, path in paths.items() if path is None]
    if missing:
        sys.exit(f"PostgreSQL 15 is not here ({', '.join(missing)}): on Debian 12, apt-get install postgresql-15")
    version = subprocess.run([str(paths["postgres"]), "--version"], capture_output=True, text=True, check=True).stdout
    if " 15" not in version:
        sys.exit(f"PostgreSQL 15 is wanted, and this is {version.strip()}: on Debian 12, apt-get install postgresql-15")
    return {name: str(path) for name, path in paths.items()}


def script(call: str, accounts: int) -> str:
    """A transfer as pgbench makes it, with the draws of `transfers.Draws`. The state goes on behind the call alone: a transfer that is tried again is the same."""
    return rf"""\if :draw = 0
\set draw ((:client_id + 1) * {transfers.STEP * transfers.FACTOR}) % {transfers.MODULUS}
\endif
\set f :draw % {accounts}
\set next (:draw * {transfers.FACTOR}) % {transfers.MODULUS}
\set t :next % {accounts}
SELECT * FROM {call}(:f, :t, 1);
\set draw (:next * {transfers.FACTOR}) % {transfers.MODULUS}
"""


@dataclass
class Ran:
    """What came of a run: how many transfers are made, how often one was given up and tried again, and the processor seconds of the server and of pgbench."""

    answered: int
    given_up: int
    seconds: float
    of_server: float
    of_clients: float
    is_whole: bool

    def rate(self) -> float:
        return self.answered / self.seconds


class Server:
    """A server that runs."""

    def __init__(self, folder: str, programs: dict[str, str], user: str | None) -> None:
        self.folder, self.programs, self.user = folder, programs, user
        self.data = f"{folder}/data"

    def run(self, name: str, *words: str, **how: Any) -> subprocess.CompletedProcess:
        return subprocess.run([self.programs[name], *words], user=self.user, cwd=self.folder, text=True, **how)

    def start(self, settings: str) -> None:
        self.run("initdb", "-D", self.data, "-A", "trust", "--no-sync", "-U", USER, capture_output=True, check=True)
        with open(f"{self.data}/postgresql.conf", "a", encoding="utf-8") as file:
            file.write(f"{settings}unix_socket_directories = '{self.folder}'\n")
        self.run("pg_ctl", "-D", self.data, "-l", f"{self.folder}/log", "-w", "start", stdout=subprocess.DEVNULL, check=True)
        with open(f"{self.data}/postmaster.pid", encoding="utf-8") as file:
            self.process = int(file.readline())

    def stop(self) -> None:
        self.run("pg_ctl", "-D", self.data, "-m", "immediate", "-w", "stop", stdout=subprocess.DEVNULL, check=False)

    def query(self, text: str) -> list[list[int]]:
        asked = ["-h", self.folder, "-U", USER, "-d", "postgres", "-X", "-A", "-t", "-q", "-v", "ON_ERROR_STOP=1", "-c", text]
        told = self.run("psql", *asked, capture_output=True, check=True).stdout
        return [[int(word) for word in line.split("|")] for line in told.splitlines() if line]

    def fill(self, accounts: int) -> None:
        self.query(f"TRUNCATE acct; INSERT INTO acct SELECT it, {transfers.AT_START} FROM generate_series(0, {accounts - 1}) it")
        self.query("VACUUM ANALYZE acct")

    def used(self) -> float:
        """Processor seconds of the server with all its processes that have ended."""
        with open(f"/proc/{self.process}/stat", encoding="utf-8") as file:
            fields = file.read().rsplit(")", 1)[1].split()
        return sum(map(int, fields[11:15])) / os.sysconf("SC_CLK_TCK")

    def counted(self) -> list[int]:
        """How many transactions were made, and how many were given up."""
        return self.query("SELECT xact_commit, xact_rollback FROM pg_stat_database WHERE datname = 'postgres'")[0]

    def bench(self, way: str, path: str, clients: int, each: int) -> subprocess.Popen:
        """Runs pgbench: one connection for each client, with one transfer open at a time."""
        words = ["-h", self.folder, "-U", USER, "-n", "-M", "prepared", "-f", path, "-D", "draw=0", "-c", str(clients), "-j", str(min(THREADS, clients))]
        words += ["-t", str(each), "--max-tries", str(MOST_TRIES), "postgres"]
        how = {**os.environ, "PGOPTIONS": f"-c default_transaction_isolation={CALLS[way][1].replace(' ', chr(92) + ' ')}"}
        return subprocess.Popen([self.programs["pgbench"], *words], user=self.user, cwd=self.folder, env=how, stdout=subprocess.PIPE, stderr=subprocess.PIPE, text=True)

    def paid(self, way: str, accounts: int, clients: int, each: int, longest: float) -> Ran:
        """The transfers of so many clients. Where all are made, each account has to hold what it has to."""
        self.fill(accounts)
        path = written(self.folder, "pay.sql", script(CALLS[way][0], accounts))
        commits, rolled_back = self.counted()
        before, began = self.used(), time.perf_counter()
        process = self.bench(way, path, clients, each)
        is_whole = transfers.ended([process], began + longest)
        seconds = time.perf_counter() - began
        told, faults = process.stdout.read(), process.stderr.read()
        of_clients = transfers.used_by(process)
        if is_whole and process.returncode:
            sys.exit(f"pgbench: status {process.returncode}\n{faults}")
        self.await_quiet()
        answered, given_up = (now - then for now, then in zip(self.counted(), (commits, rolled_back)))
        if is_whole:
            answered = clients * each
            seconds = answered / float(re.search(r"tps = ([0-9.]+)", told)[1])
            self.hold(transfers.balances(clients, each, accounts))
        return Ran(answered, given_up, seconds, self.used() - before, of_clients, is_whole)

    def hold(self, wanted: list[int]) -> None:
        if [row[0] for row in self.query("SELECT bal FROM acct ORDER BY id")] != wanted:
            sys.exit("PostgreSQL's accounts do not hold what the transfers leave: they were others")

    def await_quiet(self) -> None:
        """Until the connections of a run that was ended are gone."""
        while self.query("SELECT count(*) FROM pg_stat_activity WHERE backend_type = 'client backend'")[0][0] > 1:
            time.sleep(0.05)


@contextlib.contextmanager
def serving(waits_for_disk: bool) -> Iterator[Server]:
    """A server in a folder that only it and its clients use, as another user where root runs the bench."""
    programs = found()
    user = USER if os.geteuid() == 0 else None
    with tempfile.TemporaryDirectory(prefix="rococo-postgres-") as folder:
        if user:
            if user not in {it.pw_name for it in pwd.getpwall()}:
                sys.exit(f"PostgreSQL is not run by root, and there is no user {user}: run the bench as another user")
            shutil.chown(folder, user)
        server = Server(folder, programs, user)
        try:
            server.start(SETTINGS if waits_for_disk else SETTINGS + NO_DISK)
            server.query(TABLE)
            yield server
        finally:
            server.stop()
