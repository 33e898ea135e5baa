"""Clients of real servers: calls, what a killed client leaves, state files, rescues, and clusters of clients and runs of `submit` together."""
from __future__ import annotations

import json
import os
import random
import signal
import subprocess
import sys
import threading
import time
import unittest
from pathlib import Path

from rococo import Client, RefusedCall, StateError, Unanswered, Workload, WorkloadError

from .nodes import Life, cluster_text, environment, free_ports, life
from .recorder import Proxy

BEGUN = 300
TRANSFERS = int(os.environ.get("ROCOCO_TRANSFERS", "800"))


def module(*words: str) -> list[str]:
    return [sys.executable, "-m", "rococo", *words]


def total(client: Client) -> int:
    """What the three accounts hold together, as a view finds it."""
    return sum(client.call("balances", 0, 1, 2, timeout=120))


BANK = """shards 3;
table acct { bal }
init acct[0,0].bal = 100; init acct[1,0].bal = 100; init acct[2,0].bal = 100;
proc pay(f,t,n) {
  later take at f { get b = acct[0].bal; set acct[0].bal = b - n; out b; }
  later give at t { get d = acct[0].bal; set acct[0].bal = d + n; out d; }
}
proc balances(a,b,c) view {
  later x at a { get u = acct[0].bal; out u; }
  later y at b { get v = acct[0].bal; out v; }
  later z at c { get w = acct[0].bal; out w; }
}
"""


def drawn_payments(count: int, seed: int) -> list[str]:
    source = random.Random(seed)
    return [f"pay {source.randrange(3)} {source.randrange(3)} {source.randrange(50)}" for _ in range(count)]


class Calls(unittest.TestCase):
    def test_calls_in_turn(self) -> None:
        with life(BANK) as servers, Client(servers.workload, servers.cluster, 0, f"{servers.folder}/state") as client:
            self.assertEqual(client.call("pay", 0, 1, 30), [100, 100])
            self.assertEqual(client.call("pay", 1, 2, 5), [130, 100])
            self.assertEqual(client.call("balances", 0, 1, 2), [70, 125, 105])
            self.assertEqual(client.call("pay", 0, 0, -(2**63)), [70, 70 - (-(2**63)) - 2**64])

    def test_more_calls_than_may_be_open(self) -> None:
        with life(BANK) as servers, Client(servers.workload, servers.cluster, 3, None) as client:
            calls = [client.submit("pay", at % 3, (at + 1) % 3, at) for at in range(100)]
            client.drain(20)
            self.assertTrue(all(call.reply is not None for call in calls))
            self.assertEqual(total(client), BEGUN)

    def test_refused_calls(self) -> None:
        with life(BANK) as servers, Client(servers.workload, servers.cluster, 0, None) as client:
            for words in [("take", 1), ("pay", 1, 2), ("pay", 1, 2, 2**63)]:
                with self.assertRaises(RefusedCall):
                    client.call(*words)
            self.assertEqual(client.call("balances", 0, 1, 2), [100, 100, 100])

    def test_who_did_not_answer(self) -> None:
        with life(BANK) as servers:
            absent = servers.file("absent.toml", cluster_text([servers.ports[0], *free_ports(2)]))
            with Client(servers.workload, absent, 0, None) as client:
                for words, shards in [(("balances", 0, 1, 2), [1, 2]), (("pay", 0, 2, 1), [2])]:
                    with self.assertRaises(Unanswered) as raised:
                        client.call(*words, timeout=0.3)
                    self.assertEqual(raised.exception.shards, shards)

    def test_refused_workloads(self) -> None:
        with self.assertRaises(WorkloadError):
            Workload("no such file")


class States(unittest.TestCase):
    def test_one_number_serves_many_runs(self) -> None:
        with life(BANK) as servers:
            for at in range(5):
                with Client(servers.workload, servers.cluster, 7, f"{servers.folder}/state") as client:
                    self.assertEqual(client.call("pay", 0, 1, 1)[0], 100 - at)
                    self.assertEqual(client.recovered, [])

    def test_state_of_another(self) -> None:
        with life(BANK) as servers:
            state = f"{servers.folder}/state"
            other = Path(servers.file("other.rcw", BANK + "// another tag\n"))
            with Client(servers.workload, servers.cluster, 7, state):
                with self.assertRaisesRegex(StateError, "another client"):
                    Client(servers.workload, servers.cluster, 7, state)
            with self.assertRaisesRegex(StateError, "another workload"):
                Client(other, servers.cluster, 7, state)
            with self.assertRaisesRegex(StateError, "of coordinator 7"):
                Client(servers.workload, servers.cluster, 8, state)
            Path(state).write_text("{}", encoding="utf-8")
            with self.assertRaisesRegex(StateError, "no state file"):
                Client(servers.workload, servers.cluster, 7, state)

    def test_killed_clients(self) -> None:
        """Clients that are killed amid their calls, one after another under one number: nothing is lost, done twice or left blocked."""
        with life(BANK) as servers:
            state = f"{servers.folder}/state"
            words = module("call", servers.workload, servers.cluster, "--coord", "0", "--state", state)
            source = random.Random(1)
            for _ in range(8):
                run = subprocess.Popen(words, stdin=subprocess.PIPE, stdout=subprocess.DEVNULL, stderr=subprocess.DEVNULL, text=True, env=environment())
                killer = threading.Timer(0.2 + source.random() * 0.3, run.send_signal, [signal.SIGKILL])
                killer.start()
                run.communicate("".join(f"{it}\n" for it in drawn_payments(2000, source.randrange(1000))))
                killer.join()
            with Client(servers.workload, servers.cluster, 0, state) as client:
                for call in client.recovered:
                    self.assertEqual(len(client.wait(call)), 2)
                self.assertEqual(total(client), BEGUN)
            with Client(servers.workload, servers.cluster, 1, None) as client:
                self.assertEqual(len(client.call("pay", 0, 1, 1)), 2)

    def test_replies_that_nobody_was_given(self) -> None:
        with life(BANK) as servers:
            state = f"{servers.folder}/state"
            client = Client(servers.workload, servers.cluster, 0, state)
            call = client.submit("pay", 0, 1, 30)
            while call.reply is None:
                client.turn(time.monotonic() + 1)
            client.close()
            with Client(servers.workload, servers.cluster, 0, state) as client:
                self.assertEqual([(it.id, it.reply) for it in client.recovered], [(call.id, [100, 100])])
                client.wait(client.recovered[0])
            with Client(servers.workload, servers.cluster, 0, state) as client:
                self.assertEqual(client.recovered, [])


    def test_replies_that_drain_hands_out(self) -> None:
        """Each once, in the order of the calls, with those that an earlier client left; and the state file does not grow by them."""
        with life(BANK) as servers:
            state = f"{servers.folder}/state"
            with Client(servers.workload, servers.cluster, 0, state) as client:
                for _ in range(3):
                    calls = [client.submit("pay", 0, 1, 1) for _ in range(20)]
                    self.assertEqual(client.drain(), calls)
                    self.assertEqual((client.drain(), client.calls), ([], {}))
                left = client.submit("pay", 0, 1, 1)
            self.assertEqual(list(json.loads(Path(state).read_text(encoding="utf-8"))["answered"]), [])
            with Client(servers.workload, servers.cluster, 0, state) as client:
                client.call("pay", 0, 1, 1)
                self.assertEqual([(it.id, it.is_recovered) for it in client.drain()], [(left.id, True)])
            with Client(servers.workload, servers.cluster, 0, state) as client:
                self.assertEqual(client.recovered, [])


class Commands(unittest.TestCase):
    def test_lines(self) -> None:
        with life(BANK) as servers:
            words = module("call", servers.workload, servers.cluster, "--coord", "2", "--state", f"{servers.folder}/state")
            asked = "pay 0 1 30\n\n# a comment\nbalances 0 1 2\ntake 1\npay 1 x 2\npay 0 1 1_0\npay 0 1 5 # five\n"
            plain = subprocess.run(words, input=asked, capture_output=True, text=True, env=environment())
            self.assertEqual(plain.stdout.splitlines()[:2], ["answer 2.0 100 100", "answer 2.1 70 130 100"])
            self.assertTrue(all(line.startswith("refused") for line in plain.stdout.splitlines()[2:]))
            self.assertEqual((plain.returncode, len(plain.stdout.splitlines())), (5, 6))
            self.assertIn("in digits, and not x", plain.stdout)
            told = subprocess.run([*words, "--json"], input="balances 0 1 2\n", capture_output=True, text=True, env=environment())
            self.assertEqual(json.loads(told.stdout), {"id": "2.2", "name": "balances", "arguments": [0, 1, 2], "reply": [70, 130, 100]})
            self.assertEqual(told.returncode, 0)


    def test_interrupted(self) -> None:
        """A call that waits when the command is interrupted is taken up by the next one."""
        with life(BANK) as servers:
            absent = servers.file("absent.toml", cluster_text([servers.ports[0], *free_ports(2)]))
            state = f"{servers.folder}/state"
            words = module("call", servers.workload, absent, "--coord", "2", "--state", state, "--timeout", "60")
            # Whoever runs the tests in the background may have it ignore interrupts, and a child would go on doing so.
            run = subprocess.Popen(
                words, stdin=subprocess.PIPE, stdout=subprocess.PIPE, stderr=subprocess.PIPE, text=True, env=environment(),
                preexec_fn=lambda: signal.signal(signal.SIGINT, signal.SIG_DFL),
            )
            assert run.stdin
            run.stdin.write("pay 0 1 30\n")
            run.stdin.flush()
            while not Path(state).exists():
                time.sleep(0.01)
            run.send_signal(signal.SIGINT)
            told = run.communicate()
            self.assertEqual((run.returncode, told), (130, ("", "interrupted: what is open stays in the state file\n")))
            words = module("call", servers.workload, servers.cluster, "--coord", "2", "--state", state)
            told = subprocess.run(words, input="balances 0 1 2\n", capture_output=True, text=True, env=environment())
            self.assertEqual(told.stdout, "answer 2.1 70 130 100\n")
            self.assertEqual(told.stderr, "recovered 2.0 pay 0 1 30: answer 2.0 100 100\n")


class Rescues(unittest.TestCase):
    def rescued(self, servers: Life, output: str) -> None:
        words = module("rescue", servers.workload, servers.cluster, "--coord", "4", output)
        told = subprocess.run(words, capture_output=True, text=True, env=environment())
        self.assertEqual((told.returncode, told.stderr), (0, ""))
        self.assertRegex(told.stdout, r"(?m)^end \d+ rescued$")
        with Client(servers.workload, servers.cluster, 5, None) as client:
            for f, t in [(0, 1), (1, 2), (2, 0)]:
                client.call("pay", f, t, 1)
            self.assertEqual(total(client), BEGUN)
        with Client(servers.workload, servers.cluster, 4, f"{output}.state") as client:
            self.assertEqual(total(client), BEGUN)

    def test_turns_were_over(self) -> None:
        with life(BANK) as servers:
            output = f"{servers.folder}/output"
            self.assertEqual(servers.submit(drawn_payments(200, 1), 4, turns="222", output=output).wait(), 5)
            self.rescued(servers, output)

    def test_killed(self) -> None:
        with life(BANK) as servers:
            output = f"{servers.folder}/output"
            run = servers.submit(drawn_payments(2000, 2), 4, output=output)
            while Path(output).read_text(encoding="utf-8").count("answer") < 300:
                time.sleep(0.001)
            run.kill()
            run.wait()
            self.rescued(servers, output)

    def test_output_of_another(self) -> None:
        with life(BANK) as servers:
            for text, fault in [("submit 3.0 pay 0 1 1\n", "3.0 is no call"), ("what\n", "output:1: no line")]:
                words = module("rescue", servers.workload, servers.cluster, "--coord", "4", servers.file("output", text))
                told = subprocess.run(words, capture_output=True, text=True, env=environment())
                self.assertEqual(told.returncode, 3)
                self.assertIn(fault, told.stderr)


class Together(unittest.TestCase):
    def test_sums_stay(self) -> None:
        """Clients and runs of `submit` pay and look at once, over a network that loses, repeats and holds back."""
        each = TRANSFERS // 8
        with life(BANK) as servers:
            proxy = Proxy(servers.ports, 8, 5, 2, 2, 2)
            try:
                clusters = [servers.file(f"proxy{number}.toml", cluster_text(route.ports())) for number, route in enumerate(proxy.routes)]
                runs = [servers.submit(drawn_payments(each, number), number, clusters[number]) for number in range(4)]
                sums: list[int] = []
                threads = [threading.Thread(target=self.pay, args=(servers, clusters[number], number, each, sums)) for number in range(4, 8)]
                for thread in threads:
                    thread.start()
                ends = [run.communicate()[0].splitlines()[-1] for run in runs]
                for thread in threads:
                    thread.join()
            finally:
                proxy.close()
        self.assertEqual(ends, [f"end {each} answered 0 unanswered 0 unsubmitted"] * 4)
        self.assertEqual((len(sums), set(sums)), (4 * (each // 50), {BEGUN}))

    def pay(self, servers: Life, cluster: str, number: int, count: int, sums: list[int]) -> None:
        with Client(servers.workload, cluster, number, None) as client:
            for at, line in enumerate(drawn_payments(count, number), 1):
                name, *arguments = line.split()
                client.submit(name, *map(int, arguments), timeout=120)
                if at % 50 == 0:
                    sums.append(total(client))
            client.drain(120)
