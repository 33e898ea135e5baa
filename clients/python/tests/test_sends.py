"""What is sent for stored arrivals is what `submit` sends."""
from __future__ import annotations

import os
import random
import unittest

from rococo.coordinator import Coordinator, Sends
from rococo.messages import Unreadable, answer
from rococo.workload import Workload

from .nodes import cluster_text, life
from .recorder import Proxy, Recorded

COORDINATORS = 16
CASES = int(os.environ.get("ROCOCO_CASES", "208"))


def drawn_requests(source: random.Random) -> list[str]:
    """A few calls; now and then more than may be open at once."""
    forms = [("pay", 3, 3), ("sell", 2, 4), ("next", 3, 2), ("sum", 3, 3)]
    chosen = [source.choice(forms) for _ in range(source.choice([1, 3, 5, 8, 24]))]
    return [" ".join([name, *(str(source.randrange(below)) for _ in range(count))]) for name, below, count in chosen]


class Follower:
    """Leads a coordinator through what was given, and follows what was sent. A silence changes nothing, so where there was one is told by what was
    sent alone: `places` are those up to which it may have come."""

    def __init__(self, workload: Workload, number: int, requests: list[str], sent: Sends) -> None:
        self.core = Coordinator(workload, number)
        self.tag, self.requests, self.sent = workload.tag, list(requests), sent
        self.places = {0}
        self.answers: list[str] = []
        self.go(self.submissions())

    def submissions(self) -> Sends:
        sends: Sends = []
        while self.requests and not self.core.is_busy():
            name, *arguments = self.requests.pop(0).split()
            sends += self.core.submit(name, [int(it) for it in arguments])[1]
        return sends

    def go(self, sends: Sends) -> None:
        self.places = {at + len(sends) for at in self.places if self.sent[at:at + len(sends)] == sends}

    def silences(self) -> None:
        """Adds the places behind any number of silences."""
        tick = self.core.tick()
        new = self.places if tick else set()
        while new:
            new = {at + len(tick) for at in new if self.sent[at:at + len(tick)] == tick} - self.places
            self.places |= new

    def take(self, datagram: bytes) -> None:
        self.silences()
        try:
            sends = self.core.receive(answer(datagram, self.tag))
        except Unreadable:
            return
        self.answers += [" ".join(["answer", f"{self.core.number}.{seq}", *map(str, reply)]) for seq, reply in self.core.answers.items()]
        self.core.answers.clear()
        self.go(sends + self.submissions())


class SameSends(unittest.TestCase):
    def test_same_as_submit(self) -> None:
        for seed in range(-(-CASES // COORDINATORS)):
            self.one_life(seed)

    def one_life(self, seed: int) -> None:
        source = random.Random(seed)
        with life() as servers:
            workload = Workload(servers.workload)
            proxy = Proxy(servers.ports, COORDINATORS, seed, *source.choice([(10, 10, 10), (0, 20, 30), (25, 5, 0), (0, 0, 0)]))
            try:
                asked = [drawn_requests(source) for _ in range(COORDINATORS)]
                clusters = [servers.file(f"proxy{number}.toml", cluster_text(route.ports())) for number, route in enumerate(proxy.routes)]
                runs = [servers.submit(requests, number, clusters[number]) for number, requests in enumerate(asked)]
                told = [run.communicate(timeout=60)[0] for run in runs]
            finally:
                proxy.close()
        for number, requests in enumerate(asked):
            with self.subTest(seed=seed, coordinator=number):
                self.follow(workload, number, requests, proxy.routes[number].recorded, told[number])

    def follow(self, workload: Workload, number: int, requests: list[str], recorded: Recorded, told: str) -> None:
        sent = recorded.sends()
        follower = Follower(workload, number, requests, sent)
        for datagram in recorded.given:
            if not follower.core.open and not follower.requests:
                # `submit` has ended.
                break
            follower.take(datagram)
            self.assertTrue(follower.places, f"other sends than {sent}")
        self.assertIn(len(sent), follower.places)
        self.assertEqual(follower.answers, [line for line in told.splitlines() if line.startswith("answer")])
