"""Workloads, expressions and datagrams are read as the program reads them."""
from __future__ import annotations

import random
import subprocess
import tempfile
import unittest
from pathlib import Path

from rococo.cluster import addresses
from rococo.errors import ClusterError
from rococo.expressions import expression
from rococo.messages import COMMITOK, SERVER, CommitOk, Edge, Speller, TxnId, Unreadable, answer
from rococo.workload import Workload, program_path

from .nodes import ROOT, WORKLOAD


class Workloads(unittest.TestCase):
    def test_groups_and_inputs(self) -> None:
        with tempfile.TemporaryDirectory() as folder:
            path = Path(folder, "store.rcw")
            path.write_text(WORKLOAD, encoding="utf-8")
            procedures = Workload(path).procedures
        self.assertEqual([it.number for it in procedures.values()], [0, 1, 2, 3])
        self.assertEqual([(group.is_immediate, group.inputs, group.outs) for group in procedures["sell"].groups], [(True, (), 1), (False, ("l",), 2)])
        self.assertEqual([(len(group.pieces), group.binds) for group in procedures["next"].groups], [(2, ["u"]), (1, [])])
        self.assertEqual([group.reads for group in procedures["sum"].groups], [1, 2, 1])
        self.assertEqual(procedures["next"].groups[1].place({"p": 1, "q": 2, "u": 3}), 5)

    def test_examples(self) -> None:
        """Each accepted example is read, with a piece in exactly one group."""
        for path in sorted((ROOT / "examples").glob("*.rcw")):
            if subprocess.run([program_path(None), "check", str(path)], capture_output=True, check=False).returncode:
                continue
            for name, procedure in Workload(path).procedures.items():
                with self.subTest(path=path.name, procedure=name):
                    pieces = [piece.name for group in procedure.groups for piece in group.pieces]
                    self.assertEqual(sorted(pieces), sorted(piece.name for piece in procedure.pieces))


class Clusters(unittest.TestCase):
    def test_as_the_program(self) -> None:
        """A file is read where the program reads it, and refused where the program does."""
        good = '[[shard]]\nnumber = 0\nhost = "127.0.0.1"\nport = 7100\n'
        other = good.replace("0\n", "1\n", 1).replace("7100", "7101")
        changes = [("127.0.0.1", "localhost"), ("127.0.0.1", "127.0.0.01"), ("7101", '"7101"'), ("7101", "0"), ("7101", "65536"), ("7101", "true"),
                   ("number = 1", "number = 0"), ("number = 1", "number = 2"), ("[[shard]]", "[shard]"), ("port", "name"), ("\nport", "\nname = 1\nport")]
        texts = [good + other, other + good, good, "", "[shard]\n", "x = 1\n" + good + other, *(good + other.replace(*change) for change in changes)]
        with tempfile.TemporaryDirectory() as folder:
            workload, cluster, requests = (Path(folder, name) for name in ("store.rcw", "store.toml", "requests"))
            workload.write_text("shards 2;\n", encoding="utf-8")
            requests.write_text("what\n", encoding="utf-8")
            for text in texts:
                with self.subTest(text=text):
                    cluster.write_text(text, encoding="utf-8")
                    words = [program_path(None), "submit", workload, cluster, requests, "--coord", "0", "--turns", "1"]
                    is_read = str(requests) in subprocess.run(words, capture_output=True, text=True, check=False).stderr
                    try:
                        addresses(cluster, 2)
                    except ClusterError:
                        self.assertFalse(is_read)
                    else:
                        self.assertTrue(is_read)

    def test_no_file(self) -> None:
        self.assertRaises(ClusterError, addresses, "no such file", 1)


class Expressions(unittest.TestCase):
    def test_values(self) -> None:
        values = {"a": 7, "b": -3, "huge": 2**63 - 1}
        wanted = {
            "a - b - 1": 9,
            "a - (b - 1)": 11,
            "(a + b) * 2": 8,
            "min(a,b) + max(a,b)": 4,
            "less(b,a) + 10 * less(a,b)": 1,
            "pick(0,a,b) * pick(b,a,0)": -21,
            "huge + 1": -(2**63),
            "huge * huge": 1,
        }
        for text, value in wanted.items():
            with self.subTest(text=text):
                self.assertEqual(expression(text).value(values), value)


class Datagrams(unittest.TestCase):
    TAG = bytes(range(1, 9))

    def test_known_bytes(self) -> None:
        speller = Speller(self.TAG, 0)
        commit = speller.commit(TxnId(0, 0), [Edge(TxnId(1, 0), 1, 1)], [])
        self.assertEqual(commit.hex(), "52434f3102030102030405060708010000" "000000000000" "0001" "0001000000000101" "0000")
        self.assertEqual(speller.ended(1).hex(), "52434f3102080102030405060708010000" "000000000001")

    def test_cut_and_changed(self) -> None:
        """Whatever the bytes are, they are an answer or unreadable."""
        header = b"RCO1" + bytes([2, COMMITOK]) + self.TAG + bytes([SERVER, 0, 1])
        whole = header + bytes([0, 3, 0, 0, 0, 9, 2, 0, 1]) + (2**64 - 5).to_bytes(8, "big")
        self.assertEqual(answer(whole, self.TAG), CommitOk(TxnId(3, 9), 2, (-5,)))
        for cut in range(len(whole)):
            self.assertRaises(Unreadable, answer, whole[:cut], self.TAG)
        self.assertRaises(Unreadable, answer, whole + b"\0", self.TAG)
        source = random.Random(0)
        for _ in range(5000):
            changed = bytearray(whole)
            changed[source.randrange(len(whole))] = source.randrange(256)
            try:
                answer(bytes(changed), self.TAG)
            except Unreadable:
                pass
