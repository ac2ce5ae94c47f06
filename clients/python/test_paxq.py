#!/usr/bin/env python3
"""Tests of the client in paxq.py: the bytes of docs/FORMATS.md, members that are played here, and real groups where there is bin/paxq; these also get
the datagrams of docs/CLIENTS.md, and have to answer as that page says.

usage: clients/python/test_paxq.py [PAXQ]
"""

import os
import re
import socket
import struct
import sys
import threading
import time
import unittest

HERE = os.path.dirname(os.path.realpath(__file__))
ROOT = os.path.dirname(os.path.dirname(HERE))
sys.path[:0] = [HERE, os.path.join(ROOT, "cluster")]

import paxq  # noqa: E402
from group import Group  # noqa: E402

PROGRAM = os.path.join(ROOT, "bin", "paxq")


def datagrams_of_page():
    """Those of docs/CLIENTS.md, in order: who sends, who is sent to (0 for the client), and the bytes."""
    with open(os.path.join(ROOT, "docs", "CLIENTS.md"), encoding="utf-8") as page:
        blocks = re.findall(r"^```datagram\n(.*?)^```$", page.read(), re.M | re.S)
    for block in blocks:
        title, *lines = block.splitlines()
        ends = [int(it.split(" ")[-1]) if "member" in it else 0 for it in title.split(" to ")]
        yield *ends, bytes.fromhex(" ".join(line[:36] for line in lines))


def head(kind, sender, group=7):
    return b"PXQ1" + struct.pack(">IBB", group, sender, kind)


def reply(sender, pair, code, position):
    return head(8, sender) + pair + struct.pack(">BI", code, position)


def answer(sender, pair, position, text):
    return head(10, sender) + pair + struct.pack(">IBH", position, 0, len(text.encode())) + text.encode()


def behind(sender, pair, applied):
    return head(11, sender) + pair + struct.pack(">I", applied)


def elsewhere(sender, pair, member):
    return head(12, sender) + pair + struct.pack(">B", member)


class Played:
    """Members that answer by a function of their number, the kind of what came, its client and number as bytes, and how many came so far."""

    def __init__(self, count, play):
        self.sockets = [socket.socket(socket.AF_INET, socket.SOCK_DGRAM) for _ in range(count)]
        self.play, self.heard, self.ended = play, [], False
        for it in self.sockets:
            it.bind(("127.0.0.1", 0))
            it.settimeout(0.05)
        self.threads = [threading.Thread(target=self.serve, args=(at + 1, it)) for at, it in enumerate(self.sockets)]

    def addresses(self):
        return [it.getsockname() for it in self.sockets]

    def serve(self, member, end):
        while not self.ended:
            try:
                data, address = end.recvfrom(65536)
            except OSError:
                continue
            self.heard.append((member, data))
            for it in self.play(member, data[9], data[10:22], len(self.heard)):
                end.sendto(it, address)

    def __enter__(self):
        for it in self.threads:
            it.start()
        return self

    def __exit__(self, *_):
        self.ended = True
        for it in self.threads:
            it.join()
        for it in self.sockets:
            it.close()


class Spelling(unittest.TestCase):
    def test_what_is_sent(self):
        submit = "50585131 00000007 00 07 0000000a 0000000000000001 01 0001 31"
        ask = "50585131 00000007 00 09 0000000a 0000000000000001 00000003 01 0001 31"
        self.assertEqual(paxq.submit_bytes(7, 10, 1, 1, "1"), bytes.fromhex(submit))
        self.assertEqual(paxq.ask_bytes(7, 10, 1, 3, 1, "1"), bytes.fromhex(ask))

    def test_what_is_heard(self):
        pair = struct.pack(">IQ", 10, 1)
        rows = [
            (reply(2, pair, 0, 5), paxq.Reply(5, None)),
            (reply(2, pair, 13, 1_000_000), paxq.Reply(1_000_000, "FODC0002")),
            (reply(2, pair, 45, 1), paxq.Reply(1, "XQST0089")),
            (answer(2, pair, 0, "é"), (0, None, "é")),
            (head(10, 2) + pair + struct.pack(">IB", 9, 44), (9, "PXQ0005", "")),
            (behind(2, pair, 3), 3),
            (elsewhere(2, pair, 0), 0),
        ]
        for data, body in rows:
            self.assertEqual(paxq.read_datagram(data, 7, 2), paxq.Heard(data[9], 10, 1, body))

    def test_other_bytes_are_nothing(self):
        pair = struct.pack(">IQ", 10, 1)
        for whole in reply(2, pair, 0, 5), answer(2, pair, 7, "abc"), behind(2, pair, 3), elsewhere(2, pair, 1):
            for length in range(len(whole)):
                self.assertIsNone(paxq.read_datagram(whole[:length], 7, 2))
            self.assertIsNone(paxq.read_datagram(whole + b"0", 7, 2))
            self.assertIsNone(paxq.read_datagram(whole, 8, 2))
            self.assertIsNone(paxq.read_datagram(whole, 7, 3))
            self.assertIsNone(paxq.read_datagram(b"PXQ2" + whole[4:], 7, 2))
        self.assertIsNone(paxq.read_datagram(reply(2, pair, 0, 0), 7, 2))
        self.assertIsNone(paxq.read_datagram(head(10, 2) + pair + struct.pack(">IBH", 7, 0, 1) + b"\xff", 7, 2))
        self.assertIsNone(paxq.read_datagram(head(7, 2) + pair, 7, 2))

    def test_codes_have_their_numbers(self):
        for number, code in (1, "XPST0003"), (13, "FODC0002"), (24, "XUTY0005"), (39, "XUDY0030"), (44, "PXQ0005"), (45, "XQST0089"), (46, "XUTY0013"), (48, "XUST0002"):
            self.assertEqual(paxq.outcome(number), code)

    def test_literals(self):
        for text in "", 'say "yes"', "a & b", "&amp;", "&#10;", "tab\tline\nreturn\r", "é\U0001f600":
            self.assertEqual(paxq.atom(paxq.literal(text)), text)
        self.assertEqual(paxq.literal('a"&\n'), '"a""&amp;&#10;"')
        self.assertEqual((paxq.atom("-3"), paxq.atom("true()"), paxq.atom("false()")), (-3, True, False))
        for text in "\x00", "\ud800", "\ufffe":
            self.assertRaises(ValueError, paxq.literal, text)
        self.assertRaises(ValueError, paxq.atom, "element a {}")


class Exchange(unittest.TestCase):
    """Against members that are played."""

    def test_a_request_is_sent_again_under_its_number(self):
        def play(member, kind, pair, count):
            return [reply(member, pair, 0, 4)] if count == 3 else []

        with Played(1, play) as members, paxq.Client(7, members.addresses(), client=10) as client:
            self.assertEqual(client.submit("()"), paxq.Reply(4, None))
            self.assertEqual(client.position, 4)
            self.assertEqual(members.heard, [(1, paxq.submit_bytes(7, 10, 1, 1, "()"))] * 3)

    def test_numbers_rise(self):
        with Played(1, lambda member, kind, pair, count: [reply(member, pair, 0, count)]) as members:
            with paxq.Client(7, members.addresses(), client=10, first=5) as client:
                client.submit("()")
                client.submit("()")
            self.assertEqual([struct.unpack(">Q", data[14:22])[0] for _, data in members.heard], [5, 6])

    def test_elsewhere_is_followed(self):
        def play(member, kind, pair, count):
            return [reply(3, pair, 13, 9)] if member == 3 else [elsewhere(member, pair, 3)]

        with Played(3, play) as members, paxq.Client(7, members.addresses()) as client:
            self.assertEqual(client.submit("()"), paxq.Reply(9, "FODC0002"))
            client.submit("()")
            self.assertEqual([member for member, _ in members.heard], [1, 3, 3])

    def test_nobody_leads_for_a_while(self):
        def play(member, kind, pair, count):
            return [reply(member, pair, 0, 1)] if count == 4 else [elsewhere(member, pair, 0 if count < 3 else member)]

        with Played(2, play) as members, paxq.Client(7, members.addresses()) as client:
            self.assertEqual(client.submit("()"), paxq.Reply(1, None))
            self.assertEqual([member for member, _ in members.heard], [1, 2, 1, 2])

    def test_a_leader_that_is_silent_is_left(self):
        def play(member, kind, pair, count):
            return {1: [], 2: [elsewhere(2, pair, 1)], 3: [reply(3, pair, 0, 1)]}[member]

        with Played(3, play) as members, paxq.Client(7, members.addresses()) as client:
            self.assertEqual(client.submit("()"), paxq.Reply(1, None))

    def test_other_datagrams_are_not_heard(self):
        def play(member, kind, pair, count):
            other = struct.pack(">IQ", 11, 1)
            return [b"", b"PXQ1", reply(member, other, 0, 8), answer(member, pair, 8, ""), reply(2, pair, 0, 8), reply(member, pair, 0, 7)]

        with Played(1, play) as members, paxq.Client(7, members.addresses(), client=10) as client:
            self.assertEqual(client.submit("()"), paxq.Reply(7, None))

    def test_time_runs_out(self):
        with Played(1, lambda *_: []) as members, paxq.Client(7, members.addresses(), timeout=0.1) as client:
            with self.assertRaises(paxq.TimedOut) as caught:
                client.submit("()")
            self.assertEqual(caught.exception.number, 1)
            self.assertRaises(paxq.TimedOut, client.ask, "()")

    def test_answers(self):
        def play(member, kind, pair, count):
            return [head(10, member) + pair + struct.pack(">IB", 3, 13)] if count == 1 else [answer(member, pair, 5, '"a"\n2')]

        with Played(1, play) as members, paxq.Client(7, members.addresses()) as client:
            with self.assertRaises(paxq.Fault) as caught:
                client.ask('doc("no")')
            self.assertEqual((caught.exception.code, caught.exception.position), ("FODC0002", 3))
            self.assertEqual(client.ask('("a", 2)'), paxq.Answer(5, '"a"\n2'))
            self.assertEqual(client.position, 5)

    def test_one_that_is_behind_is_left_for_another(self):
        def play(member, kind, pair, count):
            return [behind(1, pair, 3)] if member == 1 else [answer(2, pair, 9, "1")]

        with Played(2, play) as members, paxq.Client(7, members.addresses()) as client:
            self.assertEqual(client.ask("1", floor=9), paxq.Answer(9, "1"))
            self.assertRaises(paxq.Behind, client.ask, "1", floor=9, member=1, timeout=0.1)

    def test_wrong_arguments(self):
        with paxq.Client(7, ["127.0.0.1:1"]) as client:
            self.assertRaises(ValueError, client.submit, "é" * 2049)
            self.assertRaises(ValueError, client.ask, "1", floor=1_000_001)
            self.assertRaises(ValueError, client.ask, "1", member=2)
        self.assertRaises(ValueError, paxq.Client, 7, [])
        self.assertRaises(ValueError, paxq.Client, 7, ["127.0.0.1:1", "[::1]:1"])


def fresh_group():
    """Three members in memory. SkipTest where there is no program."""
    if not os.path.exists(PROGRAM):
        raise unittest.SkipTest("there is no bin/paxq")
    return Group(PROGRAM, 3, in_files=False)


class Page(unittest.TestCase):
    """The exchange of docs/CLIENTS.md."""

    def test_its_datagrams_are_read(self):
        exchange = list(datagrams_of_page())
        heard = [paxq.read_datagram(data, 7, sender) for sender, _, data in exchange if sender]
        self.assertEqual([it.kind for it in heard], [12, 8, 8, 10, 11, 10])
        self.assertEqual(exchange[0][2], paxq.submit_bytes(7, 10, 1, 1, 'insert node element a {} into doc("db")'))
        self.assertEqual(exchange[6][2], paxq.ask_bytes(7, 10, 1, 2, 1, 'doc("db")/a'))

    def test_members_answer_so(self):
        exchange = list(datagrams_of_page())
        with fresh_group() as group, socket.socket(socket.AF_INET, socket.SOCK_DGRAM) as end:
            group.start_all(leader=1)
            for (_, member, sent), (sender, _, expected) in zip(exchange[::2], exchange[1::2]):
                self.assertEqual(member, sender)
                self.assertEqual(self.answered(end, group.addresses[member - 1], sent, expected), expected)

    def answered(self, end, address, sent, expected):
        """What comes at last: until the members have told each other, another answer may come first."""
        came, stop = None, time.monotonic() + 20
        while came != expected and time.monotonic() < stop:
            end.sendto(sent, address)
            end.settimeout(0.1)
            try:
                came = end.recv(65536)
            except socket.timeout:
                pass
        return came


class RealGroup(unittest.TestCase):
    """Against three members."""

    @classmethod
    def setUpClass(cls):
        cls.group = fresh_group().__enter__()
        cls.group.start_all(leader=1)

    @classmethod
    def tearDownClass(cls):
        cls.group.__exit__()

    def test_requests_and_questions(self):
        with self.group.client() as client:
            client.leader = 1  # a member that does not lead
            done = client.submit('insert node element a {' + paxq.literal('"&"') + '} into doc("db")')
            self.assertIsNone(done.code)
            self.assertEqual(client.submit("something else", number=1), done)
            self.assertEqual(client.submit("1 idiv 0"), paxq.Reply(done.position + 1, "FOAR0001"))
            for member in 1, 2, 3:
                answer = client.ask('string(doc("db")/a[1])', floor=client.position, member=member)
                self.assertEqual(paxq.atom(answer.text), '"&"')

    def test_faults(self):
        with self.group.client() as client:
            with self.assertRaises(paxq.Fault) as caught:
                client.ask('doc("no")')
            self.assertEqual(caught.exception.code, "FODC0002")
            self.assertRaises(paxq.Behind, client.ask, "1", floor=1_000_000, timeout=0.2)


if __name__ == "__main__":
    if len(sys.argv) > 1 and os.path.exists(sys.argv[1]):
        PROGRAM = os.path.abspath(sys.argv.pop(1))
    unittest.main()
