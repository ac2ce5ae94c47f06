"""A client of paxq groups, in one file on Python's standard library (3.8 or later).

    from paxq import Client, literal

    with Client(7, ["10.0.0.1:7001", "10.0.0.2:7001", "10.0.0.3:7001"]) as client:
        reply = client.submit('insert node element note {' + literal("call back") + '} into doc("db")')
        print(reply.position, reply.code)
        answer = client.ask('doc("db")/note', floor=reply.position)
        print(answer.text)

`submit` sends a request until it is answered, under one number, so that it runs once. `ask` asks a question. Who leads is found out. A datagram
is sent again where no answer comes: a request after 20 ms, a question, whose evaluation may take its time, after 100, then after twice as long each
time, at most 250 ms and 2 s. A member that leaves three unanswered is left for the next one. docs/FORMATS.md of paxq has the bytes.
"""

import secrets
import socket
import struct
import time
from collections import namedtuple

__all__ = ["Answer", "Behind", "Client", "Fault", "PaxqError", "Reply", "TimedOut", "atom", "literal"]

MARK = b"PXQ1"
HEADER = struct.Struct(">4sIBB")  # mark, group, sender, kind
ID = struct.Struct(">IQ")  # client, number
SUBMIT, REPLY, ASK, ANSWER, BEHIND, ELSEWHERE = 7, 8, 9, 10, 11, 12
LONGEST_TEXT = 4096
LONGEST_ANSWER = 32768
LAST_POSITION = 1_000_000
FIRST_WAIT, LONGEST_WAIT = 0.02, 0.25  # seconds until a request is sent again
FIRST_QUESTION_WAIT, LONGEST_QUESTION_WAIT = 0.1, 2.0  # a member evaluates each copy of a question that comes to it
SENDS_TO_ONE = 3  # a member that leaves so many unanswered is left for the next one

CODES = (
    "XPST0003 XPST0008 XPST0017 XQST0090 XUST0001 XPDY0002 XPTY0004 XPTY0018 XPTY0019 XPTY0020 FOAR0001 FOAR0002 FODC0002 FORG0001 FORG0006 "
    "XQTY0024 XQDY0025 XQDY0026 XQDY0041 XQDY0064 XQDY0072 XQDY0074 XUTY0004 XUTY0005 XUTY0006 XUTY0007 XUTY0008 XUTY0010 XUTY0011 XUTY0012 "
    "XUTY0022 XUDY0009 XUDY0015 XUDY0016 XUDY0017 XUDY0021 XUDY0027 XUDY0029 XUDY0030 PXQ0001 PXQ0002 PXQ0003 PXQ0004 PXQ0005 XQST0089 "
    "XUTY0013 XUDY0014 XUST0002"
).split()

Reply = namedtuple("Reply", "position code")
Reply.__doc__ = """What came of a request: its position among all applied ones, and its fault's code, or None where it is done."""

Answer = namedtuple("Answer", "position text")
Answer.__doc__ = """What a question gave: how many positions its member had applied, and the items' texts, a line each."""

Heard = namedtuple("Heard", "kind client number body")


class PaxqError(Exception):
    """What this module raises of its own."""


class Fault(PaxqError):
    """A question ended in a fault: its `code`, and the `position` up to which its member had applied."""

    def __init__(self, code, position):
        super().__init__(f"{code} at {position}")
        self.code, self.position = code, position


class Behind(PaxqError):
    """No member had applied as many positions as were asked for. `applied` is the most that one told."""

    def __init__(self, applied):
        super().__init__(f"applied {applied}")
        self.applied = applied


class TimedOut(PaxqError):
    """No answer came in time. A request may run all the same, now or later: `submit(text, number=error.number)` goes on asking."""

    def __init__(self, number):
        super().__init__(f"no answer to number {number}")
        self.number = number


def literal(text):
    """A text as a string literal of the language, so that it can stand in a request. ValueError for a character that XML 1.0 does not have."""
    for char in text:
        if not (char in "\t\n\r" or " " <= char <= "\ud7ff" or "\ue000" <= char <= "\ufffd" or char >= "\U00010000"):
            raise ValueError(f"no character of XML 1.0: {char!r}")
    text = text.replace("&", "&amp;").replace('"', '""')
    return '"' + text.replace("\t", "&#9;").replace("\n", "&#10;").replace("\r", "&#13;") + '"'


def atom(item):
    """The value of an answer's line that is no node: an int, a bool or a str. ValueError for any other line."""
    if item in ("true()", "false()"):
        return item == "true()"
    if len(item) >= 2 and item[0] == item[-1] == '"':
        text = item[1:-1].replace("&#9;", "\t").replace("&#10;", "\n").replace("&#13;", "\r")
        return text.replace('""', '"').replace("&amp;", "&")
    return int(item)


def header(group, kind):
    """The first ten bytes of what a client sends."""
    return HEADER.pack(MARK, group, 0, kind)


def text_bytes(level, text):
    """A level and a text, as requests and questions end. ValueError where the text is too long."""
    encoded = text.encode()
    if len(encoded) > LONGEST_TEXT:
        raise ValueError(f"a text of {len(encoded)} bytes, of at most {LONGEST_TEXT}")
    return struct.pack(">BH", level, len(encoded)) + encoded


def submit_bytes(group, client, number, level, text):
    """The datagram that submits a request."""
    return header(group, SUBMIT) + ID.pack(client, number) + text_bytes(level, text)


def ask_bytes(group, client, number, floor, level, text):
    """The datagram that asks a question where at least `floor` positions are applied."""
    return header(group, ASK) + ID.pack(client, number) + struct.pack(">I", floor) + text_bytes(level, text)


def outcome(code):
    """The code's name, None for 0 (done). A number that this file does not know is named by itself."""
    if code == 0:
        return None
    return CODES[code - 1] if code <= len(CODES) else f"code {code}"


def read_answer(body):
    """The body of an Answer: the position, the code or None, and the text, empty where there is a code."""
    position, code = struct.unpack_from(">IB", body)
    if code:
        return (position, outcome(code), "") if len(body) == 5 else None
    (length,) = struct.unpack_from(">H", body, 5)
    if length > LONGEST_ANSWER or len(body) != 7 + length:
        return None
    return position, None, body[7:].decode()


def read_reply(body):
    code, position = struct.unpack(">BI", body)
    return Reply(position, outcome(code)) if 1 <= position <= LAST_POSITION else None


BODIES = {
    REPLY: read_reply,
    ANSWER: read_answer,
    BEHIND: lambda body: struct.unpack(">I", body)[0],
    ELSEWHERE: lambda body: struct.unpack(">B", body)[0],
}


def read_datagram(data, group, member):
    """What a member of that number tells a client of that group, or None where these are other bytes."""
    try:
        mark, of, sender, kind = HEADER.unpack_from(data)
        if (mark, of, sender) != (MARK, group, member) or kind not in BODIES:
            return None
        client, number = ID.unpack_from(data, HEADER.size)
        body = BODIES[kind](data[HEADER.size + ID.size :])
    except (struct.error, UnicodeDecodeError):
        return None
    return None if body is None else Heard(kind, client, number, body)


def resolved(address):
    """Family and socket address of `HOST:PORT`, `[V6]:PORT` or a pair of host and port."""
    host, port = address.rsplit(":", 1) if isinstance(address, str) else address
    family, _, _, _, place = socket.getaddrinfo(host.strip("[]"), int(port), type=socket.SOCK_DGRAM)[0]
    return family, place


class Client:
    """One client of a group. It is no object for several threads at once: give each its own.

    `group` is the group's number and `members` the addresses of all its members, in the order of their configuration. All have to be of one
    family (IPv4 or IPv6). OSError where a name is unknown or no socket can be had.

    `client` is this client's number, 0 to 2^32 - 1, random where none is given; requests are numbered from `first` on. The group keeps the
    reply to each pair of client and number for ever, and runs no second request under it: **who submits another text under a pair that was
    used gets the first one's reply, and the new text never runs.** So give a client number only where you also keep, over restarts, which
    numbers were used. Two clients at work must not share one.

    `timeout` is how many seconds a call goes on asking. `level` is the level of the language of all texts.

    `position` is the highest position that was heard of in a reply or an answer: `ask(text, floor=client.position)` sees at least as much.
    """

    def __init__(self, group, members, client=None, timeout=10.0, level=1, first=1):
        places = [resolved(it) for it in members]
        if not 1 <= len(places) <= 63 or len({family for family, _ in places}) != 1:
            raise ValueError("1 to 63 members, whose addresses are all of one family")
        self.group, self.level, self.timeout = group, level, timeout
        self.client = secrets.randbits(32) if client is None else client
        self.places = [place for _, place in places]
        self.numbers = {place[:2]: at + 1 for at, place in enumerate(self.places)}
        self.next_request, self.next_question = first, 1
        self.leader, self.asked = 0, 0  # whom to try first, as places in the list
        self.position = 0
        self.socket = socket.socket(places[0][0], socket.SOCK_DGRAM)

    def __enter__(self):
        return self

    def __exit__(self, *_):
        self.close()

    def close(self):
        """Gives the socket back."""
        self.socket.close()

    def submit(self, text, number=None, timeout=None):
        """Sends a request until it is answered, and gives its Reply. Its fault is no exception: it stands in the reply's `code`.

        `number` is for a request that timed out: it was sent under that number, and is now sent again under it. ValueError: the text is
        longer than 4,096 bytes. TimedOut: nothing is known of the request.
        """
        if number is None:
            number, self.next_request = self.next_request, self.next_request + 1
        data = submit_bytes(self.group, self.client, number, self.level, text)
        rounds = Rounds(len(self.places), self.leader, self._time(timeout))
        while rounds.go_on(number):
            heard = self._exchange(data, rounds, number, (REPLY, ELSEWHERE))
            if heard is not None and heard.kind == REPLY:
                self.leader = rounds.place
                self.position = max(self.position, heard.body.position)
                return heard.body
            if heard is not None:
                rounds.follow(heard.body)

    def ask(self, text, floor=0, member=None, timeout=None):
        """Asks a question, and gives its Answer from a member that has applied at least `floor` positions.

        `member` is the number of the one that is asked; without it, it is whichever answers. Without a floor an answer may be older than one
        that came before, as members learn at their own pace. ValueError: the text is longer than 4,096 bytes, the floor is not 0 to
        1,000,000, or there is no such member. Fault: the question ended in a fault. Behind: members answered, and none has applied so much
        until the time was over. TimedOut: none answered.
        """
        if not 0 <= floor <= LAST_POSITION:
            raise ValueError(f"floor {floor} is not 0 to {LAST_POSITION}")
        if member is not None and not 1 <= member <= len(self.places):
            raise ValueError(f"member {member} is not 1 to {len(self.places)}")
        number, self.next_question = self.next_question, self.next_question + 1
        data = ask_bytes(self.group, self.client, number, floor, self.level, text)
        first = self.asked if member is None else member - 1
        rounds = Rounds(len(self.places), first, self._time(timeout), stays=member is not None)
        rounds.wait, rounds.longest = FIRST_QUESTION_WAIT, LONGEST_QUESTION_WAIT
        applied = None
        while rounds.go_on(number, applied):
            heard = self._exchange(data, rounds, number, (ANSWER, BEHIND))
            if heard is not None and heard.kind == ANSWER:
                if member is None:
                    self.asked = rounds.place
                return self._answered(*heard.body)
            if heard is not None:
                applied = max(applied or 0, heard.body)
                rounds.rest()

    def _answered(self, position, code, text):
        self.position = max(self.position, position)
        if code is not None:
            raise Fault(code, position)
        return Answer(position, text)

    def _time(self, timeout):
        return self.timeout if timeout is None else timeout

    def _exchange(self, data, rounds, number, kinds):
        """Sends to the member whose turn it is, and gives what it tells of that number, or None where it says nothing for a while."""
        self._send(data, rounds.place)
        end = rounds.wait_until()
        while True:
            left = end - time.monotonic()
            if left <= 0:
                rounds.unanswered()
                return None
            heard = self._receive(left)
            if heard is not None and (heard[1].client, heard[1].number) == (self.client, number) and heard[1].kind in kinds:
                rounds.place = heard[0]
                return heard[1]

    def _send(self, data, place):
        try:
            self.socket.sendto(data, self.places[place])
        except OSError:
            pass  # as good as lost: it is sent again

    def _receive(self, seconds):
        """A member's place and what it tells, or None. What comes from another address is not read."""
        self.socket.settimeout(seconds)
        try:
            data, address = self.socket.recvfrom(65536)
        except OSError:  # also that the time is over
            return None
        member = self.numbers.get(address[:2])
        heard = None if member is None else read_datagram(data, self.group, member)
        return None if heard is None else (member - 1, heard)


class Rounds:
    """Whom to ask next, how long to wait, and until when. One that `stays` goes on with the first."""

    def __init__(self, members, first, seconds, stays=False):
        self.members, self.place, self.turn, self.stays = members, first, first, stays
        self.end = time.monotonic() + seconds
        self.wait, self.longest = FIRST_WAIT, LONGEST_WAIT  # for what is not answered
        self.pause = FIRST_WAIT  # before another one is tried
        self.silent, self.hops = 0, 0

    def go_on(self, number, applied=None):
        """True while there is time; then the exception that says what is known."""
        if time.monotonic() < self.end:
            return True
        raise TimedOut(number) if applied is None else Behind(applied)

    def wait_until(self):
        return min(self.end, time.monotonic() + self.wait)

    def unanswered(self):
        """The member said nothing. It is left after a few times, for the one whose turn it is."""
        self.wait = min(2 * self.wait, self.longest)
        self.silent, self.hops = self.silent + 1, 0
        if self.silent == SENDS_TO_ONE:
            self.next()

    def next(self):
        if not self.stays:
            self.turn = (self.turn + 1) % self.members
        self.place, self.silent = self.turn, 0

    def rest(self):
        """Waits a little, and goes on with the next one."""
        time.sleep(max(0.0, min(self.pause, self.end - time.monotonic())))
        self.pause = min(2 * self.pause, LONGEST_WAIT)
        self.next()

    def follow(self, member):
        """Goes to the member that is named. One that names nobody, or itself, or sends round in a circle, is left for the next one."""
        self.hops += 1
        if 1 <= member <= self.members and member - 1 != self.place and self.hops < self.members:
            self.place, self.silent = member - 1, 0
        else:
            self.hops = 0
            self.rest()
