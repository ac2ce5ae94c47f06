"""Datagrams of all kinds by docs/FORMATS.md, drawn by a seed, and what is made of them by changing bytes."""

import random
import struct

GROUP = 7
TEXTS = [
    "()",
    "1",
    'count(doc("other")/*)',
    'insert node element a {} into doc("other")',
    'insert node element b {attribute k {"1"}, "x"} into doc("other")',
    'delete node doc("other")/a[1]',
    'replace value of node doc("other")/b[1] with "n"',
    'rename node doc("other")/a[1] as "c"',
    "é" * 40,
    "(" * 300,
    "1 + " * 1000 + "1",
]
EDGES = [0, 1, 2, 3, 63, 64, 127, 128, 255]
WIDE_EDGES = [0, 1, 2**16 - 1, 2**31, 2**32 - 1, 2**40 - 1, 2**40, 2**63, 2**64 - 1, 1_000_000, 1_000_001]


class Generator:
    """Datagrams, one after the other, the same for the same seed."""

    def __init__(self, seed):
        self.chance = random.Random(seed)
        self.kinds = [self.prepare, self.promise, self.accept, self.accepted, self.chosen, self.catch_up, self.submit, self.reply, self.ask, self.answer, self.behind, self.elsewhere]
        self.changes = [self.flip, self.put_edge, self.put_wide_edge, self.cut, self.lengthen, self.take_out, self.repeat_part, self.splice, self.other_kind, self.random_bytes]

    def header(self, kind, sender=None):
        sender = self.chance.randint(1, 3) if sender is None else sender
        return b"PXQ1" + struct.pack(">IBB", GROUP, sender, kind), sender

    def position(self):
        return struct.pack(">I", self.chance.choice([1, 2, 3, 8, 9, 1000, 999_999, 1_000_000]))

    def pair(self):
        return struct.pack(">IQ", self.chance.randint(0, 9), self.chance.randint(0, 2**20))

    def text(self):
        text = self.chance.choice(TEXTS).encode()
        return struct.pack(">BH", 1, len(text)) + text

    def value(self):
        return b"\0" if self.chance.random() < 0.2 else b"\1" + self.pair() + self.text()

    def ballot(self, member):
        return struct.pack(">QB", self.chance.choice([1, 2, 3, 7, 2**40 - 1]), member)

    def positions(self, count):
        return [struct.pack(">I", it) for it in sorted(self.chance.sample(range(1, 60), count))]

    def prepare(self):
        header, sender = self.header(1)
        return header + self.ballot(sender) + self.position()

    def promise(self):
        header, sender = self.header(2)
        entries = [it + self.ballot(1) + self.value() for it in self.positions(self.chance.randint(0, 3))]
        return header + self.ballot(sender) + struct.pack(">IIB", 1, 1_000_000, len(entries)) + b"".join(entries)

    def accept(self):
        header, sender = self.header(3)
        return header + self.ballot(sender) + self.position() + self.value()

    def accepted(self):
        header, _ = self.header(4)
        return header + self.ballot(1) + self.position() + self.value()

    def chosen(self):
        header, _ = self.header(5)
        entries = [it + self.value() for it in self.positions(self.chance.randint(1, 8))]
        return header + struct.pack(">B", len(entries)) + b"".join(entries)

    def catch_up(self):
        return self.header(6)[0] + self.position()

    def submit(self):
        return self.header(7, 0)[0] + self.pair() + self.text()

    def reply(self):
        return self.header(8)[0] + self.pair() + struct.pack(">B", self.chance.randint(0, 45)) + self.position()

    def ask(self):
        return self.header(9, 0)[0] + self.pair() + struct.pack(">I", self.chance.choice([0, 0, 1, 1_000_000])) + self.text()

    def answer(self):
        return self.header(10)[0] + self.pair() + struct.pack(">IBH", 1, 0, 1) + b"1"

    def behind(self):
        return self.header(11)[0] + self.pair() + self.position()

    def elsewhere(self):
        return self.header(12)[0] + self.pair() + struct.pack(">B", self.chance.randint(0, 3))

    def whole(self):
        """A datagram as the format has it."""
        return self.chance.choice(self.kinds)()

    def mutated(self):
        """One with one to three changes."""
        data = bytearray(self.whole())
        for _ in range(self.chance.choice((1, 1, 1, 2, 3))):
            data = self.chance.choice(self.changes)(data)
        return bytes(data)

    def place(self, data):
        return self.chance.randrange(len(data))

    def flip(self, data):
        if data:
            data[self.place(data)] ^= 1 << self.chance.randrange(8)
        return data

    def put_edge(self, data):
        if data:
            data[self.place(data)] = self.chance.choice(EDGES)
        return data

    def put_wide_edge(self, data):
        width = self.chance.choice((2, 4, 8))
        if len(data) >= width:
            at = self.chance.randrange(len(data) - width + 1)
            data[at : at + width] = (self.chance.choice(WIDE_EDGES) % 256**width).to_bytes(width, "big")
        return data

    def cut(self, data):
        return data[: self.place(data)] if data else data

    def lengthen(self, data):
        return data + self.chance.randbytes(self.chance.randint(1, 9))

    def take_out(self, data):
        if data:
            at = self.place(data)
            del data[at : at + self.chance.randint(1, 9)]
        return data

    def repeat_part(self, data):
        if data:
            at = self.place(data)
            data[at:at] = data[at : at + self.chance.randint(1, 9)]
        return data

    def splice(self, data):
        other = self.whole()
        return data[: self.chance.randrange(len(data) + 1)] + other[self.chance.randrange(len(other)) :]

    def other_kind(self, data):
        if len(data) >= 10:
            data[8:10] = bytes((self.chance.choice((0, 1, 2, 3, 4, 63, 64, 255)), self.chance.randint(0, 14)))
        return data

    def random_bytes(self, data):
        return bytearray(self.chance.randbytes(self.chance.choice((0, 1, 9, 10, 30, 500)))) if self.chance.random() < 0.2 else self.flip(data)


def pair_of(data):
    """Client and number of a Submit or an Ask of the group, if these bytes are one, as the format has it; else None."""
    kind = data[9] if len(data) > 9 else 0
    head = {7: 22, 9: 26}.get(kind)
    if head is None or data[:9] != b"PXQ1" + struct.pack(">IB", GROUP, 0) or len(data) < head + 3:
        return None
    if kind == 9 and int.from_bytes(data[22:26], "big") > 1_000_000:
        return None
    level, length = struct.unpack_from(">BH", data, head)
    text = data[head + 3 :]
    if level not in (1, 2) or length > 4096 or len(text) != length:
        return None
    try:
        text.decode()
    except UnicodeDecodeError:
        return None
    return struct.unpack_from(">IQ", data, 10)
