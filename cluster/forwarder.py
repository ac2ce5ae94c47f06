"""A network that loses, repeats and delays datagrams, between processes of this machine.

A member is heard only from the address that configurations name for it. So the network has a socket for each pair of ends: the address at which
one end knows the other. What an end sends there is passed on to the other end from the address at which that one knows the first.
"""

import heapq
import random
import select
import socket
import threading
import time

LOST, REPEATED, DELAYED = 0.1, 0.1, 0.1
LONGEST_DELAY = 0.2


class Forwarder(threading.Thread):
    """Carries what members and clients send each other. Members are 1 to `len(addresses)`; clients have further numbers, and their addresses are
    learnt as they send."""

    def __init__(self, addresses, clients, seed):
        super().__init__(daemon=True)
        self.members = len(addresses)
        self.places = {at + 1: it for at, it in enumerate(addresses)}  # where an end really is
        self.chance = random.Random(seed)
        self.carried = self.lost = self.repeated = self.delayed = 0
        self.waiting, self.turn = [], 0
        self.ended = False
        self.sockets, self.pairs = {}, {}
        for end in range(1, self.members + clients + 1):
            for other in range(1, self.members + 1):
                if end != other:
                    self.open(end, other)
                    if end > self.members:
                        self.open(other, end)

    def open(self, end, other):
        """The socket that stands for `other` before `end`."""
        it = socket.socket(socket.AF_INET, socket.SOCK_DGRAM)
        it.bind(("127.0.0.1", 0))
        it.setblocking(False)
        self.sockets[end, other], self.pairs[it.fileno()] = it, (end, other)

    def seen_by(self, end):
        """The members' addresses as an end knows them, its own as it is."""
        return [self.places[it] if it == end else self.sockets[end, it].getsockname() for it in range(1, self.members + 1)]

    def client_sees(self, client):
        """The same for client 1, 2, .."""
        return self.seen_by(self.members + client)

    def __enter__(self):
        self.start()
        return self

    def __exit__(self, *_):
        self.ended = True
        self.join()
        for it in self.sockets.values():
            it.close()

    def run(self):
        with select.epoll() as poll:
            for it in self.pairs:
                poll.register(it, select.EPOLLIN)
            while not self.ended:
                for number, _ in poll.poll(self.until_next()):
                    self.take(*self.pairs[number])
                self.pass_on_due()

    def until_next(self):
        """Seconds until something that waits is due."""
        return min(0.05, max(0.0, self.waiting[0][0] - time.monotonic())) if self.waiting else 0.05

    def take(self, end, other):
        """Takes what an end sent to another, until there is no more."""
        for _ in range(64):
            try:
                data, address = self.sockets[end, other].recvfrom(65536)
            except OSError:
                return
            if end > self.members:
                self.places[end] = address
            if address == self.places[end]:
                self.treat(end, other, data)

    def treat(self, end, other, data):
        """Loses it, or passes it on: once or twice, now or later."""
        self.carried += 1
        if self.chance.random() < LOST:
            self.lost += 1
            return
        copies = 1
        if self.chance.random() < REPEATED:
            self.repeated += 1
            copies = 2
        for _ in range(copies):
            if self.chance.random() < DELAYED:
                self.delayed += 1
                self.turn += 1
                heapq.heappush(self.waiting, (time.monotonic() + LONGEST_DELAY * self.chance.random(), self.turn, end, other, data))
            else:
                self.pass_on(end, other, data)

    def pass_on(self, end, other, data):
        if other in self.places:
            try:
                self.sockets[other, end].sendto(data, self.places[other])
            except OSError:
                pass  # as good as lost

    def pass_on_due(self):
        while self.waiting and self.waiting[0][0] <= time.monotonic():
            _, _, end, other, data = heapq.heappop(self.waiting)
            self.pass_on(end, other, data)
