"""Clients that send one request after the other, many in one thread: how many are answered in a second, and how long each waits."""

import heapq
import select
import socket
import time

from group import NUMBER
from paxq import ELSEWHERE, FIRST_WAIT, LONGEST_WAIT, REPLY, read_datagram, submit_bytes


class Figures:
    """Latencies of requests that were answered in so many seconds."""

    def __init__(self, latencies, seconds):
        self.latencies, self.seconds = sorted(latencies), seconds

    def rate(self):
        return len(self.latencies) / self.seconds

    def part(self, of_a_hundred):
        """The latency that so many of a hundred requests do not pass, in milliseconds."""
        return 1e3 * self.latencies[min(len(self.latencies) - 1, len(self.latencies) * of_a_hundred // 100)]


class PaxqClients:
    """So many clients of the member that leads, at one socket. What is not answered is sent again as by the client in clients/python."""

    def __init__(self, leader, address, count, first_client, text):
        self.leader, self.address, self.count, self.first, self.text = leader, address, count, first_client, text
        self.socket = socket.socket(socket.AF_INET, socket.SOCK_DGRAM)
        self.numbers = [0] * count
        self.data, self.began = [b""] * count, [0.0] * count
        self.due = []  # when something is sent again, whose, which number, and how long it waits then
        self.latencies, self.again = [], 0

    def close(self):
        self.socket.close()

    def begin(self, at, now):
        """Client `at` goes on to its next request."""
        self.numbers[at] += 1
        self.data[at] = submit_bytes(NUMBER, self.first + at, self.numbers[at], 1, self.text(at))
        self.began[at] = now
        self.send(at, now, FIRST_WAIT)

    def send(self, at, now, wait):
        self.socket.sendto(self.data[at], self.address)
        heapq.heappush(self.due, (now + wait, at, self.numbers[at], min(2 * wait, LONGEST_WAIT)))

    def send_again(self, now):
        """Sends what has waited too long, and forgets what was answered."""
        while self.due and self.due[0][0] <= now:
            _, at, number, wait = heapq.heappop(self.due)
            if self.numbers[at] == number:
                self.again += 1
                self.send(at, now, wait)

    def run(self, seconds):
        """Figures of so many seconds."""
        now = time.perf_counter()
        end = now + seconds
        for at in range(self.count):
            self.begin(at, now)
        while now < end:
            self.socket.settimeout(FIRST_WAIT)
            try:
                self.take(self.socket.recv(65536))
            except socket.timeout:
                pass
            now = time.perf_counter()
            self.send_again(now)
        return Figures(self.latencies, seconds)

    def take(self, data):
        heard = read_datagram(data, NUMBER, self.leader)
        if heard is None:
            raise SystemExit(f"a wrong reply: {data.hex()}")
        at = heard.client - self.first
        if heard.number != self.numbers[at]:
            return  # to what was sent twice
        if heard.kind == ELSEWHERE:
            raise SystemExit(f"member {self.leader} does not lead: elsewhere {heard.body}")
        if heard.kind == REPLY:
            if heard.body.code is not None:
                raise SystemExit(f"{self.text(at)}: {heard.body}")
            now = time.perf_counter()
            self.latencies.append(now - self.began[at])
            self.begin(at, now)


class EtcdClients:
    """So many connections to a member of etcd, each with one call at a time."""

    def __init__(self, connections):
        self.connections = connections
        self.latencies = []

    def run(self, seconds, payload):
        """Figures of so many seconds, of calls with the payload that a function gives for each connection's number."""
        now = time.perf_counter()
        end, began = now + seconds, [now] * len(self.connections)
        by_number = {it.socket.fileno(): at for at, it in enumerate(self.connections)}
        with select.epoll() as poll:
            for at, it in enumerate(self.connections):
                poll.register(it.socket.fileno(), select.EPOLLIN)
                it.send(payload(at))
            while now < end:
                for number, _ in poll.poll(0.1):
                    at = by_number[number]
                    if self.connections[at].take():
                        now = time.perf_counter()
                        self.latencies.append(now - began[at])
                        began[at] = now
                        self.connections[at].send(payload(at))
                now = time.perf_counter()
        return Figures(self.latencies, seconds)
