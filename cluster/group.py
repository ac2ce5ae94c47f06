"""Groups of `paxq node` processes on 127.0.0.1, with their configurations and record files in a folder that is removed at the end."""

import os
import signal
import socket
import subprocess
import sys
import tempfile
import time

ROOT = os.path.dirname(os.path.dirname(os.path.realpath(__file__)))
sys.path.insert(0, os.path.join(ROOT, "clients", "python"))

from paxq import Client, Fault, TimedOut, read_datagram  # noqa: E402, F401 (the path has its folder since the line above)

NUMBER = 7  # of each group here
SERVES_WITHIN = 60  # seconds: far more than it takes, so that a slow machine is no failure


def end_when_told():
    """Has SIGTERM end this program as an error does, so that whatever it started is ended too."""
    signal.signal(signal.SIGTERM, lambda *_: sys.exit("stopped"))


def free_addresses(count):
    """So many addresses of this machine at whose ports nobody listens."""
    sockets = [socket.socket(socket.AF_INET, socket.SOCK_DGRAM) for _ in range(count)]
    for it in sockets:
        it.bind(("127.0.0.1", 0))
    addresses = [it.getsockname() for it in sockets]
    for it in sockets:
        it.close()
    return addresses


def text_of(address):
    """An address as configurations have it."""
    return f"{address[0]}:{address[1]}"


class Group:
    """Members of one group: a folder, and a process for each that was started. Leaving it ends all processes.

    `seen_by` says which addresses a member's configuration names; without it, the members' own.
    """

    def __init__(self, program, members, docs=("db",), in_files=True, seen_by=None):
        self.members, self.docs, self.in_files = members, docs, in_files
        self.program = os.path.abspath(program)
        self.addresses = free_addresses(members)
        self.number = NUMBER
        self.seen_by = seen_by or (lambda member: self.addresses)
        self.processes = {}

    def __enter__(self):
        self.room = tempfile.TemporaryDirectory(prefix="paxq-group-")
        return self

    def __exit__(self, *_):
        self.kill_all()
        self.room.cleanup()

    def path(self, name):
        return os.path.join(self.room.name, name)

    def write_configuration(self, member, begin):
        """The configuration that a member is started with next."""
        members = ", ".join(f'"{text_of(it)}"' for it in self.seen_by(member))
        docs = ", ".join(f'"{it}"' for it in self.docs)
        lines = [f"group = {NUMBER}", f"member = {member}", f"members = [{members}]", f"docs = [{docs}]"]
        if self.in_files:
            lines.append(f'records = "{self.path(f"{member}.db")}"')
        if begin:
            lines.append("begin = true")
        with open(self.path(f"{member}.toml"), "w", encoding="utf-8") as it:
            it.write("\n".join(lines) + "\n")

    def start(self, member, begin=False, wait=True):
        """Starts a member, and waits until it serves."""
        self.write_configuration(member, begin)
        with open(self.path(f"{member}.log"), "ab") as log:
            words = [self.program, "node", self.path(f"{member}.toml")]
            self.processes[member] = subprocess.Popen(words, stdin=subprocess.DEVNULL, stdout=log, stderr=log)
        if wait:
            self.wait_until_it_serves(member)

    def start_all(self, leader):
        """Starts every member, the one that begins last, so that the others hear of it at once."""
        for member in range(1, self.members + 1):
            if member != leader:
                self.start(member, wait=False)
        self.start(leader, begin=True, wait=False)
        for member in range(1, self.members + 1):
            self.wait_until_it_serves(member)

    def kill(self, member):
        """Ends a member by SIGKILL, and waits until it is gone."""
        process = self.processes.pop(member)
        process.kill()
        process.wait()

    def kill_all(self):
        for member in list(self.processes):
            self.kill(member)

    def running(self):
        return sorted(self.processes)

    def expect_alive(self):
        """SystemExit where a process that was not ended here has ended: with its status, and what it wrote."""
        for member, process in self.processes.items():
            if process.poll() is not None:
                with open(self.path(f"{member}.log"), encoding="utf-8", errors="replace") as log:
                    raise SystemExit(f"member {member} ended by itself, status {process.returncode}: {log.read()[-2000:]}")

    def wait_until_it_serves(self, member):
        """Asks a member until it answers."""
        end = time.monotonic() + SERVES_WITHIN
        while time.monotonic() < end:
            self.expect_alive()
            try:
                return self.ask(member, "1", timeout=0.5)
            except TimedOut:
                pass
        raise SystemExit(f"member {member} does not serve")

    def client(self, **options):
        """A client of the whole group."""
        return Client(NUMBER, self.addresses, **options)

    def ask(self, member, text, floor=0, timeout=10.0):
        """A question to one member alone."""
        with self.client(timeout=timeout) as client:
            return client.ask(text, floor=floor, member=member)

    def position(self, member):
        """How many positions a member has applied, or None where it is too busy to say."""
        try:
            return self.ask(member, "()").position
        except TimedOut:
            return None

    def settled(self, at_least, seconds=120):
        """The position that all members have applied, once they are level and no lower than that."""
        end = time.monotonic() + seconds
        while time.monotonic() < end:
            self.expect_alive()
            positions = {self.position(member) for member in self.running()}
            if len(positions) == 1 and None not in positions and min(positions) >= at_least:
                return positions.pop()
            time.sleep(0.2)
        raise SystemExit(f"the members do not come level: {positions}, {at_least} acknowledged")
