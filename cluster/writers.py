"""Clients that submit one request after the other, each an element with the request's number at the end of the client's own list; and what has to
stand in the lists then."""

import threading
import time

from group import Client, TimedOut

PIECE = 1000  # elements of a list that are asked for at once: an answer has at most 32,768 bytes


class Writer(threading.Thread):
    """A client at work, in a thread of its own, until it is told to stop. It goes on with a request until that is answered."""

    def __init__(self, client: Client, name, chance, pause):
        super().__init__(daemon=True)
        self.client, self.list, self.chance, self.pause = client, name, chance, pause
        self.replies = []  # of requests 1, 2, ..; the first makes the list
        self.told_to_stop = threading.Event()
        self.requests_left = None
        self.error = None

    def text(self, number):
        if number == 1:
            return f'insert node element {self.list} {{}} into doc("db")'
        return f'insert node element r {{"{number}"}} as last into doc("db")/{self.list}'

    def run(self):
        try:
            while not self.told_to_stop.is_set() and self.requests_left != 0:
                self.submit_next()
                time.sleep(self.pause * self.chance.random())
                if self.requests_left is not None:
                    self.requests_left -= 1
        except BaseException as error:  # told to whoever waits
            self.error = error

    def submit_next(self):
        number = len(self.replies) + 1
        while True:
            try:
                self.replies.append(self.client.submit(self.text(number), number=number))
                return
            except TimedOut:
                pass

    def stop(self, seconds=180):
        """Waits until what was begun is answered. SystemExit where it is not."""
        self.told_to_stop.set()
        self.wait(seconds)

    def wait(self, seconds):
        self.join(seconds)
        if self.error is not None:
            raise self.error
        if self.is_alive():
            raise SystemExit(f"{self.list}: request {len(self.replies) + 1} is not answered after {seconds} seconds")

    def expect_repeats(self):
        """What was answered first is answered again, whatever the text."""
        for number in {1, len(self.replies)}:
            again = self.client.submit("()", number=number)
            if again != self.replies[number - 1]:
                raise SystemExit(f"{self.list}: request {number} got {self.replies[number - 1]}, and then {again}")


def begin(group, count, chance, pause, requests=None, addresses=None):
    """So many writers at work; each makes so many requests, or goes on until it is stopped. `addresses` says by which it knows the members."""
    writers = []
    for at in range(1, count + 1):
        client = group.client(timeout=5.0) if addresses is None else Client(group.number, addresses(at), timeout=5.0)
        writers.append(Writer(client, f"c{at}", chance, pause))
        writers[-1].requests_left = requests
    for it in writers:
        it.start()
    return writers


def acknowledged(writers):
    return sum(len(it.replies) for it in writers)


def expect_replies(writers):
    """Each request is done, each client's positions rise, and no position is that of two."""
    for it in writers:
        positions = [reply.position for reply in it.replies]
        faults = [reply for reply in it.replies if reply.code is not None]
        if faults or positions != sorted(positions):
            raise SystemExit(f"{it.list}: replies {faults or positions}")
    every = [reply.position for it in writers for reply in it.replies]
    if len(set(every)) != len(every):
        raise SystemExit("two requests were told one position")


def listed(group, member, name, floor):
    """The numbers in a list, as a member answers, and at which positions."""
    numbers, positions, first = [], set(), 1
    while True:
        last = first + PIECE - 1
        asked = f'string-join(doc("db")/{name}/r[position() >= {first} and position() <= {last}], " ")'
        answer = group.ask(member, asked, floor=floor, timeout=60)
        piece = answer.text.strip('"').split()
        numbers += [int(it) for it in piece]
        positions.add(answer.position)
        if len(piece) < PIECE:
            return numbers, positions
        first = last + 1


def expect_lists(group, writers, seconds=300):
    """Every acknowledged request stands once, each client's in its order, and all members answer so at one position, which is given."""
    highest = max(reply.position for it in writers for reply in it.replies)
    position = group.settled(highest, seconds)
    for member in group.running():
        for it in writers:
            numbers, positions = listed(group, member, it.list, position)
            if numbers != list(range(2, len(it.replies) + 1)) or positions != {position}:
                raise SystemExit(f"member {member}, {it.list} at {positions}: {numbers}, and {len(it.replies)} requests were acknowledged, {position} applied")
        others = group.ask(member, 'count(doc("db")/*)', floor=position)
        if (others.position, others.text) != (position, str(len(writers))):
            raise SystemExit(f"member {member} has {others.text} lists at {others.position}")
    return position
