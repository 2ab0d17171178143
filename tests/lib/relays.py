"""A network with faults between a walker and an agent, on loopback."""
import collections
import select
import socket
import threading
import time

from lib.messages import RESPONSE, integer, message, read_or_none
from lib.mutations import corrupt
from lib.rows import R, lines_of, table_text

# A datagram to pass on: the time when it is due, the socket where the original arrived, the datagram, which may differ
# from the original, and the original.
Pending = collections.namedtuple("Pending", "due end datagram original")


def is_message(datagram):
    """Returns whether a datagram is a message of the version and community of these walks, as far as `read` checks."""
    it = read_or_none(datagram)
    return it is not None and (it.version, it.community) == (1, b"public")


class Relay:
    """Passes datagrams between a walker and the agent at a port of 127.0.0.1. With probability `chance`, it loses a
    datagram, repeats it or delays it, so that it may arrive after others that were sent later; if it `mutates`, it may
    also send on a mutated one. The walker sends its requests to `address`. `sent` records each datagram sent to the
    walker with the request that was waiting then, and `tainted` whether a mutated datagram was still a message."""

    def __init__(self, port, rng, chance, mutates):
        self.port, self.rng, self.chance, self.mutates, self.over = port, rng, chance, mutates, False
        self.request, self.sent, self.tainted = None, [], False

    def __enter__(self):
        self.door, self.back = (socket.socket(socket.AF_INET, socket.SOCK_DGRAM) for _ in range(2))
        self.door.bind(("127.0.0.1", 0))
        self.back.connect(("127.0.0.1", self.port))
        self.address = "127.0.0.1:{1}".format(*self.door.getsockname())
        self.carrier = threading.Thread(target=self.carry)
        self.carrier.start()
        return self

    def __exit__(self, *_):
        self.over = True
        self.carrier.join()
        self.door.close()
        self.back.close()

    def fate(self, datagram):
        """Returns the datagrams that are sent on instead of this one, each with a delay in seconds."""
        if self.rng.random() >= self.chance:
            return [(0, datagram)]
        if self.mutates and self.rng.random() < 0.4:
            return [(0, corrupt(self.rng, datagram)), (0.01, datagram)][:self.rng.choice([1, 2])]
        return [(wait, datagram) for wait in self.rng.choice([[], [0.1], [0.3], [1.5], [0, 0], [0, 0.05, 1.2]])]

    def carry(self):
        """Receives datagrams and sends on those that are due, until the `with` block of the test ends."""
        walker, due = None, []
        while not self.over:
            ready, _, _ = select.select([self.door, self.back], [], [], 0.02)
            for end in ready:
                try:
                    datagram, sender = end.recvfrom(65535)
                except OSError:
                    # The agent has ended.
                    continue
                if end is self.door:
                    walker, self.request = sender, read_or_none(datagram)
                due += [Pending(time.monotonic() + wait, end, it, datagram) for wait, it in self.fate(datagram)]
            now = time.monotonic()
            for it in [it for it in due if it.due <= now]:
                self.send(it, walker)
            due = [it for it in due if it.due > now]

    def send(self, it, walker):
        """Sends a datagram on, to the walker at this address or to the agent."""
        # A mutated request may ask for another name, and its reply then has the id that the walker waits for.
        self.tainted |= it.datagram != it.original and is_message(it.datagram)
        try:
            if it.end is self.door:
                self.back.send(it.datagram)
            else:
                self.sent.append((self.request, it.datagram))
                self.door.sendto(it.datagram, walker)
        except OSError:
            pass


Walk = collections.namedtuple("Walk", "lines table size words")


def random_walk(rng):
    """Returns a walk of a random table: the lines that it prints if nothing fails, the table file, the agent's greatest
    message size, and the first arguments of the walk."""
    rows = {}
    for _ in range(rng.randint(20, 200)):
        name = R + tuple(rng.choice([0, 1, 127, 128, 16383, 16384, 4294967295]) for _ in range(rng.randint(1, 4)))
        rows[name] = rng.choice([0, -1, 200, 2147483647])
    longest = max(len(message(RESPONSE, 2147483647, [(name, integer(value))])) for name, value in rows.items())
    walker = rng.choice([["snmpwalk"], ["snmpbulkwalk"], ["snmpbulkwalk", f"-Cr{rng.choice([1, 2, 7, 1000])}"]])
    table = table_text(rows).splitlines(True)
    rng.shuffle(table)
    return Walk(lines_of(rows).splitlines(True), "".join(table), longest + rng.choice([0, 1, 20, 100, 400]),
                [*walker, "-On"])
