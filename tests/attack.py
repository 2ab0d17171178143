#!/usr/bin/env python3
"""Sends the built program datagrams that aren't messages, or not those that it waits for: to snmpd mutated requests
with good ones between them, to the walkers and snmpget mutated replies.

usage: attack.py [WORD..]

Runs the tests whose titles contain one of the words; without words, both. The environment variables DATAGRAMS, WALKS
and SEED set the number of datagrams sent to snmpd, the number of runs of the walkers and snmpget, and the seed.
"""
import collections
import os
import random
import socket
import sys

from lib import programs
from lib.agents import run
from lib.messages import BULK, GET, NEXT, NULL, SET, message, read, reply_within
from lib.mutations import attacking, corrupt, faults_of
from lib.rows import AGENT_ROWS, E, OBJECTS, R
from lib.runner import Tests, differs, sent_not, side_by_side, wrongs
from lib.server import IDLE, Server
from lib.texts import dotted

tests = Tests("tests/attack.py")
test = tests.test
DATAGRAMS, WALKS = int(os.environ.get("DATAGRAMS", 200_000)), int(os.environ.get("WALKS", 600))
SEED = int(os.environ.get("SEED", 1))
SIZE = 1472
# The number of datagrams sent at once. If few are long, they fit into the queue of the server's socket.
TOGETHER = 32


def request(rng, id):
    """Returns a good request for up to four random names, in the table or near it."""
    names = [(rng.choice([*AGENT_ROWS, (1, 3), E, R, R + (2,), R + (2, 1), E + (9, 5, 0), E + (10,)]), NULL)
             for _ in range(rng.randint(0, 4))]
    kind = rng.choice([GET, NEXT, BULK, BULK, SET])
    if kind == SET:
        return message(SET, id, names)
    return message(kind, id, names, rng.choice([-1, 0, 1, 9]), rng.choice([-1, 0, 1, 5, 50]))


# -- snmpd

def memory(pid):
    """Returns the memory of a process in kibibytes: how much it has written to, and how much it has asked for."""
    with open(f"/proc/{pid}/status", encoding="ascii") as file:
        fields = dict(line.split(":", 1) for line in file)
    return [int(fields[name].split()[0]) for name in ("RssAnon", "VmData")]


class Attack:
    """An attack on a server. Counts the mutated datagrams sent, the other datagrams, and the right replies to these."""

    def __init__(self, server, attacker, rng):
        self.server, self.attacker, self.rng = server, attacker, rng
        self.mutated = self.others = self.right = 0

    def send(self, count):
        """Sends `count` mutated datagrams."""
        for _ in range(count):
            try:
                self.attacker.send(corrupt(self.rng, request(self.rng, self.rng.randrange(2 ** 31))))
            except OSError:  # this machine's queue is full, or the datagram is too long
                self.server.send(b"")
            self.mutated += 1

    def ask(self):
        """Sends a good request and waits for the right reply. Returns what is wrong."""
        asked = request(self.rng, self.mutated)
        self.server.send(asked)
        self.others += 1
        try:
            got = [self.server.receive()]
        except TimeoutError:
            got = []
        wrong = sent_not(got, [reply_within(AGENT_ROWS, read(asked), SIZE, OBJECTS)])
        self.right += not wrong
        return wrong and f"after {self.mutated} datagrams and {asked.hex()}: {wrong}"

    def end(self):
        """Sends good requests until the server has used up its turns; some turns may have passed without a datagram.
        Returns what is wrong with the counts that the server then prints. They count each datagram, except the last if
        it arrived too late."""
        late = False
        while self.server.program.poll() is None and not late:
            wrong = self.ask()
            late = wrong != "" and self.server.program.poll() is not None
            if wrong and not late:
                return wrong
        status, output, messages = self.server.end()
        counted = sum(int(word) for word in output.split() if word.isdigit())
        return differs((status, counted, messages), (0, self.mutated + self.others - late, ""))


# After every TOGETHER mutated datagrams a good request is sent, whose reply has to arrive. From a tenth of the
# datagrams on, the server's memory must not grow.
@test("snmpd replies correctly to good requests among mutated ones")
def attack_snmpd():
    before, wrong = None, ""
    turns = DATAGRAMS + -(-DATAGRAMS // TOGETHER) + IDLE
    with Server("--max-size", str(SIZE), "--turns", str(turns)) as server, \
            socket.socket(socket.AF_INET, socket.SOCK_DGRAM) as attacker:
        attacker.connect(("127.0.0.1", server.port))
        attacker.setblocking(False)
        attack = Attack(server, attacker, random.Random(SEED))
        while attack.mutated < DATAGRAMS and not wrong:
            attack.send(min(TOGETHER, DATAGRAMS - attack.mutated))
            wrong = attack.ask()
            if before is None and attack.mutated >= DATAGRAMS // 10 and not wrong:
                before = memory(server.program.pid)
        if wrong:
            return wrong
        after = memory(server.program.pid)
        if any(more > less for more, less in zip(after, before)):
            return f"memory written to and asked for, in KiB: {before} before, {after} at the end"
        print(f"snmpd: {attack.mutated} mutated datagrams, {attack.right} right replies to others", flush=True)
        return attack.end()


# -- walkers

COMMANDS = [[*words.split(" "), "-On", "-r1", "-t1", "AGENT", dotted(E)]
            for words in ("snmpwalk", "snmpbulkwalk", "snmpbulkwalk -Cr3i")]
COMMANDS.append(["snmpget", "-On", "-r1", "-t1", "AGENT", *map(dotted, [*list(AGENT_ROWS)[:7], R + (99,)])])


def attack_walker(number, seed):
    """Runs a walker or snmpget once against an agent with mutated replies. Returns the beginning of its message, or
    'done' if it has none, and what is wrong."""
    words, sent = COMMANDS[number % len(COMMANDS)], []
    ran = run(words, attacking(random.Random(seed), AGENT_ROWS, sent))
    wrong = wrongs(*faults_of(words, ran, sent), *ran.faults)
    end = ran.messages.split(":")[0].strip() or "done"
    return end, wrong and f"run {number}, {' '.join(words)}: {wrong}\n  {ran[:3]}"


@test("walkers and Gets that receive mutated replies end in an expected way")
def attack_walkers():
    rng = random.Random(SEED)
    runs = [(number, rng.random()) for number in range(WALKS)]
    ends, wrong = zip(*side_by_side(lambda it: attack_walker(*it), runs, 16))
    print("walkers:", dict(collections.Counter(ends)), flush=True)
    few = "done" not in ends or len(set(ends)) < 3
    return wrongs(*[it for it in wrong if it][:5], "expected 'done' and at least two other ends" if few else "")


if __name__ == "__main__":
    sys.exit(tests.main(sys.argv[1:], programs.BUILT, processes=True))
