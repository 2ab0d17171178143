"""Agents that a script plays, and runs of the program against them.

An agent is a function. It is called for each request that arrives, with all requests so far, and returns what to do:
a list of datagrams to send and of pauses in seconds. The datagram of an `Elsewhere` is sent from another port.
`stopping` stops the program for a tenth of a second and then continues it.
"""
import collections
import concurrent.futures
import socket
import threading
import time
import traceback

from lib import programs
from lib.messages import read, reply, reply_from

Elsewhere = collections.namedtuple("Elsewhere", "datagram")
stopping = object()


def serving(rows):
    """Returns an agent that replies to each request from these rows."""
    return lambda seen: [reply_from(rows, seen[-1])]


def silent(seen):
    """An agent that never replies."""
    return []


def losing(count, agent):
    """Returns an agent that ignores the first `count` requests and then does what `agent` does."""
    return lambda seen: agent(seen) if len(seen) > count else []


def saying(*replies):
    """Returns an agent that replies to the n-th request with the n-th list of bindings."""
    return lambda seen: [reply(seen[-1], replies[len(seen) - 1])]


def failing(status, index, bindings=()):
    """Returns an agent whose replies have this error status and error index."""
    return lambda seen: [reply(seen[-1], bindings, status, index)]


class Agent:
    """Runs an agent at a port of `host`, one of this machine's addresses. `seen` and `senders` record the requests and
    where each came from, `faults` the exceptions that the agent raised. An agent that stops or kills the program needs
    its process id: `finish` sets it as the result of `pid`."""

    def __init__(self, agent, host="127.0.0.1"):
        self.agent, self.host, self.over = agent, host, False
        self.seen, self.senders, self.faults, self.pid = [], [], [], concurrent.futures.Future()

    def __enter__(self):
        self.door = socket.socket(socket.AF_INET, socket.SOCK_DGRAM)
        self.door.bind((self.host, 0))
        self.door.settimeout(0.5)
        self.port = self.door.getsockname()[1]
        self.address = f"{self.host}:{self.port}"
        self.player = threading.Thread(target=self.play)
        self.player.start()
        return self

    def __exit__(self, *_):
        self.over = True
        # An empty datagram ends the thread, after the requests that were received before it. If it gets lost, the
        # thread ends at its next time-out, within half a second.
        with socket.socket(socket.AF_INET, socket.SOCK_DGRAM) as ender:
            ender.sendto(b"", (self.host, self.port))
        self.player.join()
        self.door.close()

    def finish(self, program, seconds=programs.PATIENCE):
        """Lets the agent know the program that asks it, and waits for the end of this program."""
        self.pid.set_result(program.pid)
        return programs.finish(program, seconds)

    def wait_for_pid(self):
        """Returns the process id of the program, once it is known."""
        return self.pid.result(programs.PATIENCE)

    def play(self):
        """Receives requests and acts on each, until the `with` block of the test ends."""
        with socket.socket(socket.AF_INET, socket.SOCK_DGRAM) as other:
            while True:
                try:
                    datagram, sender = self.door.recvfrom(65535)
                except (TimeoutError, socket.timeout):
                    datagram = b""
                    sender = None
                if self.over and not datagram:
                    return
                if sender is not None:
                    self.seen.append(datagram)
                    self.senders.append(sender)
                    self.act(sender, other)

    def act(self, sender, other):
        """Calls the agent for the last request, and does what it returns."""
        try:
            for act in self.agent([read(request) for request in self.seen]):
                if act is stopping:
                    programs.stop(self.wait_for_pid(), 0.1)
                elif isinstance(act, Elsewhere):
                    other.sendto(act.datagram, sender)
                elif isinstance(act, bytes):
                    self.door.sendto(act, sender)
                else:
                    time.sleep(act)
        except Exception:
            self.faults.append(traceback.format_exc())


Run = collections.namedtuple("Run", "status output messages requests seconds faults")


def run(words, agent):
    """Runs the program with these arguments against the agent. In the arguments, `AGENT` and `PORT` are replaced by the
    agent's address and port; in what the program prints, the address is replaced by `AGENT`."""
    with Agent(agent) as player:
        begun = time.monotonic()
        words = [word.replace("AGENT", player.address).replace("PORT", str(player.port)) for word in words]
        with programs.spawn([programs.PROGRAM, *words]) as program:
            ran = player.finish(program, 60)
        seconds = time.monotonic() - begun
    output, messages = (text.replace(player.address, "AGENT") for text in ran[1:])
    return Run(ran.status, output, messages, player.seen, seconds, player.faults)
