"""Starts the program's own snmpd and sends it datagrams, and lists the sockets of a program."""
import glob
import os
import socket
import tempfile
import time

from lib import pipes, programs
from lib.messages import GET, RESPONSE, message
from lib.ports import free_port
from lib.rows import NO_LINK, TABLE

# A second without a datagram is a turn of snmpd. After this number of them, a server that a script failed to end ends
# by itself.
IDLE = 600


class Server:
    """Runs snmpd with a table and more arguments. `before` is a command that runs it, such as strace. Without --turns
    in `words`, it has a turn for each of `datagrams`, the greatest number that the test sends, and IDLE more."""

    def __init__(self, *words, table=TABLE, host="127.0.0.1", before=(), datagrams=0):
        turns = () if "--turns" in words else ("--turns", str(datagrams + IDLE))
        self.words, self.table, self.host, self.before = (*words, *turns), table, host, before

    def __enter__(self):
        self.file = tempfile.NamedTemporaryFile("w", suffix=".tab")
        self.file.write(self.table)
        self.file.flush()
        self.socket = socket.socket(socket.AF_INET, socket.SOCK_DGRAM)
        try:
            self.listen()
        except BaseException:
            self.close()
            raise
        return self

    def listen(self):
        """Starts snmpd at a free port, and reads its first line. If another program has bound the port meanwhile, tries
        again with another port, up to 20 times."""
        for _ in range(20):
            self.port = free_port()
            self.address = f"{self.host}:{self.port}"
            self.begun = time.monotonic()
            self.program = programs.start("snmpd", "--table", self.file.name, "--listen", self.address, *self.words,
                                          before=self.before)
            try:
                self.listening = pipes.line(self.program.stdout)
            except BaseException:
                self.program.kill()
                raise
            if self.listening:
                return
            outcome = self.end()
            if outcome != (1, "", NO_LINK):
                break
        raise RuntimeError(f"snmpd ended: {outcome}")

    def close(self):
        self.socket.close()
        self.file.close()

    def __exit__(self, *_):
        self.program.kill()
        self.program.communicate(timeout=programs.PATIENCE)
        self.close()

    def send(self, datagram):
        """Sends a datagram to the server, at 127.0.0.1."""
        self.socket.sendto(datagram, ("127.0.0.1", self.port))

    def receive(self, seconds=60):
        """Returns the next datagram from the server. Raises TimeoutError if none arrives in time, or if none is waiting
        and the server has ended."""
        end = time.monotonic() + seconds
        while True:
            has_ended = self.program.poll() is not None
            self.socket.settimeout(0 if has_ended else 0.2)
            try:
                datagram, sender = self.socket.recvfrom(65535)
                break
            except (BlockingIOError, TimeoutError, socket.timeout):
                if has_ended or time.monotonic() > end:
                    raise TimeoutError(f"no reply, and status {self.program.returncode}") from None
        assert sender == ("127.0.0.1", self.port)
        return datagram

    def ask(self, datagram, community=b"public"):
        """Sends a datagram and returns the list of replies to it: those that arrive before the reply to a Get without
        names, which is sent right after."""
        probe = message(GET, 7777777, [], community=community)
        self.send(datagram)
        self.send(probe)
        replies, last = [self.receive()], message(RESPONSE, 7777777, [], community=community)
        while replies[-1] != last:
            replies.append(self.receive())
        return replies[:-1]

    def end(self):
        """Waits for the end of the server. Returns its status, the rest of its output, and its messages."""
        return programs.finish(self.program)


def sockets_of(pid):
    """Returns the number of sockets of a program, and the addresses and ports of its UDP sockets as in
    /proc/net/udp."""
    links = [os.readlink(link) for link in glob.glob(f"/proc/{pid}/fd/*")]
    sockets = [link[len("socket:["):-1] for link in links if link.startswith("socket:[")]
    # A line may be read twice if other sockets are closed meanwhile.
    with open("/proc/net/udp", encoding="ascii") as file:
        addresses = {fields[1] for fields in map(str.split, file) if fields[9] in sockets}
    return len(sockets), sorted(addresses)
