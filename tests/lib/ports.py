"""Finds UDP ports that no program uses. All are below 32768: by default the system chooses higher ports for sockets
that ask for none.
"""
import contextlib
import itertools
import os
import random
import socket

FIRST, END = 10000, 32000


def begin():
    """Begins the choice of ports at random, so that two processes rarely choose the same."""
    global numbers
    numbers = itertools.count(random.randrange(END - FIRST))


begin()
os.register_at_fork(after_in_child=begin)


def is_free(port):
    """Returns whether a socket can be bound to the port at all addresses of this machine."""
    with socket.socket(socket.AF_INET, socket.SOCK_DGRAM) as door:
        try:
            door.bind(("0.0.0.0", port))
        except OSError:
            return False
    return True


def free_port():
    """Returns a port that no program uses now. Another program may bind it before the caller does."""
    for number in itertools.islice(numbers, END - FIRST):
        port = FIRST + number % (END - FIRST)
        if is_free(port):
            return port
    raise RuntimeError("no port is free here")


def over_free_port(test):
    """Calls the test with a free port and returns what it finds wrong. If it finds something and another program has
    bound the port meanwhile, tries again with another port, up to 20 times."""
    for _ in range(20):
        port = free_port()
        wrong = test(port)
        if not wrong or is_free(port):
            break
    return wrong


@contextlib.contextmanager
def closed_port():
    """Yields a port of loopback where no program listens and that no other program can bind. A socket holds it that is
    connected to another port, and so accepts datagrams only from there. The system refuses all others, as it does if
    no socket has the port."""
    with socket.socket(socket.AF_INET, socket.SOCK_DGRAM) as door, \
            socket.socket(socket.AF_INET, socket.SOCK_DGRAM) as other:
        for end in door, other:
            end.bind(("127.0.0.1", 0))
        door.connect(other.getsockname())
        yield door.getsockname()[1]
