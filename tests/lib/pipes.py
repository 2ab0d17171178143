"""Reads and writes the pipes of a program. No call here waits for a program that has ended, or longer than PATIENCE
seconds, which is more than a correct program takes.
"""
import contextlib
import errno
import fcntl
import os
import select
import struct
import tempfile
import termios
import time

from lib.programs import PATIENCE, start


@contextlib.contextmanager
def fifo():
    """Yields the path of a named pipe in a folder of its own."""
    with tempfile.TemporaryDirectory() as folder:
        os.mkfifo(f"{folder}/fifo")
        yield f"{folder}/fifo"


@contextlib.contextmanager
def file(octets=b"", size=None):
    """Yields the path of a temporary file with these octets. With a size, the file is truncated or extended to it;
    zeros at its end take no space on the disk."""
    with tempfile.NamedTemporaryFile() as it:
        it.write(octets)
        it.flush()
        if size is not None:
            it.truncate(size)
        yield it.name


@contextlib.contextmanager
def folder(files):
    """Yields the path of a temporary folder with these files, whose contents are strings."""
    with tempfile.TemporaryDirectory() as path:
        for name, content in files.items():
            with open(f"{path}/{name}", "w", encoding="utf-8", errors="surrogateescape", newline="") as it:
                it.write(content)
        yield path


def waiting_octets(pipe):
    """Returns the number of octets that can be read from a pipe or a socket."""
    return struct.unpack("i", fcntl.ioctl(pipe, termios.FIONREAD, bytes(4)))[0]


def wait_for(pipe, what, event=select.POLLIN):
    """Waits until a pipe can be read, or until another event occurs, such as that it can be written. Raises
    TimeoutError with the message `what` if that takes too long."""
    poll = select.poll()
    poll.register(pipe, event)
    if not poll.poll(PATIENCE * 1000):
        raise TimeoutError(f"{what} in {PATIENCE} seconds")


def some(pipe, most):
    """Waits until octets have arrived in a pipe or a socket, and returns at most `most` of them. Returns no octets if
    the other end is closed."""
    wait_for(pipe, "nothing came through a pipe")
    return os.read(pipe if isinstance(pipe, int) else pipe.fileno(), most)


def read_exactly(pipe, size, most=1 << 20):
    """Reads exactly `size` octets, at most `most` at a time, and returns them decoded. Raises EOFError if the pipe ends
    before."""
    octets = b""
    while len(octets) < size:
        piece = some(pipe, min(most, size - len(octets)))
        if not piece:
            raise EOFError(f"a pipe ended after {len(octets)} of {size} octets")
        octets += piece
    return octets.decode()


def rest(pipe, most=1 << 20):
    """Reads up to the end of a pipe, at most `most` octets at a time, and returns the octets decoded."""
    pieces = [some(pipe, most)]
    while pieces[-1]:
        pieces.append(some(pipe, most))
    return b"".join(pieces).decode()


@contextlib.contextmanager
def open_for_writing(path, program):
    """Waits until the program opens the named pipe at `path` for reading, and yields the end to write to."""
    end = time.monotonic() + PATIENCE
    pipe = None
    while pipe is None:
        try:
            pipe = os.open(path, os.O_WRONLY | os.O_NONBLOCK)
        except OSError as fault:
            if fault.errno != errno.ENXIO:
                raise
            if program.poll() is not None:
                raise EOFError(f"the program ended with status {program.returncode} before it read {path}") from None
            if time.monotonic() > end:
                raise TimeoutError(f"the program didn't read {path} in {PATIENCE} seconds") from None
            time.sleep(0.01)
    try:
        yield pipe
    finally:
        os.close(pipe)


@contextlib.contextmanager
def feeding(path, *words, **where):
    """Starts the program, and waits until it opens the named pipe at `path` for reading. In its arguments `FIFO` is
    replaced by this path. Yields the program and the end to write to. Kills the program if the test fails meanwhile."""
    program = start(*(word.replace("FIFO", path) for word in words), **where)
    try:
        with open_for_writing(path, program) as pipe:
            yield program, pipe
    except BaseException:
        program.kill()
        raise


def write(pipe, octets):
    """Writes all octets, as fast as the program reads them. Raises BrokenPipeError if the program has ended."""
    while octets:
        wait_for(pipe, "nothing was read from a pipe", select.POLLOUT)
        try:
            octets = octets[os.write(pipe, octets):]
        except BlockingIOError:
            time.sleep(0.01)


def line(pipe):
    """Reads the next line and nothing after it. If the pipe ends before the line does, returns what has arrived."""
    octets = b""
    while not octets.endswith(b"\n"):
        octet = some(pipe, 1)
        if not octet:
            break
        octets += octet
    return octets.decode()
