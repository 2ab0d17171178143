#!/usr/bin/env python3
"""Tests how the built program writes, which the proofs don't cover: outputs that take only a part of a write, or none,
writes that are interrupted, and what is printed before a signal ends the program. The comment above a test lists, after
'Catches:', wrong programs that the proofs would accept and the test rejects.

usage: outputs.py [WORD..], as lib/runner.py says
"""
import contextlib
import fcntl
import os
import signal
import socket
import struct
import sys
import tempfile

from lib import programs
from lib.agents import Agent
from lib.commands import lacks_limits, lacks_mounts, lacks_signals, lacks_traces
from lib.messages import GET, RESPONSE, bulks, message, nexts, reply_from, text
from lib.pipes import file, folder, read_exactly, rest, some, waiting_octets
from lib.programs import finish, run, start, state, stop, strace, until
from lib.rows import FAILED, FIRST, NAMES, R, ROOT, ROWS, SECOND, SOME, SOME_TEXT, lines_of, table_of, table_text
from lib.runner import Tests, differs, wrongs
from lib.server import Server

tests = Tests("tests/outputs.py")
test = tests.test
# Six rows of 60,000 octets each. Each row has its own letter, so that a piece of the output shows its row.
LONG = {R + (i,): chr(ord("a") + i) * 60000 for i in range(6)}
LONG_TEXT = lines_of(LONG)
BIG = "--max-size=65507"
ENDINGS = signal.SIGTERM, signal.SIGINT, signal.SIGHUP, signal.SIGKILL
# A command that runs a program which ignores no signal. If the tests run as a background job, SIGINT may be ignored;
# under nohup, SIGHUP is.
WITH_SIGNALS = ["env", "--default-signal"]
# fcntl.F_SETPIPE_SZ, which Python 3.9 doesn't have.
SET_PIPE_SIZE = 1031


@contextlib.contextmanager
def walking(rows, *walk, ends=None, size=None):
    """Starts a walk of a table with these rows. Its output is a new pipe, of `size` octets if that is given, or the
    pipe or socket with these `ends`. Yields the program and the end to read from."""
    reader, writer = ends or os.pipe()
    if size:
        fcntl.fcntl(writer, SET_PIPE_SIZE, size)
    with open(reader, "rb", buffering=0) as reader, table_of(rows) as table:
        program = start(*walk or ("snmpwalk", BIG), "-On", f"table:{table}", ROOT, stdout=writer)
        os.close(writer)
        yield program, reader


def not_waiting():
    """Returns the ends of a pipe whose writer doesn't wait for its reader."""
    reader, writer = os.pipe()
    os.set_blocking(writer, False)
    return reader, writer


def waits(program, reader):
    """Returns whether the program waits until its output is read, and there are octets to read. Raises RuntimeError if
    the program has ended."""
    if program.poll() is not None:
        raise RuntimeError(f"the program has ended with status {program.returncode}")
    return waiting_octets(reader) > 0 and state(program.pid) == "S"


def not_prefix(got, whole):
    """Returns an empty string if `got` is a prefix of `whole`, and otherwise a message with the first octet that
    differs."""
    if whole.startswith(got):
        return ""
    return f"not a prefix of the text: it differs from octet {len(os.path.commonprefix([got, whole]))} on"


# -- outputs that take a part

# The pipe takes a part of the second line, which is the last line in the first case but not in the second. Catches: a
# program that takes a write of a part for one of the whole, or that writes the whole again after it; one that ends with
# status 0 after a failed write.
@test("a non-blocking pipe that isn't read takes a prefix of the text")
def full_pipe():
    wrong = []
    for rows in {name: LONG[name] for name in list(LONG)[:2]}, LONG:
        with walking(rows, ends=not_waiting()) as (program, reader):
            status, _, messages = finish(program)
            got = rest(reader)
        wrong += [not_prefix(got, LONG_TEXT), differs((status, messages), (1, FAILED)),
                  differs(60000 < len(got) < len(lines_of(rows)), True)]
    return wrongs(*wrong)


# The agent reads from the pipe before it replies, and so decides how much space the next line finds. Catches: a program
# that continues with the next line after the pipe took a part of one, or nothing; one that ends with status 0 after
# that.
@test("a non-blocking pipe that is read slowly takes a prefix of the text, and with status 0 all of it")
def slow_pipe():
    wrong, rows, most = [], {name: text(value.encode()) for name, value in LONG.items()}, 1 << 20
    # The most octets that the agent reads before its second reply, the third, and so on.
    for takes in [], [0], [100], [30000], [most, 40000], [most] * 4 + [0]:
        got = b""
        reader, writer = not_waiting()

        def reading(seen):
            nonlocal got
            take = [0, *takes, *[most] * len(rows)][len(seen) - 1]
            if take:
                got += some(reader, take)
            return [reply_from(rows, seen[-1])]
        with Agent(reading) as agent:
            program = start("snmpwalk", "-On", agent.address, ROOT, stdout=writer)
            os.close(writer)
            status, _, messages = finish(program)
        got = got.decode() + rest(reader)
        os.close(reader)
        wanted = (False, 1, FAILED) if takes else (True, 0, "")
        wrong += [not_prefix(got, LONG_TEXT), differs((got == LONG_TEXT, status, messages), wanted), *agent.faults]
    return wrongs(*wrong)


# A write that waits returns after a part when the program is stopped. Catches: a program that takes that part for the
# whole.
@test("a walk that is stopped while a pipe takes a line prints the whole text")
def stopped_write():
    got = ""
    with walking(LONG, size=4096) as (program, reader):
        for _ in range(20):
            until(lambda: waits(program, reader))
            stop(program.pid)
            got += some(reader, 4096).decode()
        got += rest(reader)
        return differs((got == LONG_TEXT, finish(program)), (True, (0, "", "")))


# A write to a socket with a time limit is interrupted when the program is stopped. Catches: a program that takes an
# interrupted write for one that failed.
@test("a write that a signal interrupts is repeated")
def interrupted_write():
    ours, theirs = socket.socketpair()
    theirs.setsockopt(socket.SOL_SOCKET, socket.SO_SNDBUF, 4096)
    theirs.setsockopt(socket.SOL_SOCKET, socket.SO_SNDTIMEO, struct.pack("ll", 60, 0))
    got = ""
    with walking(LONG, ends=(ours.detach(), theirs.detach())) as (program, reader):
        for _ in range(20):
            for _ in range(3):
                until(lambda: waits(program, reader))
                stop(program.pid)
            got += some(reader, 1000).decode()
        got += rest(reader)
        return differs((got == LONG_TEXT, finish(program)), (True, (0, "", "")))


# A write is tried 100 times. Catches: a program whose write fails at the second interruption in a row, and one that
# tries a write for ever.
@test("a write that signals interrupt up to 99 times in a row succeeds, and one that they interrupt 100 times fails",
      lacks_traces())
def interrupted_thrice():
    wrong = []
    with table_of(SOME) as table, file() as log:
        for times, expected in ((2, (0, SOME_TEXT, "")), (99, (0, SOME_TEXT, "")), (100, (1, "", FAILED))):
            ran = run("snmpwalk", "-On", f"table:{table}", ROOT,
                      before=strace(log, "write", f"write:error=EINTR:when=1..{times}"))
            wrong.append(differs((times, ran), (times, expected)))
    return wrongs(*wrong)


# Catches: a walk that continues to send requests though no program reads its output.
@test("a walk whose reader closes the pipe ends at the next reply and sends no more requests")
def reader_goes():
    wrong = []
    for command, count in ("snmpwalk", 3), ("snmpbulkwalk", 1):
        reader, writer = os.pipe()
        printed = []

        def leaving(seen):
            if len(seen) == count:
                if count > 1:
                    printed.append(some(reader, 1000).decode())
                with programs.starting:
                    os.close(reader)
            return [reply_from(ROWS, seen[-1])]
        with Agent(leaving) as agent:
            program = start(command, "-On", agent.address, ROOT, stdout=writer)
            os.close(writer)
            wrong.append(differs(finish(program), (1, "", FAILED)))
        asked = nexts(*NAMES[:3]) if count > 1 else bulks(10, R)
        wrong += [differs(agent.seen, asked), differs(printed, [FIRST + SECOND][:count - 1]), *agent.faults]
    return wrongs(*wrong)


# Catches: a program that writes lines in another order than they arrive; one that ends with status 0 though the reader
# has closed the pipe.
@test("a reader that closes the pipe has received a prefix of the text")
def readers_of_some():
    wrong = []
    for size in 1, 30, 4096, 60030, 100000, len(LONG_TEXT) - 70000:
        with walking(LONG) as (program, reader):
            wrong.append(differs(read_exactly(reader, size) == LONG_TEXT[:size], True))
            reader.close()
            wrong.append(differs(finish(program), (1, "", FAILED)))
    return wrongs(*wrong)


# Through a socket of packets each write is seen by itself. Catches: a write for each line; a write for the lines of
# several replies.
@test("the lines of a reply are written in one call")
def reply_at_once():
    ours, theirs = socket.socketpair(socket.AF_UNIX, socket.SOCK_SEQPACKET)
    each = SOME_TEXT.splitlines(True)
    replies = ["".join(each[i:i + 50]) for i in range(0, len(each), 50)]
    with walking(SOME, "snmpbulkwalk", "-Cr50", ends=(ours.detach(), theirs.detach())) as (program, reader):
        pieces = list(iter(lambda: some(reader, 65536).decode(), ""))
        return wrongs(differs(pieces, replies), differs(finish(program), (0, "", "")))


# Like a full disk, a file takes octets up to a limit and no more. Catches: a program that takes a write of a part for
# one of the whole, so that it ends with status 0 or leaves lines out.
@test("a file of limited size has a prefix of the text, and with status 0 all of it",
      lacks_limits() or lacks_signals())
def full_file():
    wrong = []
    with table_of(SOME) as table:
        for size in 0, 1, 37, 38, 39, 1000, 4096, len(SOME_TEXT) - 1, len(SOME_TEXT):
            for how, failed in ("ignore", (1, "", FAILED)), ("default", (-signal.SIGXFSZ, "", "")):
                with tempfile.TemporaryFile() as out:
                    ran = run("snmpwalk", "-On", f"table:{table}", ROOT, stdout=out,
                              before=["env", f"--{how}-signal=XFSZ", "prlimit", f"--fsize={size}"])
                    out.seek(0)
                    got = out.read().decode()
                wrong += [differs(got == SOME_TEXT[:size], True),
                          differs((size, ran), (size, (0, "", "") if size == len(SOME_TEXT) else failed))]
    return wrongs(*wrong)


# Mounts a small disk at a folder, and runs a command whose output is a file on it.
ON_A_DISK = """mount -t tmpfs -o size=128k none "$1" || exit 99
cd "$1"
shift
"$@" >out
status=$?
cat out
exit $status
"""


# Catches: a program that takes a write that the disk refused for one that succeeded, so that lines are missing although
# the status is 0.
@test("a full disk has a prefix of the text", lacks_mounts())
def full_disk():
    with table_of(LONG) as table, tempfile.TemporaryDirectory() as folder:
        status, output, messages = run("snmpwalk", "-On", BIG, f"table:{table}", ROOT,
                                       before=["unshare", "-rm", "sh", "-c", ON_A_DISK, "-", folder])
    return wrongs(differs(output == LONG_TEXT[:131072], True), differs((status, messages), (1, FAILED)))


# Catches: a program that writes a line in pieces.
@test("64 runs that append to one file leave each line whole")
def append_together():
    tables = {str(n): {R + (n, i): str(n) * (1 + i * 7 % 300) for i in range(200)} for n in range(64)}
    with folder({name: table_text(rows) for name, rows in tables.items()}) as path, file() as whole:
        with open(whole, "ab") as out:
            running = [start(walker, "-On", f"table:{path}/{name}", ROOT, stdout=out)
                       for name, walker in zip(tables, ["snmpwalk", "snmpbulkwalk"] * 32)]
        ran = {finish(program) for program in running}
        with open(whole, encoding="ascii") as out:
            got = sorted(out.readlines())
    wanted = sorted(line for rows in tables.values() for line in lines_of(rows).splitlines(True))
    return wrongs(differs(ran, {(0, "", "")}), differs(sorted(set(got) - set(wanted))[:3], []),
                  differs(got == wanted, True))


# -- signals

# Catches: a program that writes its lines only at the end of a walk, or only once it has many.
@test("a signal ends a walk at once, and the lines printed before stay", lacks_signals())
def signals():
    wrong = []
    for ending in ENDINGS:
        def killing(seen):
            if len(seen) == 3:
                os.kill(agent.wait_for_pid(), ending)
                return []
            return [reply_from(ROWS, seen[-1])]
        with Agent(killing) as agent:
            ran = agent.finish(start("snmpwalk", "-On", agent.address, ROOT, before=WITH_SIGNALS))
        wrong += [differs(ran, (-ending, FIRST + SECOND, "")), differs(agent.seen, nexts(*NAMES[:3])), *agent.faults]
    return wrongs(*wrong)


# Catches: a program that ignores SIGTERM, or that catches it and ends with a status; one that begins a line again.
@test("a signal may cut the line that is being written, and the output is a prefix of the text")
def signal_in_line():
    with walking(LONG, size=4096) as (program, reader):
        got = read_exactly(reader, 100000, 1000)
        until(lambda: waits(program, reader))
        program.terminate()
        ran = finish(program)
        got += rest(reader)
    return wrongs(not_prefix(got, LONG_TEXT), differs(len(got) < len(LONG_TEXT), True),
                  differs(ran, (-signal.SIGTERM, "", "")))


# Catches: a server that ends only after its turn, or that prints its counts when a signal ends it.
@test("a signal ends snmpd at once, and it prints no counts", lacks_signals())
def signals_to_snmpd():
    wrong = []
    for ending in ENDINGS:
        with Server(before=WITH_SIGNALS) as server:
            wrong.append(differs(server.ask(message(GET, 1, [])), [message(RESPONSE, 1, [])]))
            server.program.send_signal(ending)
            wrong.append(differs(server.end(), (-ending, "", "")))
    return wrongs(*wrong)


if __name__ == "__main__":
    sys.exit(tests.main(sys.argv[1:], programs.BUILT))
