#!/usr/bin/env python3
"""Tests how the built program reads files, which the proofs don't cover: large ones, pipes that grow while they are
read, and how often, and when, each file is opened. The comment above a test lists, after 'Catches:', wrong programs
that the proofs would accept and the test rejects.

usage: files.py [WORD..], as lib/runner.py says
"""
import contextlib
import errno
import glob
import os
import re
import sys
import time

from lib import programs
from lib.pipes import feeding, fifo, file, write
from lib.ports import over_free_port
from lib.programs import finish, run, start, until
from lib.rows import ROOT, SOME, SOME_TEXT, table_of, table_text
from lib.runner import Tests, differs, wrongs

tests = Tests("tests/files.py")
test = tests.test
MOST = 268435456
TABLE = table_text(SOME).encode()


# Catches: a program that reads only the beginning of a longer file.
@test(f"a file of {MOST} octets is read, and a longer one is refused")
def large_files():
    # The rows are followed by a comment that extends to the end of the file.
    with file(TABLE + b"#", MOST) as table:
        wrong = [differs(run("snmpwalk", "-On", f"table:{table}", ROOT), (0, SOME_TEXT, ""))]
    for size in MOST + 1, 1 << 40:
        with file(TABLE + b"#", size) as table:
            wrong += [differs(run(*words), (1, "", f"{table}: cannot be read\n")) for words in (
                ("snmpwalk", "-On", f"table:{table}", ROOT), ("snmptranslate", "--mib", table, "iso"),
                ("snmpd", "--table", table, "--listen", "127.0.0.1:1", "--turns", "0"))]
    return wrongs(*wrong)


def run_fed(path, pieces, *words):
    """Runs the program, and writes these pieces to `FIFO`, the named pipe at `path`, with a pause before each. Returns
    how the program ended."""
    with feeding(path, *words) as (program, pipe), contextlib.suppress(BrokenPipeError):
        for piece in pieces:
            time.sleep(0.1)
            write(pipe, piece)
    return finish(program)


# Catches: a program that reads a file with a single call, or only up to the size that it had when it was opened.
@test("a file that grows while it is read is read up to its end")
def growing_files():
    pieces = [TABLE[:1], TABLE[1:40], TABLE[40:2000], TABLE[2000:]]
    with fifo() as path:
        return wrongs(differs(run_fed(path, pieces, "snmpwalk", "-On", "table:FIFO", ROOT), (0, SOME_TEXT, "")),
                      differs(run_fed(path, [b"M DEFINITIONS ::= BEGIN a OBJECT", b" IDENTIFIER ::= { iso 7 } ",
                                             b"END"], "snmptranslate", "--mib", "FIFO", "-On", "a"), (0, ".1.7\n", "")))


# Catches: a program that reads a file to its end, however long the file is.
@test("a file that grows beyond the limit is refused before it ends")
def endless_files():
    with fifo() as path:
        pieces = (bytes(1 << 20) for _ in range(1024))
        return differs(run_fed(path, pieces, "snmpwalk", "-On", "table:FIFO", ROOT),
                       (1, "", f"{path}: cannot be read\n"))


def has_open(pid, path):
    """Returns whether a process has the file at a path open."""
    with contextlib.suppress(FileNotFoundError):
        return os.path.realpath(path) in [os.readlink(link) for link in glob.glob(f"/proc/{pid}/fd/*")]
    return False


def readers_of(path, program):
    """Waits until a program ends, and returns how many times the named pipe was found open for reading meanwhile. Each
    time the pipe is opened and closed, so that its reader finds its end at once."""
    count = 0

    def has_ended():
        nonlocal count
        try:
            os.close(os.open(path, os.O_WRONLY | os.O_NONBLOCK))
            count += 1
        except OSError as fault:
            if fault.errno != errno.ENXIO:
                raise
        return program.poll() is not None
    until(has_ended)
    return count


def times_reopened(named, piped, *words):
    """Runs the program. `FIFO` is a named pipe, which delivers `named` once; the program's input delivers `piped`.
    Returns how many more times it opened the named pipe after it had closed it, and how it ended."""
    theirs, ours = os.pipe()
    write(ours, piped)
    os.close(ours)
    with fifo() as path, open(theirs, "rb") as theirs:
        with feeding(path, *words, stdin=theirs) as (program, pipe):
            write(pipe, named)
            until(lambda: program.poll() is not None or has_open(program.pid, path))
        until(lambda: program.poll() is not None or not has_open(program.pid, path))
        return readers_of(path, program), finish(program)


# What was read from a pipe can't be read again. Catches: a program that reads or opens a file twice.
@test("each module file and table is opened and read once")
def files_read_once():
    module = b"M DEFINITIONS ::= BEGIN a OBJECT IDENTIFIER ::= { iso 3 } END"
    once = 0, (0, SOME_TEXT.replace(".1.3.6.", "M::a.6."), "")

    def listens(port):
        address = f"127.0.0.1:{port}"
        words = "snmpd", "--mib", "/dev/stdin", "--table", "FIFO", "--listen", address, "--turns", "0"
        return differs(times_reopened(b"#snmptab 2\na.6.0|2|1\n", module, *words),
                       (0, (0, f"listening on {address}\n0 replies, 0 dropped\n", "")))
    return wrongs(*(differs(times_reopened(*contents, walk, "--mib", mib, f"table:{table}", ROOT), once)
                    for walk in ("snmpwalk", "snmpbulkwalk")
                    for *contents, mib, table in ((module, TABLE, "FIFO", "/dev/stdin"),
                                                  (TABLE, module, "/dev/stdin", "FIFO"))),
                  differs(times_reopened(b"", module, "snmptranslate", "--mib", "FIFO", "--mib", "/dev/stdin", "-On",
                                         "a"), (0, (0, ".1.3\n", ""))), over_free_port(listens))


# The arguments of runs that must not open FIFO. COMMUNITY is too long.
REFUSED = """\
snmpwalk --no table:FIFO .1.3
snmpwalk table:FIFO .1.3 .1.3 .1.3
snmpwalk -OX table:FIFO .1.3
snmpwalk -v3 table:FIFO .1.3
snmpwalk -CX table:FIFO .1.3
snmpbulkwalk -Crx table:FIFO .1.3
snmpget -c COMMUNITY table:FIFO .1.3
snmpget table:FIFO
snmpget --mib FIFO -OX table:TABLE .1.3
snmpget --mib FIFO h: .1.3
snmpbulkwalk --mib FIFO -c COMMUNITY table:TABLE .1.3
snmptranslate --mib FIFO -OX iso
snmptranslate --mib FIFO -TX iso
snmptranslate --mib FIFO
snmpd --mib FIFO --table TABLE -c COMMUNITY
snmpd --table FIFO --listen h:
snmpd --table FIFO --turns x
snmpget --mib MODULE table:FIFO .1.3 nosuch
snmpwalk --mib MODULE --after nosuch table:FIFO .1.3
"""


# Nothing is written to the pipe, so a program that opens it waits. Catches: a program that opens a file before it has
# checked its arguments, or a table before it has resolved the names.
@test("no file is opened if an argument is wrong, and no table if a name is unknown")
def no_file_opened():
    wrong = []
    with fifo() as path, table_of(SOME) as table, file(b"M DEFINITIONS ::= BEGIN END") as module:
        named = {"FIFO": path, "TABLE": table, "MODULE": module, "COMMUNITY": "x" * 256}
        for line in REFUSED.splitlines():
            program = start(*(re.sub("|".join(named), lambda it: named[it[0]], word) for word in line.split()))
            opened = readers_of(path, program)
            ran = finish(program)
            wrong.append(differs((line, opened, ran.status, ran.output, ran.messages != ""), (line, 0, 1, "", True)))
    return wrongs(*wrong)


if __name__ == "__main__":
    sys.exit(tests.main(sys.argv[1:], programs.BUILT))
