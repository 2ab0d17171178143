#!/usr/bin/env python3
"""Makes the built program wrong in one way after the other, and checks that the tests listed for each way fail. It
isn't a part of the gate, where each change of the program would have to wait for it.

usage: wrong.py [WORD..]
       wrong.py --stale

The ways are defined in wrong.c, a library that the program loads before the C library (LD_PRELOAD). The title of a test
here is `WAY by TITLE`: it passes if the test with that title fails, and prints the beginning of what was wrong. The way
NOTHING_IS_WRONG is the correct program, which each of the listed tests has to accept. Runs the tests whose titles
contain one of the words; without words, all.

If all tests passed, tests/wrong.txt contains the hash of the tests and of the ways, but not of the program, which
differs after each change. With --stale, which the gate uses, nothing is tried: a line says if that hash is out of date.
"""
import contextlib
import glob
import hashlib
import os
import sys
import tempfile

from lib import programs
from lib.commands import lacks_compiler
from lib.runner import Test, Tests, wrongs

import attack
import files
import fleet
import heap
import limits
import manual
import network
import outputs
import program
import sockets

TESTS = programs.TESTS
RECORD = f"{TESTS}/wrong.txt"
tests = Tests("tests/wrong.py")
# A blank or a colon in a path would end a name of LD_PRELOAD, so the folder of the wrong programs is in /tmp.
FOLDER = tempfile.TemporaryDirectory(dir="/tmp")


# -- the ways, and words from the titles of the tests that catch each

# The tests of the machine: of its sockets, outputs, files and limits. No way can fail those of BY_NO_WAY, since the C
# library has no part in what they count.
MACHINE = [*sockets.tests, *outputs.tests, *files.tests, *limits.tests]
BY_NO_WAY = ["twice as many rows", "twice as many names"]
AT_THE_EDGE = {
    "BOUND_TO_LOOPBACK": ["from one socket, bound", "another of this machine's addresses"],
    "BOUND_TO_ALL": ["another of this machine's addresses is asked", "another loopback address"],
    "SECOND_SOCKET": ["open one socket and send"],
    "ANY_FAMILY": ["first IPv4 address of a host"],
    "LAST_ADDRESS": ["first IPv4 address of a host"],
    "UNKNOWN_IS_LOOPBACK": ["first IPv4 address of a host", "name server doesn't reply"],
    "WAITS_TWO_SECONDS": ["six turns of snmpd"],
    "NO_PORT_IS_NO_FAULT": ["no port is free"],
    "LINK_IS_MEMORY": ["no port is free", "no descriptor is left"],
    "FAULT_IS_SILENCE": ["a failed receive or send ends a walk"],
    "FAULT_ENDS_AT_ONCE": ["a failed receive or send ends a walk", "snmpd continues after a failed receive or send"],
    "INTERRUPTED_IS_SILENCE": ["stopped three times"],
    "INTERRUPTED_IS_FAULT": ["stopped three times"],
    "PART_IS_WHOLE": ["isn't read takes", "read slowly", "stopped while a pipe", "a file of limited size"],
    "REFUSED_IS_WHOLE": ["isn't read takes", "read slowly"],
    "FULL_IS_WHOLE": ["a file of limited size", "a full disk"],
    "GONE_IS_TAKEN": ["reader closes the pipe ends", "a reader that closes the pipe has"],
    "WRITE_INTERRUPTED_IS_FAULT": ["a signal interrupts is repeated"],
    "WRITE_IS_MADE_AGAIN_ONCE": ["a signal interrupts is repeated", "interrupt up to 99 times in a row"],
    "PIECES": ["append to one file", "written in one call"],
    "HELD_BACK": ["a signal ends a walk at once", "written in one call"],
    "READ_ONCE": ["grows while it is read"],
    "CUT_AT_LIMIT": ["a file of 268435456", "grows beyond the limit"],
    "TERM_IGNORED": ["a signal ends a walk at once", "ends snmpd at once", "may cut the line"],
    "TERM_ENDS_BY_ITSELF": ["a signal ends a walk at once", "ends snmpd at once", "may cut the line"],
    "LONG_IS_MEMORY": ["message of its own reason"],
    "UNREADABLE_IS_MEMORY": ["message of its own reason"],
    "TABLE_IS_MEMORY": ["message of its own reason", "no descriptor is left"],
    "CRASHES_IN_LITTLE_MEMORY": ["less and less memory"],
    "MORE_OF_THE_STACK": ["a stack of 256 KiB"],
    "KEY_IS_FIXED": ["under the fixed hash key"],
    "STATUS_0": ["isn't read takes", "a file of limited size", "less and less memory", "ids are used up"],
    "ANOTHER_MESSAGE": ["ids are used up", "message of its own reason"],
    "FAILED_SEND_IS_SENT": ["a failed receive or send ends a walk", "snmpd continues after a failed receive or send"],
    "FILES_ARE_READ_TWICE": ["opened and read once"],
    "FILES_ARE_READ_FIRST": ["opened and read once", "no file is opened"],
    "MANY_BLOCKS_ARE_REFUSED": ["200,000 rows"],
    "CRASHES_WITHOUT_MEMORY": ["less and less memory"],
}
# The tests of heap.py of command lines and of single calls.
WITHOUT_MEMORY = {
    "HALF_A_LINE": ["snmpbulkwalk -On -Cr", "over UDP"],
    "LINES_ARE_LEFT_OUT": ["snmpbulkwalk -On -Cr", "snmptranslate --mib MODULES -"],
    "NOTHING_IS_SAID": ["snmpwalk -On table", "snmpd --", "over UDP"],
    "STATUS_0": ["snmpwalk -On table", "snmpget --help", "over UDP"],
    "LONG_IS_MEMORY": ["snmpget -v", "snmpwalk table:x", "snmptranslate x"],
    "TABLE_IS_MEMORY": ["snmpwalk table:x"],
    "A_BLOCK_IS_KEPT": ["snmpwalk -On table", "line, with"],
    "GIVES_UP": ["that are gathered", "gathered twice", "run_walk by GetNext, with", "run_walk by GetBulk, with",
                 "MemoryLink::reserve", "LineWriter::line"],
    "ANOTHER_ANSWER": ["Value::from_ref", "Table::", "run_walk", "run_get", "MemoryLink::reserve", "parse_modules",
                       "Tree::load", "write_hint", "_text, with", "line, with", "detail, with", "Hint::parse",
                       "answer to a Get asks", "resolve of iso", "look-up"],
    "CRASHES_WITHOUT_MEMORY": ["snmpwalk -On table", "snmpget --help", "Table::read, with", "Table::remove",
                               "run_walk by GetNext, with", "parse_modules", "line, with"],
    "ASKS_FOR_MEMORY": ["answer to a Get asks"],
}
# Its test of snmpd as it serves, which uses no heap that refuses memory.
AS_IT_SERVES = {"KEEPS_MEMORY": ["as it serves"]}
UNDER_ATTACK = {
    "KEEPS_MEMORY": ["snmpd"],
    "LAST_OCTET_WRONG": ["snmpd"],
    "A_REPLY_IS_LOST": ["snmpd"],
    "DIES_OF_A_DATAGRAM": ["snmpd"],
    "LINES_COME_TWICE": ["snmpd", "walkers"],
    "ANY_ID": ["walkers"],
    "ANY_SENDER": ["walkers"],
    "HALF_A_LINE": ["walkers"],
    "OUTSIDE_OF_THE_ROOT": ["walkers"],
    "ANOTHER_VALUE": ["walkers"],
    "NOTHING_IS_SAID": ["walkers"],
    "ANOTHER_MESSAGE": ["walkers"],
    "STATUS_0": ["walkers"],
    "NEVER_ENDS": ["walkers"],
}
WHOLE_FLEET = "the commands of docs/MANY-DEVICES.md"
IN_A_FLEET = {name: [WHOLE_FLEET] for name in ("NOTHING_IS_SAID", "STATUS_0", "HALF_A_LINE", "LINES_ARE_LEFT_OUT",
                                               "LINK_IS_MEMORY")}
IN_A_NETWORK = {
    "RECEIVES_484_OCTETS": ["requests of 2,000", "of 2000 octets", "of 5000 octets"],
    "RECEIVES_4096_OCTETS": ["requests of 2,000", "of 60000 octets", "of 5000 octets", "the longest datagram is read"],
    "SENDS_4096_OCTETS": ["requests of 2,000", "of 60000 octets", "replies of 5,000"],
    "MAX_SIZE_4096": ["requests of 2,000", "replies of 5,000"],
    "FAILED_SEND_IS_SENT": ["a reply that can't be sent"],
    "A_TURN_MORE": ["as many turns as --turns says"],
    "BOUND_TO_ALL": ["on the port of --listen and no other"],
    "ANOTHER_VALUE": ["replies with random faults end a get", "a get asks once", "of 2000 octets"],
    "HALF_A_LINE": ["replies with random faults end a get"],
    "LAST_OCTET_WRONG": ["after 300 requests with random faults"],
}
BY_COMMAND_LINES = {"SOCKET_FIRST": ["after a wait"], "ANOTHER_MESSAGE": ["listen udp:"]}
BY_THE_HELP = {"REFUSES_ITS_MOST": ["with the range"], "ANOTHER_MESSAGE": ["with the range"]}


# -- how the program is made wrong

def wrong_program(name):
    """Writes a script that runs the built program, made wrong in the way `name`, and returns its path."""
    path = f"{tempfile.mkdtemp(dir=FOLDER.name)}/snmp"
    programs.library(f"{path}.so", "wrong.c", f"-D{name}")
    with open(path, "w", encoding="ascii") as file:
        # LD_PRELOAD may already name another library, such as heap.c.
        file.write(f'#!/bin/sh\nLD_PRELOAD="{path}.so${{LD_PRELOAD:+:$LD_PRELOAD}}" '
                   f'exec "{os.path.realpath(programs.BUILT)}" "$@"\n')
    os.chmod(path, 0o755)
    return path


def use(name):
    """Lets the tests run this wrong program from now on."""
    programs.PROGRAM = wrong_program(name)


def use_in_attack(name):
    """The same with smaller attacks."""
    use(name)
    attack.DATAGRAMS, attack.WALKS = 20000, 80


def use_in_fleet(name):
    """Lets fleet.py poll by this wrong program, while the correct one serves its agents."""
    programs.PROGRAM, fleet.PROGRAM = programs.BUILT, wrong_program(name)


def use_heap(name):
    """Lets the tests run the built program with a heap whose library also makes it wrong. So the library knows whether
    a request for memory was refused."""
    programs.PROGRAM, heap.heap = programs.BUILT, heap.Heap(FOLDER.name)
    heap.heap.make(f"-D{name}", f'-DHEAP="{TESTS}/heap.c"', source="wrong.c")


def whole_fleet():
    """Runs the tests of fleet.py in their order, and returns what is wrong."""
    with contextlib.ExitStack() as stack:
        fleet.start(stack)
        return wrongs(*(test.wrong() for test in fleet.tests))


# -- the tests

# The longest are tried first.
LISTED = [(use_in_fleet, [Test(WHOLE_FLEET, whole_fleet, fleet.LACKS)], IN_A_FLEET),
          (use_in_attack, attack.tests, UNDER_ATTACK), (use, MACHINE, AT_THE_EDGE),
          (use, network.tests, IN_A_NETWORK), (use, program.tests, BY_COMMAND_LINES),
          (use, manual.tests, BY_THE_HELP), (use, heap.tests, AS_IT_SERVES),
          (use_heap, heap.tests, WITHOUT_MEMORY)]


@tests.test("the words listed for each way are in titles, and each test of the machine is listed for a way")
def all_listed():
    astray = [f"{name}: {word!r} is in no title" for _, of, ways in LISTED for name, words in ways.items()
              for word in words if not any(word in test.title for test in of)]
    words = sum(AT_THE_EDGE.values(), BY_NO_WAY)
    return wrongs(*astray, *(f"{test.title!r} is listed for no way" for test in MACHINE
                             if not any(word in test.title for word in words)))


def add(name, how, test):
    """Adds the test that a way is caught by a test."""
    @tests.test(f"{name} by {test.title}", test.lacks)
    def it():
        how(name)
        wrong = test.wrong()
        if name == "NOTHING_IS_WRONG":
            return wrong
        print(f"{name}: caught by {test.title!r}\n  {wrong[:300]}" if wrong else f"{name}: missed", flush=True)
        return "" if wrong else "it isn't caught"


for how, of, ways in LISTED:
    for name, words in {"NOTHING_IS_WRONG": sum(ways.values(), []), **ways}.items():
        for test in of:
            if any(word in test.title for word in words):
                add(name, how, test)


# -- the record of a complete run

def hash_of_tests():
    """Returns the hash of the files that contain the tests and the ways."""
    scripts = attack, files, fleet, heap, limits, manual, network, outputs, program, sockets
    paths = [__file__, f"{TESTS}/wrong.c", f"{TESTS}/heap.c", *(script.__file__ for script in scripts)]
    for folder, form in (f"{TESTS}/lib", "*.py"), (program.TABLES, "*.rt"):
        paths += sorted(glob.glob(f"{glob.escape(folder)}/{form}"))
    hashed = hashlib.sha256()
    for path in paths:
        text = programs.read_file(path)
        hashed.update(f"{os.path.relpath(path, TESTS)} {len(text)}\n{text}".encode())
    return hashed.hexdigest()


def say_stale():
    """Prints a line if the tests or the ways have changed since the last complete run."""
    recorded = ""
    if os.path.exists(RECORD):
        with open(RECORD, encoding="ascii") as file:
            recorded = file.read().split()[-1]
    if recorded != hash_of_tests():
        why = "the tests have changed since all were caught" if recorded else "no run that caught them all is recorded"
        print(f"not tried: the wrong programs of tests/wrong.py: {why}", file=sys.stderr)
    return 0


def main(words):
    if words == ["--stale"]:
        return say_stale()
    before = hash_of_tests()
    status = tests.main(words, programs.BUILT, programs.CHECKS, lacks=lacks_compiler(), count=4, processes=True)
    if status == 0 and not words and not any(test.lacks for test in tests) and hash_of_tests() == before:
        with open(RECORD, "w", encoding="ascii") as file:
            file.write(f"# The hash of the tests that caught all wrong programs: tests/wrong.py wrote it.\n{before}\n")
    return status


if __name__ == "__main__":
    sys.exit(main(sys.argv[1:]))
