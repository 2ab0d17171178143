#!/usr/bin/env python3
"""Tests what the built program does at limits that the proofs don't cover: little memory and stack, messages of long
texts, the instructions that look-ups take, and descriptors and request ids that are used up. The comment above a test
lists, after 'Catches:', wrong programs that the proofs would accept and the test rejects.

usage: limits.py [WORD..], as lib/runner.py says
"""
import itertools
import random
import re
import resource
import signal
import struct
import subprocess
import sys
import tempfile

from lib import programs
from lib.agents import Agent, failing, saying, silent
from lib.commands import lacks_compiler, lacks_counts, lacks_limits
from lib.messages import answer_bindings, integer, read, reply, reply_from
from lib.pipes import feeding, fifo, file, write
from lib.ports import over_free_port
from lib.programs import finish, run, start
from lib.rows import NO_LINK, NO_MEMORY, R, ROOT, SOME, SOME_TEXT, lines_of, table_of, table_text
from lib.runner import Tests, differs, wrongs
from lib.server import Server
from lib.texts import dotted

tests = Tests("tests/limits.py")
test = tests.test


# -- memory

# Catches: a program that reports that memory ran out when a table has many rows, because one of its lists has no room
# for them.
@test("200,000 rows, sorted or shuffled, are read and walked completely")
def many_rows():
    rows = {R + (i,): i for i in range(200000)}
    lines, ran = lines_of(rows), []
    for table in rows, dict(random.Random(1).sample(list(rows.items()), len(rows))):
        with table_of(table) as path, Server(table=table_text(table), datagrams=10000) as server:
            for agent, *walk in ((f"table:{path}", "snmpwalk"), (f"table:{path}", "snmpbulkwalk", "-Cr50"),
                                 (server.address, "snmpbulkwalk", "-Cr50")):
                status, output, messages = run(*walk, "-On", agent, ROOT)
                ran.append((status, output == lines, messages))
    return differs(ran, [(0, True, "")] * 6)


def refuses(said, line, path="", status=1, output=""):
    """Returns what is wrong when the program is run with these arguments, in which `FILE` is replaced by a path: it
    must print `output` and the message `said`."""
    ran = run(*(word.replace("FILE", path) for word in line.split()))
    said = said.replace("FILE", path) + "\n"
    return "" if ran == (status, output, said) else (
        f"{line[:100]}: {ran[0]}, {ran[1][:200]!r}, {ran[2][:200]!r}\n  not {said[:200]!r}")


def refusals(size, table, faulty, silent_one):
    """Yields what is wrong with messages that quote letters, digits or zeros, `size` of them."""
    letters, digits, zeros = "x" * size, "9" * size, "0" * size
    faulty, silent_one = (f"{agent.host}:{zeros}{agent.port}" for agent in (faulty, silent_one))
    for said, line in [
            (f"Unknown version: {letters}", f"snmpget -v {letters} h .1"),
            (f"Bad agent address: {letters}:", f"snmpwalk {letters}: .1"),
            (f"Bad agent address: {letters}", f"snmpd --table t --listen {letters}"),
            (f"{letters}: cannot be read", f"snmpwalk table:{letters} .1"),
            (f"{letters}: cannot be read", f"snmptranslate --mib {letters} .1"),
            (f"{letters}: cannot be read", f"snmpd --table {letters}"),
            (f"Unknown name: {letters}", f"snmptranslate {letters}"),
            (f'Bad index: iso."{letters}', f'snmptranslate iso."{letters}'),
            (f"Bad number: .1.{digits}", f"snmptranslate .1.{digits}"),
            (f"Name too long: .1{'.1' * 128}.{zeros}", f"snmptranslate .1{'.1' * 128}.{zeros}"),
            (f"Name cannot be sent: .{zeros}3", f"snmpget table:FILE .{zeros}3"),
            (f"Not below the root: .{zeros}2", f"snmpwalk --after .{zeros}2 table:FILE .1"),
            # A path can have at most 4,095 octets.
            (f"Timeout: No Response from table:{zeros[:4000].replace('0', '/')}FILE.",
             f"snmpget --max-size 1 table:{zeros[:4000].replace('0', '/')}FILE .1"),
            (f"Bad reply from {faulty}.", f"snmpget -On {faulty} {ROOT}"),
            (f"No progress after {ROOT}", f"snmpwalk -On {faulty} {ROOT}"),
            *((f"Timeout: No Response from {silent_one}.", f"{command} -t 1 -r 0 {silent_one} {ROOT}")
              for command in ("snmpget", "snmpwalk")),
            *([("Community too long.", f"snmpget -c {letters} h .1")] if size >= 300 else [])]:
        yield refuses(said, line, table)
    with file(f"M DEFINITIONS ::= BEGIN IMPORTS n{letters} FROM F{letters}; a{letters} OBJECT IDENTIFIER ::= "
              f"{{ b{letters} 1 }} END".encode()) as path:
        yield refuses(f"snmp: M imports from F{letters}, which is not loaded\nsnmp: M::a{letters} is unresolved",
                      "snmptranslate --mib FILE iso", path, 0, "iso\n")
    with file(f"M DEFINITIONS ::= BEGIN a{letters} OBJECT IDENTIFIER ::= {{ iso iso 1 }} END".encode()) as path:
        yield refuses("FILE:1: syntax", "snmptranslate --mib FILE iso", path)


# No limit is set, so the system refuses no memory, and each refusal has another reason. Catches: a program that prints
# 'Out of memory.' instead of another message, for example of a long one.
@test("a refusal has the message of its own reason, and not 'Out of memory.'")
def no_excuses():
    unlimited = {resource.getrlimit(limit)[0] for limit in (resource.RLIMIT_AS, resource.RLIMIT_DATA)}
    if unlimited != {resource.RLIM_INFINITY}:
        return "memory is limited here"
    with table_of({R + (1, 0): 1}) as table, Agent(silent) as silent_one, \
            Agent(lambda seen: [reply(seen[-1], [])]) as faulty:
        wrong = [it for size in (60, 80, 300, 5000, 100000) for it in refusals(size, table, faulty, silent_one)]
    # Names of 128 numbers.
    far = R + (4294967295,) * (128 - len(R))
    name, shown = dotted(far), f"{dotted(far)} = INTEGER: 1\n"
    for agent, said, line, status, output in [
            (saying([(far, integer(1))], [(far, integer(1))]), f"Error: OID not increasing: {name} >= {name}",
             "snmpwalk -On", 1, shown),
            (saying([(far, integer(1))], []), f"No progress after {name}", "snmpbulkwalk -On", 1, shown),
            (failing(-2147483648, -2147483648), "Error in packet: unknown (-2147483648), index -2147483648", "snmpget",
             2, "")]:
        with Agent(agent) as player:
            wrong.append(refuses(said, f"{line} {player.address} {ROOT}", "", status, output))
    return wrongs(*wrong)


def run_limited(limit, kibibytes, whole, *words):
    """Runs the program with a limit of memory, and returns how it ended: 'whole' if it printed all of `whole`; 'refused
    by itself' if it printed a prefix of that and then 'Out of memory.', or only 'The link failed.'; 'refused by the
    system' if it couldn't be started; 'killed' if a signal ended it before it printed anything. If it ended in any
    other way, returns its status, output and messages."""
    ran = status, output, said = run(*words, before=["prlimit", f"--{limit}={kibibytes * 1024}"])
    if ran == (0, whole, ""):
        return "whole"
    # The system's library resolves the agent's address, and may fail for lack of memory.
    if (status, said) == (1, NO_MEMORY) and whole.startswith(output) or ran == (1, "", NO_LINK):
        return "refused by itself"
    if status in (1, 126, 127) and said and not output:
        return "refused by the system"
    if status in (-signal.SIGKILL, -signal.SIGSEGV) and not output + said:
        return "killed"
    return f"status {status}, {output[-200:]!r}, {said[:200]!r}"


# With a limit of the address space (`as`), the system kills a program that it can't load or whose stack can't grow. A
# limit of `data` doesn't concern the stack: with any that lets `--version` be printed, a run ends by itself. Catches: a
# program that prints a part of the lines and ends with status 0; one that crashes when memory is short; one that never
# reports that memory ran out.
@test("with less and less memory, a run prints all lines, or ends with a status and a message", lacks_limits())
def little_memory():
    rows = {R + (i,): i for i in range(20000)}
    wrong, version = [], run("--version").output
    with table_of(SOME) as table, table_of(rows) as large, Server(table=table_text(SOME), datagrams=30000) as server:
        agents = {f"table:{table}": SOME_TEXT, server.address: SOME_TEXT, f"table:{large}": lines_of(rows)}
        for limit, least in ("as", 1000), ("data", 100):
            kinds = set()
            for agent, kibibytes in itertools.product(agents, [*range(least, 12000, 250), 20000, 40000]):
                kind = run_limited(limit, kibibytes, agents[agent], "snmpwalk", "-On", agent, ROOT)
                kinds.add(kind)
                ends = {"whole", "refused by itself"}
                if limit == "as" or run_limited(limit, kibibytes, version, "--version") not in ends:
                    ends |= {"refused by the system", "killed"}
                if kind not in ends:
                    wrong.append(f"{agent}, {limit}, {kibibytes} KiB: {kind}")
            wrong += [f"{limit}: none was {kind}" for kind in ("whole", "refused by itself") if kind not in kinds]
    return wrongs(*wrong)


# tests/program.py runs walks and Gets of table files with this stack. Catches: a program that takes more of the stack
# when datagrams arrive over a socket.
@test("a stack of 256 KiB is enough for snmpd and for the commands that ask it", lacks_limits())
def small_stack():
    before = ["prlimit", f"--stack={256 << 10}"]
    with Server(table=table_text(SOME), before=before) as server:
        few = dict(list(SOME.items())[:20])
        return wrongs(*(differs(run(*words, before=before), (0, output, "")) for output, *words in (
            (SOME_TEXT, "snmpwalk", "-On", server.address, ROOT),
            (SOME_TEXT, "snmpbulkwalk", "-On", "-Cr50", server.address, ROOT),
            (lines_of(few), "snmpget", "-On", server.address, *map(dotted, few)))))


# -- counts of instructions
#
# The instructions are counted, and not the time.

def cost(output, module, rows, *words):
    """Runs the program with this module file and, in place of `TABLE` in the arguments, with a table of these rows.
    Returns the number of its instructions. Raises RuntimeError if it doesn't print `output`."""
    with file(module.encode()) as mib, file(rows.encode()) as table, file() as log:
        command, *rest = (word.replace("TABLE", table) for word in words)
        status, *printed = run(command, "--mib", mib, *rest, before=[
            "valgrind", "--tool=callgrind", "--callgrind-out-file=/dev/null", f"--log-file={log}",
            "--trace-children=yes"])
        if (status, *printed) != (0, output, ""):
            raise RuntimeError(f"{words}: status {status}, {printed}")
        with open(log, encoding="utf-8") as lines:
            return int(re.findall(r"Collected : (\d+)", lines.read())[-1])


def at_most(times, less, more):
    """Returns an empty string if a cost is at most so many times another, and otherwise a message."""
    return "" if more <= times * less else f"{more} instructions, more than {times} times {less}"


def module_of(names):
    """Returns a module file with 20,000 names: 'plain' ones, or 'chosen' ones whose hashes under the fixed key fall
    into one bucket."""
    with tempfile.TemporaryDirectory() as folder:
        subprocess.run(["cc", "-O2", "-o", f"{folder}/chosen", f"{programs.TESTS}/chosen.c"], check=True, timeout=60)
        return subprocess.run([f"{folder}/chosen", names, "20000"], check=True, timeout=60, capture_output=True,
                              text=True).stdout


# With each key a load takes about as many instructions, except that a few names share a bucket by chance. Catches: a
# program that doesn't ask the system for a key, or that drops the key in any of the calls between there and the maps of
# names.
@test("names chosen to collide under the fixed hash key load in at most twice the instructions of others",
      lacks_counts() or lacks_compiler())
def chosen_names():
    return at_most(2, *(cost(".1.3\n", module_of(names), "", "snmptranslate", "-On", ".1.3")
                        for names in ("plain", "chosen")))


# Catches: a program that searches for a label among all children of a node.
@test("twice as many rows take about twice the instructions, also if their names have the labels of as many siblings",
      lacks_counts())
def many_siblings():
    def cost_of(size):
        nodes = "".join(f"wide{i} OBJECT IDENTIFIER ::= {{ wide {i} }}\n" for i in range(size))
        rows = "".join(f"wide.wide{i}.{i}|2|{i}\n" for i in range(size))
        return cost("99\n", f"WIDE-MIB DEFINITIONS ::= BEGIN\nwide OBJECT IDENTIFIER ::= {{ iso 9 }}\n{nodes}END\n",
                    f"#snmptab 2\n{rows}", "snmpget", "-Oqv", "table:TABLE", "wide.wide99.99")
    return at_most(2.5, cost_of(2000), cost_of(4000))


# The last name of each number is never shown. Catches: a program that searches the names of an enumeration or of BITS
# one after the other.
@test("twice as many names of an enumeration hardly slow its rows, and as many bits and names take about twice as long",
      lacks_counts())
def many_names():
    def cost_of(size, name):
        names = ", ".join(f"n{i}({i})" for i in range(size)) + f", again({size - 1})"
        octets = "".join("\nFF " if i and i % 16 == 0 else "FF " for i in range(size // 8))
        kind, value, shown, rows = {
            "state": ("INTEGER", f"2|{size - 1}", f"n{size - 1}", 1000),
            "flags": ("BITS", "4x|" + "FF" * (size // 8), octets + "".join(f"n{i}({i}) " for i in range(size)), 100),
        }[name]
        module = (f"LONG-MIB DEFINITIONS ::= BEGIN\n{name} OBJECT-TYPE SYNTAX {kind} {{ {names} }}\n"
                  'MAX-ACCESS read-only STATUS current DESCRIPTION "" ::= { iso 8 }\nEND\n')
        table = "#snmptab 2\n" + "".join(f"{name}.{i}|{value}\n" for i in range(rows))
        return cost(f"{shown}\n" * rows, module, table, "snmpwalk", "-Oqv", "table:TABLE", name)
    return wrongs(*(at_most(times, cost_of(1000, name), cost_of(2000, name))
                    for name, times in (("state", 1.5), ("flags", 2.5))))


# -- descriptors

def with_descriptors(count, *words):
    """Runs the program. As soon as it has opened `FIFO`, a named pipe, allows it only descriptors below `count`, and
    then writes a table or a module to the pipe. Returns how the program ended."""
    with fifo() as path:
        with feeding(path, *words) as (program, pipe):
            resource.prlimit(program.pid, resource.RLIMIT_NOFILE, (count, count))
            write(pipe, table_text(SOME).encode() if words[0] == "snmpd" else b"M DEFINITIONS ::= BEGIN END")
        return finish(program)


# Catches: a program that takes a file that it couldn't open for an empty one; one that reports that memory ran out
# instead of a link or a file that failed.
@test("a link or a file is refused if no descriptor is left")
def no_descriptors():
    def listens(port):
        words = ["snmpd", "--table", "FIFO", "--listen", f"127.0.0.1:{port}", "--turns", "0"]
        counts = f"listening on 127.0.0.1:{port}\n0 replies, 0 dropped\n"
        return wrongs(differs(with_descriptors(3, *words), (1, "", NO_LINK)),
                      differs(with_descriptors(4, *words), (0, counts, "")))
    with table_of(SOME) as table, Server(table=table_text(SOME), datagrams=1000) as server:
        wrong = []
        for agent, said in (server.address, NO_LINK), (f"table:{table}", f"{table}: cannot be read\n"):
            for count, wanted in (3, (1, "", said)), (4, (0, SOME_TEXT, "")):
                ran = with_descriptors(count, "snmpwalk", "--mib", "FIFO", "-On", agent, ROOT)
                wrong.append(differs((agent, count, ran), (agent, count, wanted)))
        return wrongs(*wrong, over_free_port(listens))


# -- request ids that are used up

def addresses_of(pid, number):
    """Returns the addresses of the memory of a process that hold this number in four octets. Only multiples of four are
    returned, and areas of 16 MiB and more are left out; a stack is smaller."""
    wanted, found = struct.pack("<I", number), set()
    with open(f"/proc/{pid}/maps", encoding="ascii") as maps, open(f"/proc/{pid}/mem", "rb", buffering=0) as memory:
        for line in maps:
            addresses, rights = line.split()[:2]
            begin, end = (int(address, 16) for address in addresses.split("-"))
            if rights.startswith("rw") and end - begin < 1 << 24:
                memory.seek(begin)
                octets = memory.read(end - begin)
                found |= {begin + it.start() for it in re.finditer(re.escape(wanted), octets) if it.start() % 4 == 0}
    return found


def set_number(pid, addresses, number):
    """Writes the number to each of these addresses in the memory of a process."""
    with open(f"/proc/{pid}/mem", "r+b", buffering=0) as memory:
        for address in addresses:
            memory.seek(address)
            memory.write(struct.pack("<I", number))


def lacks_changes():
    """Returns what is missing for changing the memory of a program that this script starts."""
    with programs.spawn(["sleep", "60"]) as other:
        try:
            set_number(other.pid, [], 0)
        except OSError:
            return "the memory of no other program can be changed here"
        finally:
            other.kill()
    return ""


LAST_ID = 2147483647


# Sending 2147483647 requests would take hours. Instead the test raises the id of the waiting request in the program's
# memory, at each address that held the ids of five requests in turn. Catches: a program that uses an id above the
# greatest, or one twice; one that ends with another message, with none, or with status 0.
@test("a walk whose request ids are used up ends after the lines that it has printed", lacks_changes())
def used_ids():
    wrong = []
    for command, ahead in ("snmpwalk", 0), ("snmpwalk", 2), ("snmpbulkwalk -Cr1", 1):
        addresses, rows = [], {R + (i,): integer(i) for i in range(100)}

        def raising(seen):
            pid, id = agent.wait_for_pid(), seen[-1].id
            if 4 <= id <= 8:
                addresses.append(addresses_of(pid, id))
            if id == 8:
                set_number(pid, set.intersection(*addresses), LAST_ID - ahead)
                return [reply(seen[-1]._replace(id=LAST_ID - ahead), answer_bindings(rows, seen[-1]))]
            return [reply_from(rows, seen[-1])]
        with Agent(raising) as agent:
            ran = agent.finish(start(*command.split(), "-On", "-r", "0", agent.address, ROOT))
        ids = [read(request).id for request in agent.seen]
        wanted = [*range(1, 9), *range(LAST_ID - ahead + 1, LAST_ID + 1)]
        text = "".join(f"{dotted(name)} = INTEGER: {i}\n" for i, name in enumerate(list(rows)[:len(wanted)]))
        wrong += [differs((ids, ran), (wanted, (1, text, "Too many requests.\n"))), *agent.faults]
    return wrongs(*wrong)


if __name__ == "__main__":
    sys.exit(tests.main(sys.argv[1:], programs.BUILT))
