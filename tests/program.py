#!/usr/bin/env python3
"""Runs the built program with many command lines, and compares its status, output and messages with the expected ones.

usage: program.py [WORD..]

Most of the command lines are in the tables crates/snmp_tools_tests/src/rows/*.rt, whose form
crates/snmp_tools_tests/src/rows.rt describes; a test there runs them in memory. Here are only those that need the
machine or that are too long to write down. The title of a test is a command line or a sentence; if there are words,
only the tests run whose titles contain one of them.
"""
import contextlib
import functools
import glob
import os
import re
import shlex
import sys
import tempfile
import time

from lib import pipes, programs
from lib.ports import over_free_port
from lib.programs import finish, read_file, run_command, spawn, state, until
from lib.rows import FAILED, LINES, NO_LINK, NO_MEMORY, ROOT, THIRD, WARNINGS
from lib.runner import Tests, differs, wrongs
from lib.server import Server, sockets_of

tests = Tests("tests/program.py")
test = tests.test
# The folder of the tables, and the folders with files that are also in the tables.
TABLES = f"{programs.TOP}/crates/snmp_tools_tests/src/rows"
FOLDERS = [f"{programs.TESTS}/data", f"{programs.TOP}/examples"]


# -- the tables

def texts_of_tables():
    """Returns the tables, each with the name of its file. The first has the files that all share."""
    texts = {}
    for path in sorted(glob.glob(f"{glob.escape(TABLES)}/*.rt")):
        texts[os.path.basename(path)] = re.search(r'r#"(.*?)"#', read_file(path), re.DOTALL).group(1)
    return {"files.rt": texts.pop("files.rt"), **texts}


def expand(text, files):
    """Returns a text of a table, with what each of its {..} stands for."""
    def braced(match):
        inner = match.group(1)
        count, star, repeated = inner.partition("*")
        if star and count.isdigit():
            return repeated * int(count)
        if re.fullmatch("x[0-9A-F]{2}", inner):
            return programs.decode(bytes.fromhex(inner[1:]))
        return files[inner].removesuffix("\n") if inner in files else match.group()
    return re.sub(r"\{([^{}]*)\}", braced, text)


class Row:
    """A command line of a table, the files that it can read, and its expected output, messages and status."""

    def __init__(self, command, files):
        self.command, self.files, self.status, self.output, self.messages = command, dict(files), 0, "", ""

    def run(self, port):
        """Runs the command line, with this port as {port}. Returns what is wrong."""
        files = {**self.files, "port": f"{port}\n"}
        words = shlex.split(expand(self.command, files))[1:]
        with pipes.folder({path: content for path, content in files.items()
                           if path in self.command and not path.startswith("/")}) as folder:
            ended = run_in(folder, *words)
        texts = [expand(self.output, files), expand(self.messages, files)]
        return wrongs(differs(ended.status, self.status), *map(differs_from_text, ended[1:], texts))


def run_in(folder, *words, limits="", **where):
    """Runs the program in a folder. `limits` are commands of a shell that limit it first."""
    before = ["sh", "-c", f'{limits}; exec "$@"', "sh"] if limits else []
    return run_command([*before, programs.PROGRAM, *words], cwd=folder, **where)


def differs_from_text(got, text):
    """Returns a message that shows an output and its expected text, or an empty string if they are equal. A text that
    ends in '...' is only the beginning."""
    return "" if text.endswith("...\n") and got.startswith(text[:-4]) else differs(got, text)


def file_of(block, files):
    """Returns the path and the content of a file in a table."""
    path, _, lines = block.partition("\n")
    return path, expand(lines[:-1] if lines.endswith("\\") else f"{lines}\n" if lines else "", files)


def rows_of(block, files):
    """Yields the rows of a block. Rows that follow one another print the same."""
    group = []
    for line in block.split("\n"):
        if line.startswith("$ "):
            if group and (group[0].output or group[0].messages):
                yield from group
                group = []
            group.append(Row(line[2:], files))
        elif not line.startswith("# "):
            message = re.match("([0-9]*)!(?: |$)", line)
            for row in group:
                if message:
                    row.messages += f"{line[message.end():]}\n"
                    row.status = max(row.status, int(message.group(1) or 0))
                else:
                    row.output += f"{line}\n"
    yield from group


def rows():
    """Yields the rows of all tables."""
    shared = {}
    for name, table in texts_of_tables().items():
        files = dict(shared)
        for block in table.split("\n\n"):
            block = block.strip("\n").replace("\\\n", "")
            if block.startswith("@ "):
                path, content = file_of(block[2:], files)
                files[path] = content
            else:
                yield from rows_of(block, files)
        if name == "files.rt":
            shared = files


ROWS = list(rows())
for row in ROWS:
    test(row.command)(functools.partial(over_free_port, row.run))


@test("the files of tests/data and examples are those of the tables")
def same_files():
    wrong = []
    for path, content in ROWS[0].files.items():
        for there in (f"{folder}/{path}" for folder in FOLDERS):
            if "." in path and os.path.exists(there):
                wrong.append(differs((there, read_file(there)), (there, content)))
    return wrongs(*wrong, "" if len(wrong) > 8 else "there are fewer")


# -- more command lines

# The files of the tables that all share.
SHARED = {path: content for path, content in ROWS[0].files.items() if not path.startswith("/")}


def add(title, judge, line, *texts, files=()):
    """Adds a test of a command line. `judge` returns what is wrong with it, and is called with a folder that has these
    files and the shared ones, with the words of the line, and with the texts. PORT in the line and in the texts is
    replaced by a free port."""
    def with_port(port):
        words, *replaced = (text.replace("PORT", str(port)) for text in (line, *texts))
        with pipes.folder({**SHARED, **dict(files)}) as folder:
            return judge(folder, words.split(" "), *replaced)
    test(title)(functools.partial(over_free_port, with_port))


def expect(line, output="", messages="", status=0, title="", limits="", files=()):
    """Adds a test that a command line has this output, these messages and this status. `limits` are as in `run_in`."""
    def judge(folder, words, *texts):
        return differs(run_in(folder, *words, limits=limits), (status, *texts))
    add(title or f"snmp {line}", judge, line, output, messages, files=files)


expect("snmptranslate \udcff", "", "error: invalid UTF-8 was detected in one or more arguments\n", 1,
       title="a word that isn't UTF-8")
for address in "a..b:1", "192.0.2.1:16161":
    expect(f"snmpd --table three.tab --listen {address} --turns 0", "", NO_LINK, 1)
HUNDREDS = [f".1.3.{n}" for n in range(300)]
expect(f"snmptranslate -On {' '.join(HUNDREDS)}", "\n".join(HUNDREDS) + "\n", title="snmptranslate of 300 names")
# 105 names of 128 numbers, of five octets each, are longer than the greatest datagram.
LONG = ".1.3.6" + 125 * ".4294967295"
expect(f"snmpget -On table:three.tab {' '.join(105 * [LONG])}", "", "Request too long.\n", 1,
       title="snmpget of 105 long names of a table")

# Chains of names up to 128 numbers. Each name is defined after the one that it refers to, and then before it.
LINKS = ["x0 OBJECT IDENTIFIER ::= { iso }",
         *(f"x{n} OBJECT IDENTIFIER ::= {{ x{n - 1} 1 }}" for n in range(1, 201))]
TOO_LONG = [f"snmp: M::x{n} is too long\n" for n in range(128, 201)]
for way, step in ("in order", 1), ("in reverse order", -1):
    chain = {"m.txt": "\n".join(["M DEFINITIONS ::= BEGIN", *LINKS[::step], "END", ""])}
    astray = "".join(TOO_LONG[::step])
    expect("snmptranslate --mib m.txt -On M::x0 M::x3 M::x127", f".1\n.1.1.1.1\n{128 * '.1'}\n", astray,
           title=f"a chain of 200 names, {way}", files=chain)
    for name in "M::x128", "x200":
        expect(f"snmptranslate --mib m.txt -On {name}", "", f"{astray}Unknown name: {name}\n", 1,
               title=f"{name} of a chain of 200 names, {way}", files=chain)

# -- memory and stack

HUGE = "truncate -s 200M huge; ulimit -v 100000"
for line in ("snmpwalk table:huge .1", "snmptranslate --mib huge iso",
             "snmpd --table huge --listen 127.0.0.1:PORT --turns 0"):
    expect(line, "", NO_MEMORY, 1, title=f"without memory for a file: snmp {line}", limits=HUGE)

STACK = "ulimit -s 256"
TINY = ROWS[0].files["tiny"]
for line, output in [
        (f"snmpwalk -On table:three.tab {ROOT}", LINES), (f"snmpbulkwalk -On -Cr50 table:three.tab {ROOT}", LINES),
        (f"snmpget -On table:three.tab {ROOT}.10.0", THIRD), ("snmptranslate -On .1.3", ".1.3\n")]:
    expect(line, output, title=f"with a stack of 256 KiB: snmp {line}", limits=STACK)
expect("snmpwalk --mib tiny.txt table:tiny.tab tiny", TINY, WARNINGS, title="with a stack of 256 KiB: modules",
       limits=STACK)
# Rows in no order are sorted recursively. The depth is at most twice the number of times that the rows can be halved.
expect(f"snmpget -On table:t.tab {ROOT}.7919.0", f"{ROOT}.7919.0 = INTEGER: 1\n", limits=STACK,
       title="with a stack of 256 KiB: 20,000 rows",
       files={"t.tab": "".join(f"{ROOT}.{i * 7919 % 20000}.0|2|{i}\n" for i in range(20000))})

# -- outputs

ONE = "TINY-MIB::tinyState.0 = INTEGER: up(1)\n"
LISTENING = "listening on 127.0.0.1:PORT\n0 replies, 0 dropped\n"
LISTEN = "--listen 127.0.0.1:PORT --turns 0"
# Command lines that print the warnings of tiny.txt, and their lines.
WARNED = [(f"{walker} --mib tiny.txt table:tiny.tab tiny", TINY) for walker in ("snmpwalk", "snmpbulkwalk")] + [
    ("snmpget --mib tiny.txt table:tiny.tab tinyState.0", ONE),
    ("snmptranslate --mib tiny.txt -On tinyState.0", f"{ROOT}.0\n"),
    (f"snmpd --mib tiny.txt --table two.tab {LISTEN}", LISTENING)]


def one_output(folder, words, output):
    """Returns what is wrong when both outputs are one file: the warnings come first."""
    with tempfile.TemporaryFile() as both:
        run_in(folder, *words, stdout=both, stderr=both)
        both.seek(0)
        return differs(both.read().decode(), WARNINGS + output)


for line, output in [*WARNED, ("snmptranslate --mib tiny.txt -On tinyState.0 nosuch",
                               f"{ROOT}.0\nUnknown name: nosuch\n")]:
    add(f"the warnings come before the lines: snmp {line}", one_output, line, output)


def is_waiting(program):
    """Returns whether the program waits in a write to its error output. If its system call can't be seen, returns
    whether it sleeps at each of three looks."""
    # A script that runs the program may not have executed it yet.
    if os.readlink(f"/proc/{program.pid}/exe") != os.path.realpath(programs.BUILT):
        return False
    for _ in range(3):
        sleeps = state(program.pid) == "S"
        with contextlib.suppress(OSError), open(f"/proc/{program.pid}/syscall", encoding="ascii") as file:
            call = file.read()
            if call.startswith(("1 0x2 ", "running")):
                return call.startswith("1 ")
        if not sleeps:
            return False
        time.sleep(0.05)
    return True


def late_warnings(folder, words, output):
    """Returns what is wrong when the pipe for the messages is full at first. Until its warnings are written the program
    prints nothing and opens no socket."""
    reader, writer = os.pipe()
    os.set_blocking(writer, False)
    filled = 0
    with contextlib.suppress(BlockingIOError):
        while True:
            filled += os.write(writer, bytes(4096))
    os.set_blocking(writer, True)
    program = spawn([programs.PROGRAM, *words], cwd=folder, stderr=writer)
    os.close(writer)
    until(lambda: program.poll() is not None or is_waiting(program))
    early = ["it ended before"] if program.poll() is not None else [
        "it printed before" if pipes.waiting_octets(program.stdout) else "",
        "it had a socket before" if sockets_of(program.pid)[0] else ""]
    messages = pipes.rest(reader)
    os.close(reader)
    ended = finish(program)
    return wrongs(*early, differs((ended.output, messages[filled:]), (output, WARNINGS)))


def late_over_udp(folder, words, output):
    """The same if AGENT is an snmpd."""
    with Server(table=SHARED["three.tab"]) as server:
        return late_warnings(folder, [word.replace("AGENT", server.address) for word in words], output)


for line, output in [WARNED[0], *WARNED[2:]]:
    add(f"nothing comes before the warnings, after a wait: snmp {line}", late_warnings, line, output)
for command in "snmpwalk", "snmpbulkwalk", "snmpget":
    add(f"nothing comes before the warnings, over UDP: snmp {command}", late_over_udp,
        f"{command} --mib tiny.txt -On AGENT {ROOT}.10.0", THIRD)

for line, output, status in [*((*it, 0) for it in WARNED), ("snmpwalk -On table:no.tab .1", "", 1),
                             ("snmpd --mib tiny.txt --table no.tab", "", 1),
                             ("snmpget --mib tiny.txt --max-size 26 table:tiny.tab tinyState.0", "", 2)]:
    for how, end in ("full", "exec 2>/dev/full"), ("closed", "exec 2>&-"):
        add(f"an error output that is {how} changes nothing else: snmp {line}",
            lambda folder, words, output, end=end, status=status: differs(
                run_in(folder, *words, limits=end)[:2], (status, output)), line, output)


def full_output(folder, words):
    """Returns what is wrong when the output is full."""
    with open("/dev/full", "wb") as full:
        return differs(run_in(folder, *words, stdout=full), (1, "", FAILED))


for line in (f"snmpwalk -On table:three.tab {ROOT}", f"snmpbulkwalk -On table:three.tab {ROOT}",
             f"snmpget -On table:three.tab {ROOT}.1.0", "snmptranslate -On iso", "snmptranslate -Td iso",
             f"snmpwalk -Cp -CI table:/dev/null {ROOT}", f"snmpd --table three.tab {LISTEN}", "--help", "--version"):
    add(f"an output that is full: snmp {line}", full_output, line)

if __name__ == "__main__":
    sys.exit(tests.main(sys.argv[1:], programs.BUILT))
