#!/usr/bin/env python3
"""Refuses requests for memory, one after the other, with the heap of tests/heap.c: in the calls that allocate, which
the program heap_checks makes, and in command lines of the tools.

usage: heap.py [WORD..]

Each run either has its whole answer or is refused. If it is refused, what it should have changed is unchanged. All
its blocks are freed, but a command leaves its tree of modules to the exit. A refused command line has written
complete lines, a prefix of its output, and 'Out of memory.' with status 1 (or the status of an agent's error). If no
request was refused, the answer is the whole one, with the message of its own reason. The same holds if the refused
request can't end the call: it was for rows that are gathered, or is made again. For calls that don't allocate, and
for snmpd as it serves, the requests are counted.

Runs the tests whose titles contain one of the words; without words, all tests.

Catches these wrong programs, which the proofs would accept: one that writes half a line when memory runs out; that
prints some lines and ends with status 0 or without a message; that leaves out a line; that doesn't free a block; that
prints 'Out of memory.' though no request was refused; that gives up whenever one is refused; and one with a call that
allocates although it is documented not to.
"""
import os
import re
import sys
import tempfile

from lib import programs
from lib.commands import lacks_compiler
from lib.messages import (BULK, GET, NEXT, NULL, RESPONSE, SET, asking, element, integer, message, read, reply_from,
                          reply_within, text)
from lib.ports import over_free_port
from lib.rows import (AGENT_ROWS, E, LINES, NO_LINK, NO_MEMORY, OBJECTS, R, ROOT, ROWS as THREE_ROWS, SECOND, THIRD,
                      WARNINGS, table_text)
from lib.runner import Tests, differs, wrongs
from lib.server import Server
from lib.texts import NO_OBJECT, dotted

tests = Tests("tests/heap.py")
test = tests.test


class Heap:
    """A temporary folder with the heap of tests/heap.c, a library that replaces the C library's `malloc` and `realloc`,
    and with the files of the programs that run with it. `room` is where the folder is made."""

    def __init__(self, room=None):
        self.folder = tempfile.TemporaryDirectory(dir=room)

    def make(self, *words, source="heap.c"):
        """Builds the heap, or another source that includes it, with these options of the compiler."""
        programs.library(f"{self.folder.name}/heap.so", source, *words)

    def put(self, octets):
        """Writes a file with these octets into the folder, and returns its name."""
        with tempfile.NamedTemporaryFile(dir=self.folder.name, delete=False) as file:
            file.write(octets)
        return os.path.basename(file.name)

    def run(self, words):
        """Runs a command with the heap, in the folder. LD_PRELOAD has the heap's path relative to the folder, since a
        blank or a colon in the folder's own path would end the name."""
        return programs.run_command(words, cwd=self.folder.name, env={**os.environ, "LD_PRELOAD": "./heap.so"})


heap = Heap()


def judge(words, is_whole, is_refused, left=(0,), spared=0, between=-1):
    """Runs a command with the heap and returns what is wrong with its answers. `is_whole` is called with the status,
    output and messages of an answer; so is `is_refused`, after 'alone' or 'later', which says whether one request was
    refused or all after it too. If `spared` isn't 0, the run must survive the refusal of any one of its last `spared`
    requests or more, and before these of at most one, a request for its arguments. `between` is the number of requests
    between the two marks of the program, or -1 if it makes none. `left` has the numbers of
    blocks that a run may leave to the exit instead of freeing them; it may be None, for any number."""
    ran = heap.run(words)
    wrong, refusals, wholes, last_refused, last_whole = [], 0, 0, 0, 0
    for line in ran.output.splitlines():
        how, *numbers, output, said = line.split(" ")
        times, first, last, status, kept, came = (int(number) for number in numbers)
        answer = (status, *(bytes.fromhex(it.strip("-")).decode(errors="replace") for it in (output, said)))
        whole = is_whole(*answer)
        refusals += times * (how != "none")
        if not (whole or how != "none" and is_refused(how, *answer)) or left and kept not in left:
            wrong.append(f"refused: {how}, {times} times, first request {first}; {kept} blocks not freed; answer "
                         f"{str(answer)[:300]}")
        if how == "none" and came != between:
            wrong.append(f"expected {between} requests between the marks, got {came}; -1 stands for no marks")
        if how == "alone" and whole:
            wholes, last_whole = wholes + times, max(last, last_whole)
        elif how == "alone":
            last_refused = max(last, last_refused)
    if ran.status != 0 or ran.messages or refusals == 0:
        wrong.append(f"status {ran.status}, messages {ran.messages!r}, memory refused in {refusals} runs")
    late = last_whole - last_refused
    if spared and (late < spared or wholes > late + 1):
        wrong.append(f"with one request refused, {wholes} runs have the whole answer, {late} of them after the last "
                     f"that hasn't; expected at least {spared} after it and at most one before")
    return wrongs(*wrong[:5])


# -- the calls

TINY, TINY_TABLE, TWO_TABLE = (programs.read_file(f"tests/data/{name}").encode()
                               for name in ("tiny.txt", "tiny.tab", "two.tab"))
# More rows than fit into a page of a table.
ROWS = {E + (1, i, 0): text(b"%d" % i) for i in range(1, 300) if i != 5}
TABLE = "".join(f"{dotted(name)}|4|{name[-2]}\n" for name in ROWS).encode()
NAMES = [E + (1, i, 0) for i in (4, 5, 6)]
ASKED = message(GET, 1, [(name, NULL) for name in NAMES])


def reply_text(rows):
    """Returns the reply to ASKED from these rows, decoded as a string."""
    return reply_from(rows, read(ASKED)).decode(errors="replace")


def check(title, name, a, b, whole, **how_many):
    """Adds a test of a check of heap_checks with two files. `whole` is the output if no request is refused."""
    @test(title)
    def it():
        refused = {"alone": [(1, "", "")], "later": [(1, "", ""), (3, "", "")]}
        return judge([programs.CHECKS, name, heap.put(a), heap.put(b)], lambda *answer: answer == (0, whole, ""),
                     lambda how, *answer: answer in refused[how], **how_many)


def calls(title, *of, **how_many):
    """Adds a test of a check that allocates."""
    check(f"{title}, with each request for memory refused", *of, **how_many)


def free_calls(title, *of):
    """Adds a test of a check that makes no request between its marks."""
    check(f"{title} asks for no memory", *of, between=0)


calls("Value::from_ref", "values",
      message(RESPONSE, 1, [((1, 3, 6), text(b"wes")), ((1, 3, 7), element(0x44, b"\1\2"))]), b"",
      ".1.3.6\n.1.3.7\n")
calls("Table::read", "table", TABLE, ASKED, reply_text(ROWS))
IN_ORDER = TABLE.splitlines(keepends=True)
calls("Table::read in no order", "table", b"".join(IN_ORDER[i * 121 % len(ROWS)] for i in range(len(ROWS))), ASKED,
      reply_text(ROWS))
# Rows in order, and then enough rows out of order that from there on rows are gathered: among these are more such rows,
# the last name of all, long values and an object. A single request that is refused while rows are gathered doesn't end
# the reading.
GATHERED = {E + (1, 2 * at, 0): b"%d" % at for at in range(10000)}
GATHERED |= {E + (1, 2 * (at * 619 % 10000) + 1, 0): b"%d" % at for at in range(460)}
GATHERED |= {E + (1, 20000, 0): b"last"} | {E + (1, at, 1): b"a long one" * 6 for at in range(20)}
NO_ORDER = [f"{dotted(name)}|4|{string.decode()}\n" for name, string in GATHERED.items()]
NO_ORDER.insert(-9, f"object {dotted(E)}.2\n")
calls("Table::read of rows that are gathered", "table", "".join(NO_ORDER).encode(), ASKED,
      reply_text({name: text(string) for name, string in GATHERED.items()}), spared=20)
calls("Table::read of a name that is gathered twice", "double", "".join(NO_ORDER + NO_ORDER[10450:10451]).encode(), b"",
      f".{len(NO_ORDER) + 1}\n", spared=20)
calls("Table::read_with", "table_with", b"#snmptab 2\n" + TABLE, ASKED, reply_text(ROWS))
calls("Table::put", "put", TABLE, ASKED, reply_text({**ROWS, E + (1, 5, 0): text(b"sextet")}))
IN_PLACE = TABLE + b".1.3.6.1.4.1.32473.1.5.0|2|1"
calls("Table::put that replaces a value", "put", IN_PLACE, ASKED, reply_text({**ROWS, E + (1, 5, 0): text(b"sextet")}))
# A row with this value has 60 octets, too many to be stored inline.
LONG = b"a string of 43 octets, more than in a place"
calls("Table::put of a long value", "put_long", TABLE, ASKED, reply_text({**ROWS, E + (1, 5, 0): text(LONG)}))
calls("Table::put of a long value that replaces another", "put_long", IN_PLACE, ASKED,
      reply_text({**ROWS, E + (1, 5, 0): text(LONG)}))


WALKED = "".join(f"{dotted(name)}\n{name[-2]}\n" for name in ROWS)
calls("run_walk by GetNext", "walk", TABLE, f"{dotted(E)}.1".encode(), WALKED, spared=10)
calls("run_walk by GetBulk", "bulk_walk", TABLE, f"{dotted(E)}.1".encode(), WALKED, spared=5)
calls("MemoryLink::reserve", "reserved", TABLE, f"{dotted(E)}.1".encode(), WALKED, spared=2)
LABELS = """TINY-SMI enterprises private internet TINY-MIB tiny Mac tinyState tinyTable tinyEntry TinyEntry tinyName
tinyMac tinyKeyTable tinyKeyEntry TinyKeyEntry tinyKeyUse loopA loopB
"""
calls("parse_modules", "modules", TINY, b"", LABELS.replace(" ", "\n"))
NODES = [".0", ".1", ".2", ".1.3.6.1.4.1", ".1.3.6.1.4", ".1.3.6.1"] + [f"{dotted(E)}{rest}" for rest in (
    "", ".1", ".2", ".2.1", ".2.1.1", ".2.1.2", ".3", ".3.1", ".3.1.1")]
calls("Tree::load", "tree", TINY, b"", "".join(f"{name}\n" for name in NODES))
calls("write_hint", "hint", b"2d-1d-1d,1d:1d:1d.1d,1a1d:1d", bytes.fromhex("07C8051A0D1E0F002D0400"),
      "before: 1992-5-26,13:30:15.0,-4:0")
calls("write_hint of a number", "hint", b"d-2", b"", "before: -12345.67")
MAC = f"{dotted(E)}.2.1.2.3.119.101.115"
calls("name_text", "name", TINY, MAC.encode(), 'before: TINY-MIB::tinyMac."wes"')
calls("value_text", "value", TINY, MAC.encode(), "before: STRING: 0:16:3e:5a:78:8e")
calls("line", "line", TINY, MAC.encode(), 'before: TINY-MIB::tinyMac."wes" = STRING: 0:16:3e:5a:78:8e\n')
OF_COLUMN = E + (2, 1, 2, 3)
calls("LineWriter::line", "lines", TINY, message(RESPONSE, 1, [
    (OF_COLUMN + tuple(b"wes"), text(b"\0\x16\x3e\x5a\x78\x8e")), (OF_COLUMN + tuple(b"ada"), text(b"\1\2\3\4\5\6")),
    (E + (1, 0), integer(2)), (E + (3, 1, 1, 97), integer(7, 0x42)), ((1, 3), text(b"x" * 300))]),
      f"""before: TINY-MIB::tinyMac."wes" = STRING: 0:16:3e:5a:78:8e
TINY-MIB::tinyMac."ada" = STRING: 1:2:3:4:5:6
TINY-MIB::tinyState.0 = INTEGER: down(2)
TINY-MIB::tinyKeyUse.'a' = Gauge32: 7 jobs
iso.3 = STRING: "{'x' * 300}"
""", spared=3)
DETAIL = """TINY-MIB::tinyState
tinyState OBJECT-TYPE
  -- FROM	TINY-MIB
  SYNTAX	INTEGER { up ( 1 ) , down ( 2 ) }
  MAX-ACCESS	read-only
  STATUS	current
  DESCRIPTION	"State."
::= { iso(1) 3 6 internet(1) private(4) enterprises(1) tiny(32473) 1 }
"""
calls("detail", "detail", TINY, ROOT.encode(), f"before: {DETAIL}")


# -- calls that don't allocate

NO_MESSAGE = b"\x30" * 3000
FREE = ROWS | {E + (2, 0): text(b"x" * 1400)}
FREE_TABLE = TABLE + f"{dotted(E)}.2.0|4|{'x' * 1400}\n".encode()
for title, request in {
        "answer to a Get": ASKED, "answer to a Get of nothing": message(GET, 1, []),
        "answer to a GetNext": message(NEXT, 1, [(name, NULL) for name in [*NAMES, E + (3,)]]),
        "answer to a GetBulk": message(BULK, 1, [(E + (1, 1), NULL), (E, NULL)], 1, 100),
        "answer to a Set": message(SET, 1, [(name, integer(7)) for name in NAMES]),
        "answer that is tooBig": message(GET, 1, [(E + (2, 0), NULL)] * 2),
        "answer to a request of 20,000 octets": asking(20000, BULK, NAMES * 10, 20, 9),
        "answer to no message": NO_MESSAGE}.items():
    free_calls(title, "free_answer", FREE_TABLE, request, "" if request == NO_MESSAGE else
               reply_within(FREE, read(request), 1472).decode(errors="replace"))
# The table has three pages. One loses all of its rows, and each of the others all but one.
IN_BULK = message(BULK, 1, [(E, NULL)], 0, 10)
free_calls("Table::remove", "free_remove", "".join(f"{dotted(E)}.1.{i}.0|2|{i}\n" for i in range(1, 301)).encode(),
           IN_BULK, reply_from({E + (1, i, 0): integer(i) for i in (150, 300)}, read(IN_BULK)).decode(errors="replace"))
free_calls("run_walk by GetNext over a link with memory reserved", "free_walk", TABLE, f"{dotted(E)}.1".encode(),
           WALKED)
free_calls("run_walk by GetBulk over a link with memory reserved", "free_bulk_walk", TABLE, f"{dotted(E)}.1".encode(),
           WALKED)
free_calls("run_get over a link with memory reserved", "free_get", TABLE, b"",
           "".join(f"{dotted(name)}\n{shown}" for name, shown in zip(NAMES, ["4\n", "", "6\n"])))
# The first three nodes are built-in roots, which no module defines.
FIRST_CHILDREN = {".1.3.6.1": ".4", ".1.3.6.1.4": ".1", ".1.3.6.1.4.1": ".32473",
                  **{f"{dotted(E)}{rest}": ".1" for rest in ("", ".2", ".2.1", ".3", ".3.1")}}
WITH_SYNTAX = [f"{dotted(E)}{rest}" for rest in (".1", ".2.1.1", ".2.1.2", ".3.1.1")]
free_calls("each look-up of a loaded tree", "free_look_ups", TINY, b"", "".join(
    (f"{name}\nin a module\n" if at > 2 else "") + f"{name}\n" * 2
    + (f"{name}{FIRST_CHILDREN[name]}\n" * 2 if name in FIRST_CHILDREN else "")
    + ("with a syntax\n" if name in WITH_SYNTAX else "") + ("with an index\n" if name in WITH_SYNTAX[1:] else "")
    for at, name in enumerate(NODES)))
ONE = message(BULK, -7, [(E + (1, 4294967295), text(b"x" * 300))], 1, 65536)
free_calls("each call that reads or writes a message", "free_codec", ONE, b"", (ONE * 2).decode(errors="replace"))
free_calls("Lexer", "free_lexer", b'a { 1 } -- b\n"c\n" \'0F\'H ?', b"", "a\n{\n1\n}\n\"c\n\"\n'0F'H\na bad octet\n")
free_calls("Lexer of an open string", "free_lexer", b'a "b', b"", "a\nan open string\n")
for name, answer in {"tinyState": "tinyState\n", "enterprises": "enterprises\nTINY-SMI\n", "nosuch": ""}.items():
    free_calls(f"Module::define and Module::import of {name}", "free_found", TINY, name.encode(), answer)
free_calls("resolve_front", "free_front", TINY, b'tinyMac."a|b"|4|x', f"{dotted(E)}.2.1.2.3.97.124.98\n|4|x\n")
free_calls("resolve_front of a name that means nothing", "free_front", TINY, b"nosuch|4|x", "a fault\n")
for letters, answer in {b"nfsSqQxavetbUX": "X\n", b"": "all\n"}.items():
    free_calls(f"Letters::parse of {letters.decode() or 'nothing'}", "free_letters", letters, b"", answer)
for name, meaning in {'TINY-MIB::tinyMac."wes"': MAC, "tinyKeyUse.'wes'": f"{dotted(E)}.3.1.1.119.101.115",
                      "iso.3.6.internet": ".1.3.6.1", "nosuch": "a fault"}.items():
    free_calls(f"resolve of {name}", "free_resolve", TINY, name.encode(), f"{meaning}\n")
free_calls("resolve of a name of 128 numbers", "free_resolve", TINY, b".1" * 128, ".1" * 128 + "\n")
free_calls("resolve of a name of 129 numbers", "free_resolve", TINY, b".1" * 129, "a fault\n")
for hint, kind in {b"2d-1d-1d,1d:1d:1d.1d,1a1d:1d": "of octets", b"*1x:" * 200: "of octets", b"d-2": "of integers",
                   b"5": "no hint"}.items():
    free_calls(f"Hint::parse of {hint[:30].decode()}", "free_hint", hint, b"", f"{kind}\n")


# Requests of each kind, without names, without a reply, and long ones. The remaining turns pass without a datagram.
@test("snmpd asks for no memory as it serves")
def serving_is_free():
    counting, wrong = Heap(), []
    counting.make("-DCOUNTS")
    names = [R, *AGENT_ROWS, E + (10,)]
    dropped = [b"", NO_MESSAGE, message(GET, 1, [(name, NULL) for name in names], community=b"other")]
    requests = dropped + [message(GET, 1, []), message(SET, 1, [])]
    requests += [asking(size, kind, names, 2, 40) for size in (1000, 30000) for kind in (GET, NEXT, BULK, SET)]
    before = ["sh", "-c", 'cd "$0" && LD_PRELOAD=./heap.so exec "$@"', counting.folder.name]
    with Server("--turns", str(2 * len(requests) + 10), before=before) as server:
        for request in requests:
            right = [] if request in dropped else [reply_within(AGENT_ROWS, read(request), 1472, OBJECTS)]
            wrong.append(differs(server.ask(request), right))
        outcome = server.end()
    counted = re.fullmatch(r"(\d+) requests in (\d+) calls\n", outcome.messages)
    if counted is None:
        return wrongs(*wrong, repr(outcome))
    asked, called = map(int, counted.groups())
    return wrongs(*wrong, differs((outcome.status, asked), (0, 0)),
                  "" if called > 4 * len(requests) else f"{called} calls")


# -- the tools

THREE = table_text(dict(reversed(THREE_ROWS.items()))).encode()


# The numbers of blocks of the tree without modules, and of the tree of TINY. A command that asks or translates leaves
# its tree to the exit of the process, and frees everything else.
TREE = {False: 10, True: 61}


def refused_in(words, output, messages="", status=0, others=(), **how):
    """Runs a command line with memory and with requests refused, and returns what is wrong. If `output` is None, it is
    what the command prints with memory. `others` are more messages that it may have if it is refused."""
    line = [programs.PROGRAM, *words.split(" ")]
    whole = programs.run_command(line, cwd=heap.folder.name)
    wrong = differs(whole, (status, whole.output if output is None else output, messages))
    warnings = WARNINGS if messages.startswith(WARNINGS) else ""
    # If the message of an agent's error can't be made, the status still says that there was one.
    return wrong or judge(line, lambda *answer: answer == whole, lambda _, ended, wrote, said: (
        ended in (1, status or 1) and whole.output.startswith(wrote) and wrote[-1:] in ("", "\n")
        and said in (NO_MEMORY, warnings + NO_MEMORY, *others)), **{"left": (0, TREE["--mib" in words]), **how})


def runs(words, output, messages="", status=0, table=THREE, modules=TINY):
    """Adds a test that a command line prints this, and that it is refused correctly if memory is. TABLE, MODULES and
    PORT stand for these files and for a free port."""
    assert NO_MEMORY not in messages

    @test(f"{words[:70]}, with each request for memory refused")
    def it():
        names = {"TABLE": heap.put(table), "MODULES": heap.put(modules)}

        def with_port(port):
            def replaced(said):
                return said and re.sub("TABLE|MODULES|PORT", lambda it: names.get(it[0], str(port)), said)
            return refused_in(replaced(words), replaced(output), replaced(messages), status)
        return over_free_port(with_port)


@test("a walk over UDP, with each request for memory refused")
def over_udp():
    # Each of the several hundred runs walks the table. Functions of the C library allocate too, and need not free it.
    with Server(table=THREE.decode(), datagrams=20000) as server:
        return refused_in(f"snmpwalk -On -t4 {server.address} {ROOT}", LINES, others=[NO_LINK], left=None)


AGENT = "table:TABLE"
runs(f"snmpwalk -On {AGENT} {ROOT}", LINES)
runs(f"snmpwalk --mib MODULES {AGENT} tiny", """TINY-MIB::tinyState.0 = INTEGER: up(1)
TINY-MIB::tinyMac."wes" = STRING: 0:16:3e:5a:78:8e
TINY-MIB::tinyKeyUse.'wes' = Gauge32: 5 jobs
""", WARNINGS, table=TINY_TABLE)
TWO = """TINY-MIB::tinyState.0 = INTEGER: up(1)
TINY-MIB::tinyMac."a|b" = STRING: 0:16:3e:5a:78:8e
TINY-MIB::tiny.9.0 = OID: TINY-MIB::tinyMac
"""
runs(f"snmpbulkwalk --mib MODULES {AGENT} tiny", TWO, WARNINGS, table=TWO_TABLE)
runs(f"snmpbulkwalk -On -Cr2 -Cp --after {ROOT}.1.0 {AGENT} {ROOT}", f"{SECOND}{THIRD}Variables found: 2\n")
runs(f"snmpget -On {AGENT} {ROOT}.10.0 {ROOT}.3.0", f"{THIRD}{ROOT}.3.0 = {NO_OBJECT}\n")
runs("snmptranslate --mib MODULES -Td TINY-MIB::tinyState", DETAIL, WARNINGS)
runs("snmptranslate --mib MODULES -On TINY-MIB::tinyMac.\"wes\" iso.3", f"{MAC}\n.1.3\n", WARNINGS)
LISTENING = "listening on 127.0.0.1:PORT\n0 replies, 0 dropped\n"
runs("snmpd --table TABLE --listen 127.0.0.1:PORT --turns 0", LISTENING)
runs("snmpd --mib MODULES --table TABLE --listen 127.0.0.1:PORT --turns 0", LISTENING, WARNINGS, table=TWO_TABLE)
runs("snmpget --help", None)
runs("--version", None)

# Command lines that are refused for another reason.
FAR = "x" * 300
runs(f"snmpwalk -OX {AGENT}", "", "Unknown letter: X\n", 1)
runs(f"snmpget -v {FAR} {AGENT} .1", "", f"Unknown version: {FAR}\n", 1)
runs(f"snmpwalk {FAR}: .1", "", f"Bad agent address: {FAR}:\n", 1)
runs(f"snmpwalk table:{FAR} .1", "", f"{FAR}: cannot be read\n", 1)
runs(f"snmpwalk {AGENT} .1", "", "TABLE:2: bad line\n", 1, table=b"\n" + FAR.encode())
runs(f"snmpget {AGENT} .1", "", "TABLE:2: bad name\n", 1, table=TWO_TABLE)
runs(f"snmpget --mib MODULES {AGENT} .1", "", f"{WARNINGS}TABLE:2: bad value\n", 1,
     table=b"#snmptab 2\ntinyState.0|6|tinyGone\n")
runs("snmptranslate --mib MODULES .1", "", "MODULES:1: syntax\n", 1, modules=b"A DEFINITIONS BEGIN\nEND")
runs(f"snmptranslate {FAR}", "", f"Unknown name: {FAR}\n", 1)
runs(f"snmptranslate iso {FAR}", "iso\n", f"Unknown name: {FAR}\n", 1)
runs(f'snmptranslate iso."{FAR}', "", f'Bad index: iso."{FAR}\n', 1)
runs(f"snmptranslate .1.9{'9' * 300}", "", f"Bad number: .1.9{'9' * 300}\n", 1)
runs(f"snmpget {AGENT} .{'0' * 300}3", "", f"Name cannot be sent: .{'0' * 300}3\n", 1)
runs(f"snmpwalk --after .{'0' * 300}2 {AGENT} .1", "", f"Not below the root: .{'0' * 300}2\n", 1)
runs(f"snmpwalk -On {AGENT} {ROOT}", "", "Error in packet: tooBig (1), index 0\n", 2,
     table=f"{ROOT}.1|4|{'x' * 1500}".encode())
runs(f"snmpbulkwalk -On --max-size 1 {AGENT} {ROOT}", "", f"Timeout: No Response from {AGENT}.\n", 1)
runs(f"snmpget -c {FAR} {AGENT} .1", "", "Community too long.\n", 1)


if __name__ == "__main__":
    sys.exit(tests.main(sys.argv[1:], programs.BUILT, programs.CHECKS, lacks=lacks_compiler(), prepare=heap.make))
