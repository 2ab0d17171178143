#!/usr/bin/env python3
"""Tests what users meet around the program: ./snmp in a fresh clone, the default port, addresses of IPv6, devices that
reply from another address, an agent with many walkers, a terminal, other locales, byte-order marks, and files that the
shell substitutes.

usage: users.py [WORD..]

Runs the tests whose titles contain one of the words; without words, all tests. A test that can't run on this machine is
skipped, and the reason is printed.
"""
import os
import pathlib
import pty
import re
import shutil
import socket
import sys
import tempfile
import termios
import threading

from lib import pipes, programs
from lib.agents import Agent
from lib.commands import lacks, lacks_networks
from lib.messages import nexts, reply_from, text
from lib.programs import COMMANDS, TOP, read_file, run, run_command, start
from lib.rows import FIRST, LINES, NAMES, NO_LINK, R, ROOT, ROWS, SECOND, SILENT, TABLE, THIRD, lines_of, table_text
from lib.runner import Tests, differs, sent_not, wrongs
from lib.server import Server

tests = Tests("tests/users.py")
test = tests.test


# -- ./snmp in a clone, with a mock of the program and no toolchain

# The PATH of these tests: it has the system's commands, but not rt.
SYSTEM = "/usr/bin:/bin"
LACKS_NOTHING = lacks("bash", "readlink") or ("rt is among the system's commands here"
                                              if shutil.which("rt", path=SYSTEM) else "")
NO_TOOLCHAIN = "snmp: the program {}, and the command rt, which builds it, isn't on PATH: README.md, Install\n"
UNBUILT, STALE = (NO_TOOLCHAIN.format(what) for what in ("isn't built", "wasn't built from the current sources"))
MOCK = '#!/bin/sh\nprintf "%s|" "$PWD" "$@"\nexit 3\n'


class Clone:
    """A clone in a temporary folder, with a blank and a letter outside ASCII in its name, and links to its ./snmp."""

    def __enter__(self):
        self.room = tempfile.TemporaryDirectory()
        self.top, self.elsewhere = (pathlib.Path(self.room.name, name) for name in ("a clöne", "elsewhere"))
        for folder in self.top / "crates/snmp/src", self.elsewhere / "bin":
            folder.mkdir(parents=True)
        for name in "tools", "tests/data/help":
            shutil.copytree(f"{TOP}/{name}", self.top / name)
        for name in "snmp", "tests/is-current", "README.md":
            shutil.copy2(f"{TOP}/{name}", self.top / name)
        (self.top / "crates.txt").write_text("snmp:\n")
        self.source, self.program = self.top / "crates/snmp/src/main.rt", self.top / "crates/snmp/out/snmp"
        self.source.write_text("fn main\n")
        (self.elsewhere / "bin/snmp").symlink_to(self.top / "snmp")
        (self.elsewhere / "link").symlink_to("bin/snmp")
        return self

    def __exit__(self, *_):
        self.room.cleanup()

    def build(self):
        """Writes the mock to the path of the program, with the note that it was built from the sources."""
        self.program.parent.mkdir()
        self.program.write_text(MOCK)
        self.program.chmod(0o755)
        asks = self.top / "tests/is-current"
        sources = run_command([asks, "--sources", self.program]).output.strip()
        return run_command([asks, "--built", self.program, sources])

    def ways(self):
        """Returns the ways to run ./snmp: the current folder and the command of each."""
        there = str(self.elsewhere)
        return ((str(self.top), "./snmp"), (there, "../a clöne/snmp"), (there, "./link"), (there, "snmp"),
                ("/", f"{there}/link"))

    def run(self, *words, way=0, path=SYSTEM):
        """Runs ./snmp in one of these ways, with a folder on PATH that has a link to it."""
        folder, name = self.ways()[way]
        return run_command([name, *words], cwd=folder, env={**os.environ, "PATH": f"{self.elsewhere}/bin:{path}"})


def in_all_ways(clone, words, wanted):
    """Runs ./snmp with these arguments in each way, and returns what differs from `wanted(folder)`."""
    return wrongs(*(differs((folder, name, *clone.run(*words, way=way)), (folder, name, *wanted(folder)))
                    for way, (folder, name) in enumerate(clone.ways())))


# Catches: a script that doesn't follow a link, or follows only one; that looks for the clone in the caller's folder;
# that splits arguments.
@test("./snmp runs the built program from any folder and through links, in the caller's folder and with its arguments",
      LACKS_NOTHING)
def current_program():
    with Clone() as clone:
        return wrongs(differs(clone.build(), (0, "", "")), in_all_ways(
            clone, ["snmpget", "a b", "", "*"], lambda folder: (3, f"{folder}|snmpget|a b||*|", "")))


# Catches: a script that runs a program though its sources were edited after the build; one that then says that the
# program isn't built.
@test("./snmp without a toolchain says what is missing, and runs no program built from other sources", LACKS_NOTHING)
def no_toolchain():
    with Clone() as clone:
        wrong = [in_all_ways(clone, words, lambda _: (1, "", UNBUILT))
                 for words in (["snmpwalk", "127.0.0.1"], ["--build"], [], ["nothing", "--help"], ["--version"])]
        unbuilt = "snmp: the program isn't built, or not from the current sources: ./snmp --build\n"
        wrong.append(in_all_ways(clone, ["--install", "there"], lambda _: (1, "", unbuilt)))
        clone.build()
        clone.source.write_text("fn another\n")
        wrong += [in_all_ways(clone, words, lambda _: (1, "", STALE))
                  for words in (["snmpwalk", "127.0.0.1"], ["--build"])]
        wrong.append(in_all_ways(clone, ["--install", "there"], lambda _: (1, "", unbuilt)))
        return wrongs(*wrong, differs(sorted(os.listdir(clone.elsewhere)), ["bin", "link"]))


@test("./snmp without a toolchain prints the help, also of each command", LACKS_NOTHING)
def help_without():
    wrong = []
    with Clone() as clone:
        for name in "snmp", *COMMANDS:
            page = read_file(f"tests/data/help/{name}.txt")
            words = [] if name == "snmp" else [name]
            for letters in "-h", "--help":
                wrong.append(in_all_ways(clone, [*words, letters], lambda _, page=page: (0, page, "")))
        wrong.append(differs(clone.run("snmpget", "-On", "--help"), clone.run("snmpget", "--help")))
    return wrongs(*wrong)


# Catches: a build that continues though it can't create its folder, and ends with another message.
@test("./snmp --build ends with the reason if it can't write to the clone", LACKS_NOTHING)
def build_of_nothing():
    with Clone() as clone:
        clone.program.parent.write_text("no folder")
        (clone.elsewhere / "bin/rt").symlink_to("/bin/false")
        outcome = clone.run("--build")
        return wrongs(differs(outcome[:2], (1, "")), differs(outcome.messages.count("\n"), 1),
                      differs(("mkdir" in outcome.messages, "crates/snmp/out" in outcome.messages), (True, True)))


# -- the default port, and addresses

# Sets up a network that only these commands have: its loopback address is up, and ports below 1024 need a right.
NETWORK = "ip link set lo up || exit 99\necho 1024 >/proc/sys/net/ipv4/ip_unprivileged_port_start || exit 99\n"
LACKS_PORTS = lacks("ip", "setpriv") or lacks_networks()
ASKED_AT_161 = NETWORK + """
program=$1 table=$2 room=$3
"$program" snmpd --table "$table" --turns 600 >"$room/said" &
until [ -s "$room/said" ]; do kill -0 $! || exit 98; sleep 0.02; done
cat "$room/said"
for agent in 127.0.0.1 udp:127.0.0.1 127.0.0.1:161; do "$program" snmpget -On -t 4 "$agent" "$4"; done
kill $!
"""


def in_network(script, *words):
    """Runs a shell script with these arguments in a network of its own."""
    return run_command(["unshare", "-rn", "sh", "-c", script, "-", *words])


# Catches: another default port of snmpd or of snmpget; an snmpd that listens on all addresses by default.
@test("snmpd listens on 127.0.0.1:161 by default, and an AGENT without a port is asked at port 161", LACKS_PORTS)
def default_ports():
    with pipes.file(TABLE.encode()) as table, tempfile.TemporaryDirectory() as room:
        return differs(in_network(ASKED_AT_161, programs.PROGRAM, table, room, f"{ROOT}.1.0"),
                       (0, "listening on 127.0.0.1:161\n" + 3 * FIRST, ""))


@test("snmpd reports that the link failed if it has no right to port 161", LACKS_PORTS)
def no_right():
    with pipes.file(TABLE.encode()) as table:
        bounded = NETWORK + 'exec setpriv --bounding-set=-all --inh-caps=-all "$@"'
        return differs(in_network(bounded, programs.PROGRAM, "snmpd", "--table", table, "--turns", "0"),
                       (1, "", NO_LINK))


NO_ADDRESSES = ("[::1]", "[::1]:161", "::1", "fe80::1%eth0", "udp:[::1]", "udp:::1", "udp6:[::1]:161", "udp6:::1",
                "udp6:localhost", "tcp:127.0.0.1", "tcp:127.0.0.1:161", "127.0.0.1:snmp")


# Catches: a program that takes [::1] for a host name without an address, for which it has another message.
@test("each command refuses addresses of IPv6 and of other transports")
def other_protocols():
    wrong = []
    with pipes.file(TABLE.encode()) as table:
        for word in NO_ADDRESSES:
            refused = 1, "", f"Bad agent address: {word}\n"
            for command in "snmpget", "snmpwalk", "snmpbulkwalk":
                wrong.append(differs(run(command, word, ROOT), refused))
            wrong.append(differs(run("snmpd", "--table", table, "--listen", word, "--turns", "0"), refused))
    return wrongs(*wrong)


# A device has several addresses. Asked at one of them, it replies from another, with the same port. Catches: a walk
# that takes whatever arrives at its socket.
@test("a walk ignores a reply from another address of the device, and takes the one from the address that it asked")
def replies_from_elsewhere():
    wrong, others = [], {name: text(b"elsewhere") for name in ROWS}
    for then, wanted in (lambda request: [], None), (lambda request: [reply_from(ROWS, request)], LINES):
        def act(seen, then=then):
            other.sendto(reply_from(others, seen[-1]), agent.senders[-1])
            return then(seen[-1])
        with Agent(act, "127.0.0.2") as agent, socket.socket(socket.AF_INET, socket.SOCK_DGRAM) as other:
            other.bind(("127.0.0.3", agent.port))
            outcome = run("snmpwalk", "-On", *(["-t", "1", "-r", "1"] if wanted is None else []), agent.address, ROOT)
            wrong += [differs(outcome, (0, wanted, "") if wanted else (1, "", SILENT.replace("AGENT", agent.address))),
                      *agent.faults]
    return wrongs(*wrong)


# The system replies from the address that it uses to send to the walker, 127.0.0.1 (docs/HOWTO.md).
@test("if snmpd listens on all addresses, and the system replies from another than the one asked, snmpget times out")
def all_addresses():
    with Server(host="0.0.0.0") as server:
        there = f"127.0.0.2:{server.port}"
        outcome = run("snmpget", "-t", "1", "-r", "0", there, f"{ROOT}.1.0")
        at_one = run("snmpget", "-On", f"127.0.0.1:{server.port}", f"{ROOT}.1.0")
        return wrongs(differs(outcome, (1, "", SILENT.replace("AGENT", there))), differs(at_one, (0, FIRST, "")))


# -- an agent with many walkers

@test("snmpd replies to 48 walkers at once, and each prints all rows")
def many_walkers():
    rows = {R + (i, i % 7): i if i % 3 else f"row {i}" for i in range(1, 400)}
    # With -Cr1000 the replies are as long as the agent's messages can be.
    kinds = ["snmpwalk"], ["snmpbulkwalk"], ["snmpbulkwalk", "-Cr1"], ["snmpbulkwalk", "-Cr1000"]
    with Server(table=table_text(rows), datagrams=48 * 500) as server:
        going = [start(*kinds[i % 4], "-On", "-t", "30", server.address, ROOT) for i in range(48)]
        return wrongs(*(differs(programs.finish(program), (0, lines_of(rows), "")) for program in going))


# -- a terminal

# A shell with one job, which runs in the foreground of the terminal at the path in the first argument. It prints when
# the job is stopped, continues it, and prints how it ended.
SHELL = """import os, signal, sys
for door in 0, 1, 2:
    os.dup2(os.open(sys.argv[1], os.O_RDWR), door)
signal.signal(signal.SIGTTOU, signal.SIG_IGN)
job = os.fork()
if job == 0:
    os.setpgid(0, 0)
    os.tcsetpgrp(0, os.getpid())
    for number in signal.SIGINT, signal.SIGTSTP, signal.SIGTTOU, signal.SIGPIPE:
        signal.signal(number, signal.SIG_DFL)
    os.execv(sys.argv[2], sys.argv[2:])
while True:
    _, status = os.waitpid(job, os.WUNTRACED)
    os.tcsetpgrp(0, os.getpgrp())
    if not os.WIFSTOPPED(status):
        break
    print("stopped", flush=True)
    os.tcsetpgrp(0, job)
    os.killpg(job, signal.SIGCONT)
print("ended by", os.WTERMSIG(status), "with", os.WEXITSTATUS(status), flush=True)
"""


class Terminal:
    """A terminal on which a program runs, with all that it has shown."""

    def __init__(self, *words):
        self.master, self.slave = pty.openpty()
        self.shown = ""
        # The terminal must not change the ends of lines that the program prints.
        self.before = termios.tcgetattr(self.slave)
        self.before[1] &= ~termios.OPOST
        termios.tcsetattr(self.slave, termios.TCSANOW, self.before)
        self.shell = programs.spawn([sys.executable, "-c", SHELL, os.ttyname(self.slave), programs.PROGRAM, *words])

    def __enter__(self):
        return self

    def until(self, end):
        """Reads until the terminal has shown this regular expression. Returns all that was shown."""
        while not re.search(end, self.shown):
            self.shown += pipes.some(self.master, 1 << 16).decode(errors="surrogateescape")
        return self.shown

    def to_end(self):
        """Reads until the job has ended. Returns all that was shown."""
        return self.until(r"ended by \d+ with \d+\n")

    def types(self, octets):
        """Types these keys."""
        os.write(self.master, octets)

    def __exit__(self, *_):
        self.shell.kill()
        self.shell.communicate(timeout=programs.PATIENCE)
        os.close(self.master)
        os.close(self.slave)


# Catches: a program that takes ^C for the end of its wait; that changes the terminal; that leaves a part of a line.
@test("^C on a terminal ends a walk or a Get, with whole lines and the terminal unchanged")
def interrupted_by_key():
    wrong = []
    for words, printed in (["snmpwalk", "-On"], FIRST), (["snmpget", "-On"], ""):
        asked = threading.Event()

        def act(seen):
            if printed and len(seen) == 1:
                return [reply_from(ROWS, seen[-1])]
            asked.set()
            return []
        with Agent(act) as agent, Terminal(*words, "-t", "600", agent.address, ROOT) as terminal:
            terminal.until(re.escape(printed))
            asked.wait(programs.PATIENCE)
            terminal.types(b"\x03")
            wrong += [differs(terminal.to_end(), f"{printed}^Cended by 2 with 0\n"), *agent.faults,
                      differs(termios.tcgetattr(terminal.slave), terminal.before)]
    return wrongs(*wrong)


# Catches: a walk that ends when it is continued, or sends a request again.
@test("^Z on a terminal stops a walk, which continues in the foreground as if it hadn't been stopped")
def stopped_by_key():
    asked, going_on = threading.Event(), threading.Event()

    def act(seen):
        if len(seen) == 2:
            asked.set()
            going_on.wait(programs.PATIENCE)
        return [reply_from(ROWS, seen[-1])]
    with Agent(act) as agent, Terminal("snmpwalk", "-On", "-t", "600", agent.address, ROOT) as terminal:
        try:
            terminal.until(re.escape(FIRST))
            asked.wait(programs.PATIENCE)
            terminal.types(b"\x1a")
            terminal.until("stopped\n")
        finally:
            going_on.set()
        shown = terminal.to_end()
    return wrongs(differs(shown, f"{FIRST}^Zstopped\n{SECOND}{THIRD}ended by 0 with 0\n"), *agent.faults,
                  sent_not(agent.seen, nexts(*NAMES)))


# Catches: a program that shows a string as text though one of its octets isn't printable. A display hint shows a string
# as the device sent it (docs/HOWTO.md).
@test("a string with control characters is shown in hexadecimal, but unchanged if the object has a display hint")
def control_characters():
    value = "\x1b]0;title\x07\x1b[2J\x9b31m"
    octets = value.encode("latin-1")
    with pipes.file(f"1.3.6.1.2.1.1.1.0|4x|{octets.hex().upper()}\n".encode()) as table:
        name = ".1.3.6.1.2.1.1.1.0"
        # A line has sixteen octets.
        hexed = " \n".join(octets[i:i + 16].hex(" ").upper() for i in range(0, len(octets), 16))
        shown = os.fsdecode(octets)
        core = ["--mib", os.path.join(TOP, "modules/core.txt")]
        return wrongs(
            differs(run("snmpget", "-On", f"table:{table}", name), (0, f"{name} = Hex-STRING: {hexed} \n", "")),
            differs(run("snmpget", "-On", *core, f"table:{table}", name), (0, f"{name} = STRING: {shown}\n", "")))


# -- locales, file names, and byte-order marks

MODULE = """NAMES-MIB DEFINITIONS ::= BEGIN
names OBJECT IDENTIFIER ::= { iso 3 6 1 4 1 32473 1 }
-- ein Kommentar mit \u00f6
END
"""


def lacks_latin():
    """Returns what is missing for making a Latin-1 locale, or an empty string."""
    return lacks("localedef") or ("" if os.path.exists("/usr/share/i18n/charmaps/ISO-8859-1.gz") else
                                  "no character map of Latin-1 here")


# Catches: a program that changes the octets of a file name, in the call that opens the file or in a message, or does so
# in some locales.
@test("in each locale a file name in UTF-8 is used unchanged, and one in Latin-1 is refused", lacks_latin())
def names_of_files():
    wrong, refused = [], (1, "", "error: invalid UTF-8 was detected in one or more arguments\n")
    names = {encoding: os.fsdecode("m\u00f6dul ".encode(encoding)) for encoding in ("utf-8", "latin-1")}
    files = {f"{name}.tab": TABLE for name in names.values()}
    for encoding, name in names.items():
        files[f"{name}.txt"] = os.fsdecode(MODULE.encode(encoding))
    with pipes.folder(files) as room:
        run_command(["localedef", "-i", "de_DE", "-f", "ISO-8859-1", f"{room}/de_DE"])
        wrong.append(differs(os.path.isdir(f"{room}/de_DE"), True))
        for locale in ({"LC_ALL": "C"}, {"LC_ALL": "C.UTF-8"}, {"LC_ALL": "de_DE", "LOCPATH": room}):
            for encoding, name in names.items():
                where = {"cwd": room, "env": {**os.environ, **locale}}
                for words, wanted in (
                        (["snmptranslate", "--mib", f"{name}.txt", "-On", "names"], (0, f"{ROOT}\n", "")),
                        (["snmpget", "-On", f"table:{name}.tab", f"{ROOT}.1.0"], (0, FIRST, "")),
                        (["snmpd", f"--table={room}/{name}.tab", "--listen", "127.0.0.1:0", "--turns", "0"],
                         (1, "", "Bad agent address: 127.0.0.1:0\n")),
                        (["snmptranslate", f"--mib={name}.tab", "names"], (1, "", f"{name}.tab:1: syntax\n")),
                        (["snmpget", f"table:{name}.txt", ROOT], (1, "", f"{name}.txt:1: bad line\n")),
                        (["snmpget", f"table:{name}", ROOT], (1, "", f"{name}: cannot be read\n"))):
                    wrong.append(differs((locale["LC_ALL"], encoding, *run(*words, **where)),
                                         (locale["LC_ALL"], encoding, *(wanted if encoding == "utf-8" else refused))))
    return wrongs(*wrong)


# Catches: a program that skips the mark in one of these; a message that names another line than the first.
@test("a byte-order mark at the start of a module, a table or a name is refused")
def byte_order_marks():
    mark = b"\xef\xbb\xbf"
    wrong = []
    for rows, fault in (TABLE, "bad line"), (table_text({R + (1, 0): 1}), "bad name"):
        with pipes.file(mark + rows.encode()) as table:
            wrong.append(differs(run("snmpget", f"table:{table}", ROOT), (1, "", f"{table}:1: {fault}\n")))
    with pipes.file(mark + MODULE.encode()) as module:
        return wrongs(
            *wrong, differs(run("snmptranslate", "--mib", module, "names"), (1, "", f"{module}:1: bad character\n")),
            differs(run("snmptranslate", "\ufeffiso"), (1, "", "Unknown name: \ufeffiso\n")),
            differs(run("snmpget", "-r", "0", "\ufeff127.0.0.1", ROOT), (1, "", NO_LINK)))


# Catches: a program that reads a module or a table twice, or asks for its size first.
@test("a module or a table can be passed as the shell's <(..)", lacks("bash"))
def substituted_files():
    modules = os.path.join(TOP, "modules/core.txt")
    with pipes.file(TABLE.encode()) as table:
        return wrongs(*(differs(run_command(["bash", "-c", f'"$1" {words}', "-", programs.PROGRAM, file]),
                                (0, wanted, "")) for words, file, wanted in (
                            ('snmptranslate -On --mib <(cat "$2") IF-MIB::ifDescr.7', modules,
                             ".1.3.6.1.2.1.2.2.1.2.7\n"),
                            (f'snmpwalk -On table:<(cat "$2") {ROOT}', table, LINES))))


if __name__ == "__main__":
    sys.exit(tests.main(sys.argv[1:], programs.BUILT))
