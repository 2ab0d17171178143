#!/usr/bin/env python3
"""Runs each command of docs/MANY-DEVICES.md with agents on loopback, most of them the program's own snmpd, and compares
what is collected with the agents' tables.

usage: fleet.py [WORD..]

The commands are the blocks of the page that are marked as `sh`. They run in order, in one folder. Each block is a test
whose title is its heading. Runs the tests whose titles contain one of the words; without words, all tests.

Catches these wrong programs, which the proofs would accept: one that fails with status 0, without a message or with the
wrong one; one that leaves out or cuts lines, with all resources or without descriptors or memory.
"""
import collections
import contextlib
import functools
import os
import re
import shutil
import sys
import tempfile
import time

from lib import programs
from lib.agents import Agent, failing, silent
from lib.commands import lacks, lacks_parallel
from lib.messages import integer, reply_from, text
from lib.ports import closed_port
from lib.rows import lines_of, table_text
from lib.runner import Test, Tests, differs, wrongs
from lib.server import Server
from lib.texts import NO_OBJECT, dotted, value_text

# The program that polls the agents. tests/wrong.py replaces it by a wrong one.
PROGRAM = programs.BUILT
INTERFACES = (1, 3, 6, 1, 2, 1, 2, 2, 1)
NAMES, RECEIVED = INTERFACES + (2,), INTERFACES + (10,)
SERVED = 50
# A block of the page takes fewer seconds than this, and no server receives ten times as many datagrams.
LONG = 600
LACKS = lacks("bash", "flock", "xargs")


# -- the agents

def interfaces(device):
    """Returns the rows of a table of 24 interfaces."""
    rows = {}
    for port in range(1, 25):
        # A string that takes one line in hexadecimal, or several.
        alias = text(b"port \xb7 of device" + bytes([device]) * (port % 3 * 10))
        count = (device * 1000003 + port * 7919) % 2 ** 32
        columns = {1: integer(port), 2: text(b"port %d of %d" % (port, device)), 3: integer(6),
                   5: integer(1000000000, 0x42), 6: text(bytes([2, 0, device, 0, 0, port])), 8: integer(1 + port % 2),
                   10: integer(count, 0x41), 16: integer(count // 2, 0x41), 18: alias}
        rows.update({INTERFACES + (column, port): value for column, value in columns.items()})
    return rows


def serving(device, *words):
    """Returns a server of the interfaces and of one row that is in no walk of the page."""
    rows = {(1, 3, 6, 1, 2, 1, 1, 1, 0): "device", **interfaces(device)}
    return Server(*words, table=table_text(rows), datagrams=10 * LONG)


def walk_output(rows, root=INTERFACES):
    """Returns what a walk of this root prints."""
    return lines_of({name: value for name, value in rows.items() if name[:len(root)] == root})


def number(value):
    """Returns the digits of an encoded number."""
    return value_text(value).partition(": ")[2]


class BreakingOff:
    """An agent that replies to a number of different requests, also when one is repeated, and then to no more."""

    def __init__(self, rows):
        self.rows = rows
        self.replies_to(0)

    def replies_to(self, count):
        """From now on, lets it reply to this number of requests."""
        self.left, self.last_request = count, None

    def __call__(self, seen):
        if seen[-1] != self.last_request:
            if self.left == 0:
                return []
            self.left, self.last_request = self.left - 1, seen[-1]
        return [reply_from(self.rows, seen[-1])]


def blocks():
    """Yields the blocks of commands of the page, each with its heading."""
    for section in programs.read_file("docs/MANY-DEVICES.md").split("\n## ")[1:]:
        for block in re.findall(r"^```sh\n(.*?)^```$", section, re.M | re.S):
            yield section.partition("\n")[0], block


BLOCKS = list(blocks())


def silence(addresses):
    """Returns the status and message of each of these devices if it doesn't reply."""
    return {address: (1, f"Timeout: No Response from {address}.") for address in addresses}


class Fleet:
    """The agents, and the folder where the commands of the page run. `rows` has the rows of the agents that serve a
    table, of which those in `breaking` stop replying during a walk; `failing` has the status and message with which a
    walk of each other device fails."""

    def __init__(self, stack):
        self.path, self.said = stack.enter_context(tempfile.TemporaryDirectory()), ""
        self.environment = {**os.environ, "PATH": f"{self.path}/bin:{os.environ['PATH']}", "HOME": self.path,
                            "LC_ALL": "C", "COMMUNITY": "public"}
        os.mkdir(f"{self.path}/bin")
        shutil.copy(PROGRAM, f"{self.path}/bin/snmp")

        def address(agent):
            return stack.enter_context(agent).address
        self.rows = {address(serving(device)): interfaces(device) for device in range(SERVED)}
        self.served = list(self.rows)
        self.failing = silence([address(Agent(silent)), address(Agent(silent)),
                                f"127.0.0.1:{stack.enter_context(closed_port())}", address(serving(0, "-c", "other"))])
        self.failing["a..b"] = 1, "The link failed."
        for _ in range(2):
            self.failing[address(Agent(failing(5, 1)))] = 2, "Error in packet: genErr (5), index 1"
        self.breaking = {}
        for last in 31, 32:
            held = {INTERFACES + (column, row): integer(row) for column in (2, 10) for row in range(1, last + 1)}
            agent = BreakingOff(held)
            place = address(Agent(agent))
            self.breaking[place], self.rows[place] = agent, held

    def run(self, commands):
        """Runs commands, and returns what differs from status 0 without messages. They wait two seconds for a reply and
        not one as on the page, because the agents run on the same machine."""
        commands = commands.replace(" -t 1 ", " -t 2 ")
        ran = programs.run_command(["bash", "-e", "-c", commands], LONG, cwd=self.path, env=self.environment)
        self.said = ran.output
        return differs((ran.status, ran.messages), (0, ""))

    def text(self, name):
        """Returns the content of a file of the folder."""
        with open(f"{self.path}/{name}", encoding="ascii") as file:
            return file.read()

    def lines(self, name):
        """Returns the lines of a file of the folder, sorted."""
        return sorted(self.text(name).splitlines())

    def write(self, name, content):
        """Writes an executable file of the folder."""
        with open(f"{self.path}/{name}", "w", encoding="ascii") as file:
            file.write(content)
        os.chmod(f"{self.path}/{name}", 0o755)

    def ends(self, name):
        """Returns the status and message of each device, from a file that lists them."""
        lines = [line.split(" ", 2) for line in self.lines(name)]
        return sorted((device, (int(status), message)) for status, device, message in lines)

    def files(self, addresses):
        """Returns what differs between the files of these devices and their tables."""
        return [differs((address, self.text(f"out/{address}")), (address, walk_output(self.rows[address])))
                for address in addresses]

    def printed(self, root, mark):
        """Returns the lines that walks of all devices print, each after its device and the mark, and likewise the
        messages. Both are sorted."""
        lines = [f"{address}{mark}{line}" for address, held in self.rows.items()
                 for line in walk_output(held, root).splitlines()]
        return sorted(lines), sorted(f"{address}{mark}{said}" for address, (_, said) in self.failing.items())

    def messages(self):
        """Returns the messages of the runs, without what xargs and parallel add."""
        return [line for line in self.lines("messages.txt") if not line.startswith(("parallel: Warning", "xargs: "))]


# -- the blocks: each of these functions runs one, and returns what is wrong with its output and its files

def the_devices(fleet, block):
    addresses = [*fleet.served, *fleet.failing, *fleet.breaking]
    remarks = ["", "  # first floor", " "] * len(addresses)
    fleet.write("inventory.txt", "# devices\n\n" + "".join(f"{it}{remark}\n"
                                                            for it, remark in zip(addresses, remarks)))
    return [fleet.run(block), differs(fleet.text("devices.txt").splitlines(), addresses)]


def files_of_devices(fleet, block):
    wrong = [*files_after_starvation(fleet, block), fleet.run(block)]
    wanted = {**{address: (0, "") for address in fleet.served}, **fleet.failing, **silence(fleet.breaking)}
    return [*wrong, differs(fleet.ends("statuses"), sorted(wanted.items())), *fleet.files(fleet.served)]


def files_after_starvation(fleet, block):
    """Runs the block only with agents that serve, while some runs have too few descriptors or too little memory. These
    runs must be listed as failures, the other files must be complete, and a second round must complete the rest."""
    whole = f"{fleet.path}/bin/snmp"
    os.rename(whole, f"{whole}.whole")
    fleet.write("bin/snmp", f"""#!/bin/sh
case "$*" in
    *:*[0-3]' '*) ulimit -n 3 ;;
    *:*[4-6]' '*) ulimit -v 3000 ;;
esac
exec "{whole}.whole" "$@"
""")
    fleet.write("served.txt", "".join(f"{address}\n" for address in fleet.served))
    wrong = [fleet.run(block.replace("devices.txt", "served.txt"))]
    ends = fleet.ends("statuses")
    wrong.append(differs([address for address, _ in ends], sorted(fleet.served)))
    for address, (status, _) in ends:
        starved = address[-1] in "0123456"
        wrong.append(differs((address, status != 0, fleet.text(f"out/{address}")),
                             (address, starved, "" if starved else walk_output(fleet.rows[address]))))
    os.rename(f"{whole}.whole", whole)
    wrong += [fleet.run(again) for heading, again in BLOCKS if heading in ("What failed", "A second round")]
    failed = [address for address, (status, _) in ends if status]
    return [*wrong, differs(sorted(fleet.text("again.txt").split()), failed), differs(fleet.text("failures"), ""),
            *fleet.files(fleet.served)]


def what_failed(fleet, block):
    wanted = {**fleet.failing, **silence(fleet.breaking)}
    wrong = [fleet.run(block), differs(fleet.ends("failures"), sorted(wanted.items()))]
    counts = collections.Counter([0] * SERVED + [status for status, _ in wanted.values()])
    return [*wrong, differs([tuple(map(int, line.split())) for line in fleet.said.splitlines()],
                            [(count, status) for status, count in sorted(counts.items())])]


def second_round(fleet, block):
    """Of the two devices that had stopped replying, one replies now, and the other stops again after one reply."""
    (first, replying), (second, breaking) = fleet.breaking.items()
    replying.replies_to(99)
    breaking.replies_to(1)
    wrong = [fleet.run(block), differs(fleet.ends("failures"), sorted({**fleet.failing, **silence([second])}.items()))]
    part = "".join(walk_output(fleet.rows[second]).splitlines(True)[:25])
    return [*wrong, *fleet.files([*fleet.served, first]), differs(fleet.text(f"out/{second}"), part)]


def cut_off(fleet, block):
    """Both devices reply now, and the walk that was cut off continues."""
    for agent in fleet.breaking.values():
        agent.replies_to(99999)
    return [fleet.run(block), differs(fleet.ends("failures"), sorted(fleet.failing.items())), *fleet.files(fleet.rows)]


def lines_of_files(fleet, block):
    return [fleet.run(block), differs(fleet.lines("all.txt"), fleet.printed(INTERFACES, " ")[0])]


def lines_as_they_come(fleet, block):
    lines, messages = fleet.printed(NAMES, " ")
    return [fleet.run(block), differs(fleet.lines("all.txt"), sorted(lines + messages))]


def by_parallel(fleet, block):
    wrong, (lines, said) = fleet.run(block), fleet.printed(NAMES, "\t")
    listed = sorted((line.split()[-2].strip("'"), line.split()[0]) for line in fleet.said.splitlines()
                    if " snmp " in line)
    return [wrong, differs(fleet.lines("tagged.txt"), lines), differs(fleet.messages(), said),
            differs(listed, sorted((address, str(status)) for address, (status, _) in fleet.failing.items()))]


def over_machines(fleet, block):
    """Replaces ssh and scp by scripts that run and copy on this machine, in a folder for each of the others. As at a
    login, SHELL is set."""
    fleet.write("bin/ssh", f"""#!/bin/sh
while :; do case $1 in -o) shift 2 ;; -*) shift ;; *) break ;; esac; done
machine=$1
shift
[ "$1" != -- ] || shift
cd "{fleet.path}/$machine" && SHELL=/bin/sh exec sh -c "$*"
""")
    fleet.write("bin/scp", f"""#!/bin/sh
cp "$1" "{fleet.path}/$(echo "$2" | tr : /)"
""")
    for machine in "collector1", "collector2":
        os.mkdir(f"{fleet.path}/{machine}")
    wrong, (lines, said) = fleet.run(block), fleet.printed(NAMES, "\t")
    machines = {line.split("\t")[1] for line in fleet.text("joblog2").splitlines()[1:]}
    return [wrong, differs(fleet.lines("tagged2.txt"), lines), differs(fleet.messages(), said),
            differs(machines, {"collector1", "collector2"})]


def by_cron(fleet, block):
    """A round prints what failed. One that begins while another runs ends at once."""
    wrong = fleet.run(block)
    failures = sorted(f"{status} {place} {said}" for place, (status, said) in fleet.failing.items())
    return [wrong, differs(sorted(fleet.said.splitlines()), failures), *fleet.files(fleet.rows),
            fleet.run("exec 8>lock; flock 8; ./round"), differs(fleet.said, "the last round still runs\n")]


def a_check(fleet, block):
    first, name, label = fleet.served[0], dotted(INTERFACES) + ".8.1", dotted(NAMES) + ".1"
    wrong = [differs(fleet.rows[first][INTERFACES + (8, 1)], integer(2)),
             fleet.run(f"({block}) && exit 1 || [ $? = 2 ]"),
             differs(fleet.said, f"CRITICAL - {name} is 2, above 1 | value=2\n")]
    dead, (_, said) = next(iter(fleet.failing.items()))
    for words, status, printed in [
            (f"{first} {name} 2", 0, f"OK - {name} is 2 | value=2\n"), (f"{dead} {name} 2", 3, f"UNKNOWN - {said}\n"),
            (f"{first} .1.3 2", 3, f"UNKNOWN - .1.3 is {NO_OBJECT}\n"),
            (f"{first} {label} 2", 3, f'UNKNOWN - {label} is "port 1 of 0"\n')]:
        wrong += [fleet.run(f"./check_value {words} || [ $? = {status} ]"), differs(fleet.said, printed)]
    return wrong


def for_a_collector(fleet, block):
    begun = int(time.time())
    wrong = fleet.run(block)
    points = [re.fullmatch(r"(interface,agent=\S+,index=\d+ in_octets=\d+i) (\d{10})0{9}", line)
              for line in fleet.lines("points.txt")]
    wanted = [f"interface,agent={address},index={name[-1]} in_octets={number(value)}i"
              for address, held in fleet.rows.items() for name, value in held.items() if name[:-1] == RECEIVED]
    return [wrong, differs(sorted(point[1] for point in points), sorted(wanted)),
            differs([point[0] for point in points if not begun <= int(point[2]) <= time.time()], []),
            differs(fleet.messages(), fleet.printed(RECEIVED, " ")[1])]


def for_prometheus(fleet, block):
    """A device that fails is down, and has no counters, also where it had some before."""
    os.mkdir(f"{fleet.path}/textfiles")
    for place in fleet.failing:
        fleet.write(f"textfiles/{place}.prom", "before")
    wrong = fleet.run(block)
    wanted = {f"{place}.prom": f'# TYPE snmp_up gauge\nsnmp_up{{device="{place}"}} {int(place in fleet.rows)}\n'
              "# TYPE snmp_if_in_octets counter\n" + "".join(
                  f'snmp_if_in_octets{{device="{place}",index="{name[-1]}"}} {number(value)}\n'
                  for name, value in sorted(fleet.rows.get(place, {}).items()) if name[:-1] == RECEIVED)
              for place in [*fleet.rows, *fleet.failing]}
    written = {name: fleet.text(f"textfiles/{name}") for name in os.listdir(f"{fleet.path}/textfiles")}
    return [wrong, differs(written, wanted),
            differs(fleet.messages(), sorted(said for _, said in fleet.failing.values()))]


# -- the tests

CHECKS = [("The devices", the_devices), ("A file for each device", files_of_devices), ("What failed", what_failed),
          ("A second round", second_round), ("A walk that was cut off", cut_off),
          ("Lines with the device before them", lines_of_files),
          ("Lines with the device before them", lines_as_they_come), ("GNU parallel", by_parallel),
          ("Several machines", over_machines), ("From cron", by_cron), ("A check of a monitoring system", a_check),
          ("Lines for a collector", for_a_collector), ("Prometheus", for_prometheus)]
STEPS = [Test(heading, lambda at=at, check=check: wrongs(*check(fleet, BLOCKS[at][1]))[:5000],
              lacks_parallel() if check in (by_parallel, over_machines) else "")
         for at, (heading, check) in enumerate(CHECKS)]
tests = Tests("tests/fleet.py")
# The fleet, once it is started, and what is wrong with each block that has run.
fleet, found = None, []


@tests.test("each block of the page has its test")
def each_block():
    return differs([heading for heading, _ in BLOCKS], [heading for heading, _ in CHECKS])


def run_up_to(at):
    """Runs a block, and those before it that haven't run: most blocks read files of earlier ones. Returns what is wrong
    with it."""
    while len(found) <= at:
        found.append(STEPS[len(found)].wrong())
    return found[at]


for number_of_step, step in enumerate(STEPS):
    tests.test(step.title, step.lacks)(functools.partial(run_up_to, number_of_step))


def start(stack):
    """Starts the agents, which end with `stack`."""
    global fleet
    fleet, found[:] = Fleet(stack), []


if __name__ == "__main__":
    with contextlib.ExitStack() as own:
        sys.exit(tests.main(sys.argv[1:], programs.BUILT, lacks=LACKS, prepare=lambda: start(own), count=1))
