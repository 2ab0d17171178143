#!/usr/bin/env python3
"""Tests what the built program does with sockets, which the proofs don't cover: the addresses that it binds and asks,
host names, receives and sends that fail or are interrupted, and the seconds that snmpd waits. The comment above a test
lists, after 'Catches:', wrong programs that the proofs would accept and the test rejects.

usage: sockets.py [WORD..], as lib/runner.py says
"""
import socket
import sys
import time

from lib import programs
from lib.agents import Agent, run as run_words, serving, stopping
from lib.commands import lacks, lacks_mounts, lacks_networks, lacks_traces
from lib.messages import bulks, get, nexts, reply_from
from lib.pipes import file, folder
from lib.ports import over_free_port
from lib.programs import run, start, strace
from lib.rows import FIRST, LINES, NAMES, NO_LINK, ROOT, ROWS, SILENT, SOME, SOME_TEXT, table_of, table_text
from lib.runner import Tests, differs, sent_not, wrongs
from lib.server import Server, sockets_of

tests = Tests("tests/sockets.py")
test = tests.test


# -- addresses

# Catches: a socket that is bound to 127.0.0.1; a new socket for each request; a second socket during the walk.
@test("a walk and a Get send all requests from one socket, bound to 0.0.0.0")
def one_socket():
    wrong = []
    for command, count in ("snmpwalk", 4), ("snmpbulkwalk", 1), ("snmpget", 1):
        found = []

        def looking(seen):
            found.append(sockets_of(agent.wait_for_pid()))
            return [reply_from(ROWS, seen[-1])]
        with Agent(looking) as agent:
            agent.finish(start(command, "-On", agent.address, ROOT))
        port = agent.senders[0][1]
        wrong += [differs(found, [(1, [f"00000000:{port:04X}"])] * count), *agent.faults,
                  differs({sender[1] for sender in agent.senders}, {port})]
    return wrongs(*wrong)


def traced_run(*words):
    """Runs the program, and returns how it ended and the lines of its system calls of the network."""
    with file() as log:
        ran = run(*words, before=strace(log, "network"))
        with open(log, encoding="utf-8") as lines:
            return ran, lines.readlines()


# A walk of a table file opens no socket. Catches: a second socket, also one to another address, that is closed before
# the walk continues; a datagram that is sent in addition to the requests.
@test("a walk and a Get open one socket and send only their requests, all to the agent", lacks_traces())
def all_sent():
    wrong = []
    for command in "snmpwalk", "snmpbulkwalk", "snmpget":
        with Agent(serving(ROWS)) as agent:
            _, lines = traced_run(command, "-On", agent.address, ROOT)
        calls = [line for line in lines if "AF_INET" in line]
        to_agent = f"sin_port=htons({agent.port}), sin_addr=inet_addr(\"127.0.0.1\")"
        sent = [to_agent in call for call in calls if "send" in call]
        wrong += [differs(sum("socket(" in call for call in calls), 1), differs(sent, [True] * len(agent.seen)),
                  differs([call for call in calls if "connect(" in call], []), *agent.faults]
    with table_of(SOME) as table:
        ran, lines = traced_run("snmpwalk", "-On", f"table:{table}", ROOT)
    return wrongs(*wrong, differs(ran, (0, SOME_TEXT, "")), differs([line for line in lines if "socket(" in line], []))


def own_address():
    """Returns the address that this machine would use to send a datagram to another network, or an empty string if it
    has none. No datagram is sent."""
    with socket.socket(socket.AF_INET, socket.SOCK_DGRAM) as probe:
        try:
            probe.connect(("198.51.100.1", 9))
        except OSError:
            return ""
        return probe.getsockname()[0]


def asked_at(host):
    """Walks an agent at this host, asks an snmpd that listens there, and asks at 127.0.0.1, where that snmpd doesn't
    listen. Returns what is wrong."""
    with Agent(serving(ROWS), host) as agent:
        wrong = [differs(run("snmpwalk", "-On", agent.address, ROOT), (0, LINES, ""))]
    if not host.startswith("127."):
        wrong.append(differs({sender[0] for sender in agent.senders}, {host}))
    with Server(host=host) as server:
        wrong.append(differs(run("snmpget", "-On", server.address, f"{ROOT}.1.0"), (0, FIRST, "")))
        there = f"127.0.0.1:{server.port}"
        wrong.append(differs(run("snmpget", "-r", "0", there, f"{ROOT}.1.0"), (1, "", SILENT.replace("AGENT", there))))
    return wrongs(*wrong)


# Catches: a server that listens at all addresses.
@test("an agent at another loopback address is asked")
def other_loopback():
    return asked_at("127.0.0.2")


OWN = own_address()


# Catches: a walker whose socket is bound to 127.0.0.1, so that it sends from there to the other addresses; a server
# that listens at all addresses.
@test("an agent at another of this machine's addresses is asked, from the address that the system chooses",
      "" if OWN else "this machine has only loopback addresses")
def other_addresses():
    return asked_at(OWN)


# -- host names with several addresses
#
# The files hosts and nsswitch.conf are mounted over the machine's own, and only the program sees them.

HOSTS = """for name in hosts nsswitch.conf; do mount --bind "$1/$name" "/etc/$name" || exit 99; done
shift
exec "$@"
"""
# The files hosts, and whether the host `both` has an IPv4 address. The first of them is 127.0.0.2, at which an agent
# and a server are. No program listens at 127.0.0.3 and 127.0.0.4.
HOSTS_OF_BOTH = {"::1 both\n127.0.0.2 both\n": True, "127.0.0.2 both\n::1 both\n": True,
                 "::1 both\n::2 both\n127.0.0.2 other both\n": True, "127.0.0.2 both\n127.0.0.3 both\n": True,
                 "::1 both\n127.0.0.2 both\n127.0.0.3 both\n127.0.0.4 both\n": True,
                 "::1 both\n": False, "127.0.0.2 other\n": False}


def run_with_hosts(hosts, *words):
    """Runs the program with this file hosts."""
    with folder({"hosts": hosts, "nsswitch.conf": "hosts: files\n"}) as path:
        return run(*words, before=["unshare", "-rm", "sh", "-c", HOSTS, "-", path])


# Catches: a program that takes the first address of any family, also one that its socket can't send to; one that takes
# an IPv4 address only if it is the first address; one that takes the last IPv4 address, or any other than the first.
@test("the first IPv4 address of a host is used", lacks_mounts())
def both_families():
    wrong = []
    with Agent(serving(ROWS), "127.0.0.2") as agent, Server(host="127.0.0.2") as server:
        for hosts, found in HOSTS_OF_BOTH.items():
            def prints(output, *words):
                return differs((hosts, run_with_hosts(hosts, *words)),
                               (hosts, (0, output, "") if found else (1, "", NO_LINK)))

            def listens(port):
                return prints(f"listening on both:{port}\n0 replies, 0 dropped\n", "snmpd", "--table",
                              server.file.name, "--listen", f"both:{port}", "--turns", "0")
            wrong += [*(prints(FIRST, "snmpget", "-On", f"both:{port}", f"{ROOT}.1.0")
                        for port in (agent.port, server.port)), over_free_port(listens)]
        # If no program listens at the first address, the others aren't asked.
        for port in agent.port, server.port:
            ran = run_with_hosts("127.0.0.3 both\n127.0.0.2 both\n", "snmpget", "-On", "-t", "1", "-r", "0",
                                 f"both:{port}", f"{ROOT}.1.0")
            wrong.append(differs(ran, (1, "", SILENT.replace("AGENT", f"both:{port}"))))
    return wrongs(*wrong)


# Runs a command in a network whose name server never replies.
SILENT_NAMES = """ip link set lo up && rm -f "$1/bound" || exit 99
for name in resolv.conf nsswitch.conf; do mount --bind "$1/$name" "/etc/$name" || exit 99; done
"$2" -c "$3" >"$1/bound" &
until [ -s "$1/bound" ]; do kill -0 $! || exit 98; sleep 0.02; done
shift 3
"$@"
status=$?
kill $!
exit $status
"""
NAME_SERVER = """import socket, time
there = socket.socket(socket.AF_INET, socket.SOCK_DGRAM)
there.bind(("127.0.0.1", 53))
print("bound", flush=True)
time.sleep(60)
"""


# How long the program waits for the name server depends on /etc/resolv.conf, and not on -t (docs/TROUBLESHOOTING.md).
# Catches: a program that uses this machine instead of a host that it can't find.
@test("if the name server doesn't reply, a host can't be asked and snmpd can't listen there",
      lacks("ip") or lacks_mounts() or lacks_networks())
def silent_names():
    files = {"nsswitch.conf": "hosts: dns\n",
             "resolv.conf": "nameserver 127.0.0.1\noptions timeout:1 attempts:1\n"}
    with folder(files) as path, table_of(SOME) as table:
        before = ["unshare", "-rmn", "sh", "-c", SILENT_NAMES, "-", path, sys.executable, NAME_SERVER]
        return wrongs(*(differs(run(*words, before=before), (1, "", NO_LINK)) for words in (
            ("snmpget", "-t", "1", "-r", "0", "device.example", f"{ROOT}.1.0"),
            ("snmpwalk", "-t", "1", "-r", "0", "device.example", ROOT),
            ("snmpd", "--table", table, "--listen", "device.example:1161", "--turns", "0"))))


# -- a walk that is stopped and continued
#
# This interrupts a receive that waits. Catches: a program that takes an interrupted receive for one that timed out, so
# that it sends the request again and uses up a try; one that takes it for a failure of the link.
def stopped(words, output, asked):
    """Returns what is wrong when the program is stopped three times before each reply: it must print `output` and send
    exactly the datagrams `asked`."""
    ran = run_words(words.split(), lambda seen: [0.1, stopping, 0.05, stopping, 0.05, stopping,
                                                 reply_from(ROWS, seen[-1])])
    return wrongs(*ran.faults, differs(ran[:3], (0, output, "")), sent_not(ran.requests, asked))


for title, *case in [
        ("snmpwalk, stopped three times in each wait, sends each request once",
         f"snmpwalk -On -r 9 -t 5 AGENT {ROOT}", LINES, nexts(*NAMES)),
        ("snmpbulkwalk -Cr1, stopped three times in each wait, sends each request once",
         f"snmpbulkwalk -Cr1 -On -r 9 -t 5 AGENT {ROOT}", LINES, bulks(1, *NAMES)),
        ("a Get, stopped three times in its only wait, takes the reply",
         f"snmpget -On -r 0 -t 5 AGENT {ROOT}.1.0", FIRST, get(NAMES[1]))]:
    test(title)(lambda case=case: stopped(*case))


# -- receives and sends that fail

# Catches: a program that takes a failed receive for one that timed out, so that it sends the request again and reports
# a timeout; one that takes a send that failed, or that took only a part of the datagram, for one that succeeded.
@test("a failed receive or send ends a walk or a Get, and the lines printed before stay", lacks_traces())
def failing_calls():
    wrong = []
    for command, name, printed, asked in (("snmpwalk", ROOT, FIRST, nexts(*NAMES[:2])),
                                          ("snmpget", f"{ROOT}.1.0", "", get(NAMES[1]))):
        last = len(asked)
        for call, reached in (("recvfrom:error=EIO", last), ("recvfrom:error=ENOMEM", last),
                              ("sendto:error=ENETUNREACH", last - 1), ("sendto:retval=1", last - 1)):
            with Agent(serving(ROWS)) as agent, file() as log:
                ran = run(command, "-On", agent.address, name,
                          before=strace(log, call.partition(":")[0], f"{call}:when={last}"))
            wrong += [differs((call, ran), (call, (1, printed, NO_LINK))), differs(agent.seen, asked[:reached]),
                      *agent.faults]
    return wrongs(*wrong)


# If the receive failed, the datagram waits for the next one. If the send of its reply failed, snmpget sends it again.
# Catches: a server that ends at such a call, or counts the turn as a reply or a dropped datagram.
@test("snmpd continues after a failed receive or send, and counts no datagram for it", lacks_traces())
def failing_server():
    wrong = []
    for call in "recvfrom:error=EIO", "sendto:error=EPERM", "sendto:retval=1":
        with file() as log, Server("--turns", "22", table=table_text(SOME),
                                   before=strace(log, "sendto,recvfrom", f"{call}:when=1")) as server:
            ran = run("snmpget", "-On", "-t", "3", "-r", "1", server.address, f"{ROOT}.7")
            wrong += [differs((call, ran), (call, (0, f"{ROOT}.7 = INTEGER: 7\n", ""))),
                      differs((server.listening, server.end()),
                              (f"listening on {server.address}\n", (0, "1 replies, 0 dropped\n", "")))]
    return wrongs(*wrong)


# -- the turns of snmpd

# The tries of a Get arrive three seconds apart, and snmpd drops them. Two or three turns without a datagram follow
# each. So the first six turns receive two tries, if the machine delays neither program. One of five rounds has to show
# this.
# Catches: a server that waits two seconds for a datagram, whose six turns receive three tries; one that waits half a
# second, whose six turns receive one.
@test("six turns of snmpd receive two datagrams that arrive three seconds apart")
def idle_turns():
    for _ in range(5):
        with Server("--turns", "6") as server:
            ran = run("snmpget", "-c", "other", "-t", "3", "-r", "2", server.address, f"{ROOT}.7")
            wrong = wrongs(differs(ran, (1, "", SILENT.replace("AGENT", server.address))),
                           differs(server.end(), (0, "0 replies, 2 dropped\n", "")))
        if not wrong:
            break
    return wrong


# No wait ends early, so each turn takes at least a second. It takes less than two if the machine does no other work
# meanwhile, which has to be so in one of five rounds. Catches: what the test above catches, and a server that waits a
# little less.
@test("six turns of snmpd without a datagram take six seconds")
def seconds_of_turns():
    for _ in range(5):
        with Server("--turns", "6") as server:
            ended = server.end()
            seconds = time.monotonic() - server.begun
        wrong = differs(ended, (0, "0 replies, 0 dropped\n", "")) or (
            "" if 5.9 <= seconds < 11 else f"they took {seconds:.2f} seconds")
        if not wrong or seconds < 5.9:
            break
    return wrong


# -- ports

# Runs in a network of its own whose sockets can only get one of two ports, and binds both. Walks twice: first without a
# free port, then with one.
NO_PORTS = """
import fcntl, socket, struct, subprocess, sys
with open("/proc/sys/net/ipv4/ip_local_port_range", "w") as limits:
    limits.write("40000 40001")
door = socket.socket(socket.AF_INET, socket.SOCK_DGRAM)
fcntl.ioctl(door, 0x8914, struct.pack("16sh", b"lo", 0x41))
taken = [socket.socket(socket.AF_INET, socket.SOCK_DGRAM) for _ in range(2)]
for port, it in enumerate(taken, 40000):
    it.bind(("0.0.0.0", port))
table, program, root = sys.argv[1:]
address = "127.0.0.1:1161"
words = [program, "snmpd", "--table", table, "--listen", address, "--turns", "1000"]
server = subprocess.Popen(words, stdout=subprocess.PIPE)
server.stdout.readline()
for _ in range(2):
    ran = subprocess.run([program, "snmpwalk", "-On", address, root], capture_output=True, text=True, timeout=100)
    print([ran.returncode, ran.stdout, ran.stderr])
    taken.pop().close()
server.kill()
server.wait()
"""


# Catches: a program that waits for replies though its socket couldn't be bound and nothing could be sent; one that
# reports that memory ran out instead.
@test("the link fails if no port is free, and once one is, the walk is complete", lacks_networks())
def no_ports():
    with table_of(SOME) as table:
        ran = programs.run_command(["unshare", "-rn", sys.executable, "-c", NO_PORTS, table, programs.PROGRAM, ROOT])
        return differs(ran, (0, f"{[1, '', NO_LINK]}\n{[0, SOME_TEXT, '']}\n", ""))


if __name__ == "__main__":
    sys.exit(tests.main(sys.argv[1:], programs.BUILT))
