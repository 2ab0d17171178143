"""Finds and runs the built programs. Each runs in a process group of its own. It is killed when it takes longer than a
correct program does, and when the script ends.
"""
import atexit
import collections
import os
import signal
import subprocess
import sys
import threading
import time
import weakref

TESTS = os.path.dirname(os.path.dirname(os.path.abspath(__file__)))
TOP = os.path.dirname(TESTS)
# The programs that `rt` built from the sources.
BUILT = os.path.join(TOP, "crates", "snmp", "out", "snmp")
CHECKS = os.path.join(TOP, "crates", "heap_checks", "out", "heap_checks")
COMMANDS = "snmptranslate", "snmpget", "snmpwalk", "snmpbulkwalk", "snmpd"
# The program that tests run. tests/wrong.py replaces it by a wrong one.
PROGRAM = BUILT
# A correct program ends, writes or reads in fewer seconds than this.
PATIENCE = 300


def read_file(path):
    """Returns the text of a file, whose path may be relative to the repository."""
    with open(os.path.join(TOP, path), encoding="utf-8") as file:
        return file.read()


def are_current(script, *programs):
    """Returns whether these programs exist and were built from the current sources. If not, prints what is wrong."""
    asks = os.path.join(TESTS, "is-current")
    for program in programs:
        if not os.access(program, os.X_OK):
            by = "./snmp --build" if program == BUILT else "./.ci/run"
            print(f"{script}: the program {os.path.basename(program)} isn't built: {by} builds it", file=sys.stderr)
            return False
        if os.path.exists(asks) and subprocess.run([asks, program], timeout=PATIENCE, check=False).returncode != 0:
            return False
    return True


# A child process holds all open files of the script until it executes its program. While a thread holds this lock, no
# other starts a child: what the thread closes is then open nowhere else. The lock is reentrant because a signal, whose
# handler calls `end_all`, may arrive while it is held.
starting = threading.RLock()
running = weakref.WeakSet()
over = False


class Program(subprocess.Popen):
    """A program in a process group of its own. No two are started at the same time."""

    def __init__(self, *words, **where):
        with starting:
            if over:
                raise RuntimeError("the script is being ended")
            super().__init__(*words, start_new_session=True, **where)
            running.add(self)

    def kill(self):
        """Kills the program and what it started, unless its status is known. Until then no other process group has its
        number."""
        if self.returncode is None:
            try:
                os.killpg(self.pid, 9)
            except (PermissionError, ProcessLookupError):
                super().kill()


def end_all():
    """Kills all programs that are running, and lets no more be started."""
    global over
    with starting:
        over = True
        for program in list(running):
            program.kill()


# A test that raised an exception may have left a program running.
atexit.register(end_all)


Ended = collections.namedtuple("Ended", "status output messages")


def decode(octets):
    """Decodes octets from UTF-8. Octets that aren't UTF-8 become surrogates, and None is read as no octets."""
    return (octets or b"").decode(errors="surrogateescape")


def finish(program, seconds=PATIENCE):
    """Waits for the end of a program. Returns its status and the rest of its output and messages, if these are pipes to
    the script. Kills the program and raises TimeoutError if it takes longer than `seconds`."""
    try:
        output, messages = program.communicate(timeout=seconds)
    except subprocess.TimeoutExpired:
        program.kill()
        output, messages = map(decode, program.communicate(timeout=PATIENCE))
        raise TimeoutError(f"{program.args}: no end in {seconds} seconds; it wrote {output[-1000:]!r} and {messages!r}"
                           ) from None
    return Ended(program.returncode, decode(output), decode(messages))


def until(holds):
    """Waits until `holds` returns true. Raises TimeoutError after PATIENCE seconds."""
    end = time.monotonic() + PATIENCE
    while not holds():
        if time.monotonic() > end:
            raise TimeoutError(f"the condition wasn't met in {PATIENCE} seconds")
        time.sleep(0.01)


def state(pid):
    """Returns the state of a process: R if it runs, S if it waits, T if it is stopped."""
    with open(f"/proc/{pid}/stat", encoding="utf-8") as file:
        return file.read().rpartition(")")[2].split()[0]


def spawn(words, **where):
    """Starts a command without input, with pipes to the script for its output and messages. `where` overrides these,
    and has more arguments of `Popen`."""
    where = {"stdin": subprocess.DEVNULL, "stdout": subprocess.PIPE, "stderr": subprocess.PIPE, **where}
    return Program(words, **where)


def run_command(words, seconds=PATIENCE, **where):
    """Runs a command and waits for its end."""
    return finish(spawn(words, **where), seconds)


def patient(words):
    """Returns the arguments. If they are for a walk or a Get and have no `-t`, adds `-t 4`: the program then waits four
    seconds for a reply before it sends a request again, so that it sends none again only because the machine is
    busy."""
    said = words[0] in ("snmpd", "snmptranslate") or any(word.startswith("-t") for word in words)
    return [*words] if said or not words[0].startswith("snmp") else [words[0], "-t", "4", *words[1:]]


def start(*words, before=(), **where):
    """Starts the program with these arguments. `before` is a command that runs it, such as strace."""
    return spawn([*before, PROGRAM, *patient(words)], **where)


def run(*words, **how):
    """Runs the program and waits for its end."""
    return finish(start(*words, **how))


def library(path, source, *words):
    """Builds a library that a program loads before the C library, from a source of tests/ and with these options of the
    compiler."""
    subprocess.run(["cc", "-O1", "-w", "-shared", "-fPIC", *words, "-o", path, f"{TESTS}/{source}"], check=True,
                   timeout=PATIENCE)


def strace(log, calls, *injected):
    """Returns the command that runs a program and writes these of its system calls to a log. Each of `injected` says
    which of them are answered in place of the system, and how."""
    return ["strace", "-f", "-o", log, "-e", f"trace={calls}", *(f"-einject={it}" for it in injected)]


def stop(pid, seconds=0):
    """Stops a process for some seconds."""
    os.kill(pid, signal.SIGSTOP)
    until(lambda: state(pid) == "T")
    time.sleep(seconds)
    os.kill(pid, signal.SIGCONT)
    until(lambda: state(pid) != "T")
