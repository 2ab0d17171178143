#!/usr/bin/env python3
"""Runs the sessions in the pages, and compares what the commands print with what the pages show.

usage: sessions.py [WORD..]

Runs the tests whose titles contain one of the words; without words, all. The title of a session is PAGE:LINE: and its
first command.

A session is a block whose first line begins with `$ `. In a Markdown page it is a fenced block, or one indented by four
blanks; in a manual page it is between .Bd -literal and .Ed. A command begins with `$ ` and continues on lines that
begin with `> `. The lines after it are its output and error output; blanks at the end of a line are ignored. A command
that ends in & runs until the end of the session. A script, which a reader can paste, is a fenced block of `sh` followed
by one of `text`: a session of one command, and what it prints.

Each session runs in a folder of its own with links to the files of the repository, so that arguments such as ./snmp and
examples/three.tab work. The program is installed into a new folder, whose path replaces /usr/local. Port 1161 is
replaced by a free one. Each line of a page that begins with `$ ` has to be in a session, so that no command is
overlooked.
"""
import glob
import os
import re
import subprocess
import sys
import tempfile

from lib import pipes, programs
from lib.ports import over_free_port
from lib.programs import TOP, read_file
from lib.runner import Tests, differs

tests = Tests("tests/sessions.py")
# The folder where the program is installed.
PREFIX = tempfile.TemporaryDirectory()
# The least number of sessions that the pages have to have.
LEAST = 15


def pages():
    """Returns the paths of README.md and of all pages in docs/."""
    forms = [os.path.join(glob.escape(TOP), "docs", form) for form in ("**/*.md", "*.[1-8]")]
    found = [path for form in forms for path in glob.glob(form, recursive=True)]
    return ["README.md", *sorted(os.path.relpath(path, TOP) for path in found)]


def blocks_of(path):
    """Yields each block of a page, with the number of its first line before it."""
    text = read_file(path)
    if path.endswith(".1"):
        found = re.finditer(r"^\.Bd -literal.*\n((?:.*\n)*?)\.Ed$", text, re.MULTILINE)
    else:
        found = re.finditer(r"^```.*\n((?:.*\n)*?)```$|((?:^    .*\n)+)", text, re.MULTILINE)
    for match in found:
        body = next(filter(None, match.groups()), "")
        if path.endswith(".1"):
            body = body.replace(r"\&", "").replace(r"\(aq", "'").replace(r"\-", "-").replace(r"\e", "\\")
        elif match[0].startswith("    "):
            body = re.sub("^    ", "", body, flags=re.MULTILINE)
        yield text.count("\n", 0, match.start()) + 1, body


def commands_of(block):
    """Yields each command of a session and what the page shows that it prints."""
    for part in re.split(r"^\$ ", block, flags=re.MULTILINE)[1:]:
        first, _, rest = part.partition("\n")
        more = re.match(r"(?:> .*\n|>\n)*", rest)[0]
        yield first + re.sub("^> ?", "\n", more.rstrip("\n"), flags=re.MULTILINE), rest[len(more):]


def trim(text):
    """Returns the lines of `text` without blanks at their ends."""
    return [line.rstrip(" ") for line in text.split("\n")]


def start(command, shown, **where):
    """Starts a command that runs until the end of the session. Waits until it has printed as many lines as `shown`, or
    has ended. Returns the process and what it printed. An snmpd without --turns gets 600, so that it ends even if
    nothing kills it."""
    command = command.rstrip().removesuffix("&")
    if "snmpd" in command and "--turns" not in command:
        command += " --turns 600"
    process = programs.spawn(["bash", "-c", command], stderr=subprocess.STDOUT, **where)
    printed = "".join(pipes.line(process.stdout) for _ in shown.splitlines())
    more = os.read(process.stdout.fileno(), pipes.waiting_octets(process.stdout))
    return process, printed + more.decode()


def run(block, port):
    """Runs a session with `port` instead of 1161. Returns what is wrong."""
    status, going, prefix = 0, [], PREFIX.name
    block = block.replace("127.0.0.1:1161", f"127.0.0.1:{port}").replace("/usr/local", prefix)
    with tempfile.TemporaryDirectory() as folder:
        for name in [name for name in os.listdir(TOP) if name[0] != "."]:
            os.symlink(os.path.join(TOP, name), os.path.join(folder, name))
        where = {"cwd": folder, "env": {**os.environ, "PATH": f"{prefix}/bin:{os.environ['PATH']}"}}
        try:
            for command, shown in commands_of(block):
                if command.rstrip().endswith("&"):
                    process, printed = start(command, shown, **where)
                    going.append(process)
                else:
                    status, printed, _ = programs.run_command(["bash", "-c", f"(exit {status}); {command}"],
                                                              stderr=subprocess.STDOUT, **where)
                if trim(printed) != trim(shown):
                    return f"$ {command}\n{printed}-- expected\n{shown}"
        finally:
            for process in going:
                process.kill()
                process.wait(programs.PATIENCE)
    return ""


def sessions_of(path):
    """Yields the title of each session of a page, and its block."""
    for line, block in blocks_of(path):
        if block.startswith("$ "):
            yield f"{path}:{line}: {next(commands_of(block))[0]}", block


def scripts_of(path):
    """The scripts of a page, each with its title, as sessions."""
    text = read_file(path)
    body = r"((?:(?!```).*\n)*)```"
    for match in re.finditer(rf"^```sh\n{body}\n\n```text\n{body}$", text, re.MULTILINE):
        command, printed = match.groups()
        line = text.count("\n", 0, match.start()) + 1
        yield f"{path}:{line}: a script", "$ " + command.rstrip("\n").replace("\n", "\n> ") + "\n" + printed


def add_tests():
    """Adds the tests of all pages."""
    found = {path: list(sessions_of(path)) for path in pages()}
    count = sum(map(len, found.values()))
    tests.test(f"the pages have at least {LEAST} sessions")(lambda: "" if count >= LEAST else f"they have {count}")
    for path, sessions in found.items():
        @tests.test(f"{path}: each command is in a session")
        def overlooked(path=path, sessions=sessions):
            lines = len(re.findall(r"^(?: {4})?\$ ", read_file(path), re.MULTILINE))
            return differs(sum(len(list(commands_of(block))) for _, block in sessions), lines)
        for title, block in [*sessions, *scripts_of(path)]:
            tests.test(title)(lambda block=block: over_free_port(lambda port: run(block, port)))


def install():
    """Installs the program."""
    installed = programs.run_command([os.path.join(TOP, "snmp"), "--install", PREFIX.name])
    if installed.status != 0:
        raise RuntimeError(f"the program can't be installed: {installed.messages}")


add_tests()
if __name__ == "__main__":
    sys.exit(tests.main(sys.argv[1:], programs.BUILT, prepare=install, count=1))
