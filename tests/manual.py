#!/usr/bin/env python3
"""Tests the help; the manual and the completions, which are compared with the help; the messages of the sources, which
the pages explain; walks that become tables; the first command and the drawing of README; and the version.

usage: manual.py [WORD..]
"""
import glob
import os
import re
import sys
import tempfile

from lib import pipes, programs
from lib.commands import lacks
from lib.ports import over_free_port
from lib.programs import COMMANDS, TOP, read_file, run, run_command
from lib.rows import LINES
from lib.runner import Tests, differs, wrongs
from lib.server import Server

tests = Tests("tests/manual.py")
test = tests.test
WALKERS = "snmpwalk", "snmpbulkwalk"
HELP = {name: read_file(f"tests/data/help/{name}.txt") for name in ("snmp", *COMMANDS)}
MANUAL, README = read_file("docs/snmp.1"), read_file("README.md")


def snmp(*words):
    """Runs the program with exactly these arguments."""
    return run_command([programs.PROGRAM, *words])


def run_at_top(*words, **where):
    """Runs a command in the folder of the repository. Its messages are in English."""
    return run_command(words, cwd=TOP, env={**os.environ, "LC_ALL": "C"}, **where)


def matches(form, text):
    """Returns all matches of a regular expression, in which ^ and $ match at the ends of each line."""
    return re.findall(form, text, re.MULTILINE)


# -- the help, also of each command; its example, which works in any folder; and the version

VERSION = f"snmp {matches(r'^## ([0-9][0-9.]*)', read_file('CHANGELOG.md'))[0]}\n"
GATE = '.1.3.6.1.2.1.1.5.0 = STRING: "gate"\n'
# What the example in the help of each command prints.
EXAMPLES = {"snmptranslate": ".1.3.6.1.2.1.1.5.0\n", "snmpget": GATE, "snmpwalk": GATE,
            "snmpbulkwalk": f"{GATE}Variables found: 1\n",
            "snmpd": "listening on 127.0.0.1:PORT\n0 replies, 0 dropped\n"}


for name, page in HELP.items():
    @test(f"the help of {name}, and the version, which is the last one of the changelog")
    def help_of(name=name, page=page):
        words = [] if name == "snmp" else [name]
        printed = {"-h": page, "--help": page, "-V": VERSION, "--version": VERSION}
        return wrongs(*(differs(snmp(*words, option), (0, text, "")) for option, text in printed.items()))


def run_example(command, port):
    """Runs the example in the help of a command in an empty folder, but snmpd without turns, and at this port.
    Returns what is wrong."""
    line, = matches(r"^Example.*\n  (.*)", HELP[command])
    line = line.replace("127.0.0.1:1161 --turns 30", f"127.0.0.1:{port} --turns 0")
    path = f"{os.path.dirname(programs.PROGRAM)}:{os.environ['PATH']}"
    with tempfile.TemporaryDirectory() as folder:
        ended = run_command(["sh", "-c", line], cwd=folder, env={**os.environ, "PATH": path})
    return differs(ended, (0, EXAMPLES[command].replace("PORT", str(port)), ""))


@test("the example in the help of each command")
def examples():
    return over_free_port(lambda port: wrongs(*(run_example(command, port) for command in COMMANDS)))


# -- the options in the help, compared with what the program, the manual and the completions have

def options(command):
    """Returns the options of a command that have a value, each with the name of its value."""
    return dict(matches(r"^ +(-[a-zA-Z]|--[a-z-]+) <([^>]*)>", HELP[command]))


def all_options(command):
    """Returns all options of a command."""
    return [*options(command), "-h", "--help", "-V", "--version"]


def letters(command, option):
    """Returns the letters that an option of a command takes."""
    lines, = matches(rf"^ +{option} <.*\n((?: +[^- ].*\n)*)", HELP[command])
    return matches(r"^ +([a-zA-Z])N?: ", lines)


def lettered(command):
    """Returns the options of a command that take letters."""
    return [option for option, value in options(command).items() if value == "LETTERS"]


def numbers_of(command, ranged, *rest):
    """Yields what is wrong with the options of a command that have a range: these are `ranged`, and each accepts the
    numbers in its range. `rest` are the command's other arguments."""
    ranges = matches(r"^ +(-[a-zA-Z]|--[a-z-]+) <[A-Z]+> .* (\d+) to (\d+)", HELP[command])
    plain = snmp(command, *rest)
    yield differs((command, [option for option, *_ in ranges], plain.status), (command, ranged, 0))
    for option, low, high in ranges:
        for number in int(low) - 1, int(low), int(high), int(high) + 1:
            word = f"{option}={number}" if option.startswith("--") else f"{option}{number}"
            status, output, messages = snmp(command, word, *rest)
            wanted = plain
            if not int(low) <= number <= int(high):
                wanted = 1, "", f"error: invalid value '{number}' for '{option} "
                messages = messages[:len(wanted[2])]
            elif word == "--max-size=1" and command != "snmpd":
                # No reply fits into one octet, not even one with the error tooBig.
                wanted = 1, "", "Timeout: No Response from table:/dev/null.\n"
            yield differs((command, word, status, output, messages), (command, word, *wanted))


@test("the numbers that options accept, compared with the range in the help")
def numbers():
    return over_free_port(lambda port: wrongs(
        *numbers_of("snmptranslate", [], "iso"),
        *numbers_of("snmpd", ["--max-size"], "--table", "/dev/null", "--turns", "0", "--listen", f"127.0.0.1:{port}"),
        *(wrong for command in ("snmpget", *WALKERS)
          for wrong in numbers_of(command, ["-r", "-t", "--max-size"], "table:/dev/null", ".1.3"))))


ARGUMENTS = {"<AGENT>": ".Ar agent", "<NAME>...": ".Ar name ...", "[NAME]": ".Op Ar name"}


def synopsis(command):
    """Returns the lines of the manual's synopsis for a command, by its help."""
    usage, = matches(rf"^Usage: snmp {command} \[OPTIONS\](.*)", HELP[command])
    arguments = re.sub(" --[a-z-]+ <[^>]*>", "", usage).split()
    return [f".{'' if option in usage else 'Op '}Fl {option[1:]} Ar {value.lower()}"
            for option, value in options(command).items()] + [ARGUMENTS[word] for word in arguments]


@test("the manual's synopsis of each command")
def synopses():
    parts = MANUAL.partition(".Sh SYNOPSIS\n.Nm\n")[2].partition(".Sh DESCRIPTION\n")[0].split(".Nm\n")
    lines = {command: lines for heading, *lines in map(str.splitlines, parts) for command in heading.split()}
    return wrongs(*(differs((command, lines[command]), (command, synopsis(command))) for command in COMMANDS))


@test("the manual describes each option once")
def described():
    headings = " , ".join(matches(r"^\.It Fl (.*?)(?: Ar .*)?$", MANUAL))
    return differs(sorted(f"-{option}" for option in headings.split(" , ")),
                   sorted({option for command in COMMANDS for option in all_options(command)}))


@test("the letters that the manual describes")
def letters_in_manual():
    on_names, = matches(r"^shows names alone:\n\.Cm (.*)", MANUAL)
    wrong = [differs(sorted(on_names.split(" , ")), sorted(letters("snmptranslate", "-O")))]
    for option, commands in ("-O", ["snmpget"]), ("-C", WALKERS), ("-T", ["snmptranslate"]):
        part, = matches(rf"^\.It Fl {option[1:]} Ar .*\n((?:(?!\.It Fl ).*\n)*)", MANUAL)
        taken = {letter for command in commands for letter in letters(command, option)}
        wrong.append(differs(sorted(matches(r"^\.It Cm (\S+)", part)), sorted(taken)))
    return wrongs(*wrong)


# Prints what bash offers for the last of the words.
COMPLETE = r"""
. completions/snmp.bash
COMP_WORDS=("$@") COMP_CWORD=$(($# - 1))
$(complete -p snmp | sed 's/.*-F \([^ ]*\) .*/\1/')
printf '%s\n' "${COMPREPLY[@]}"
"""
# What bash offers for the last word of a command line, which may be empty.
OFFERS = {
    "snmp ": " ".join([*COMMANDS, "-h --help -V --version"]),
    "snmp snmpw": "snmpwalk",
    "./snmp snmpt": "snmptranslate",
    **{f"snmp {command} -": " ".join(all_options(command)) for command in COMMANDS},
    **{f"snmp {command} {option} ": " ".join(letters(command, option))
       for command in COMMANDS for option in lettered(command)},
    "snmp snmpbulkwalk -Ci": "-Cip -Cir",
    "snmp snmpbulkwalk -Cr": "",
    "snmp snmpbulkwalk -Cr5": "",
    "snmp snmptranslate -T": "-Td",
    "snmptranslate -T": "-Td",
    "snmp snmpget -v ": "2c",
    "snmp snmpget -v": "-v2c",
    "snmp snmpd --m": "--max-size --mib",
    "snmp snmpd -c ": "",
    "snmp snmpwalk table:examples/th": "examples/three.tab",
    "snmp snmpwalk -On --mib x.txt table:examples/th": "examples/three.tab",
    "snmp snmpd --table examples/th": "examples/three.tab",
    "snmp snmpd --table=examples/th": "examples/three.tab",
    "snmp snmpget --mib examples/ti": "examples/tiny.txt",
    "snmp snmpget --mib=examples/ti": "examples/tiny.txt",
    "snmp snmpget ta": "table:",
    "snmp snmpget -c ta ta": "table:",
    "snmp snmpget table:x ta": "",
    "snmp snmpget --after ta": ""}


@test("the completions of bash: commands, options, letters and files")
def offers():
    wrong = []
    for line, offered in OFFERS.items():
        # bash splits words at : and =.
        words = [piece for word in line.split(" ") for piece in re.findall("[:=]|[^:=]+", word) or [""]]
        status, output, messages = run_at_top("bash", "-c", COMPLETE, "complete", *words)
        wrong.append(differs((line, status, sorted(output.split()), messages), (line, 0, sorted(offered.split()), "")))
    return wrongs(*wrong)


# Calls a function of the completions of zsh, and prints the arguments that it passes to _arguments or _values, one a
# line.
CALL = """
_arguments _values() { print -rl -- "$@" }
eval "$(sed '$d' completions/_snmp)"
"$@"
"""


@test("the completions of zsh: options and letters", lacks("zsh"))
def offers_of_zsh():
    def call(*words):
        status, output, messages = run_at_top("zsh", "-fc", CALL, "call", *words)
        wrong.append(differs((words, status, messages), (words, 0, "")))
        return output

    wrong = [differs(run_at_top("zsh", "-n", "completions/_snmp"), (0, "", ""))]
    for command in COMMANDS:
        offered = call("_snmp_command", command)
        found = matches(r"^\*?(?:\([^)]*\))?(-[a-zA-Z]|--[a-z-]+)[+=]?\[", offered)
        wrong.append(differs(sorted(found), sorted(all_options(command))))
        for option in lettered(command):
            action, = matches(rf"^\*?{option}[+=]\[[^]]*\]:[^:]*:(.*)", offered)
            found = (matches(r"([a-zA-Z])\\:", action) if action.startswith("((")
                     else matches(r"^([a-zA-Z])\[", call("eval", action)))
            wrong.append(differs(sorted(found), sorted(letters(command, option))))
    return wrongs(*wrong)


# -- pages

for commands, line in (["mandoc"], "mandoc -Tlint -W warning docs/snmp.1"), (
        ["man", "groff"], "man --warnings -E UTF-8 -l -Tutf8 -Z docs/snmp.1 >/dev/null"):
    @test(f"the manual has no fault: {line}", lacks(*commands))
    def lint(line=line):
        return differs(run_at_top("sh", "-c", line), (0, "", ""))


@test("each message of the sources is on the page of messages, from which the manual has its list")
def messages_of_sources():
    sources = glob.escape(f"{TOP}/crates/snmp_tools/src")
    messages = {message for path in [f"{TOP}/crates/snmp_tools/src/failure.rt", *glob.glob(f"{sources}/load/*.rt")]
                for message in matches(r'b"([^"\n]*[a-z]{2} [a-z]{2}[^"\n]*|syntax)"', read_file(path))}
    listed = "\n".join(matches(r"^\| (`[^|\n]+) \| ", read_file("docs/TROUBLESHOOTING.md")))
    return wrongs(differs([message for message in messages if message not in listed], []),
                  "" if len(messages) >= 34 else f"the sources have only {len(messages)} messages",
                  differs(run_at_top("tools/list-messages", "--check"), (0, "", "")))


@test("the first command of README")
def first_command():
    command, = matches(r"^    (\./snmp snmpwalk .*)", README)
    return wrongs(differs("".join(matches(r"^    (\.1\..* = .*\n)", README)), LINES),
                  differs(run_at_top(*command.split()), (0, LINES, "")))


@test("the drawing of README is what its tool draws, and has the figures that README quotes from it")
def drawing():
    drawn = read_file("docs/speed.svg")
    words, = matches(r"^!\[([^]]*)\]\(docs/speed\.svg\)$", README)
    figures = matches(r"\d{1,3}(?:,\d{3})+", words)
    return wrongs(differs(run_at_top("tools/draw-speed"), (0, drawn, "")),
                  differs([figure for figure in figures if f">{figure}" not in drawn], []),
                  "" if len(figures) >= 12 else f"README quotes only {len(figures)} figures")


# -- walks that become tables

# A table of each type, with the greatest and the least values.
TYPES = read_file("tests/data/types.tab")


def to_table(lines, **where):
    """Runs tools/lines-to-table with these lines as its input."""
    with pipes.file(lines.encode()) as path, open(path, "rb") as file:
        return run_at_top("tools/lines-to-table", stdin=file, **where)


def walk(table, *words, root=".1"):
    """Returns what a walk of a table prints."""
    with pipes.file(table.encode()) as path:
        return snmp("snmpbulkwalk", *words, f"table:{path}", root).output


@test("the lines of a walk become its table")
def own_table():
    return differs(to_table(walk(TYPES, "-Onx") + walk(TYPES, "-Onx", root=".2")), (0, TYPES, ""))


for shown in "-On", "-Onx", "-One", "-OS":
    @test(f"all lines of a walk with {shown} become rows, and a walk of these prints the same, also over UDP")
    def walk_of_copy(shown=shown):
        lines = walk(TYPES, shown, "-Cp")
        status, copy, messages = to_table(lines)
        with Server(table=copy) as server:
            over_udp = run("snmpbulkwalk", shown, "-Cp", server.address, ".1")
        return wrongs(differs((status, messages), (0, "")), differs(walk(copy, shown, "-Cp"), lines),
                      differs(over_udp, (0, lines, "")))


# Each walk of the file has a title after '# ', its lines, the expected rows after '> ', and the messages after '! '. A
# `\` at the end of its last line says that no line feed ends it. A `$` at the end of a line shows the blank before it,
# and isn't part of the line.
for block in re.split("^# ", read_file("tests/data/walks.txt").replace("$\n", "\n"), flags=re.MULTILINE)[1:]:
    title, _, text = block.partition("\n")

    @test(f"lines become rows: {title}")
    def rows_of(text=text):
        rows, messages = ("".join(matches(f"^{sign} (.*\n)", text)) for sign in ">!")
        lines = re.sub("^[>!] .*\n", "", text, flags=re.MULTILINE).replace("\\\n", "")
        return differs(to_table(lines), (1 if messages else 0, rows, messages))


@test("a walk file that doesn't exist, and a table that can't be written")
def no_table():
    with open("/dev/full", "wb") as full:
        ended = to_table(".1.3.6 = INTEGER: 1\n", stdout=full)
    return wrongs(differs(ended, (1, "", "lines-to-table: No space left on device\n")),
                  differs(run_at_top("tools/lines-to-table", "no.txt"),
                          (1, "", "lines-to-table: no.txt: No such file or directory\n")))


if __name__ == "__main__":
    sys.exit(tests.main(sys.argv[1:], programs.BUILT))
