#!/usr/bin/env python3
"""Tests what the other tests rely on: the gate, the check that a program was built from the current sources, the build
by ./snmp, tests/edits.py, tests/layout.py and tools/check-pages. Each test works in a checkout of its own, whose files
are in tests/data/checkout.txt, with a mock of the toolchain.

usage: gate.py [WORD..]
"""
import os
import shutil
import sys
import tempfile

from lib.commands import lacks
from lib.programs import TESTS, TOP, run_command
from lib.runner import Tests, differs

tests = Tests("tests/gate.py")
SCRIPTS = sorted(f"tests/{name}" for name in os.listdir(TESTS) if name.endswith(".py"))
# The parts of the gate that count tests, but for `rt ci`.
PARTS = [*sorted({*SCRIPTS} - {"tests/edits.py", "tests/wrong.py"}), "tools/check-pages"]
# How many tests pass before tests/program.py, and in all, if each of these passes one and `rt ci` five.
BEFORE, ALL = 8, len(PARTS) + 5

# The mock of rt notes its calls, and runs $RT_DOES first. Programs that it builds contain their sources as comments.
RT = r"""#!/usr/bin/env bash
echo "${PWD##*/}: rt $1 ${RT_JOBS:-}" >>"$CALLS"
eval "${RT_DOES:-}"
build() {
    mkdir -p "$1/out"
    { echo '#!/bin/sh'; sed 's/^/# /' "$1"/src/*.rt; echo 'echo "snmp ran: $*"'; } >"$1/out/$2"
    chmod +x "$1/out/$2"
}
case $1 in
    run) echo 'rt: chose --jobs 2 for low' && build . snmp ;;
    try)
        shift 4
        echo 'Usage: program [OPTIONS]'
        for word; do word=${word#--table=}; [ ! -f "$word" ] || cat "$word"; done
        printf '%s: bad\n' "$@" 'run=ended status=3' 'checked: ended status=3' | sed 's/=3: bad/=3/' >&2
        exit 3 ;;
    ci)
        for main in crates/*/src/main.rt; do at=${main%/src/main.rt}; build "$at" "${at##*/}"; done
        echo '5 passed, 0 failed (of these 2 in this run)' ;;
esac
"""

# Each test runs its commands after these. A mock of a script notes its calls, and fails if it has input.
FIRST = r"""
set -euo pipefail
exec 2>&1
export LC_ALL=C CALLS=$ROOM/calls
unset RT_DOES RT_JOBS PART_SECONDS EDIT_SECONDS
program=crates/snmp/out/snmp low=crates/low/src/lib.rt mid=crates/mid/src/lib.rt specs=crates/low/specs next= options=
real() { (cd "$TOP" && cp -r --parents "$@" "$ROOM/tree"); }
mock() { printf '%s\n' '#!/bin/sh' 'echo "$0 $*" >>"$CALLS"' '! read -r _ || exit 9' "${@:2}" >"$1"; chmod +x "$1"; }
counts() { echo "echo '$1 passed, $2 failed, $3 skipped'"; }
part() { mock tests/program.py "$@"; }
does() { export RT_DOES=$1; }
gate() { ./.ci/run <<<'no part reads this'; }
# edits STATUS TEXT [LINE]: tests/edits.py --stale prints the text and ends so. Other calls of it run the line.
edits() { printf '%b\n' "$2" >text; mock tests/edits.py "[ \"\$1\" != --stale ] || { cat text; exit $1; }" "${3:-}"; }
# changed COUNT [LINE]: the same, for a text that names two crates and has this count.
changed() { edits 2 "mid: it has (tests/edits.py mid)\nlow: it has (tests/edits.py low)\n9 $UNCHANGED, $1" "${2:-}"; }
# try_edits LINE..: tries the edits of `low` and `mid`, about which rt prints these lines.
try_edits() { real tests/edits.py; printf '%s\n' "$@" >text; does "cat '$PWD/text'; $next"; tests/edits.py $options; }
# Moves definitions to specs/private, and the imported names to another order, on two lines.
moves() {
    printf 'use Rattle.low.specs.Low.{a, b}\n\none : A\n\ntwo : B\n' >$specs/High.antt; tests/edits.py >log
    mkdir $specs/private; mv $specs/Low.antt $specs/private
    printf 'use Rattle.low.specs.%s}\n' '{private.Low.b' 'private.Low.{a' >$specs/High.antt
    printf '\n%s\n' 'two : B' '-- a comment' 'one : A' >>$specs/High.antt
}
# Builds the program, and checks it when its files are so old that tests/is-current notes their dates.
build() { ./snmp --build >log 2>&1 && sleep 1.1 && tests/is-current $program; }
# Checks the program twice, since the first check may note dates.
check() { for _ in 1 2; do tests/is-current $program && echo current || echo $?; done; }
real .ci/run snmp tools/lanes tests/is-current
for each in tools/check-pages $SCRIPTS; do mock $each "$(counts 1 0 0)"; done
edits 0 "13 $UNCHANGED"
mock tests/wrong.py '[ "$*" = --stale ]'
"""
UNCHANGED = "crates are unchanged since their edits were tried"


def write_checkout(room):
    """Writes the files of the checkout to the folder `tree` below `room`, and the mock of rt to the folder `bin`."""
    with open(f"{TESTS}/data/checkout.txt", encoding="utf-8") as file:
        files = [text.split("\n", 1) for text in file.read().split("\n@ ")[1:]]
    for path, text in [*((f"tree/{path}", text) for path, text in files), ("bin/rt", RT)]:
        os.makedirs(os.path.dirname(f"{room}/{path}"), exist_ok=True)
        with open(f"{room}/{path}", "w", encoding="utf-8") as file:
            file.write(f"{text}\n")
    os.chmod(f"{room}/bin/rt", 0o755)


def shows(title, commands, status, *lines, lacking=""):
    """Adds a test: in a new checkout bash runs the commands, ends with this status and prints these lines. If the
    first is '..', other lines may be before the rest. In the lines the folder with the checkout is named ROOM."""
    @tests.test(title, lacking)
    def run():
        # A colon would end a path in PATH.
        with tempfile.TemporaryDirectory(dir="/tmp" if ":" in tempfile.gettempdir() else None) as room:
            write_checkout(room)
            path = f"{room}/bin:{os.environ['PATH']}"
            if shutil.which("rt", path=path) != f"{room}/bin/rt":
                return "the mock of rt can't run here, and the toolchain itself isn't to run"
            ended = run_command(["bash", "-c", FIRST + commands], 150, cwd=f"{room}/tree", env={
                **os.environ, "PATH": path, "ROOM": room, "TOP": TOP, "SCRIPTS": " ".join(SCRIPTS),
                "UNCHANGED": UNCHANGED})
        got = ended.output.replace(room, "ROOM").splitlines()
        got = ["..", *got[len(got) - len(lines) + 1:]] if lines[:1] == ("..",) else got
        return differs([*got, ended.status], [*lines, status])


# -- whether a program was built from the current sources

SAID = "tests/is-current: crates/snmp/out/snmp{}: ./snmp --build builds snmp, and ./.ci/run all programs"
STALE = 2 * [SAID.format(" wasn't built from the current sources"), "1"]
shows("a program that isn't built", "check", 0, *2 * [SAID.format(" isn't built"), "1"])
shows("a program without a note", "mkdir crates/snmp/out; cp /bin/true $program; check", 0,
      *2 * [SAID.format(": nothing says what it was built from"), "1"])
for edit in (
        ":", "touch $low; touch -d 2000-01-01 $mid", "touch -d 2000-01-01 $low; sleep 1.1",
        # A source is edited and restored, and another is added and removed.
        "cp -p $mid kept; echo | tee $mid >crates/low/src/a.rt; check &>log; cp -p kept $mid; rm crates/low/src/a.rt",
        # The program isn't built from these.
        "echo '# more' >>crates.txt; echo more | tee -a README.md crates/other/src/main.rt $specs/Low.antt >log"):
    shows(f"a program is current after: {edit}", f"build; {edit}; check", 0, "current", "current")
for edit in (
        "echo more >>crates/mid/src/part/deep.rt", "rm crates/mid/src/part/deep.rt",
        "mv crates/mid/src/part/deep.rt crates/mid/src/part/new.rt",
        # An older file is copied over a source, and one is moved to the sources.
        "echo old >old; touch -d 2000-01-01 old; cp -p old $mid",
        "echo old >old; touch -d 2000-01-01 old; mv old crates/low/src/a.rt",
        # A source stays as large and as old as it was.
        'touch -r $mid kept; text=$(tr d b <$mid); echo "$text" >$mid; touch -r kept $mid',
        "sed -i 's/^mid: low/& other/' crates.txt", "sed -i 's/^snmp: mid/& low/' crates.txt",
        "sed -i s/kit-1/kit-2/ README.md", "cp /bin/false $program"):
    shows(f"a program isn't current after: {edit}", f"build; {edit}; check", 0, *STALE)
shows("a commit is checked out: the one that was built, and another",
      """build; git init -q; commit() { git add crates/*/src; git -c user.name=a -c user.email=a commit -qm "$1"; }
      commit one; echo more >>$mid; commit two; git checkout -q HEAD^; check; git checkout -q -; check""",
      0, "current", "current", *STALE, lacking=lacks("git"))
shows("arguments that tests/is-current doesn't take",
      "build; tests/is-current tests/edits.py || tests/is-current $program more", 1, *2 * [
          "tests/is-current: usage: tests/is-current [--sources] crates/NAME/out/FILE, "
          "or --built crates/NAME/out/FILE HASH"])

# -- ./snmp

LATE = "crates/snmp/out/snmp: its sources were changed while it was built"
shows("what a build prints and runs", './snmp --build; ./snmp a b; cat "$CALLS"', 0,
      "snmp: proving and building the program: half an hour to an hour on two processors at first, less after an edit",
      "snmp: proving low", "snmp: built; ./snmp runs the proved program now", "snmp ran: a b", "snmp: rt run ")
shows("a source is edited during the build", "does 'echo >>../low/src/lib.rt'; ./snmp --build || echo $?; check", 0,
      "..", f"tests/is-current: ROOM/tree/{LATE}", "1", *STALE)
shows("a failed proof ends the build, and the last lines of its log are shown",
      "build; echo more >>$mid; does 'seq 30; exit 1'; ./snmp --build", 1, "..",
      "snmp: the build failed: its last lines follow, and the rest is in ROOM/tree/crates/snmp/out/build.log",
      *map(str, range(11, 31)))
shows("after an edit the sources are run, and messages name files as the caller does",
      """build; echo more >>$mid; mkdir "$ROOM/t:m p"; echo 'of a file' >f.txt; rm "$CALLS"; TMPDIR="$ROOM/t:m p" \
      ./snmp snmpwalk --mib f.txt --table=/dev/stdin .1 <<<'of the input' || echo $?; cat "$CALLS" """, 0,
      "snmp: unproved run from the sources, in about a minute and a half each time; ./snmp --build proves and builds "
      "the program once, in half an hour to an hour", "Usage: snmp [OPTIONS]", "of a file", "of the input",
      "snmpwalk: bad", "--mib: bad", "f.txt: bad", "--table=/dev/stdin: bad", ".1: bad", "3", "snmp: rt try ")

# -- the gate

shows("from one to four checks run at the same time",
      "echo 'echo 64' >../bin/nproc; chmod +x ../bin/nproc; [[ $(tools/lanes) == [1-4] ]]", 0)
shows("the gate runs each script, and rt ci for as long as it takes, in as many lanes as tools/lanes says",
      """echo 'echo 7' >tools/lanes; does 'sleep 10'; PART_SECONDS=9 gate | tail -n 1; sort "$CALLS" """, 0,
      f"{ALL} passed, 0 failed, 0 skipped",
      *sorted(["tests/edits.py --stale", "tests/wrong.py --stale", *(f"{part} " for part in PARTS), "tree: rt ci 7"]))
shows("programs after a gate, after one that follows an edit, and after one that builds nothing",
      """for before in : 'echo more >>$low' "does 'echo 1 passed, 0 failed; exit'"; do
          eval "$before"; gate | tail -n 1; check
      done""", 0, *2 * [f"{ALL} passed, 0 failed, 0 skipped", "current", "current"],
      f"{ALL - 4} passed, 0 failed, 0 skipped", "current", "current")
shows("a part that skips all its tests, with a reason",
      """part "echo 'not tried: zsh: no zsh here' >&2" "$(counts 0 0 2)"; gate""",
      0, "..", "", "Not tried here:", "tests/program.py: zsh: no zsh here", f"{ALL - 1} passed, 0 failed, 2 skipped")
shows("edits of crates that have changed are tried for up to forty minutes",
      """changed "2 aren't" "sleep 10; $(counts 7 0 0)"; PART_SECONDS=9 gate | tail -n 1; grep seconds "$CALLS" """, 0,
      f"{ALL + 7} passed, 0 failed, 0 skipped", "tests/edits.py --seconds 2400 mid low")
shows("a signal ends the part and then the gate",
      """part "trap 'sleep 1; echo the part; exit' TERM; kill $$; while :; do sleep 1; done"; exec ./.ci/run""",
      1, "..", "the part", "FAILED: the gate was ended by a signal", f"{BEFORE} passed, 1 failed, 0 skipped")

NONE = "the status is {}, and the last line isn't 'N passed, M failed'"
PART = "tests/program.py: {}".format
for commands, why, *counts in (
        (f'edits 1 "12 {UNCHANGED}"', "tests/edits.py: edits are missing", 0),
        ("edits 0 ''", "tests/edits.py: nothing was compared", 0),
        (f'edits 0 "0 {UNCHANGED}"', "tests/edits.py: nothing was compared", 0),
        ('changed "1 aren\'t"', "tests/edits.py: nothing was compared", 0),
        ('changed "2 aren\'t" "$(counts 6 1 0); exit 1"', "tests/edits.py: status 1, and 1 tests failed", BEFORE + 6),
        ("mock tests/wrong.py 'exit 1'", "tests/wrong.py: nothing was compared", 0),
        ("part", PART(NONE.format(0)), BEFORE),
        ("part 'echo 1 passed, 0 failed, but'", PART(NONE.format(0)), BEFORE),
        ("part 'echo not 1 passed, 0 failed'", PART(NONE.format(0)), BEFORE),
        ('part "$(counts 1 0 0); echo more"', PART(NONE.format(0)), BEFORE),
        ('part "$(counts 1 0 0) >&2"', PART(NONE.format(0)), BEFORE),
        ("part 'exit 3'", PART(NONE.format(3)), BEFORE),
        ("sed -i '1s/.*/#!nowhere/' tests/program.py", PART(NONE.format(127)), BEFORE),
        ('part "$(counts 0 0 0)"', PART("no test ran"), BEFORE),
        ('part "$(counts 3 2 0)"', PART("status 0, and 2 tests failed"), BEFORE + 3, 2),
        ('part "$(counts 3 0 0); exit 1"', PART("status 1, and 0 tests failed"), BEFORE + 3),
        ('part "$(counts 0 0 2)"', PART("2 tests were skipped, and nothing says why"), BEFORE, 1, 2),
        # Neither the part nor what it started ends.
        ('export PART_SECONDS=9; part "sleep 200 & $(counts 1 0 0); sleep 200"', PART("timed out after 9 seconds"),
         BEFORE),
        ("does 'echo 1 passed, 2 failed; exit 1'", "rt: status 1, and 2 tests failed", 4, 2),
        ("does 'echo all is well; exit'", f"rt: {NONE.format(0)}", 3),
        ("does 'echo >>crates/mid/src/lib.rt'", LATE, BEFORE),
        # A program isn't built: none exists, or one of older sources.
        *((f"{old}does 'mv crates/{name}/src/main.rt .'", f"crates/{name}/out/{name}: rt ci didn't build it", BEFORE)
          for old in ("", "gate >log; echo more >>$low; ") for name in ("snmp", "other"))):
    shows(f"the gate fails after: {commands}", f"{commands}; gate", 1, "..", f"FAILED: {why}",
          "{} passed, {} failed, {} skipped".format(*counts, *(0, 1, 0)[len(counts):]))

# -- pages and layout

LIB, CODE, PLACES = "crates/low/src/lib.rt", "crates/low/src/part.rt", "places of low: crates/low/specs/Low.antt"
NAMES = ["add_up.number", "Count::got", "One.numeral", "crates/NAME/specks", "lib.antt", "add_down", "CountUp",
         "subtract()", "tests/no.sh a"]
LINKS = ["#some", "README.md#two", "crates/low/src/lib.rt#L99", "crates/low/src/lib.antt"]
for edit, part, *faults in (
        (":", ""),
        (f"sed -i 's|`lib.rt`|{' '.join(map('`{}`'.format, NAMES))}|' README.md", "names of README.md",
         *(f"`{name}` doesn't exist" for name in NAMES)),
        (f"sed -i 's|(crates)|{' '.join(map('[a]({})'.format, LINKS))}|' README.md", "links of README.md",
         *(f"{link} leads nowhere" for link in LINKS)),
        ("sed -i '/Adds/d; s/ensures least/ensures/' $low; sed -i /Returns/d crates/low/src/part.rt", "docs of low",
         f"{LIB}:9: add_up has no doc comment", f"{LIB}:9: add_up has several clauses, and one has no name",
         f"{CODE}:17: Count::get has no doc comment"),
        ("sed -i '/c is/d' $specs/Low.antt", "definitions of low: crates/low/specs/Low.antt", "IsSum has no comment"),
        ("sed -i 's/= a + b/= double b/' $specs/Low.antt", PLACES, "a promise rests on double"),
        ("sed -i 's/Count;/{Count, add_twice};/' $low", PLACES, "a promise rests on double"),
        ("sed -i '/^-- ----/d' $specs/Low.antt", PLACES, "no promise rests on double"),
        ("sed -i s/One/double/g crates/mid/*/*.antt", PLACES, "no promise rests on One", "a promise rests on double"),
        ("sed -i 's/IsSum/One/' $low", PLACES, "no promise rests on IsSum", "no promise rests on sum_of")):
    failed = 1 if faults else 0
    shows(f"check-pages after: {edit}", f"real tools/check-pages; {edit}; tools/check-pages", failed,
          *(f"{part}: {fault}" for fault in faults), f"{8 - failed} passed, {failed} failed, 0 skipped")
shows("the public clauses whose lines have two words",
      "real tools/check-pages; tools/check-pages --list add_up sum", 0, f"{LIB}:10: add_up.sum")
shows("rt fmt changes one crate and refuses another, and the checkout stays unchanged",
      """real tests/layout.py tests/lib; tests/layout.py | tail -n 1; does 'case ${PWD##*/} in
          mid) echo formatted src/lib.rt; echo >src/lib.rt ;; low) echo src/lib.rt:1: error >&2; exit 1 ;; esac'
      tests/layout.py >log || echo $?; grep -e ^FAIL: -e ^Assert log; tail -n 1 log; cat $mid""", 0,
      "4 passed, 0 failed, 0 skipped", "1",
      "FAIL: rt fmt in crates/low", "AssertionError: (1, '', 'src/lib.rt:1: error\\n')",
      "FAIL: rt fmt in crates/mid", "AssertionError: (0, 'formatted src/lib.rt\\n', '')",
      "2 passed, 2 failed, 0 skipped", "mod mid")
shows("tests/README.md describes each script",
      """for each in $SCRIPTS; do grep -qF "\\`${each#tests/}\\`" "$TOP/tests/README.md" || echo $each; done""", 0)

# -- edits

LINE, EDITED = "it has no line in tests/edits/tried.txt", "it has changed since its edits were tried"
OF_LOW, OF_MID = map("rt: must-fail {}/one.edit: refused, as it must be: note".format, ("low", "mid"))
TRY, TRIED = f"try_edits '{OF_LOW}' '{OF_MID}'", "2 passed, 0 failed, 0 skipped"
for status, commands, why in (
        (0, ":", {}), (0, "echo '-- a comment' >>$specs/Low.antt", {}), (0, "moves", {}),
        (2, "moves; sed -i s/Low.b/Low.c/ $specs/High.antt", {"low": EDITED, "mid": EDITED}),
        (2, "echo more >>$specs/Low.antt", {"low": EDITED, "mid": EDITED}),
        (2, "sed -i s/kit-1/kit-2/ README.md", {"low": EDITED, "mid": EDITED}),
        (2, "echo more >>$low", {"low": EDITED}),
        (2, "sed -i /^mid/d tests/edits/tried.txt", {"mid": LINE}),
        (1, "rm tests/edits/mid/one.edit", {"mid": "tests/edits/mid has no edits"}),
        (1, "rm -r tests/edits/mid", {"mid": "it has a line in tests/edits/tried.txt but no edits"}),
        (1, "rm -r tests/edits/mid; sed -i /^mid/d tests/edits/tried.txt", {"mid": "a library without edits"}),
        (1, "rm crates/low/must-fail/*", {"low": "crates/low/must-fail has no edits"})):
    shows(f"edits.py --stale after: {commands}", f"{TRY} >log; tail -n 1 log; {commands}; tests/edits.py --stale",
          status, TRIED, *(f"{crate}: {text} (tests/edits.py {crate})" for crate, text in why.items()),
          f"{2 - len(why)} {UNCHANGED}" + (f", {len(why)} aren't" if why else ""))
shows("two files of definitions with one name, one in private",
      f"{TRY} >log; mkdir $specs/private; cp $specs/Low.antt $specs/private; tests/edits.py --stale", 1,
      "edits.py: crates/low/specs/Low.antt exists twice: once in private/ and once outside")

# Prints the crates that have a line.
LINED = " || echo $?; sed '1d; s/ .*//' tests/edits/tried.txt"
for line in ("", "rt: must-fail mid/two.edit: refused, as it must be: one", f"note: {OF_MID}",
             "rt: must-fail mid/one.edit: NOT REFUSED: proved",
             "rt: must-fail mid/one.edit: refused, as it must be: only because a proof file names it"):
    shows(f"an edit isn't refused by: {line or 'no line'}", f"{TRY} >log; try_edits '{OF_LOW}' '{line}'{LINED}", 0,
          "..", "FAILED: mid/one.edit wasn't refused", "1 passed, 1 failed, 0 skipped", "1", "low")
for line, passed, last in (OF_LOW, 1, "low"), ("rt: must-fail low/one.edit: NOT REFUSED: proved", 0, "1"):
    shows(f"the time is up after: {line}",
          f"{TRY} >log; next='exec sleep 200' options='--seconds 6' try_edits '{line}'{LINED}", 0, "..",
          "not tried: 1 edits of mid: the time was up", f"{passed} passed, {1 - passed} failed, 1 skipped", last)
shows("a crate is changed while its edits are tried", f'next="echo more >>$PWD/$mid" {TRY}{LINED}', 0, "..",
      "mid: it was changed while they were tried, so it gets no line in tests/edits/tried.txt", TRIED, "1", "low")
shows("a folder next to the checkout into which no file can be linked",
      "real tests/edits.py; printf '#!/bin/sh\\nexit 1' >../bin/cp; chmod +x ../bin/cp; tests/edits.py", 1,
      "edits.py: the copy next to the checkout, in ROOM, failed: cp -al failed")

if __name__ == "__main__":
    sys.exit(tests.main(sys.argv[1:]))
