#!/usr/bin/env bash
# Counts a walker's instructions for each row over UDP on loopback, from the program's own snmpd. If Net-SNMP's walkers
# are installed (Debian's package snmp), prints theirs too, and the ratio. The count is the difference between walks
# over 40,000 and 20,000 rows, so that what a run does once isn't included. This is counted next: reading the arguments,
# and a walk over an empty table. Last come the rows per second of walks over 100,000 rows to a file, the medians of
# five runs in turns with Net-SNMP's. They are only meaningful on a machine without other work.
source "$(dirname "${BASH_SOURCE[0]}")/common.sh"
program=$top/crates/snmp/out/snmp
is_built "$program" || "$top/snmp" --build
port=$((20000 + RANDOM % 20000))
agent=127.0.0.1:$port
rows=20000
python3 - $rows >"$work/table.tab" <<'ROWS'
import sys
rows = int(sys.argv[1])
# The last row comes after the three parts, so that no walk of a part ends at the end of the view.
for part, count in (1, rows), (2, 2 * rows), (3, 5 * rows), (4, 1):
    for i in range(count):
        print(f"1.3.6.1.4.1.32473.{part}.{i // 100}.{i % 100}|2|{i}")
ROWS
"$program" snmpd --table "$work/table.tab" --listen "$agent" >"$work/server.log" &
trap 'kill %1 2>/dev/null; rm -rf "$work"' EXIT
until grep -q '^listening' "$work/server.log"; do sleep 0.1; done

# count PROGRAM ARGUMENT..: prints the instructions of a run.
count() {
    ln -sf "$(command -v "$1")" "$work/driver"
    shift
    instructions "$@"
}

# each_row PROGRAM ARGUMENT..: prints how many more instructions a walk takes for each more row.
each_row() {
    local short long
    short=$(count "$@" "$agent" .1.3.6.1.4.1.32473.1)
    long=$(count "$@" "$agent" .1.3.6.1.4.1.32473.2)
    echo $(((long - short) / rows))
}

# beside NAME OURS THEIR-PROGRAM ARGUMENT..: prints a line with our count and, if their program is installed, theirs and
# the ratio.
beside() {
    local name=$1 ours=$2 theirs
    shift 2
    printf '%s: %d instructions a row' "$name" "$ours"
    if command -v "$1" >/dev/null; then
        theirs=$(each_row "$@" -v2c -c public -m '' -On)
        awk -v n="$ours" -v m="$theirs" "BEGIN { printf \"; Net-SNMP's takes %d, %.1f times as many\", m, m / n }"
    fi
    echo
}

beside 'snmpwalk' "$(each_row "$program" snmpwalk -On)" snmpwalk -Cc
beside 'snmpbulkwalk -Cr50' "$(each_row "$program" snmpbulkwalk -On -Cr50)" snmpbulkwalk -Cc -Cr50
: >"$work/empty.tab"
echo "start-up: --version $(count "$program" --version) instructions," \
    "a walk over an empty table $(count "$program" snmpwalk -On "table:$work/empty.tab" .1.3)"

# seconds PROGRAM ARGUMENT..: prints the seconds that a walk of the longest part takes.
seconds() {
    local TIMEFORMAT=%R
    { time "$@" "$agent" .1.3.6.1.4.1.32473.3 >"$work/lines" 2>"$work/said"; } 2>&1
    [ "$(wc -l <"$work/lines")" = $((5 * rows)) ] || { echo "$1: a walk without all rows" >&2; exit 1; }
}

# rate FILE: prints the rows per second of the walk with the median time.
rate() { sort -n "$1" | awk -v rows=$((5 * rows)) '{ all[NR] = $1 } END { printf "%d", rows / all[int((NR + 1) / 2)] }'; }

# in_turn COMMAND ARGUMENT..: runs our walker and theirs in turns, and prints their rows per second.
in_turn() {
    local command=$1 round
    shift
    rm -f "$work/ours" "$work/theirs"
    for round in 1 2 3 4 5; do
        seconds "$program" "$command" -On "$@" >>"$work/ours"
        ! command -v "$command" >/dev/null || seconds "$command" -v2c -c public -m '' -On -Cc "$@" >>"$work/theirs"
    done
    printf '%s: %d rows a second' "$command${1:+ $*}" "$(rate "$work/ours")"
    [ ! -f "$work/theirs" ] || awk -v n="$(rate "$work/ours")" -v m="$(rate "$work/theirs")" \
        'BEGIN { printf "; Net-SNMP'\''s %d, %.1f times as many here", m, n / m }'
    echo
}

in_turn snmpwalk
in_turn snmpbulkwalk -Cr50
