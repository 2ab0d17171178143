#!/usr/bin/env bash
# Polls many agents on loopback, AT-ONCE at the same time. Each is the program's own snmpd with a table of 24
# interfaces. The polls are a Get of five names, and walks and bulk walks of a column and of the whole table. Prints the
# seconds, the clients' processor seconds, and their instructions for each poll. If Net-SNMP's tools are installed
# (Debian's package snmp), they are measured too, in turns with ours in each round. The seconds are medians of the
# rounds. Then it polls agents again; one in ten doesn't reply.
#
#   bench/fleet.sh [AGENTS [AT-ONCE [ROUNDS [GETS]]]]        200, 16, 5 and 1,000 by default
#
# Without valgrind, instructions aren't counted. The seconds are only meaningful on a machine without other work.
source "$(dirname "${BASH_SOURCE[0]}")/common.sh"
agents=${1:-200}
at_once=${2:-16}
rounds=${3:-5}
gets=${4:-1000}
program=$top/crates/snmp/out/snmp
is_built "$program" || "$top/snmp" --build
port=$((20000 + RANDOM % 8000))
table=.1.3.6.1.2.1.2.2.1
column=$table.2
names=("$table.8.1" "$table.10.1" "$table.14.1" "$table.16.1" "$table.20.1")
started=()
trap 'kill "${started[@]}" 2>/dev/null; rm -rf "$work"' EXIT

for row in {1..24}; do
    for of in 1 3 4 7 8 14; do echo "$table.$of.$row|2|$((row * of))"; done
    echo "$table.2.$row|4|GigabitEthernet0/$row"
    for of in 5 21; do echo "$table.$of.$row|66|1000000000"; done
    printf '%s.6.%s|4x|0200000000%02x\n' "$table" "$row" "$row"
    echo "$table.9.$row|67|$((row * 8640000))"
    for of in 10 11 12 13 15 16 17 18 19 20; do echo "$table.$of.$row|65|$((row * of * 1000003))"; done
    echo "$table.22.$row|6|.0.0"
done >"$work/table.tab"
for ((i = 0; i < agents; i++)); do
    "$program" snmpd --table "$work/table.tab" --listen "127.0.0.1:$((port + i))" >"$work/agent.$i" 2>&1 &
    started+=($!)
    echo "127.0.0.1:$((port + i))"
done >"$work/devices"
for ((i = 0; i < agents; i++)); do
    until [ -s "$work/agent.$i" ]; do sleep 0.02; done
    grep -q '^listening' "$work/agent.$i" || { cat "$work/agent.$i" >&2; exit 1; }
done

# timed DEVICES PROGRAM ARGUMENT..: runs the program for each device, which replaces DEVICE in the arguments. Prints the
# seconds and the processor seconds.
timed() {
    local devices=$1 TIMEFORMAT='%R %U %S'
    shift
    { time xargs -P "$at_once" -I DEVICE "$@" <"$devices" >/dev/null 2>&1 || true; } 2>&1 |
        awk '{ print $1, $2 + $3 }'
}

# count PROGRAM ARGUMENT..: prints the instructions of a run with the first agent, or nothing without valgrind.
count() {
    command -v valgrind >/dev/null || return 0
    ln -sf "$(command -v "$1")" "$work/driver"
    shift
    instructions "${@//DEVICE/127.0.0.1:$port}"
}

# beside NAME POLLS: prints a line that compares the measurements in $work/ours and, if there are any, $work/theirs.
beside() {
    awk -v name="$1" -v polls="$2" '
        # Sorts n numbers, and returns their median.
        function middle(all, n, i, j, it) {
            for (i = 2; i <= n; i++) {
                it = all[i]
                for (j = i - 1; j && all[j] > it; j--) all[j + 1] = all[j]
                all[j + 1] = it
            }
            return (all[int((n + 1) / 2)] + all[int(n / 2) + 1]) / 2
        }
        FNR == 1 { n = 0 }
        NF == 1 { count[FILENAME] = $1 }
        NF == 2 { walls[++n] = $1; uses[n] = $2; wall[FILENAME] = middle(walls, n); used[FILENAME] = middle(uses, n) }
        function told(file) {
            printf "%.2f s, %.2f s of a processor", wall[file], used[file]
            if (file in count) printf ", %d instructions a poll", count[file]
        }
        END {
            printf "%s, %d polls: ", name, polls; told("ours")
            if ("theirs" in wall) {
                printf "; Net-SNMP'\''s "; told("theirs")
                printf " (%.1f, %.1f", wall["theirs"] / wall["ours"], used["theirs"] / used["ours"]
                if ("ours" in count) printf ", %.1f", count["theirs"] / count["ours"]
                printf " times as many)"
            }
            print ""
        }' "${both[@]}"
}

# compare NAME DEVICES COMMAND OPTIONS ARGUMENT..: polls with our command and theirs in turns, and prints a line.
compare() {
    local name=$1 devices=$2 command=$3 options=$4 both=(ours) round
    shift 4
    local ours=("$program" "$command" -On -t 1 -r 0 $options DEVICE "$@")
    local theirs=("$command" -v2c -c public -m '' -On -t 1 -r 0 $options DEVICE "$@")
    cd "$work"
    count "${ours[@]}" >ours
    if command -v "$command" >/dev/null; then
        both+=(theirs)
        count "${theirs[@]}" >theirs
    fi
    for ((round = 0; round < rounds; round++)); do
        timed "$devices" "${ours[@]}" >>ours
        [ ${#both[@]} = 1 ] || timed "$devices" "${theirs[@]}" >>theirs
    done
    beside "$name" "$(wc -l <"$devices")"
}

# A Get takes little time, so each agent is asked several times.
for ((i = 0; i < gets; i += agents)); do cat "$work/devices"; done >"$work/many"
echo "$agents agents, $at_once at a time, $(wc -l <"$work/table.tab") rows each, medians of $rounds rounds"
compare 'Get of five names' "$work/many" snmpget '' "${names[@]}"
compare 'walk of a column' "$work/devices" snmpwalk '' "$column"
compare 'bulk walk of a column, -Cr25' "$work/devices" snmpbulkwalk -Cr25 "$column"
compare 'walk of the table' "$work/devices" snmpwalk '' "$table"
compare 'bulk walk of the table, -Cr25' "$work/devices" snmpbulkwalk -Cr25 "$table"

# One agent in ten doesn't reply: it is replaced by a socket that no program reads.
silent=$(((agents + 9) / 10))
: >"$work/silent"
python3 - "$silent" >>"$work/silent" <<'SILENT' &
import socket, sys, time
doors = [socket.socket(socket.AF_INET, socket.SOCK_DGRAM) for _ in range(int(sys.argv[1]))]
for door in doors:
    door.bind(("127.0.0.1", 0))
    print("127.0.0.1:{1}".format(*door.getsockname()))
print(flush=True)
time.sleep(86400)
SILENT
started+=($!)
until grep -q '^$' "$work/silent"; do sleep 0.1; done
grep . "$work/silent" >"$work/dead"
awk -v dead="$work/dead" 'NR % 10 == 1 { getline < dead } { print }' "$work/devices" >"$work/mixed"
read -r seconds used < <(timed "$work/mixed" "$program" snmpget -On -t 1 -r 0 DEVICE "${names[@]}")
[ "$(grep -cxFf "$work/dead" "$work/mixed")" = "$silent" ]
awk -v n="$agents" -v silent="$silent" -v at_once="$at_once" -v seconds="$seconds" -v used="$used" 'BEGIN {
    waves = int((silent + at_once - 1) / at_once)
    printf "Get of five names, %d agents of which %d are silent, -t 1 -r 0: %.2f s, %.2f s of a processor;", n, silent, seconds, used
    printf " the silent ones take %.2f s at %d at a time, %d where they come together\n", silent / at_once, at_once, waves
}'
