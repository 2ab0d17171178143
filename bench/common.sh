# What udp.sh and fleet.sh share. They count instructions with valgrind's callgrind.
set -euo pipefail
top=$(cd "$(dirname "${BASH_SOURCE[0]}")/.." && pwd)
work=$(mktemp -d)
trap 'rm -rf "$work"' EXIT

# is_built FILE: whether the file exists and was built from the current sources.
is_built() { "$top/tests/is-current" "$1" 2>/dev/null; }

# instructions ARGUMENT..: prints the number of instructions of a run of $work/driver, a link to a program, with these
# arguments.
instructions() {
    valgrind --tool=callgrind --callgrind-out-file=/dev/null "$work/driver" "$@" 2>&1 >/dev/null |
        sed -n 's/.*Collected : \([0-9]*\).*/\1/p'
}
