#!/usr/bin/env python3
"""Runs walks of the built program over random tables, and compares what they print with what a simple model computes.

usage: random_walks.py [WORD..]

The model shares no code with the program: it follows docs/REFERENCE.md for tables, their order, walks and lines. The
title of a run is `run N of seed S: ` and the run's arguments; if there are words, only runs are made whose titles
contain one of them. The environment variables RUNS and SEED set the number of runs and the seed.
"""
import os
import random
import sys

from lib import pipes, programs
from lib.runner import Tests, differs
from lib.texts import NO_INSTANCE, NO_OBJECT, dotted, hexadecimal, string, ticks

tests = Tests("tests/random_walks.py")
RUNS, SEED = int(os.environ.get("RUNS", 1000)), int(os.environ.get("SEED", 1))


def random_name(rng):
    """Returns a name of three to six numbers, many of them at the border of an encoding."""
    first = rng.choice([0, 1, 2])
    second = rng.choice([0, 1, 39]) if first < 2 else rng.choice([0, 5, 4294967295])
    numbers = [rng.choice([0, 1, 2, 9, 10, 127, 128, 4294967295]) for _ in range(rng.randint(1, 4))]
    return (first, second, *numbers)


def random_value(rng):
    """Returns a random value twice: as the tag and value of a line of a table file, and as a walk prints it."""
    kind = rng.choice(["integer", "text", "octets", "identifier", "address", "opaque", "unsigned", "counter64"])
    if kind == "integer":
        n = rng.choice([-2147483648, -129, -1, 0, 1, 127, 128, 2147483647])
        return f"2|{n}", f"INTEGER: {n}"
    if kind == "text":
        text = "".join(rng.choice('abc "\\|#.') for _ in range(rng.randint(0, 20)))
        return f"4|{text}", string(text.encode())
    if kind in ("octets", "opaque"):
        octets = bytes(rng.randrange(256) for _ in range(rng.choice([0, 1, 15, 16, 17, 32, 40])))
        digits = rng.choice([octets.hex(), octets.hex().upper()])
        if kind == "octets":
            return f"4x|{digits}", string(octets)
        return f"68x|{digits}", "OPAQUE: " + hexadecimal(octets)
    if kind == "identifier":
        name = random_name(rng)
        return f"6|{dotted(name)}", f"OID: {dotted(name)}"
    if kind == "address":
        address = ".".join(str(rng.randrange(256)) for _ in range(4))
        return f"64|{address}", f"IpAddress: {address}"
    zeros = rng.choice(["", "00"])
    if kind == "counter64":
        n = rng.choice([0, 4294967296, 18446744073709551615])
        return f"70|{zeros}{n}", f"Counter64: {n}"
    n = rng.choice([0, 1, 99, 8640000, 8639999, 17279999, 4294967295])
    tag, text = rng.choice([("65", f"Counter32: {n}"), ("66", f"Gauge32: {n}"), ("67", ticks(n))])
    return f"{tag}|{zeros}{n}", text


def random_table(rng):
    """Returns the rows of a random table, its object prefixes, and its file, whose lines are in random order."""
    rows, objects, lines = {}, [], []
    for _ in range(rng.choice([0, 1, 3, 12, 40])):
        name = random_name(rng)
        if name not in rows:
            field, rows[name] = random_value(rng)
            lines.append(f"{dotted(name)[rng.randint(0, 1):]}|{field}")
    for _ in range(rng.randint(0, 2)):
        objects.append(random_name(rng)[:rng.randint(1, 3)])
        lines.append("object " + dotted(objects[-1]))
    lines += [rng.choice(["", "# a comment"]) for _ in range(rng.randint(0, 2))]
    rng.shuffle(lines)
    return rows, objects, rng.choice(["\n", "\r\n"]).join(lines)


def get(rows, objects, name):
    """Returns what a Get of the name prints as its value."""
    if name in rows:
        return rows[name]
    return NO_INSTANCE if any(name[:len(it)] == it for it in objects) else NO_OBJECT


def wire(name):
    """Returns the name as it is sent: padded with zeros to two numbers."""
    return name + (0,) * (2 - len(name))


def walk(rows, objects, root, mode):
    """Returns the bindings of a walk without --after. The mode is 'i' for -Ci, 'I' for -CI, or empty."""
    below = sorted(name for name in rows if len(name) > len(root) and name[:len(root)] == root)
    found = [(name, rows[name]) for name in below]
    if mode == "i":
        own = [(name, rows[name]) for name in rows if name == wire(root)]
        return own + found
    if mode == "I" or found:
        return found
    return [(wire(root), get(rows, objects, wire(root)))]


def rest(rows, root, after):
    """Returns the bindings of a walk that continues after a name."""
    return [it for it in walk(rows, [], root, "I") if it[0] > wire(after)]


def random_walk(rng, rows, objects):
    """Returns the arguments of a random walk of the table, and what it has to print."""
    names = list(rows) or [(1, 3, 6)]
    root = rng.choice([rng.choice(names)[:rng.randint(0, 4)], random_name(rng)])
    command = rng.choice(["snmpwalk", "snmpbulkwalk"])
    words = [command, "-On", "--max-size", str(rng.choice([400, 1472, 65507]))]
    mode = rng.choice(["", "", "i"] + ["I"] * (command == "snmpwalk"))
    counts = rng.random() < 0.3
    if command == "snmpbulkwalk" and rng.random() < 0.7:
        words.append(f"-Cr{rng.choice([1, 2, 7, 2147483647])}")
    if mode or counts:
        words.append("-C" + mode + "p" * counts)
    bindings = walk(rows, objects, root, mode)
    below = [name for name, _ in walk(rows, objects, root, "I")]
    if below and rng.random() < 0.3:
        after = rng.choice(below)
        words += ["--after", dotted(after)]
        bindings = rest(rows, root, after)
    lines = "".join(f"{dotted(name)} = {value}\n" for name, value in bindings)
    return words + ["table:t.tab", dotted(root)], lines + f"Variables found: {len(bindings)}\n" * counts


def add_run(number, rng):
    """Adds a test that makes a random walk of a random table."""
    rows, objects, table = random_table(rng)
    words, lines = random_walk(rng, rows, objects)

    @tests.test(f"run {number} of seed {SEED}: {' '.join(words)}")
    def run():
        with pipes.folder({"t.tab": table}) as folder:
            wrong = differs(programs.run_command([programs.PROGRAM, *words], cwd=folder), (0, lines, ""))
        return wrong and f"{wrong}\n  over\n{table}"


generator = random.Random(SEED)
for at in range(RUNS):
    add_run(at, generator)

if __name__ == "__main__":
    sys.exit(tests.main(sys.argv[1:], programs.BUILT))
