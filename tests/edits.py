#!/usr/bin/env python3
"""Tries the edits of tests/edits. Each makes a crate wrong, and the proofs must refuse it. The gate always tries those
of crates/NAME/must-fail; it tries the others if a crate has changed since its edits were tried last.

usage: edits.py [--seconds N] [CRATE..]
       edits.py --stale

Tries the edits of these crates, or of all, in a copy of the repository where they replace the edits of must-fail. The
copy uses what `rt check` has stored for a crate, so check the crate first. An edit takes a processor 10 to 60 seconds,
longest in large crates. If all edits of a crate were refused, its line in tests/edits/tried.txt has a hash: of the
sources, definitions, proofs and edits of the crate and the definitions of all crates that it uses, all without
comments, and of the toolchain that README.md names. If one wasn't refused, the crate has no line. The last line printed
is 'N passed, M failed, K skipped'. With --seconds, the tries end after that time, and the remaining edits are skipped.

The copy is a folder `.edits-..` next to the checkout, and its files are hard links. So the parent folder of the
checkout must be writable and on the same file system. If a file is changed in place, it changes in the copy too. This
script doesn't do that; don't use an editor that does while it runs.

With --stale, which the gate uses, nothing is tried. The status is 2 if a crate has no line or one with another hash
than its current files, and 1 if the edits of a library are missing. The last line says how many crates haven't changed.
"""
import hashlib
import os
import re
import shutil
import signal
import subprocess
import sys
import tempfile
import threading

TOP = os.path.dirname(os.path.dirname(os.path.abspath(__file__)))
EDITS = os.path.join("tests", "edits")
TRIED = os.path.join(EDITS, "tried.txt")
HEAD = "# Of each crate whose edits were all refused, the hash of what they were tried over: tests/edits.py wrote it.\n"
# Lines that begin like this aren't hashed: comments, and lists of the files of a folder, whose paths are hashed anyway.
NO_STATEMENTS = {".rt": (b"//",), ".antt": (b"--", b"pub mod ")}
IMPORT = re.compile(rb"(\b(?:ghost |pub |unfoldable )*use Rattle\.[\w.+]+\.)\{([^}]*)\}(;?) ?")
# Why the edits of a crate have to be tried.
NO_LINE = "it has no line in tests/edits/tried.txt"
STALE = "it has changed since its edits were tried"
REFUSED = re.compile(r"rt: must-fail (\w+)/(\w+)\.edit: refused, as it must be(: .*)?\n?")
# The beginning of each line with a verdict.
VERDICT = re.compile(r"rt: must-fail (\w+)/(\w+)\.edit: ")


def at(path):
    """Returns the path of a file of the checkout."""
    return os.path.join(TOP, path)


def edits_in(folder):
    """Returns the names of the edits in a folder, none if the folder doesn't exist."""
    names = os.listdir(at(folder)) if os.path.isdir(at(folder)) else []
    return {name.removesuffix(".edit") for name in names if name.endswith(".edit")}


def edits_of_crates():
    """Returns the names of the edits of each crate that has a folder in tests/edits."""
    crates = sorted(entry.name for entry in os.scandir(at(EDITS)) if entry.is_dir())
    return {crate: edits_in(os.path.join(EDITS, crate)) for crate in crates}


def crates_of_list():
    """Returns the crates of crates.txt, each with those that it uses."""
    with open(at("crates.txt"), encoding="utf-8") as file:
        lines = [line.partition("#")[0].partition(":") for line in file]
    uses = {head.split()[0]: used.split() for head, colon, used in lines if colon}
    return {crate: [name for name in used if name in uses] for crate, used in uses.items()}


def crates_below(crate):
    """Returns the crates that a crate uses, also through others."""
    uses = crates_of_list()
    found, left = set(), [crate]
    while left:
        new = set(uses.get(left.pop(), [])) - found
        found |= new
        left += new
    return sorted(found)


def libraries():
    """Returns the libraries whose contracts other crates or the pages rely on: all but crates of tests."""
    return [crate for crate in crates_of_list() if os.path.exists(at(f"crates/{crate}/src/lib.rt"))
            and not crate.endswith("_tests")]


def statements_of(path):
    """Returns the content of a file in a form that doesn't depend on its layout: without blank lines, comments, line
    breaks and lists of files. Imported names are written one by one and sorted, and so are the definitions in `specs`.
    Paths in `specs/private` are written as if they were in `specs`."""
    marks = NO_STATEMENTS.get(os.path.splitext(path)[1], ())
    with open(path, "rb") as file:
        text = file.read()
    parts = ([line.strip() for line in part.split(b"\n")]
             for part in (text.split(b"\n\n") if "/specs/" in path else [text]))
    said = (b" ".join(line for line in part if line and not line.startswith(marks)) for part in parts)
    said = b" ".join(sorted(filter(None, said)))
    names = (use[1] + name.strip() + use[3]
             for use in IMPORT.finditer(said) for name in use[2].split(b",") if name.strip())
    said = b"\n".join([*names, IMPORT.sub(b"", said).strip()])
    *names, rest = said.replace(b"specs.private.", b"specs.").replace(b"specs::private::", b"specs::").split(b"\n")
    return b" ".join([*sorted(names), rest])


def toolchain():
    """Returns the toolchain that README.md names."""
    with open(at("README.md"), encoding="utf-8") as file:
        found = re.search(r"^Proved with: `([^`]+)`", file.read(), re.MULTILINE)
    if not found:
        sys.exit("edits.py: README.md doesn't name the toolchain, as 'Proved with: `..`'")
    return found[1]


def hash_of(crate):
    """Returns the hash of what decides whether the edits of a crate are refused. Of the crates that it uses, these are
    the definitions, because its contracts are written with them. Their contracts aren't hashed: if one becomes weaker,
    the proofs of this crate can't use what it no longer says; if one becomes stronger, what it says is true."""
    folders = [f"crates/{crate}/{part}" for part in ("src", "specs", "proofs")] + [os.path.join(EDITS, crate)]
    folders += [f"crates/{below}/specs" for below in crates_below(crate)]
    hashed = hashlib.sha256(toolchain().encode())
    for folder in folders:
        said = {}
        for path in (os.path.join(room, name) for room, _, names in os.walk(at(folder)) for name in names):
            public, text = os.path.relpath(path, TOP).replace("/private/", "/"), statements_of(path)
            if text and public in said:
                sys.exit(f"edits.py: {public} exists twice: once in private/ and once outside")
            said.update({public: text} if text else {})
        for public, text in sorted(said.items()):
            hashed.update(f"{public} {len(text)}\n".encode() + text)
    return hashed.hexdigest()


def read_tried():
    """Returns the hash of each crate that has a line in tried.txt."""
    if not os.path.exists(at(TRIED)):
        return {}
    with open(at(TRIED), encoding="ascii") as file:
        return dict(line.split() for line in file if not line.startswith("#"))


def write_tried(hashes):
    """Writes a line for each of these crates to tried.txt."""
    with open(at(TRIED), "w", encoding="ascii") as file:
        file.write(HEAD + "".join(f"{crate} {hashes[crate]}\n" for crate in sorted(hashes)))


def wrong_of(crate, of, hashes):
    """Returns what is wrong with a crate, its edits or its line, or an empty string."""
    ours = f"crates/{crate}/must-fail"
    for folder in ours, f"{EDITS}/{crate}":
        if os.path.isdir(at(folder)) and not edits_in(folder):
            return f"{folder} has no edits"
    if crate not in of:
        if crate in hashes:
            return "it has a line in tests/edits/tried.txt but no edits"
        return "" if edits_in(ours) else "a library without edits"
    if crate not in hashes:
        return NO_LINE
    return "" if hash_of(crate) == hashes[crate] else STALE


def say_stale(of):
    """Prints which crates have changed since their edits were tried, or have no line. Returns the status."""
    hashes = read_tried()
    crates = sorted({*of, *hashes, *libraries()})
    wrong = {crate: text for crate in crates if (text := wrong_of(crate, of, hashes))}
    for crate, text in wrong.items():
        print(f"{crate}: {text} (tests/edits.py {crate})")
    more = f", {len(wrong)} aren't" if wrong else ""
    print(f"{len(crates) - len(wrong)} crates are unchanged since their edits were tried{more}")
    return 0 if not wrong else 2 if set(wrong.values()) <= {NO_LINE, STALE} else 1


def copy_crates(room):
    """Copies the crates and the files that they need into a folder, by hard links, with the stored results of earlier
    checks. In each crate the edits of tests/edits replace the ones of must-fail."""
    for name in "crates.txt", "HANDLES":
        shutil.copy(at(name), room)
    subprocess.run(["cp", "-al", at("crates"), room], check=True)
    for crate in os.listdir(os.path.join(room, "crates")):
        folder = os.path.join(room, "crates", crate, "must-fail")
        shutil.rmtree(folder, ignore_errors=True)
        if os.path.isdir(at(f"{EDITS}/{crate}")):
            shutil.copytree(at(f"{EDITS}/{crate}"), folder)


def refused_by(line):
    """Returns the crate and the edit that a line reports as refused, or None. The whole line has to have this form. An
    edit doesn't count as refused if the line says that this was only because a proof file names something."""
    verdict = REFUSED.fullmatch(line)
    return None if not verdict or "only because a proof file names" in line else verdict.groups()[:2]


def end(tries, over):
    """Ends the tries and what they started, and sets `over`, which says that their time was up."""
    over.set()
    os.killpg(tries.pid, signal.SIGTERM)


def start(words, room):
    """Starts the tries in a process group of their own, and ends them if a signal ends this script. They print each
    verdict without delay."""
    tries = subprocess.Popen(words, cwd=room, stdout=subprocess.PIPE, text=True, start_new_session=True,
                             env={**os.environ, "PYTHONUNBUFFERED": "1"})

    def stop(number, _frame):
        os.killpg(tries.pid, signal.SIGTERM)
        sys.exit(128 + number)

    for number in signal.SIGINT, signal.SIGTERM, signal.SIGHUP:
        signal.signal(number, stop)
    return tries


def try_edits(crates, seconds):
    """Tries the edits of these crates for at most this time. Returns the edits that were refused, each as its crate and
    name. Also returns those with a verdict if the time was up before the end, otherwise None."""
    found, judged, over, above = set(), set(), threading.Event(), os.path.dirname(TOP)
    try:
        # Next to the checkout, since hard links need the same file system.
        folder = tempfile.TemporaryDirectory(prefix=".edits-", dir=above)
    except OSError as fault:
        sys.exit(f"edits.py: the copy next to the checkout, in {above}, failed: {fault.strerror}")
    with folder as room:
        try:
            copy_crates(room)
        except (OSError, subprocess.CalledProcessError) as fault:
            why = fault if isinstance(fault, OSError) else "cp -al failed"
            sys.exit(f"edits.py: the copy next to the checkout, in {above}, failed: {why}")
        try:
            # With --anew rt prints a verdict also for an edit that it has tried on this machine before.
            words = ["rt", "must-fail", "--anew", *crates]
            tries = start(words, room)
        except FileNotFoundError:
            sys.exit("edits.py: the command rt, which tries the edits, isn't on PATH")
        clock = threading.Timer(seconds, end, (tries, over))
        clock.daemon = True
        clock.start()
        with tries:
            for line in tries.stdout:
                print(line, end="", flush=True)
                found.add(refused_by(line))
                verdict = VERDICT.match(line)
                judged.add(verdict and verdict.groups())
        clock.cancel()
    return found, judged if over.is_set() else None


def main(names):
    of = edits_of_crates()
    if names == ["--stale"]:
        return say_stale(of)
    seconds = threading.TIMEOUT_MAX
    if names[:1] == ["--seconds"]:
        seconds, names = float(names[1]), names[2:]
    unknown = [name for name in names if name not in of]
    if unknown:
        sys.exit(f"edits.py: {unknown[0]} has no edits; the crates with edits are {' '.join(of)}")
    crates = names or list(of)
    before = {crate: hash_of(crate) for crate in crates}
    found, judged = try_edits(crates, seconds)
    left = {crate: [edit for edit in of[crate] if (crate, edit) not in found] for crate in crates}
    untried = set() if judged is None else {(crate, edit) for crate in crates for edit in left[crate]} - judged
    # If a crate has changed since the copy was made, its edits were tried in an older version.
    passed = {crate: before[crate] for crate in crates
              if of[crate] and not left[crate] and hash_of(crate) == before[crate]}
    write_tried({crate: value for crate, value in read_tried().items() if crate not in crates} | passed)
    for crate in crates:
        for edit in sorted(left[crate]):
            if (crate, edit) not in untried:
                print(f"FAILED: {crate}/{edit}.edit wasn't refused")
        if not left[crate] and crate not in passed:
            why = "it has no edits" if not of[crate] else "it was changed while they were tried"
            print(f"{crate}: {why}, so it gets no line in tests/edits/tried.txt")
    if untried:
        late = " ".join(sorted({crate for crate, _ in untried}))
        print(f"not tried: {len(untried)} edits of {late}: the time was up", file=sys.stderr)
    failed = sum(map(len, left.values())) - len(untried)
    count = sum(len(of[crate]) for crate in crates)
    print(f"{count - failed - len(untried)} passed, {failed} failed, {len(untried)} skipped")
    return 1 if failed or not untried and len(passed) < len(crates) else 0


if __name__ == "__main__":
    sys.exit(main(sys.argv[1:]))
