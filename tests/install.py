#!/usr/bin/env python3
"""Tests the install and the uninstall, mostly with a mock of the program, and the packages of the built program.

usage: install.py [WORD..]
"""
import hashlib
import os
import pathlib
import re
import shutil
import stat
import sys
import tempfile

from lib.commands import lacks
from lib.programs import BUILT, COMMANDS, TOP, Ended, read_file, run_command
from lib.rows import LINES, ROOT
from lib.runner import Tests, differs, wrongs

tests = Tests("tests/install.py")
WITH_NAMES = "usr", "--with-names", "names"
MANUALS = [path.name for path in pathlib.Path(TOP, "docs").glob("*.[1-9]")]
PAGES = ["README.md", "CHANGELOG.md", *(f"docs/{name}.md" for name in (
    "FROM-NET-SNMP", "HOWTO", "MANY-DEVICES", "PERFORMANCE", "PROMISES", "REFERENCE", "TROUBLESHOOTING"))]
DOCS, LIST, THREE = "usr/share/doc/snmp", "usr/share/snmp/installed", "usr/share/snmp/examples/three.tab"
# The files of an install in the folder `usr`, and what each is made from. All but the pages are copies.
SOURCES = {
    "usr/bin/snmp": "crates/snmp/out/snmp",
    "usr/bin/lines-to-table": "tools/lines-to-table",
    "usr/bin/join-modules": "tools/join-modules",
    "usr/share/bash-completion/completions/snmp": "completions/snmp.bash",
    "usr/share/zsh/site-functions/_snmp": "completions/_snmp",
    "usr/share/snmp/modules/base.txt": "modules/base.txt",
    f"{DOCS}/speed.svg": "docs/speed.svg",
    **{f"{DOCS}/{os.path.basename(page)}": page for page in PAGES},
    **{f"usr/share/man/man{page[-1]}/{page}": f"docs/{page}" for page in MANUALS},
    **{f"usr/share/snmp/examples/{name}": f"examples/{name}" for name in os.listdir(f"{TOP}/examples")}}
FILES = sorted([*SOURCES, LIST])
NAMED = sorted([*FILES, *(path for name in COMMANDS for path in (f"names/{name}", f"usr/share/man/man1/{name}.1"))])
FOREIGN = "exists, but isn't a file of an install; --force replaces it"


class Room:
    """A folder with `tree`, which has what an install reads and a mock of the program, so that nothing of the
    repository is touched; and with `here`: commands run there, and paths are relative to it. Its name has a quote and a
    blank."""

    def __init__(self, folder):
        self.tree, self.here = pathlib.Path(folder, "tree"), pathlib.Path(folder, "it's here")
        self.here.mkdir()
        for name in "tools", "completions", "docs", "examples":
            shutil.copytree(f"{TOP}/{name}", self.tree / name)
        for name in "README.md", "CHANGELOG.md":
            shutil.copy(f"{TOP}/{name}", self.tree)
        self.write("../tree/crates/snmp/out/snmp", '#!/bin/sh\necho "mock $*"\n')
        self.write("../tree/modules/base.txt", "base\n")

    def write(self, path, text):
        """Writes a file that can be executed, and makes its folder if there is none."""
        (self.here / path).parent.mkdir(parents=True, exist_ok=True)
        (self.here / path).write_text(text, encoding="utf-8")
        (self.here / path).chmod(0o755)

    def run(self, *words, env=None, **where):
        """Runs a command. `env` has more variables of its environment. In what it prints, paths are relative too."""
        ended = run_command(words, **{"cwd": self.here, "env": {**os.environ, "LC_ALL": "C", **(env or {})}, **where})
        return Ended(ended.status, *(text.replace(f"{self.here}/", "") for text in ended[1:]))

    def install(self, *words, line='"$@"', **where):
        """Runs tools/install of the tree with these arguments, as "$@" in a line of bash."""
        return self.run("bash", "-c", line, "-", self.tree / "tools/install", *words, **where)

    def state(self):
        """Returns the mode, the inode and the content of each file, link and folder."""
        return {str(path.relative_to(self.here)): (path.lstat().st_mode, path.lstat().st_ino,
                                                   path.read_bytes() if path.is_file() else b"")
                for path in self.here.rglob("*")}

    def files(self):
        """Returns the paths of all files and links, in their order."""
        return sorted(path for path, (mode, *_) in self.state().items() if not stat.S_ISDIR(mode))

    def refuses(self, message, *words, **where):
        """Returns what is wrong if tools/install doesn't refuse these arguments with this message, or if it changes
        something."""
        before = self.state()
        ended, after = self.install(*words, **where), self.state()
        changed = [path for path in {**before, **after} if before.get(path) != after.get(path)]
        return wrongs(differs(ended, (1, "", f"snmp: {message}\n")), differs(changed, []))

    def has(self, files):
        """Returns what is wrong if the files aren't exactly these, or if the list of the install hasn't the hash of
        each but itself."""
        hashes = self.run("sha256sum", "-c", LIST).output
        return wrongs(differs(self.files(), files), differs(hashes.count(": OK\n"), len(files) - 1))


def test(title, lacking=""):
    """Returns a decorator that adds a function as a test with this title. It is called with a new `Room`."""
    def mark(function):
        def in_room():
            with tempfile.TemporaryDirectory() as folder:
                return function(Room(os.path.realpath(folder)))
        return tests.test(title, lacking)(in_room)
    return mark


# -- the files of an install

def words_of(page):
    """Returns the text of a page, with each link replaced by its words."""
    return re.sub(r"\[([^]\n]*)\]\([^)\n]*\)", r"\1", page)


@test("an install writes and lists its files, which are copies, or pages with the same words; and two programs run")
def files_of_install(room):
    status, output, messages = room.install("usr")
    wrong = [differs((status, sorted(output.splitlines()), messages), (0, FILES, "")), room.has(FILES)]
    for path, source in SOURCES.items():
        got, wanted = read_file(room.here / path), read_file(room.tree / source)
        same = words_of(got) == words_of(wanted) if source in PAGES else got == wanted
        wrong.append("" if same else f"{path} differs from {source}")
    return wrongs(*wrong, differs(room.run("./snmp", "x", cwd=room.here / "usr/bin"), (0, "mock x\n", "")),
                  differs(room.run("sh", "-c", "echo '.1.3.6 = INTEGER: 1' | usr/bin/lines-to-table"),
                          (0, "1.3.6|2|1\n", "")))


@test("the files that the installed pages and the manual refer to exist")
def references(room):
    room.install("usr")
    wrong, docs = [], room.here / DOCS
    named = [(page, docs / link.partition("#")[0]) for page in map(os.path.basename, PAGES)
             for link in re.findall(r"\]\((?!https?:)([^)\n]*)\)", read_file(docs / page))]
    for page in MANUALS:
        text = read_file(f"docs/{page}")
        for name in re.findall("share/(?:snmp|doc)/[a-zA-Z0-9/.-]*[a-zA-Z0-9]", text):
            # The tree has other modules than the repository.
            folder, path = (TOP, name.partition("/snmp/")[2]) if "/modules/" in name else (room.here / "usr", name)
            named.append((page, pathlib.Path(folder, path)))
        wrong += [f"{page}: {line}" for line in text.splitlines() if "docs/" in line and not line.startswith('.\\"')]
    return wrongs(*wrong, differs([(page, str(path)) for page, path in named if not path.exists()], []))


@test("the modes of an install depend neither on the umask nor on the modes of what it copies")
def modes(room):
    (room.tree / "docs/snmp.1").chmod(0o600)
    (room.tree / "tools/lines-to-table").chmod(0o700)
    for umask in "000", "077":
        room.install(umask, line=f'umask {umask}; "$@"')
    files = room.files()
    wrong = [(path, oct(mode)) for path, (mode, *_) in room.state().items()
             if stat.S_IMODE(mode) != (0o644 if path in files and "/bin/" not in path else 0o755)]
    return wrongs(differs(wrong, []), differs(len(files), 2 * len(FILES)))


@test("an install with names, after one without, and after another, replaces a script of one that wrote no list")
def with_names(room):
    room.write("names/snmpwalk", "#!/bin/sh\nexec '/old/bin/snmp' snmpwalk \"$@\"\n")
    wrong = [differs(room.install(*words).status, 0) for words in (["usr"], WITH_NAMES, WITH_NAMES)]
    for name in COMMANDS:
        wrong += [differs(room.run(f"names/{name}", "--help"), (0, f"mock {name} --help\n", "")),
                  differs(read_file(room.here / f"usr/share/man/man1/{name}.1"), ".so man1/snmp.1\n")]
    return wrongs(*wrong, room.has(NAMED))


@test("the built program, installed by ./snmp, runs, also by its names, and is removed by ./snmp")
def built_program(room):
    wrong = [differs(room.run(f"{TOP}/snmp", "--install", *WITH_NAMES).status, 0),
             differs(room.run("./snmp", "--version", cwd=room.here / "usr/bin"), room.run(BUILT, "--version")),
             differs(room.run("names/snmpwalk", "-v2c", "-cpublic", "-On", f"table:{THREE}", ".1"), (0, LINES, "")),
             *(differs(room.run(f"names/{name}", "--help"), room.run(BUILT, name, "--help")) for name in COMMANDS),
             differs(room.run(f"{TOP}/snmp", "--uninstall", "usr"), (0, "", ""))]
    return wrongs(*wrong, differs(room.state(), {}))


# -- files of others

for path in "usr/bin/snmp", "usr/bin/join-modules", "usr/share/man/man1/snmp.1", THREE, "names/snmpwalk":
    for kind, make in ("file", shutil.copy), ("link", os.symlink):
        @test(f"a {kind} {path} that no install wrote is left, and replaced with --force")
        def of_others(room, path=path, make=make):
            other, there = room.here / "other", room.here / path
            other.write_text("another\n")
            there.parent.mkdir(parents=True)
            make(other, there)
            wrong = [room.refuses(f"{path}: {FOREIGN}", *WITH_NAMES),
                     differs(room.install(*WITH_NAMES, "--force").status, 0),
                     differs((there.is_symlink(), other.read_text()), (False, "another\n"))]
            other.unlink()
            return wrongs(*wrong, room.has(NAMED))


# -- what fails

@test("an install that can't be made changes nothing")
def no_install(room):
    room.write("usr/bin/snmp.new", "another\n")
    room.write("usr/share/man/man1/snmp.1/file", "")
    room.write("../tree/crates/snmp/out/snmp", 100000 * "x")
    return wrongs(
        room.refuses("usage: ./snmp --install PREFIX [--with-names DIR] [--force], or ./snmp --uninstall PREFIX"),
        room.refuses("expected one folder, got a second: b", "a", "b"),
        room.refuses("--with-names needs a folder", "a", "--with-names"),
        room.refuses("there is no option --prefix", "--prefix", "a"),
        room.refuses("usr/share/man/man1/snmp.1: is a folder", "usr"),
        room.refuses("usr/bin/snmp.new: cannot be made: File exists", "usr/bin/snmp.new"),
        room.refuses("a/bin/snmp: cannot be written: File too large", "a", line='trap "" XFSZ; ulimit -f 16; "$@"'))


# A mock of mv that fails for one file.
MV = """#!/bin/sh
case $* in *man1/snmp.1) echo "mv: cannot move: No space left on device" >&2; exit 1 ;; esac
exec /bin/mv "$@"
"""
for which in "first", "second":
    @test(f"a move that fails in a {which} install is undone, and so are the moves before it")
    def failed_move(room, which=which):
        if which == "second":
            room.install("usr")
            for source in "crates/snmp/out/snmp", "docs/snmp.1":
                room.write(f"../tree/{source}", read_file(room.tree / source) + "# more\n")
        room.write("../bin/mv", MV)
        return room.refuses("usr/share/man/man1/snmp.1: cannot be written: No space left on device", "usr",
                            env={"PATH": f"{room.here.parent}/bin:{os.environ['PATH']}"})


for how, line in ("is full", '"$@" >/dev/full'), ("is a pipe that nobody reads", 'exec > >(:); wait $!; "$@"'):
    @test(f"an install is complete although its output {how}")
    def lost_list(room, line=line):
        ended = room.install("usr", line=line)
        return wrongs(differs(ended, (1, "", "snmp: installed, but the list of files cannot be printed\n")),
                      room.has(FILES))


# -- a folder for a package, and the uninstall

@test("with DESTDIR all files are below it, and the paths in them are below the prefix")
def below_destdir(room):
    room.install("/usr", "--with-names", "/names", env={"DESTDIR": f"{room.here}/stage"})
    stage = room.here / "stage"
    listed = [line.split("  ", 1)[1] for line in read_file(stage / LIST).splitlines()]
    return wrongs(differs(room.files(), [f"stage/{path}" for path in NAMED]),
                  differs(read_file(stage / "names/snmpget"), "#!/bin/sh\nexec '/usr/bin/snmp' snmpget \"$@\"\n"),
                  differs([path for path in listed if not path.startswith(("/usr", "/names"))], []))


@test("an uninstall leaves exactly what no install wrote or made")
def left_by_uninstall(room):
    room.write("usr/bin/snmp.new", "another\n")
    (room.here / "usr/share/doc").mkdir(parents=True)
    before = room.state()
    wrong = [differs(room.install(*words).status, 0) for words in (["usr"], ["usr", "--with-names", "new/names"])]
    return wrongs(*wrong, differs(room.install("--uninstall", "usr"), (0, "", "")), differs(room.state(), before))


@test("a file that was changed is left by an install, and by an uninstall; without an install there is no uninstall")
def changed_file(room):
    room.install("usr")
    room.write(THREE, "changed\n")
    return wrongs(room.refuses(f"{THREE}: {FOREIGN}", "usr"),
                  differs(room.install("--uninstall", "usr"),
                          (1, "", f"snmp: {THREE}: was changed since, and is not removed\n")),
                  differs(room.files(), [THREE]),
                  room.refuses(f"{LIST}: cannot be read, so it isn't known what was installed there",
                               "--uninstall", "usr"))


# -- packages of the built program and a commit

VERSION = re.search("^## ([0-9][0-9.]*)", read_file("CHANGELOG.md"), re.MULTILINE)[1]
# The gate changes tests/edits/tried.txt, which no package has.
ASK = ["git", "status", "--porcelain", "--", ".", ":!tests"]
LACKS_COMMIT = lacks("git") or ("" if run_command(ASK, cwd=TOP) == (0, "", "") else "the checkout isn't a commit")


def write_packages(room, folder):
    """Writes the packages to this folder."""
    ended = room.run(f"{TOP}/tools/package", room.here / folder)
    if ended.status != 0:
        raise RuntimeError(ended.messages)


def wrong_package(room, prefix, name):
    """Returns what is wrong with the program of an unpacked package, or with what it says that it was built from."""
    commit = run_command(["git", "rev-parse", "HEAD"], cwd=TOP).output.strip()
    toolchain = re.search("rattle-kit-[0-9a-z]* logic [0-9a-f]*", read_file("README.md"))[0]
    hashed = hashlib.sha256(pathlib.Path(BUILT).read_bytes()).hexdigest()
    table = f"table:{prefix}/share/snmp/examples/three.tab"
    build = read_file(room.here / prefix / "share/doc" / name / "BUILD")
    return wrongs(differs(room.run(f"{prefix}/bin/snmp", "snmpwalk", "-On", table, ROOT), (0, LINES, "")),
                  differs(build, f"snmp {VERSION}: commit {commit}, proved and built by {toolchain}; "
                                 f"SHA-256 of bin/snmp {hashed}\n"))


@test("packages: two runs write the same, and the archive has the program, and what it was built from", LACKS_COMMIT)
def archive(room):
    write_packages(room, "first")
    write_packages(room, "second")
    return wrongs(differs(room.run("diff", "-r", "first", "second"), (0, "", "")),
                  differs(room.run("tar", "-xzf", f"first/snmp-{VERSION}-{os.uname().machine}.tar.gz"), (0, "", "")),
                  wrong_package(room, f"snmp-{VERSION}", "snmp"))


@test("packages: Debian's has the program, and what it was built from, and leaves no file when it is removed",
      lacks("dpkg-deb", "dpkg") or LACKS_COMMIT)
def debian(room):
    write_packages(room, "packages")
    package, = room.here.glob("packages/*.deb")
    root = room.here / "root"
    for name in "info", "updates":
        (root / "var/lib/dpkg" / name).mkdir(parents=True)
    (root / "var/lib/dpkg/status").touch()
    dpkg = "dpkg", f"--root={root}", "--force-depends", "--force-not-root", "--log=/dev/null"
    room.run(*dpkg, "--install", package)
    paths = [line.split()[5] for line in room.run("dpkg-deb", "-c", package).output.splitlines()]
    # The files of Debian's own packages, if they are installed here.
    others = [path for path in room.run("dpkg", "-L", "snmp", "snmpd").output.splitlines() if os.path.isfile(path)]
    wrong = [wrong_package(room, "root/usr", "proved-snmp"),
             differs([path for path in paths if not re.match(r"\./(usr/|$)", path)], []),
             differs([path for path in others if os.path.exists(f"{root}{path}")], [])]
    room.run(*dpkg, "--purge", "proved-snmp")
    return wrongs(*wrong, differs([path for path in room.files() if re.match("root/(?!var/lib/dpkg/)", path)], []))


@test("packages: no folder, and no program")
def no_package(room):
    (room.tree / "crates/snmp/out/snmp").unlink()
    room.write("../tree/crates.txt", "snmp:\n")
    room.write("../tree/tests/is-current", read_file("tests/is-current"))
    package = room.tree / "tools/package"
    status, output, messages = room.run(package, room.here / "none")
    return wrongs(differs(room.run(package), (1, "", "package: usage: tools/package FOLDER\n")),
                  differs((status, output, messages.splitlines()[-1:], room.state()),
                          (1, "", ["package: the program has to be built first: ./snmp --build"], {})))


if __name__ == "__main__":
    sys.exit(tests.main(sys.argv[1:], BUILT))
