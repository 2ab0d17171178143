#!/usr/bin/env python3
"""Loads the modules of modules/ with the built program, each by itself and all together, walks tables of examples/ with
their names, and translates names both ways. It also reads the modules by itself (lib/smi.py), and finds labels that are
defined twice, names without a parent, indexes or columns that can't be read, and hints that the program doesn't accept.
It tests tools/join-modules and tools/lines-to-table too.

usage: [ROOT=FOLDER] modules.py [WORD..], as lib/runner.py says

The expected results were written from the standards: tests/data has the lines of the walks, names with their numbers
(names.txt), and the objects of notifications in the standards' order (notifications.txt), which the packages of Debian
don't have. If such packages (lib/packages.py lists them) are installed below ROOT, by default /, the facts of the
modules are compared with theirs, and the published RFC1213-MIB is loaded.
"""
import contextlib
import functools
import glob
import os
import random
import re
import shutil
import sys
import tempfile
import unittest

from lib import packages, programs, smi
from lib.pipes import file
from lib.programs import TOP, read_file
from lib.runner import Tests, differs, wrongs
from lib.smi import join_modules
from lib.texts import dotted

tests = Tests("tests/modules.py")
test = tests.test
ROOT = os.path.abspath(os.environ.get("ROOT", "/"))
ALL, CORE = MADE = "modules/all.txt", "modules/core.txt"
FILES = sorted({f"modules/{name}" for name in os.listdir(f"{TOP}/modules")} - {*MADE})
MIBS = "tests/data/mibs"
SILENT = 0, ".1.3.6.1\n", ""
run = functools.partial(programs.run, cwd=TOP)
# Labels whose identifier another module of the standards defines too. It is shown with the label that was loaded first.
TWICE = {f"HOST-RESOURCES-TYPES::{label}": f"HOST-RESOURCES-MIB::{label}"
         for label in ("hrStorageTypes", "hrDeviceTypes", "hrFSTypes")} | {"RMON2-MIB::rmon": "RMON-MIB::rmon"}
# Names that are shown with a label of another module, which names an identifier below the label of the first.
DEEPER = {"SNMPv2-MIB::sysUpTime.0": "DISMAN-EVENT-MIB::sysUpTimeInstance",
          "SNMPv2-SMI::transmission.7": "EtherLike-MIB::dot3"}
MACROS = {"MODULE-IDENTITY", "OBJECT-IDENTITY", "OBJECT-TYPE", "NOTIFICATION-TYPE", "TEXTUAL-CONVENTION"}
# The forms of hints (RFC 2579, section 3.1): for integers (True) and for strings.
HINTS = {True: re.compile(r"[xob]|d(-\d+)?"), False: re.compile(r"(\*?\d+[xdoat]([^\d*]([^\d*])?)?)+")}
# Modules that modules/ has only in part: what other modules import.
PARTS = {"RMON2-MIB"}
# The groups of RFC 1628 leave out some of its objects.
UNGROUPED = {"UPS-MIB"}


def names_in(text):
    """Returns the names of the modules in a text."""
    return re.findall(r"^(\S+) DEFINITIONS ?::= ?BEGIN", text, re.M)


def mibs(*paths):
    """Returns the arguments that load these files."""
    return [word for path in paths for word in ("--mib", path)]


def prints(title, words, output, messages="", status=0):
    """Adds a test that the program with these arguments prints this and ends with this status."""
    test(title)(lambda: differs(run(*words), (status, output, messages)))


def by_all(text):
    """Replaces names in the expected lines by the names that the program shows if all modules are loaded."""
    for name, deeper in DEEPER.items():
        text = re.sub(rf"(?<![\w:-]){re.escape(name)}(?![\w.-])", deeper, text)
    return text


READ = {path: smi.read(os.path.join(TOP, path)) for path in FILES}
HOMES = {module.name: path for path, modules in READ.items() for module in modules}
WORLD = smi.World(module for modules in READ.values() for module in modules)
NAMES = dict(line.split() for line in read_file("tests/data/names.txt").splitlines())
NUMBERS = "".join(f"{number}\n" for number in NAMES.values())
EXAMPLES = {os.path.basename(path)[:-4] for path in glob.glob(f"{TOP}/examples/*.tab")}
# For each table whose lines are in tests/data, its agent, and the lines with the names of all modules.
DEVICES = {name: (f"table:examples/{name}.tab", by_all(read_file(f"tests/data/{name}.txt")))
           for name in sorted(EXAMPLES) if os.path.exists(f"{TOP}/tests/data/{name}.txt")}
DEVICES["router"] = "table:tests/data/router.tab", by_all(read_file("tests/data/router.txt"))
TABLE = DEVICES["interfaces"][0]


# -- what the modules define

@test("the reader of these tests finds all modules and labels; no two modules have one name, and all are ASCII")
def all_found():
    texts = {path: read_file(path) for path in FILES}
    labels = {path: [label for module in modules for label, found in module.definitions.items() if found.value]
              for path, modules in READ.items()}
    return wrongs(differs(sorted(WORLD.modules), sorted(name for text in texts.values() for name in names_in(text))),
                  differs(labels, {path: re.findall(r"^([a-z]\S*) [A-Z]", text, re.M) for path, text in texts.items()}),
                  differs([path for path, text in texts.items() if not text.isascii()], []))


def faults_of(module):
    """Yields what is wrong with a module."""
    numbers = {label: WORLD.numbers(module, found) for label, found in module.definitions.items() if found.value}
    yield from (f"{label} is defined twice" for label in module.twice)
    yield from (f"{label} has no parent" for label, number in numbers.items() if not number)
    yield "" if len(set(numbers.values())) == len(numbers) else "two labels have one number"
    yield from (f"{label} is imported and doesn't exist" for label, source in module.imports.items()
                if source != "SNMPv2-CONF" and label not in MACROS and not WORLD.find(module, label))
    for found in module.definitions.values():
        yield from (f"{found.label} {fault}" for fault in faults_in(module, found))
    yield from statuses(module)


def faults_in(module, found):
    """Yields what is wrong with a definition, apart from its number."""
    kind, clauses = found.type, found.clauses
    objects = [WORLD.find(module, label) for label in clauses.get("OBJECTS", [])]
    if not all(it and it[1].type for it in objects):
        yield "names something that isn't an object"
    if found.macro == "OBJECT-TYPE" and {"INDEX", "AUGMENTS"} & set(clauses):
        parts, row = WORLD.index(module, found), module.definitions.get(kind.name)
        if not parts or not all(WORLD.meaning(owner, column.type) for owner, column, _ in parts):
            yield "has an index that can't be read"
        if not row or row.type.members != [label for label, other in module.definitions.items()
                                           if other.value[:1] == [found.label]]:
            yield "has other columns than its row"
    elif found.macro == "OBJECT-TYPE" and not kind.name.startswith("SEQUENCE") and not WORLD.meaning(module, kind):
        yield "has no type"
    elif "DISPLAY-HINT" in clauses:
        base, hint = WORLD.meaning(module, kind)[0], clauses["DISPLAY-HINT"]
        if not HINTS[base in smi.INTEGERS].fullmatch(hint):
            yield f"has a hint that isn't one for its type: {hint}"


def statuses(module):
    """Yields what is wrong with the statuses of groups and their members, and of rows and columns; and which objects
    and notifications are in no group (RFC 2580, sections 3.1 and 4.1)."""
    rank = {label: ("current", "deprecated", "obsolete").index(found.clauses["STATUS"].replace("mandatory", "current"))
            for label, found in module.definitions.items() if "STATUS" in found.clauses}
    best = {}
    for label, found in module.definitions.items():
        above = module.definitions.get(found.value[0]) if found.value else None
        if above and above.macro == found.macro == "OBJECT-TYPE" and rank[label] < rank[above.label]:
            yield f"{label} is below {above.label}, whose status is older"
        if found.macro in ("OBJECT-GROUP", "NOTIFICATION-GROUP"):
            for member in found.clauses.get("OBJECTS", []) + found.clauses.get("NOTIFICATIONS", []):
                best[member] = min(rank[label], best.get(member, 2))
                if rank[label] < rank[member]:
                    yield f"{label} contains {member}, whose status is older"
    for label, found in module.definitions.items() if best else ():
        if found.macro != "NOTIFICATION-TYPE" and found.clauses.get("ACCESS") in (None, "not-accessible"):
            continue
        if label not in best and module.name not in UNGROUPED:
            yield f"{label} is in no group"
        elif rank[label] < best.get(label, 0):
            yield f"{label} is only in groups whose status is older"


def translated(module):
    """Returns what is wrong when the labels of a module are translated to numbers and back."""
    numbers = {f"{module.name}::{label}": dotted(WORLD.numbers(module, found))
               for label, found in module.definitions.items() if found.value}
    return wrongs(differs(run("snmptranslate", "--mib", ALL, "-On", *numbers),
                          (0, "".join(f"{number}\n" for number in numbers.values()), "")),
                  differs(run("snmptranslate", "--mib", ALL, *numbers.values()),
                          (0, "".join(f"{TWICE.get(label, label)}\n" for label in numbers), "")))


def loaded_with_needed(module):
    """Returns what is wrong when a module is loaded with those that it needs, as join-modules writes them."""
    wrong = []
    for is_terse in False, True:
        with file(join_modules.modules_text([module.name], WORLD.modules, is_terse)[0].encode()) as path:
            wrong.append(differs((is_terse, run("snmptranslate", "--mib", path, "-On", ".1.3.6.1")),
                                 (is_terse, SILENT)))
    return wrongs(*wrong)


for it in WORLD.modules.values():
    test(f"{it.name} has no fault in its labels, numbers, imports, rows, types, hints, notifications and statuses")(
        lambda it=it: wrongs(*faults_of(it)))
    test(f"{it.name} and the modules that it needs load without a warning, also terse")(
        functools.partial(loaded_with_needed, it))
    if any(found.value for found in it.definitions.values()):
        test(f"each label of {it.name} has its number, and each number its label")(functools.partial(translated, it))


@test("notifications have their objects in the standards' order")
def notifications():
    return differs(sorted(f"{module.name} {label} {' '.join(found.clauses['OBJECTS'])}"
                          for module in WORLD.modules.values() for label, found in module.definitions.items()
                          if found.macro == "NOTIFICATION-TYPE" and "OBJECTS" in found.clauses),
                   sorted(read_file("tests/data/notifications.txt").splitlines()))


@test("the numbers that two modules define are known")
def homes():
    labels = {}
    for module in WORLD.modules.values():
        for label, found in module.definitions.items():
            if found.value:
                labels.setdefault(WORLD.numbers(module, found), []).append(f"{module.name}::{label}")
    return differs({name: names[0] for names in labels.values() for name in names[1:]}, TWICE)


def instance(parts):
    """Returns the numbers of an instance whose index has these parts, and how the program shows them."""
    numbers, text = [], ""
    for owner, column, implied in parts:
        base, ranges, _, _ = WORLD.meaning(owner, column.type)
        if base == "OCTET STRING":
            fixed = len(ranges) == 1 and len(ranges[0]) == 1
            octets = [97] * max(2, ranges[0][0] if ranges else 0)
            numbers += octets if fixed or implied else [len(octets), *octets]
            quote = "'" if fixed or implied else '"'
            text += f".{quote}{'a' * len(octets)}{quote}"
            continue
        more = {"IpAddress": [192, 0, 2, 1], "OBJECT IDENTIFIER": [1, 3] if implied else [2, 1, 3]}.get(base, [7])
        numbers += more
        text += dotted(more)
    return numbers, text


@test("an instance of the first column of each row is shown with its index, and its name is read back")
def indexes():
    rows = {}
    for module in WORLD.modules.values():
        for found in module.definitions.values():
            if {"INDEX", "AUGMENTS"} & set(found.clauses):
                column = module.definitions[module.definitions[found.type.name].type.members[0]]
                more, text = instance(WORLD.index(module, found))
                rows[f"{module.name}::{column.label}{text}"] = dotted([*WORLD.numbers(module, column), *more])
    return wrongs(differs(run("snmptranslate", "--mib", ALL, *rows.values()), (0, "\n".join(rows) + "\n", "")),
                  differs(run("snmptranslate", "--mib", ALL, "-On", *rows),
                          (0, "\n".join(rows.values()) + "\n", "")))


@test("the hint of each textual convention is accepted: a string is shown neither in quotes nor in hexadecimal")
def hints():
    modules, rows, wanted = "", "", []
    for module in WORLD.modules.values():
        for found in module.definitions.values():
            if found.macro != "TEXTUAL-CONVENTION" or "DISPLAY-HINT" not in found.clauses:
                continue
            base, ranges, _, hint = WORLD.meaning(module, found.type, found.clauses["DISPLAY-HINT"])
            number = len(wanted) + 1
            modules += (f"H{number}-{module.name} DEFINITIONS ::= BEGIN IMPORTS {found.label} FROM {module.name};\n"
                        f"h{number} OBJECT-TYPE SYNTAX {found.label} MAX-ACCESS read-only STATUS current\n"
                        f'DESCRIPTION "" ::= {{ iso 3 6 1 4 1 32473 {number} }} END\n')
            if base in smi.INTEGERS:
                tag, kind = (2, "INTEGER") if base in ("INTEGER", "Integer32") else (66, "Gauge32")
                digits = int(hint.partition("-")[2] or 0)
                wanted.append(re.escape(f"{kind}: {7 / 10 ** digits:.{digits}f}"))
                rows += f"1.3.6.1.4.1.32473.{number}.0|{tag}|7\n"
            else:
                wanted.append('STRING: (?!").*')
                rows += f"1.3.6.1.4.1.32473.{number}.0|4|{'a' * max(2, ranges[0][0] if ranges else 0)}\n"
    with file(modules.encode()) as mib, file(rows.encode()) as table:
        status, output, messages = run("snmpwalk", *mibs(ALL, mib), "-OU", f"table:{table}", ".1.3.6.1.4.1.32473")
    return wrongs(differs((status, messages, output.count("\n")), (0, "", len(wanted))),
                  *(differs(line, form) for line, form in zip(output.splitlines(), wanted)
                    if not re.fullmatch(rf"\S+ = {form}", line)))


@test("the modules agree with Debian's packages, and those that lack something of them are known to be parts")
def agree_with_packages():
    found = {name: packages.compare(ROOT, WORLD, module) for name, module in WORLD.modules.items()}
    found = {name: compared for name, compared in found.items() if compared}
    if not found:
        raise unittest.SkipTest(f"neither python3-pysnmp4-mibs nor libsnmp-base is below {ROOT}")
    lacking = {name for name, (_, _, missing) in found.items() if missing}
    return wrongs(*(fault for _, faults, _ in found.values() for fault in faults), differs(lacking, PARTS & set(found)),
                  "" if any(same for same, _, _ in found.values()) else "no fact was compared")


@test("a part of a module says so in its first line, and in its second what to do")
def parts():
    starts = {name: read_file(path).splitlines()[:2] for name, path in HOMES.items() if path != "modules/base.txt"}
    says_so = {name for name, (line, _) in starts.items() if line.startswith(f"-- A part of {name} ")}
    what_to_do = {name for name, (_, line) in starts.items() if line.endswith("give the full text before this.")}
    return wrongs(differs(says_so, PARTS), differs(what_to_do, PARTS))


# -- loads

for it in FILES:
    needed, _ = join_modules.find_needed([module.name for module in READ[it]], WORLD.modules)
    prints(f"{it} loads without a warning, with the files that it needs",
           ["snmptranslate", *mibs(it, *sorted({HOMES[name] for name in needed} - {it})), "-On", ".1.3.6.1"], SILENT[1])
for it in MADE:
    prints(f"{it} loads without a warning", ["snmptranslate", "--mib", it, "-On", ".1.3.6.1"], SILENT[1])
prints("names that other modules import exist",
       ["snmptranslate", *mibs(ALL, f"{MIBS}/imports.txt"), "-Of", "vendor.1"],
       ".iso.org.dod.internet.private.enterprises.vendor.1\n")


@test("the files load without a warning in twelve orders")
def orders():
    choose = random.Random(1)
    return wrongs(*(differs((order, run("snmptranslate", *mibs(*order), "-On", ".1.3.6.1")), (order, SILENT))
                    for order in [FILES, FILES[::-1], *(choose.sample(FILES, len(FILES)) for _ in range(10))]))


# A second module with a name is left out with a warning.
for title, paths, words, output, left_out in [
        ("another IF-MIB after it is left out", [ALL, f"{MIBS}/other.txt"], ["1.3.6.1.2.1.2"], "IF-MIB::interfaces\n",
         ["IF-MIB"]),
        ("another IF-MIB before it replaces it",
         ["modules/base.txt", f"{MIBS}/other.txt", "modules/if-mib.txt", "modules/ianaiftype-mib.txt"],
         ["1.3.6.1.2.1.2"], "IF-MIB::other\n", ["IF-MIB"]),
        ("base.txt loaded twice", ["modules/base.txt"] * 2, ["-On", "mib-2"], ".1.3.6.1.2.1\n",
         names_in(read_file("modules/base.txt"))),
        ("an RFC1213-MIB before ours replaces it", [f"{MIBS}/rfc1213.txt", ALL],
         ["RFC1213-MIB::mib-2.3", ".1.3.6.1.2.1.3.1"], "RFC1213-MIB::at\nRFC1213-MIB::at.1\n", ["RFC1213-MIB"]),
        ("a full module before our part of it defines its names",
         [f"{MIBS}/full.txt", "modules/base.txt", "modules/rmon2-mib.txt"], ["-On", "RMON2-MIB::probeCapabilities.0"],
         ".1.3.6.1.2.1.16.19.1.0\n", ["RMON2-MIB"])]:
    prints(title, ["snmptranslate", *mibs(*paths), *words], output,
           "".join(f"snmp: {name} is loaded twice\n" for name in left_out))
prints("a full module after our part of it defines no names",
       ["snmptranslate", *mibs(ALL, f"{MIBS}/full.txt"), "-On", "RMON2-MIB::probeCapabilities.0"], "",
       "snmp: RMON2-MIB is loaded twice\nUnknown name: RMON2-MIB::probeCapabilities.0\n", 1)
prints("a module text with [UNIVERSAL 2] is refused", ["snmptranslate", "--mib", f"{MIBS}/universal.txt", "mib-2"], "",
       f"{MIBS}/universal.txt:3: syntax\n", 1)
for first, second in (ALL, f"{MIBS}/old.txt"), (f"{MIBS}/old.txt", ALL):
    prints(f"old imports have names and hints, loaded before {second}",
           ["snmpwalk", *mibs(first, second), f"table:{MIBS}/old.tab", ".1.3.6.1.4.1.32473"], """\
OLD-MIB::oldName.0 = STRING: an old one
OLD-MIB::oldCount.7."e0" = Counter32: 4 frames
OLD-MIB::oldRate.7."e0" = Gauge32: 5
OLD-MIB::oldPhys.7."e0" = STRING: 0:16:3e:5a:78:8e
OLD-MIB::oldPeer.7."e0" = IpAddress: 192.0.2.1
OLDER-MIB::olderCount.0 = Counter32: 6 frames
""")


def loads_cured(path, names, numbers, messages=""):
    """Returns what is wrong when names of a module of SMIv1 are translated, after the edits of the manual have changed
    its access and removed its traps."""
    edits = re.findall(r" -e '(.*?)'", read_file("docs/TROUBLESHOOTING.md"))
    cured = programs.run_command(["sed", "-E", *(word for edit in edits for word in ("-e", edit)), path], cwd=TOP)
    with file(cured.output.encode(errors="surrogateescape")) as made:
        return wrongs(differs((len(edits), cured.status, cured.messages), (2, 0, "")),
                      differs(run("snmptranslate", *mibs(made, ALL), "-On", *names), (0, numbers, messages)))


@test("a module of SMIv1 loads without its traps")
def traps():
    return loads_cured(f"{MIBS}/traps.txt", ["trapsState.0", "trapsEnd"],
                       ".1.3.6.1.4.1.32473.8.1.0\n.1.3.6.1.4.1.32473.8.2\n")


PUBLISHED = {name: glob.glob(f"{ROOT}/usr/lib/erlang/lib/snmp-*/mibs/{name}.mib")
             for name in ("RFC1213-MIB", "STANDARD-MIB")}


# STANDARD-MIB is a part of RFC1213-MIB, with traps.
@test("RFC1213-MIB and STANDARD-MIB load as they were published",
      "" if any(PUBLISHED.values()) else f"erlang-snmp isn't installed below {ROOT}")
def published():
    return wrongs(*(loads_cured(path, [f"{name}::sysDescr"], ".1.3.6.1.2.1.1.1\n",
                                "snmp: RFC1213-MIB is loaded twice\n" * (name == "RFC1213-MIB"))
                    for name, paths in PUBLISHED.items() for path in paths))


# -- walks and translations

for it, (agent, lines) in DEVICES.items():
    for walker in "snmpwalk", "snmpbulkwalk":
        prints(f"{walker} prints the {it} with names", [walker, "--mib", ALL, agent, ".1"], lines)
prints("snmpbulkwalk prints the interfaces with the names of the core modules",
       ["snmpbulkwalk", "--mib", CORE, TABLE, ".1"], read_file("tests/data/interfaces.txt"))
prints("snmpwalk prints the same with the files in another order", ["snmpwalk", *mibs(*FILES[::-1]), TABLE, ".1"],
       DEVICES["interfaces"][1])
LINES = DEVICES["interfaces"][1].splitlines(True)
FIRST = LINES.index("IF-MIB::ifIndex.1 = INTEGER: 1\n")
prints("a walk of ifTable prints 22 columns of three interfaces", ["snmpbulkwalk", "--mib", ALL, TABLE, "ifTable"],
       "".join(LINES[FIRST:FIRST + 66]))
for it, letters, root, output in [
        ("interfaces", "qv", "ifOperStatus", "up\nup\nlowerLayerDown\n"),
        ("interfaces", "qs", "ifType",
         "ifType.1 softwareLoopback\nifType.2 ethernetCsmacd\nifType.3 ethernetCsmacd\n"),
        ("interfaces", "f", "sysName",
         ".iso.org.dod.internet.mgmt.mib-2.system.sysName.0 = STRING: gate.example.net\n"),
        ("interfaces", "Ue", "hrStorageAllocationUnits.1",
         "HOST-RESOURCES-MIB::hrStorageAllocationUnits.1 = INTEGER: 1024\n"),
        ("interfaces", "e", "dot1dTpFdbStatus", "".join(
            line.replace("learned(3)", "3").replace("self(4)", "4") for line in LINES
            if line.startswith("BRIDGE-MIB::dot1dTpFdbStatus"))),
        ("switch", "qs", "lldpRemSysName",
         "lldpRemSysName.3120.5.1 core-2.example.net\nlldpRemSysName.188231200.3.7 phone-4d0109\n"),
        ("switch", "qv", "dot1qVlanStaticName", "default\noffice\nvoice\n"),
        ("switch", "qv", "dot1qPvid", "10\n10\n20\n20\n1\n"),
        ("switch", "qv", "pethPsePortDetectionStatus", "deliveringPower\ndisabled\ndeliveringPower\nsearching\n"),
        ("switch", "QUs", "pethMainPsePower", "pethMainPsePower.1 = 370\n"),
        ("switch", "qs", "entPhySensorValueUpdateRate", "entPhySensorValueUpdateRate.1001 5000 milliseconds\n"),
        ("switch", "qv", "ifMauType", "IANA-MAU-MIB::dot3MauType1000BaseTFD\nIANA-MAU-MIB::dot3MauType10GigBaseSR\n"),
        ("switch", "e", "entStateAlarm", "ENTITY-STATE-MIB::entStateAlarm.1003 = BITS: 10 3 \n"),
        ("printer", "qv", "prtMarkerSuppliesLevel", "6\n71\n64\n58\n-3\n101787\n"),
        ("host", "qs", "laLoad", "laLoad.1 2.18\nlaLoad.2 1.75\nlaLoad.3 0.94\n"),
        ("ups", "qv", "upsAlarmDescr",
         "UPS-MIB::upsAlarmOnBattery\nUPS-MIB::upsAlarmInputBad\nSNMPv2-SMI::enterprises.32473.5.2.14\n")]:
    prints(f"-O{letters} {root}", ["snmpwalk", "--mib", ALL, f"-O{letters}", DEVICES[it][0], root], output)
prints("names are translated to numbers", ["snmptranslate", "--mib", ALL, "-On", *NAMES], NUMBERS)
prints("numbers are translated to names", ["snmptranslate", "--mib", ALL, *NAMES.values()],
       by_all("".join(f"{name}\n" for name in NAMES)))
prints("the details of ifOperStatus", ["snmptranslate", "--mib", ALL, "-Td", "ifOperStatus"], """\
IF-MIB::ifOperStatus
ifOperStatus OBJECT-TYPE
  -- FROM\tIF-MIB
  SYNTAX\tINTEGER { up ( 1 ) , down ( 2 ) , testing ( 3 ) , unknown ( 4 ) , dormant ( 5 ) , notPresent ( 6 ) , \
lowerLayerDown ( 7 ) }
  MAX-ACCESS\tread-only
  STATUS\tcurrent
  DESCRIPTION\t"The state that the interface has."
::= { iso(1) org(3) dod(6) internet(1) mgmt(2) mib-2(1) interfaces(2) ifTable(2) ifEntry(1) 8 }
""")


# -- join-modules

def join(*words, **where):
    """Runs tools/join-modules, and returns its status, output and messages."""
    return programs.run_command(["tools/join-modules", *words], cwd=TOP, **where)


@contextlib.contextmanager
def joined(*words):
    """Yields the path of a file with what join-modules writes. It must succeed."""
    status, output, messages = join(*words)
    if status or messages:
        raise RuntimeError(f"join-modules {words}: status {status}, {messages}")
    with file(output.encode()) as path:
        yield path


@test("modules/all.txt and modules/core.txt are current, a new file is noticed, and all.txt gets its modules")
def new_file():
    with tempfile.TemporaryDirectory() as top:
        for folder in "modules", "tools":
            shutil.copytree(os.path.join(TOP, folder), f"{top}/{folder}")

        def status(*words):
            return programs.run_command([f"{top}/tools/join-modules", *words]).status
        statuses = [status("--check")]
        with open(f"{top}/modules/z.txt", "w", encoding="ascii") as new:
            new.write("Z-MIB DEFINITIONS ::= BEGIN END\n")
        statuses += [status("--check"), status(), status("--check")]
        made = [read_file(f"{top}/{path}") == read_file(path) + more
                for path, more in ((ALL, "\nZ-MIB DEFINITIONS ::= BEGIN END\n"), (CORE, ""))]
    return wrongs(differs(statuses, [0, 1, 0, 0]), differs(made, [True, True]))


@test("modules/core.txt is the file of the benchmark")
def of_benchmark():
    return "" if read_file(CORE) == read_file("bench/modules.txt") else "it is another"


@test("join-modules writes IF-MIB and the five modules that it needs, as all.txt has them, or terse")
def needed_by_one():
    with joined("IF-MIB") as plain, joined("--terse", "IF-MIB") as short:
        text, terse, whole = read_file(plain), read_file(short), read_file(ALL)
        with_all, *others = (run("snmpwalk", "--mib", path, TABLE, "ifXTable") for path in (ALL, plain, short))
    return wrongs(
        differs(names_in(text), ["SNMPv2-SMI", "SNMPv2-TC", "SNMPv2-CONF", "SNMPv2-MIB", "IANAifType-MIB", "IF-MIB"]),
        differs([part for part in text.split("\n\n") if part.strip() not in whole], []),
        differs(others, [with_all] * 2),
        differs(re.findall('--.*|(?:DESCRIPTION|CONTACT-INFO|ORGANIZATION)(?!"").*|REFERENCE|REVISION', terse), []),
        "" if len(terse) < len(text) * 2 / 3 else "terse, it isn't a third shorter")


@test("all modules show the same names and values if they are terse")
def all_terse():
    with joined("--terse") as path:
        return wrongs(differs(run("snmptranslate", "--mib", path, "-On", *NAMES), (0, NUMBERS, "")),
                      *(differs(run("snmpwalk", "--mib", path, agent, ".1"), (0, lines, ""))
                        for agent, lines in DEVICES.values()))


VENDOR = read_file(f"{MIBS}/vendor.txt")
for title, octets, module, column in [
        ("a module of a vendor", VENDOR.encode(), "VENDOR-MIB", "vendorCount"),
        ("a module without the byte-order mark before it", VENDOR.encode("utf-8-sig"), "VENDOR-MIB", "vendorCount"),
        ("a module with underscores in its names", VENDOR.replace("VENDOR-MIB", "VENDOR_A-MIB").replace(
            "vendorCount", "vendor_count_").encode(), "VENDOR_A-MIB", "vendor_count_")]:
    for it in "", "--terse":
        @test(f"join-modules {it or 'without --terse'}: {title}")
        def vendors(octets=octets, module=module, column=column, terse=it.split()):
            with file(octets) as source, joined(*terse, "--mib", source, module) as path:
                return wrongs(
                    differs(sorted(names_in(read_file(path))), sorted([
                        "SNMPv2-SMI", "SNMPv2-TC", "SNMPv2-CONF", "SNMPv2-MIB", "IANAifType-MIB", "IF-MIB", module])),
                    differs(run("snmptranslate", "--mib", path, "-On", f"{module}::{column}"),
                            (0, ".1.3.6.1.4.1.32473.7.1.1\n", "")))


@test("a terse module has its names and units")
def units():
    with joined("--terse", "--mib", f"{MIBS}/vendor.txt", "VENDOR-MIB") as path:
        return differs(run("snmptranslate", "--mib", path, "-Td", "vendorCount"), (0, """\
VENDOR-MIB::vendorCount
vendorCount OBJECT-TYPE
  -- FROM\tVENDOR-MIB
  SYNTAX\tCounter32
  UNITS\t"frames"
  MAX-ACCESS\tread-only
  STATUS\tcurrent
  DESCRIPTION\t""
::= { iso(1) org(3) dod(6) internet(1) private(4) enterprises(1) 32473 vendorTable(7) vendorEntry(1) 1 }
""", ""))


@test("join-modules reports a module that it doesn't find, and writes the others")
def gone():
    with file(b"HERE-MIB DEFINITIONS ::= BEGIN IMPORTS a FROM GONE-MIB mib-2 FROM SNMPv2-SMI; END\n") as path:
        status, output, messages = join("--terse", "--mib", path, "HERE-MIB")
    return differs((status, names_in(output), messages), (
        1, ["HERE-MIB", "SNMPv2-SMI"], "join-modules: HERE-MIB imports from GONE-MIB, which wasn't found\n"))


for words, *wanted in [
        ("IF-MIB NO-MIB", 1, "", "join-modules: no module NO-MIB\n"),
        ("--mib no.txt IF-MIB", 1, "", "join-modules: no.txt: No such file or directory\n"),
        ("--mib=no.txt IF-MIB", 1, "", "join-modules: no.txt: No such file or directory\n"),
        ("--wrong", 2, "",
         f"usage: {join_modules.USAGE}\njoin-modules: error: unrecognized arguments: --wrong\n")]:
    test(f"join-modules {words} writes nothing")(
        lambda words=words, wanted=wanted: differs(join(*words.split()), tuple(wanted)))


@test("join-modules reports a full disk")
def full_disk():
    with open("/dev/full", "wb") as full:
        return differs(join("IF-MIB", stdout=full), (1, "", "join-modules: No space left on device\n"))


@test("the help of join-modules")
def join_help():
    return differs(join("--help").output.split("\n")[0], "Joins modules to one file, for --mib:")


# -- lines-to-table

def turn(text, encoding="utf-8"):
    """Runs tools/lines-to-table with this input, and returns its status, output and messages."""
    with file(text.encode(encoding)) as path, open(path, "rb") as lines:
        return programs.run_command(["tools/lines-to-table"], cwd=TOP, stdin=lines)


@test("lines-to-table turns a capture from .1, with LLDP, also with CR LF and after a byte-order mark")
def captures():
    lines = run("snmpbulkwalk", "-Onx", "table:examples/switch.tab", ".1").output
    status, rows, messages = whole = turn(lines)
    return wrongs(differs((status, "\n1.0.8802." in f"\n{rows}", messages), (0, True, "")),
                  differs(turn(lines.replace("\n", "\r\n")), whole),
                  *(differs((encoding, turn(mark + lines, encoding)), (encoding, whole))
                    for encoding, mark in (("utf-8-sig", ""), ("utf-16", ""), ("utf-16-be", "\ufeff"))))


for title, text, *wanted in [
        ("a CR in a string stays if lines end with LF, and the CR of a line's end is removed",
         '.1.3.6.1 = STRING: "a\r\nb"\n.1.3.6.2 = STRING: "a\r\r\nb"\r\n'
         ".1.3.6.3 = Hex-STRING: 00 01 \r\n02\r\n\r\nVariables found: 3\r\n",
         0, "1.3.6.1|4x|610D0A62\n1.3.6.2|4x|610D0A62\n1.3.6.3|4x|000102\n", ""),
        ("a capture with CR LF that is cut off", ".1.3.6.1 = INTEGER: 12\r\n.1.3.6.2 = INTEGER: 1\r",
         1, "1.3.6.1|2|12\n", "input:2: cut off: .1.3.6.2 = INTEGER: 1\n"),
        ("a byte-order mark after the first line is part of its line",
         ".1.3.6.1 = INTEGER: 1\n\ufeff.1.3.6.2 = INTEGER: 2\n",
         1, "1.3.6.1|2|1\n", "input:2: not a name that a table can have: \ufeff.1.3.6.2 = INTEGER: 2\n"),
        ("one line without a type", ".1.3.6.1 = 5\n",
         1, "", "input:1: not a type that a table can have: .1.3.6.1 = 5\n")]:
    test(title)(lambda text=text, wanted=wanted: differs(turn(text), tuple(wanted)))


@test("lines-to-table reports the lines of a capture without types in one line")
def untyped():
    wrong = []
    for letters in "nq", "nv", "nqv", "nQ", "nt":
        lines = run("snmpbulkwalk", f"-O{letters}", TABLE, ".1").output
        status, rows, messages = turn(lines)
        if letters in ("nQ", "nt"):
            wrong.append(differs((letters, status, messages.count("\n"), "walk without" in messages),
                                 (letters, 1, 1, True)))
        else:
            first, count = lines.split("\n")[0][:60], lines.count("\n")
            wrong.append(differs((letters, status, rows, messages), (
                letters, 1, "", "input:1: not NAME = TYPE: VALUE, nor in "
                f"{count - 1} more lines: walk without -Oq, -OQ, -Ov and -Ot: {first}\n")))
    return wrongs(*wrong)


if __name__ == "__main__":
    sys.exit(tests.main(sys.argv[1:], programs.BUILT))
