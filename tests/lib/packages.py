"""Compares the facts of modules with packages of Debian. libsnmp-base has Net-SNMP's own modules as module files, and
keepalived has VRRP-MIB; python3-pysnmp4-mibs has the modules of the RFCs as Python. Of SNMP's own modules, erlang-snmp
has module files and python3-pysnmp4 has Python. The first package that has a module counts. Numbers, syntaxes, named
numbers, access, indexes and hints are compared. Statuses are only in module files; so are units, but
python3-pysnmp4-mibs has the units of scalars too.
"""
import glob
import os
import re

from lib import smi

PYTHON = "usr/lib/python3/dist-packages/pysnmp_mibs", "usr/lib/python3/dist-packages/pysnmp/smi/mibs"
TEXTS = "usr/share/snmp/mibs/{}.txt", "usr/lib/erlang/lib/snmp-*/mibs/{}.mib"
# Modules that erlang-snmp has in another revision, or with other hints.
OTHER = {"SNMP-COMMUNITY-MIB", "SNMP-FRAMEWORK-MIB", "SNMP-TARGET-MIB", "SNMPv2-TM"}
NAMES = {"Integer": "Integer32", "INTEGER": "Integer32", "OctetString": "OCTET STRING",
         "ObjectIdentifier": "OBJECT IDENTIFIER", "Bits": "BITS", "Counter": "Counter32", "Gauge": "Gauge32"}
ACCESS = {"readonly": "read-only", "readwrite": "read-write", "readcreate": "read-create",
          "noaccess": "not-accessible", "notifyonly": "accessible-for-notify",
          "accessiblefornotify": "accessible-for-notify"}
# Labels that modules/ has in a later revision than the package, or for which the package has types of its own.
MEDIA = """10GbaseT 10GbaseLRM 1000baseKX 10GbaseKX4 10GbaseKR 40GbaseKR4 40GbaseCR4 40GbaseSR4 40GbaseFR 40GbaseLR4
    100GbaseCR10 100GbaseSR10 100GbaseLR4 100GbaseER4 25GbaseCR 25GbaseKR 25GbaseSR 25GbaseT 100GbaseCR4 100GbaseKR4
    100GbaseSR4 2p5GigT 5GigT"""
LATER = {"ENTITY-MIB": {"entPhysicalClass", "entPhysicalUUID", "entity4Compliance", "entity4CRCompliance",
                        "entityPhysical4Group", "entityPhysicalCRGroup"},
         "IANA-MAU-MIB": {"dot3MauType" + medium for medium in MEDIA.split()},
         "IANA-CHARSET-MIB": {"IANACharset"}, "IANA-RTPROTO-MIB": {"IANAipRouteProtocol"},
         "IANAifType-MIB": {"IANAifType", "IANAtunnelType"}, "SNMP-FRAMEWORK-MIB": {"snmpEngineTime", "SnmpEngineTime"},
         "SNMPv2-TM": {"SnmpOSIAddress"}}


def merge(ranges):
    """Returns the ranges in order, with those that overlap or follow one another joined."""
    found = []
    for low, high in sorted((part[0], part[-1]) for part in ranges):
        if found and low <= found[-1][1] + 1:
            found[-1] = found[-1][0], max(high, found[-1][1])
        else:
            found.append((low, high))
    return found


def constraints(text):
    """Returns the ranges and the names of numbers in an expression in Python."""
    ranges = re.findall(r"Value(?:Range|Size)Constraint\((-?\d+), ?(-?\d+)\)", text)
    names = re.findall(r'\("([^"]+)", (-?\d+)\)', text.partition("NamedValues")[2])
    return merge((int(low), int(high)) for low, high in ranges), {name: int(number) for name, number in names}


def of_line(kind, rest):
    """Returns the facts of one definition in Python."""
    fact = {}
    access = re.search(r'setMaxAccess\("(\w+)"\)', rest)
    if kind in ("MibScalar", "MibTableColumn"):
        name = re.match(r", (\w+)\(", rest)[1]
        fact["syntax"] = NAMES.get(name, name), *constraints(rest)
        fact["access"] = ACCESS[access[1] if access else "noaccess"]
        if kind == "MibScalar":
            units = re.search(r"""\.setUnits\(["']([^"']*)["']\)""", rest)
            fact["units"] = units and units[1]
    if kind == "MibTableRow" and "setIndexNames" in rest:
        parts = re.findall(r'\((\d), "[^"]*", "([^"]*)"\)', rest)
        fact["index"] = [("IMPLIED " if implied == "1" else "") + label for implied, label in parts]
    if kind in ("NotificationType", "ObjectGroup", "NotificationGroup"):
        fact["objects"] = sorted(re.findall(r'\("[^"]*", "([^"]*)"\)', rest))
    return fact


def of_python(path):
    """Returns the facts of a module in Python, by label or type name."""
    with open(path, encoding="latin-1") as file:
        text = file.read()
    found = {}
    types, found_objects, rest = text.partition("\n# Objects\n")
    if not found_objects:
        rest = types
    for label, bases, body in re.findall(r"^class (\S+)\(([^)]*)\):\n((?:[ \t]+.*\n|\n)*)", types + "\n", re.M):
        name = next(base for base in bases.split(", ") if base != "TextualConvention")
        hint = re.search(r"""displayHint = ["'](.*)["']""", body)
        found[label] = {"base": (NAMES.get(name, name), *constraints(body)), "hint": hint and hint[1]}
    for label, kind, numbers, more in re.findall(r"^(\w+) = (\w+)\(\(([\d, ]+)\)(.*)", rest, re.M):
        identifier = tuple(map(int, re.findall(r"\d+", numbers)))
        found[label.replace("_", "-")] = {"numbers": identifier, **of_line(kind, more)}
    for base, label in re.findall(r'^(\w+)\.registerAugmentions\(\("[^"]*", "(\w+)"\)\)', rest, re.M):
        found[label]["index"] = ["AUGMENTS " + base]
    return found


def of_text(world, module, definition):
    """Returns the facts of a definition in a module file."""
    fact, clauses, kind = {}, definition.clauses, definition.type
    if definition.value:
        fact["numbers"] = world.numbers(module, definition)
    if "STATUS" in clauses:
        # SMIv1 says mandatory instead of current.
        fact["status"] = clauses["STATUS"].replace("mandatory", "current")
    row = clauses.get("INDEX") or ["AUGMENTS " + label for label in clauses.get("AUGMENTS", [])]
    if row:
        fact["index"] = row
    elif definition.macro == "OBJECT-TYPE" and not kind.name.startswith("SEQUENCE"):
        fact |= {"syntax": (NAMES.get(kind.name, kind.name), merge(kind.ranges), kind.names),
                 "access": clauses["ACCESS"], "units": clauses.get("UNITS")}
    elif definition.macro == "TEXTUAL-CONVENTION":
        base, ranges, names, hint = world.meaning(module, kind, clauses.get("DISPLAY-HINT"))
        fact |= {"base": (NAMES.get(base, base), merge(ranges), names), "hint": hint}
    for clause in ("OBJECTS", "NOTIFICATIONS"):
        if clause in clauses:
            fact["objects"] = sorted(clauses[clause])
    return fact


def of_package(root, world, module):
    """Returns the facts that the packages below a root have of a module, by label or type name, or None."""
    for text, folder in zip(TEXTS, PYTHON):
        texts, python = glob.glob(f"{root}/{text.format(module.name)}"), f"{root}/{folder}/{module.name}.py"
        if texts and not (folder == PYTHON[1] and module.name in OTHER):
            paths = [*texts, *glob.glob(f"{root}/{text.format('*')}")]
            other = smi.World([*(found for path in paths for found in smi.read(path)), *world.modules.values()])
            owner = other.modules[module.name]
            return {label: of_text(other, owner, found) for label, found in owner.definitions.items()}
        if os.path.exists(python):
            return of_python(python)
    return None


def agree(names, others):
    """Returns whether the names that both have stand for the same numbers."""
    return all(number == others.get(name, number) for name, number in names.items())


def compare(root, world, module):
    """Compares a module with the packages below a root. Returns the number of facts that agree, a message about each
    that doesn't, and the labels and textual conventions that only the packages have. Returns None if no package has the
    module."""
    theirs = of_package(root, world, module)
    if theirs is None:
        return None
    same, faults, revised = 0, [], LATER.get(module.name, set())
    for label, definition in module.definitions.items():
        if definition.macro in ("type", "macro"):
            continue
        ours, wanted, later = of_text(world, module, definition), theirs.get(label), label in revised
        if wanted is None:
            faults += [] if later else [f"{module.name}::{label}: the package doesn't have it"]
            continue
        for what in ours:
            if what not in wanted or later and what == "syntax":
                continue
            if ours[what] == wanted[what] or later and what == "base" and agree(ours[what][2], wanted[what][2]):
                same += 1
            else:
                faults.append(f"{module.name}::{label}: {what} is {ours[what]}, in the package {wanted[what]}")
    return same, faults, [label for label, fact in theirs.items() if {"numbers", "base"} & set(fact)
                          and label not in {*module.definitions, *module.imports, *revised}]
