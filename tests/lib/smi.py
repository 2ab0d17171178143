"""A simple reader of module files, with which tests compare what the program reads: it returns the clauses of each
definition and finds what names refer to. It checks nothing. tools/join-modules, which operators install by itself,
divides a file into modules, and a module into tokens.
"""
import re
import runpy
import types

from lib.programs import TOP

join_modules = types.SimpleNamespace(**runpy.run_path(f"{TOP}/tools/join-modules"))
OPEN, CLOSE = "{([", "})]"
BASES = {"INTEGER", "OCTET STRING", "OBJECT IDENTIFIER", "BITS", "Integer32", "Unsigned32", "Gauge32", "Counter32",
         "Counter64", "TimeTicks", "IpAddress", "Opaque"}
INTEGERS = {"INTEGER", "Integer32", "Unsigned32", "Gauge32", "Counter32", "TimeTicks"}


def group_end(tokens, at):
    """Returns the index after the group that begins at `at`."""
    depth = 0
    while True:
        depth += (tokens[at] in OPEN) - (tokens[at] in CLOSE)
        at += 1
        if not depth:
            return at


class Type:
    """A type in a SYNTAX clause or a definition: its name, the ranges of its values or lengths, the names of its
    numbers or bits, and the members of a SEQUENCE. `end` is the index after its last token."""

    def __init__(self, tokens, at):
        if tokens[at] == "[":
            at = group_end(tokens, at) + 1
        words = 3 if tokens[at:at + 2] == ["SEQUENCE", "OF"] else 2 if tokens[at] in ("OCTET", "OBJECT") else 1
        self.name, self.ranges, self.names, self.members = " ".join(tokens[at:at + words]), [], {}, []
        at += words
        if at < len(tokens) and tokens[at] == "{":
            end = group_end(tokens, at)
            inside = " ".join(tokens[at + 1:end - 1])
            self.members = [part.split()[0] for part in inside.split(" , ") if part]
            self.names = {name: int(number) for name, number in re.findall(r"([\w-]+) \( (-?\d+) \)", inside)}
            at = end
        if at < len(tokens) and tokens[at] == "(":
            end = group_end(tokens, at)
            inside = " ".join(tokens[at + 1:end - 1]).replace("SIZE (", "").rstrip(") ")
            self.ranges = [[int(bound) for bound in re.findall(r"-?\d+", part)] for part in inside.split("|")]
            at = end
        self.end = at


class Definition:
    """A label or a type of a module, with its clauses."""

    def __init__(self, label, macro, tokens, value):
        self.label, self.macro, self.value = label, macro, value
        self.clauses, self.type, at = {}, None, 0
        while at < len(tokens):
            word, rest = tokens[at], tokens[at + 1:at + 2]
            if word == "SYNTAX" and not self.type:
                self.type = Type(tokens, at + 1)
                at = self.type.end
            elif rest == ["{"]:
                end = group_end(tokens, at + 1)
                inside = " ".join(tokens[at + 2:end - 1])
                self.clauses.setdefault(word, [part for part in inside.split(" , ") if part])
                at = end
            elif word in ("UNITS", "MAX-ACCESS", "ACCESS", "STATUS", "DISPLAY-HINT", "LAST-UPDATED"):
                self.clauses.setdefault(word.replace("MAX-", ""), rest[0].strip('"'))
                at += 2
            else:
                at += 1


class Module(join_modules.Module):
    """A module of tools/join-modules, with its definitions by label, the labels that it defines twice, and the module
    of each import."""

    def __init__(self, module):
        super().__init__(module.text, module.tokens)
        self.definitions, self.twice, self.imports = {}, [], {}
        tokens = module.tokens[module.tokens.index("BEGIN") + 1:-1]
        at = tokens.index(";") + 1 if tokens[:1] == ["IMPORTS"] else 0
        for names, source in re.findall(r"(.*?) FROM (\S+)", " ".join(tokens[1:at])):
            self.imports.update(dict.fromkeys(names.replace(",", " ").split(), source))
        while at < len(tokens):
            at = self.definition(tokens, at)

    def definition(self, tokens, at):
        """Reads the definition at `at`, and returns the index after it."""
        label, sign = tokens[at], tokens.index("::=", at)
        if tokens[at + 1] == "MACRO":
            found, end = Definition(label, "macro", [], []), tokens.index("END", sign) + 1
        elif sign == at + 1 and tokens[sign + 1] != "TEXTUAL-CONVENTION":
            found = Definition(label, "type", [], [])
            found.type = Type(tokens, sign + 1)
            end = found.type.end
        elif sign == at + 1:
            syntax = tokens.index("SYNTAX", sign)
            end = Type(tokens, syntax + 1).end
            found = Definition(label, "TEXTUAL-CONVENTION", tokens[sign + 2:end], [])
        else:
            end = group_end(tokens, sign + 1)
            value = " ".join(tokens[sign + 2:end - 1]).replace(" ( ", "(").replace(" )", ")").split()
            found = Definition(label, tokens[at + 1], tokens[at + 2:sign], value)
        if label in self.definitions:
            self.twice.append(label)
        else:
            self.definitions[label] = found
        return end


def read(path):
    """Returns the modules of a file, in order."""
    return [Module(module) for module in join_modules.modules_of(join_modules.read(path), path)]


class World:
    """Several modules, by name. If two have one name, the first counts."""

    def __init__(self, modules):
        self.modules = {}
        for module in modules:
            self.modules.setdefault(module.name, module)

    def find(self, module, label):
        """Returns the definition that a name in a module refers to, after its module, or None."""
        while label not in module.definitions:
            module = self.modules.get(module.imports.get(label))
            if not module:
                return None
        return module, module.definitions[label]

    def numbers(self, module, definition, depth=0):
        """Returns the identifier of a definition, or None."""
        first, *rest = definition.value or [""]
        if depth > 40 or not all(re.fullmatch(r"\d+|[\w-]+\(\d+\)", part) for part in rest):
            return None
        rest = tuple(int(re.search(r"(\d+)\)?$", part)[1]) for part in rest)
        if first.isdigit() or first in ("iso", "ccitt"):
            return (int(first) if first.isdigit() else int(first == "iso"),) + rest
        found = self.find(module, first)
        above = found and self.numbers(*found, depth + 1)
        return above and above + rest

    def meaning(self, module, kind, hint=None):
        """Returns the base type of a type, and the nearest ranges, names of numbers and hint along its chain; or
        None."""
        ranges, names = kind.ranges, kind.names
        while kind.name not in BASES:
            found = self.find(module, kind.name)
            if not found or not found[1].type:
                return None
            module, definition = found
            kind = definition.type
            hint = hint or definition.clauses.get("DISPLAY-HINT")
            ranges, names = ranges or kind.ranges, names or kind.names
        return kind.name, ranges, names, hint

    def index(self, module, row):
        """Returns the parts of a row's index, or None. A part is a module, an object in it, and whether it is
        IMPLIED."""
        if "AUGMENTS" in row.clauses:
            found = self.find(module, row.clauses["AUGMENTS"][0])
            return found and "AUGMENTS" not in found[1].clauses and self.index(*found)
        parts = [part.split() for part in row.clauses.get("INDEX", [])]
        found = [self.find(module, words[-1]) for words in parts]
        if not parts or not all(found):
            return None
        return [(*part, words[0] == "IMPLIED") for part, words in zip(found, parts)]
