"""The rows that most tests serve, as a table file and as the lines of a walk."""
from lib.messages import element, elements, identifier, integer, name_in, text
from lib.pipes import file
from lib.texts import NO_OBJECT, dotted, line

E = (1, 3, 6, 1, 4, 1, 32473)
R = E + (1,)
ROOT = dotted(R)
ROWS = {R + (1, 0): integer(1), R + (2, 0): text(b"wes"), R + (10, 0): integer(3)}
NAMES = [R, *ROWS]
FIRST, SECOND, THIRD = f"{ROOT}.1.0 = INTEGER: 1\n", f'{ROOT}.2.0 = STRING: "wes"\n', f"{ROOT}.10.0 = INTEGER: 3\n"
LINES = FIRST + SECOND + THIRD
MISSING = f"{ROOT} = {NO_OBJECT}\n"

# Messages of the program. AGENT stands for the agent's address.
SILENT = "Timeout: No Response from AGENT.\n"
BAD = "Bad reply from AGENT.\n"
NO_LINK = "The link failed.\n"
NO_MEMORY = "Out of memory.\n"
FAILED = "The output failed.\n"
# The program's warnings about tests/data/tiny.txt.
WARNINGS = """snmp: TINY-MIB imports absent from TINY-SMI, which has no absent
snmp: TINY-MIB imports from GONE-MIB, which is not loaded
snmp: TINY-MIB::loopA stands on a cycle
snmp: TINY-MIB::loopB stands on a cycle
"""

# The object prefixes, values and rows of the table that a `Server` serves by default. It has the rows above too.
OBJECTS = [R + (2,)]
AGENT_VALUES = [identifier((2, 4294967295, 0)), integer(200, 0x41), integer(4294967295, 0x42), integer(127, 0x43),
                integer(18446744073709551615, 0x46), element(0x40, bytes([192, 0, 2, 1])), element(0x44, b"\x9f"),
                text(b"\x00\xff"), text(b"x" * 300)]
AGENT_ROWS = {**ROWS, E + (9,): integer(-129), **{E + (9, i): value for i, value in enumerate(AGENT_VALUES, 1)}}


def encoded(value):
    """Returns the encoding of a number or a string. An encoded value is returned as it is."""
    return integer(value) if isinstance(value, int) else text(value.encode()) if isinstance(value, str) else value


def field(value):
    """Returns the tag and the value of a row as a table file has them."""
    (tag, content), = elements(encoded(value))
    if tag == 0x04 and all(32 <= octet <= 126 for octet in content):
        return f"4|{content.decode()}"
    if tag in (0x04, 0x44):
        return f"{tag}x|{content.hex()}"
    if tag in (0x06, 0x40):
        return f"{tag}|{dotted(name_in(content) if tag == 0x06 else content)[1:]}"
    return f"{tag}|{int.from_bytes(content, 'big', signed=tag == 0x02)}"


def table_text(rows):
    """Returns a table file of these rows, whose values are numbers, strings or encoded."""
    return "".join(f"{dotted(name)}|{field(value)}\n" for name, value in rows.items())


def lines_of(rows):
    """Returns the lines that a walk prints of such rows."""
    return "".join(line(name, encoded(value)) for name, value in sorted(rows.items()))


def table_of(rows):
    """Yields the path of a table file of these rows."""
    return file(table_text(rows).encode())


# Enough rows for several GetBulks, and the lines of a walk.
SOME = {R + (i,): i for i in range(200)}
SOME_TEXT = lines_of(SOME)
TABLE = f"object {ROOT}.2\n" + table_text(dict(reversed(AGENT_ROWS.items())))
