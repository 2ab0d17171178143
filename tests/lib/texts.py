"""The lines that the program prints for names and values with -On and no module file, by docs/REFERENCE.md."""
from lib.messages import NULL, elements, name_in

NO_OBJECT = "No Such Object available on this agent at this OID"
NO_INSTANCE = "No Such Instance currently exists at this OID"


def dotted(name):
    """Returns a name as numbers, each after a dot."""
    return "".join(f".{n}" for n in name) or "."


def ticks(n):
    """Returns what is printed for TimeTicks, hundredths of a second."""
    seconds, hundredths = divmod(n, 100)
    minutes, seconds = divmod(seconds, 60)
    hours, minutes = divmod(minutes, 60)
    days, hours = divmod(hours, 24)
    before = "" if days == 0 else "1 day, " if days == 1 else f"{days} days, "
    return f"Timeticks: ({n}) {before}{hours}:{minutes:02}:{seconds:02}.{hundredths:02}"


def hexadecimal(octets):
    """Returns octets in hexadecimal, 16 a line, each with a blank after it."""
    lines = [octets[i:i + 16] for i in range(0, len(octets), 16)]
    return "\n".join("".join(f"{octet:02X} " for octet in line) for line in lines)


def string(octets):
    """Returns what is printed for a string: in quotes if each octet is printable ASCII, otherwise in hexadecimal."""
    if not octets:
        return '""'
    if all(32 <= octet <= 126 for octet in octets):
        text = octets.decode().replace("\\", "\\\\").replace('"', '\\"')
        return f'STRING: "{text}"'
    return "Hex-STRING: " + hexadecimal(octets)


def number(content, octets, signed=False):
    """Returns the number that a content encodes, which must fit into `octets` octets. Unless `signed`, its first octet
    isn't read as a sign, and the content may have one more octet, a zero."""
    n = int.from_bytes(content, "big", signed=signed)
    if not content or len(content) > octets + (not signed) or n >> 8 * octets not in (0, -1):
        raise ValueError("no such number")
    return n


def value_text(value):
    """Returns what is printed for an encoded value or exception, or None if the standard has no such value."""
    (tag, content), = elements(value)
    try:
        if tag == 0x02:
            return f"INTEGER: {number(content, 4, True)}"
        if tag == 0x04:
            return string(content)
        if value == NULL:
            return "NULL"
        if tag == 0x06:
            return f"OID: {dotted(name_in(content))}"
        if tag == 0x40 and len(content) == 4:
            return "IpAddress: " + ".".join(map(str, content))
        if tag in (0x41, 0x42):
            return f"{'Counter32' if tag == 0x41 else 'Gauge32'}: {number(content, 4)}"
        if tag == 0x43:
            return ticks(number(content, 4))
        if tag == 0x44:
            return "OPAQUE: " + hexadecimal(content)
        if tag == 0x46:
            return f"Counter64: {number(content, 8)}"
    except (IndexError, ValueError):
        return None
    return {b"\x80\0": NO_OBJECT, b"\x81\0": NO_INSTANCE}.get(value)


def line(name, value):
    """Returns what is printed for a binding."""
    return f"{dotted(name)} = {value_text(value)}\n"
