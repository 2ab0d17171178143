"""Encodes and decodes SNMP messages by RFC 1901, RFC 3416 and X.690, and computes an agent's reply from its rows.

It shares no code with the program.
"""
import collections
import itertools

GET, NEXT, RESPONSE, SET, BULK, INFORM, TRAP, REPORT = 0xA0, 0xA1, 0xA2, 0xA3, 0xA5, 0xA6, 0xA7, 0xA8
Message = collections.namedtuple("Message", "version community kind id a b bindings")
STATUSES = ["tooBig", "noSuchName", "badValue", "readOnly", "genErr", "noAccess", "wrongType", "wrongLength",
            "wrongEncoding", "wrongValue", "noCreation", "inconsistentValue", "resourceUnavailable",
            "commitFailed", "undoFailed", "authorizationError", "notWritable", "inconsistentName"]


# -- encoding

def element(tag, content):
    """Returns the BER encoding of an element with this tag and content."""
    size = len(content)
    digits = size.to_bytes((size.bit_length() + 7) // 8, "big")
    return bytes([tag, size] if size < 128 else [tag, 0x80 | len(digits), *digits]) + content


def integer(n, tag=0x02):
    """Returns the shortest encoding of a number in two's complement."""
    size = next(size for size in itertools.count(1) if -(1 << 8 * size - 1) <= n < 1 << 8 * size - 1)
    return element(tag, n.to_bytes(size, "big", signed=True))


def identifier(name):
    """Returns the encoding of an object identifier of at least two numbers."""
    content = b""
    for number in (40 * name[0] + name[1], *name[2:]):
        digits = bytes([number & 127])
        while number := number >> 7:
            digits = bytes([0x80 | number & 127]) + digits
        content += digits
    return element(0x06, content)


def text(octets):
    """Returns the encoding of an OCTET STRING."""
    return element(0x04, octets)


NULL = element(0x05, b"")
OBJECT, INSTANCE, END = (element(tag, b"") for tag in (0x80, 0x81, 0x82))


def message(kind, id, bindings, a=0, b=0, community=b"public", version=1):
    """Returns an encoded message. `kind` is the tag of its PDU. `a` and `b` are the error status and error index, or
    the non-repeaters and max-repetitions of a GetBulk. Version 1 is SNMPv2c."""
    listed = b"".join(element(0x30, identifier(name) + value) for name, value in bindings)
    pdu = element(kind, integer(id) + integer(a) + integer(b) + element(0x30, listed))
    return element(0x30, integer(version) + text(community) + pdu)


def nexts(*names, community=b"public", first=1):
    """Returns a GetNext request for each name. Their ids count from `first`."""
    return [message(NEXT, id, [(name, NULL)], community=community) for id, name in enumerate(names, first)]


def bulks(repetitions, *names):
    """Returns a GetBulk request for each name. Their ids count from 1."""
    return [message(BULK, id, [(name, NULL)], 0, repetitions) for id, name in enumerate(names, 1)]


def get(*names, id=1):
    """Returns a list of one request, a Get of these names."""
    return [message(GET, id, [(name, NULL) for name in names])]


def of_size(size, made):
    """Returns what `made` returns for the number of octets that makes it exactly `size` octets long."""
    most = size - len(made(0))
    return next(it for it in map(made, range(most, most - 20, -1)) if len(it) == size)


def asking(size, kind, names, a=0, b=0):
    """Returns a request for these names that is `size` octets long. Its last value, a string, fills the rest. Unless
    the request is a Set, values in it mean nothing."""
    bindings, last = [(name, NULL) for name in names[:-1]], names[-1]
    return of_size(size, lambda left: message(kind, 1, [*bindings, (last, text(b"x" * left))], a, b))


# -- decoding

def elements(octets):
    """Yields the tag and content of each of the elements that follow one another in `octets`."""
    while octets:
        tag, size, octets = octets[0], octets[1], octets[2:]
        if size >= 128:
            size, octets = int.from_bytes(octets[:size - 128], "big"), octets[size - 128:]
        assert size <= len(octets)
        yield tag, octets[:size]
        octets = octets[size:]


def name_in(content):
    """Returns the numbers of the object identifier whose encoding has this content."""
    numbers, number = [], 0
    for octet in content:
        number = number << 7 | octet & 127
        if octet < 128:
            numbers.append(number)
            number = 0
    first = min(numbers[0] // 40, 2)
    return (first, numbers[0] - 40 * first, *numbers[1:])


def read(datagram):
    """Returns the message that a datagram encodes, with its values still encoded."""
    (_, whole), = elements(datagram)
    (_, version), (_, community), (kind, pdu) = elements(whole)
    *numbers, (_, listed) = elements(pdu)
    bindings = []
    for _, binding in elements(listed):
        (_, name), (tag, value) = elements(binding)
        bindings.append((name_in(name), element(tag, value)))
    id, a, b = (int.from_bytes(number, "big", signed=True) for _, number in numbers)
    return Message(int.from_bytes(version, "big"), community, kind, id, a, b, bindings)


def read_or_none(datagram):
    """Returns the message that a datagram encodes, or None if `read` fails. It checks little: a datagram that the
    standard doesn't allow can be a message here."""
    try:
        return read(datagram)
    except (AssertionError, IndexError, ValueError):
        return None


# Encodings written out octet by octet from the standards, and checks that the functions above agree with them.
NAME = (1, 3, 6, 1, 2, 1, 1, 5, 0)
ASKED = bytes.fromhex("3026020101 04067075626C6963 A019 020101 020100 020100 300E 300C 06082B06010201010500 0500")
ANSWER = bytes.fromhex(
    "3029020101 04067075626C6963 A21C 020101 020100 020100 3011 300F 06082B06010201010500 0403776573")
TOO_BIG = bytes.fromhex("3018020101 04067075626C6963 A20B 020101 020101 020100 3000")
assert message(GET, 1, [(NAME, NULL)]) == ASKED and read(ASKED).bindings == [(NAME, NULL)]
assert message(RESPONSE, 1, [(NAME, text(b"wes"))]) == ANSWER and message(RESPONSE, 1, [], 1) == TOO_BIG
assert message(BULK, 1, [((1, 3, 6, 1, 4, 1, 32473, 1), NULL)], 0, 10) == bytes.fromhex(
    "3027020101 04067075626C6963 A51A 020101 020100 02010A 300F 300D 06092B0601040181FD5901 0500")
assert identifier((2, 4294967295, 0)) == bytes.fromhex("06069080 80804F00") and integer(-129) == b"\2\2\xff\x7f"
assert integer(200, 0x41) == b"\x41\2\0\xc8" and integer(4294967295, 0x42) == b"\x42\5\0" + b"\xff" * 4


# -- the replies of an agent that serves rows (RFC 3416, section 4.2)

def successor(rows, name):
    """Returns the binding that a GetNext of `name` returns."""
    above = min((other for other in rows if other > name), default=None)
    return (name, END) if above is None else (above, rows[above])


def answer_bindings(rows, request, objects=()):
    """Returns the bindings of the reply to a Get, GetNext or GetBulk. For a name without a row a Get returns
    noSuchInstance if one of `objects` equals or begins the name, otherwise noSuchObject."""
    names = [name for name, _ in request.bindings]
    if request.kind == GET:
        return [(name, rows.get(name) or (INSTANCE if any(name[:len(it)] == it for it in objects) else OBJECT))
                for name in names]
    if request.kind == NEXT:
        return [successor(rows, name) for name in names]
    once = min(max(request.a, 0), len(names))
    bindings, names = [successor(rows, name) for name in names[:once]], names[once:]
    for _ in range(max(request.b, 0) if names else 0):
        found = [successor(rows, name) for name in names]
        bindings, names = bindings + found, [name for name, _ in found]
        if all(value == END for _, value in found):
            break
    return bindings


def reply(request, bindings, status=0, index=0):
    """Returns a Response to the request with these bindings."""
    return message(RESPONSE, request.id, bindings, status, index, request.community)


def reply_from(rows, request):
    """Returns the reply to a Get, GetNext or GetBulk, however long it is."""
    return reply(request, answer_bindings(rows, request))


def reply_within(rows, request, size, objects=()):
    """Returns the reply of an agent whose messages have at most `size` octets. Returns None if not even the reply with
    the error tooBig fits. A Set has the error notWritable at its first binding."""
    if request.kind == SET:
        whole = reply(request, request.bindings, 17, 1 if request.bindings else 0)
        return whole if len(whole) <= size else too_big(request, size)
    bindings = answer_bindings(rows, request, objects)
    whole = reply(request, bindings)
    while len(whole) > size and request.kind == BULK and bindings:
        bindings.pop()
        whole = reply(request, bindings)
    return whole if len(whole) <= size else too_big(request, size)


def too_big(request, size):
    """Returns the reply with the error tooBig, or None if it has more than `size` octets."""
    whole = reply(request, [], 1)
    return whole if len(whole) <= size else None
