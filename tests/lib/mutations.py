"""Makes faulty datagrams from good ones, and checks what the program did with them."""
import itertools

from lib.agents import Elsewhere
from lib.messages import (END, INSTANCE, OBJECT, RESPONSE, STATUSES, answer_bindings, integer, read_or_none, reply,
                          reply_from)
from lib.rows import BAD, SILENT
from lib.texts import line


def mutate(rng, octets):
    """Returns the octets after one to three random changes: octets replaced, removed, inserted or repeated, or a bit
    flipped."""
    octets = bytearray(octets)
    for _ in range(rng.randint(1, 3)):
        at = rng.randrange(len(octets) + 1)
        kind = rng.randrange(5)
        if kind == 0:
            octets[at:at + 1] = bytes([rng.randrange(256)])
        elif kind == 1:
            octets[at:at + rng.randint(1, 4)] = b""
        elif kind == 2:
            octets[at:at] = rng.randbytes(rng.randint(1, 4))
        elif kind == 3:
            octets[at:at] = octets[at:at + 8]
        elif at < len(octets):
            octets[at] ^= 1 << rng.randrange(8)
    return bytes(octets)


def lengths(octets):
    """Returns the offsets of up to twelve length octets of a message, as far as they can be found."""
    at, found = 0, []
    while at + 1 < len(octets) and len(found) < 12:
        found.append(at + 1)
        at += 2 if octets[at] in (0x30, *range(0xA0, 0xA9)) else 2 + octets[at + 1] % 128
    return found


def corrupt(rng, octets):
    """Returns a datagram made from a good one: cut short, longer, with another length or a longer form of a length, or
    with random changes. In a few cases it returns random octets, a row of octets 0x30, or an empty datagram."""
    kind = rng.randrange(8)
    if kind == 0:
        return octets[:rng.randrange(len(octets))]
    if kind == 1:
        return octets + rng.randbytes(rng.randint(1, 40))
    if kind == 2:
        it = bytearray(octets)
        it[rng.choice(lengths(octets))] = rng.choice([0, 1, 127, 128, 129, 130, 132, 133, 255, rng.randrange(256)])
        return bytes(it)
    if kind == 3:
        at = rng.choice(lengths(octets))
        size = octets[at].to_bytes(rng.randint(1, 5), "big")
        return octets[:at] + bytes([0x80 | len(size)]) + size + octets[at + 1:]
    if kind == 4 and rng.randrange(64) == 0:
        return rng.choice([rng.randbytes(rng.randint(0, 200)), b"\x30" * rng.randint(1, 65507), b""])
    return mutate(rng, octets)


# -- what a walker or a Get may do with such datagrams

# INTEGER values from here on are marks. A line with a mark comes from the only datagram that has it.
MARKS = 1000000
ENDS = ["", SILENT, BAD, "Error in packet: ", "No progress after ", "Error: OID not increasing: ",
        "Too many requests.\n"]


def marked_reply(rows, asked, mark):
    """Returns the good reply with each value, but no exception, replaced by the mark."""
    return reply(asked, [(name, value if value in (OBJECT, INSTANCE, END) else integer(mark))
                         for name, value in answer_bindings(rows, asked)])


def attacking(rng, rows, sent):
    """Returns an agent that for each request sends up to three faulty replies, perhaps a reply with a wrong id or from
    another port, and then, in 19 of 20 cases, the good one. It adds to `sent` each datagram that it sends from its own
    port, with the request."""
    marks = itertools.count(MARKS)

    def agent(seen):
        asked = seen[-1]
        datagrams = [corrupt(rng, rng.choice([reply_from(rows, asked), marked_reply(rows, asked, next(marks))]))
                     for _ in range(rng.randint(0, 3))]
        wrong_id = asked._replace(id=asked.id + rng.choice([-1, 1, 256]))
        datagrams += rng.choice([[], [marked_reply(rows, wrong_id, next(marks))],
                                 [Elsewhere(marked_reply(rows, asked, next(marks)))]])
        datagrams = [it for it in datagrams if isinstance(it, Elsewhere) or len(it) > 0]
        if rng.randrange(20):
            datagrams.append(reply_from(rows, asked))
        sent.extend((asked, it) for it in datagrams if isinstance(it, bytes))
        return datagrams
    return agent


def is_reply(it, asked):
    """Returns whether a message is a reply to the request `asked`."""
    return it is not None and (it.version, it.community, it.kind, it.id) == (1, b"public", RESPONSE, asked.id)


def names_and_lines(sent):
    """Returns the names in all datagrams of `sent` that are replies, and the lines that a walk prints for their
    bindings."""
    names, texts = set(), set()
    for asked, datagram in sent:
        it = read_or_none(datagram)
        if is_reply(it, asked):
            names.update(name for name, _ in it.bindings)
            texts.update(line(name, value) for name, value in it.bindings)
    return names, texts


def split(output):
    """Yields the name of each binding in an output with numeric names, and its lines as one string."""
    texts = []
    for piece in output.splitlines(True):
        if piece.startswith(".") or not texts:
            texts.append(piece)
        else:
            texts[-1] += piece
    for piece in texts:
        name = piece.partition(" = ")[0]
        yield tuple(int(number) for number in name.split(".")[1:]), piece


def faults_of(words, ran, sent):
    """Yields what is wrong with a run of a walker, whose last argument is the root in numbers, or of a Get. `sent`
    lists the datagrams that were sent to it, each with the request that was waiting."""
    messages = ran.messages
    if ran.status not in (0, 1, 2):
        yield f"status {ran.status}"
    if not any(messages == end or (end and not end.endswith("\n") and messages.startswith(end)) for end in ENDS):
        yield f"messages {messages!r}"
    if messages.count("\n") > 1 or (messages and not messages.endswith("\n")) or (ran.status == 0) != (messages == ""):
        yield f"status {ran.status} and messages {messages!r}"
    if ran.output and not ran.output.endswith("\n"):
        yield "half a line"
    try:
        printed = list(split(ran.output))
    except ValueError:
        yield f"lines without a name: {ran.output!r}"
        printed = []
    names, texts = names_and_lines(sent)
    strange = [piece for name, piece in printed if name not in names or piece not in texts]
    if strange:
        yield f"lines that no reply contains: {strange}"
    names = [name for name, _ in printed]
    if words[0] != "snmpget":
        root = tuple(int(number) for number in words[-1].split(".")[1:])
        below = [name for name in names if name != root]
        if any(name[:len(root)] != root for name in names) or any(a >= b for a, b in zip(below, below[1:])):
            yield f"names that aren't below the root and in increasing order: {names}"


def ends_of_get(asked, datagrams):
    """Yields each way a Get may end that was sent these datagrams in this order, as status, output and messages. It may
    end at each datagram that this script reads as a reply, because the Get, which checks more, may refuse one and wait
    for the next. It may end without a reply only if this script reads none."""
    wanted = [name for name, _ in asked.bindings]
    for datagram in datagrams:
        it = read_or_none(datagram)
        if not is_reply(it, asked):
            continue
        if it.a:
            status = STATUSES[it.a - 1] if 1 <= it.a <= len(STATUSES) else "unknown"
            yield 2, "", f"Error in packet: {status} ({it.a}), index {it.b}\n"
        elif [name for name, _ in it.bindings] != wanted or END in [value for _, value in it.bindings]:
            yield 1, "", BAD
        else:
            yield 0, "".join(line(name, value) for name, value in it.bindings), ""
    if not any(is_reply(read_or_none(datagram), asked) for datagram in datagrams):
        yield 1, "", SILENT
