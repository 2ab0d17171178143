#!/usr/bin/env python3
"""Tests the built program over UDP on loopback: its commands against an agent that this script plays, and its snmpd
against requests that this script sends.

usage: network.py [WORD..]

Runs the tests whose titles contain one of the words; without words, all tests. The script shares no code with the
program: it encodes and decodes messages by RFC 1901, RFC 3416 and X.690. The environment variables WALKS and SEED set
the number of walks over a network with faults and the seed of the first, for a run of hours or of one walk.
"""
import contextlib
import itertools
import os
import random
import re
import signal
import socket
import struct
import sys
import time

from lib import programs
from lib.agents import Elsewhere, failing, losing, run, saying, serving, silent
from lib.commands import lacks_raw_datagrams
from lib.messages import (ANSWER, ASKED, BULK, END, GET, INFORM, INSTANCE, NAME, NEXT, NULL, OBJECT, REPORT, RESPONSE,
                          SET, STATUSES, TOO_BIG, TRAP, answer_bindings, asking, bulks, element, get, identifier,
                          integer, message, nexts, of_size, read, read_or_none, reply, reply_from, reply_within, text)
from lib.mutations import ends_of_get, faults_of, mutate
from lib.ports import closed_port
from lib.programs import patient
from lib.relays import Relay, random_walk
from lib.rows import (AGENT_ROWS, BAD, E, FIRST, LINES, MISSING, NAMES, NO_LINK, OBJECTS, R, ROOT, ROWS, SECOND,
                      SILENT, THIRD, WARNINGS, lines_of, table_text)
from lib.runner import Tests, differs, hex_lines, sent_not, side_by_side, wrongs
from lib.server import Server, sockets_of
from lib.texts import NO_INSTANCE, NO_OBJECT, dotted

tests = Tests("tests/network.py")
test = tests.test


# -- the program against an agent of this script

def walks(title, words, agent, output="", messages="", status=0, asked=()):
    """Adds a test that the program, run against the agent, has this output, these messages and this status, and sends
    exactly the datagrams `asked`."""
    @test(title)
    def run_walk():
        ran = run(words.split(" ") if messages == SILENT else patient(words.split(" ")), agent)
        return wrongs(*ran.faults, differs(ran[:3], (status, output, messages)), sent_not(ran.requests, asked))


def row(number, value=1):
    """Returns a binding below the root."""
    return R + (number, 0), integer(value)


def line(number, value=1):
    """Returns the line that a walk prints for that binding."""
    return f"{ROOT}.{number}.0 = INTEGER: {value}\n"


# The requests of a walk: a GetNext or GetBulk of the root, and then of the last name received. Each id is one more than
# the one before.
walks("a walk asks for one row at a time", f"snmpwalk -On AGENT {ROOT}", serving(ROWS), LINES, asked=nexts(*NAMES))
walks("a walk ends at the first name that isn't below its root", f"snmpwalk -On AGENT {ROOT}",
      serving({**ROWS, E + (2, 0): NULL}), LINES, asked=nexts(*NAMES))
walks("a bulk walk asks for ten rows at a time", f"snmpbulkwalk -On AGENT {ROOT}", serving(ROWS), LINES,
      asked=bulks(10, R))
walks("-Cr2 asks for two rows at a time", f"snmpbulkwalk -On -Cr2 AGENT {ROOT}", serving(ROWS), LINES,
      asked=bulks(2, R, NAMES[2]))
walks("the last of several -Cr applies", f"snmpbulkwalk -On -Cr7 -Cr3r1 AGENT {ROOT}", serving(ROWS), LINES,
      asked=bulks(1, *NAMES))
walks("-Cr2147483647 asks for 2147483647 rows", f"snmpbulkwalk -On -Cr2147483647 AGENT {ROOT}", serving(ROWS), LINES,
      asked=bulks(2147483647, R))
walks("a bulk walk continues after a reply with fewer rows than it asked for", f"snmpbulkwalk -On AGENT {ROOT}",
      lambda seen: [reply(seen[-1], answer_bindings(ROWS, seen[-1])[:2])], LINES, asked=bulks(10, R, NAMES[2]))
walks("a community can have 255 octets", f"snmpwalk -On -c {'x' * 255} AGENT {ROOT}", serving(ROWS), LINES,
      asked=nexts(*NAMES, community=b"x" * 255))
for words, output, asked in (("snmpwalk -v 2c", LINES, nexts(*NAMES)), ("snmpbulkwalk", LINES, bulks(10, R)),
                             ("snmpget", MISSING, get(R))):
    walks(f"udp: is accepted before the host: {words}", f"{words} -On udp:AGENT {ROOT}", serving(ROWS), output,
          asked=asked)
    walks(f"-c sets the community: {words}", f"{words} -On -c secret AGENT {ROOT}", serving(ROWS), output,
          asked=[it.replace(b"public", b"secret") for it in asked])
for command in "snmpwalk", "snmpbulkwalk", "snmpget":
    walks(f"{command} sends nothing if a name can't be sent", f"{command} AGENT .3", silent, "",
          "Name cannot be sent: .3\n", 1)
# 105 names of 128 numbers, of five octets each, are longer than the greatest datagram.
walks("a request that is too long isn't sent", f"snmpget AGENT {' '.join(105 * ['.1.3.6' + 125 * '.4294967295'])}",
      silent, "", "Request too long.\n", 1)
walks("a host can be named", f"snmpwalk -On localhost:PORT {ROOT}", serving(ROWS), LINES, asked=nexts(*NAMES))
walks("without a name the root is mib-2", "snmpwalk -On AGENT", serving({(1, 3, 6, 1, 2, 1, 1, 1, 0): text(b"x")}),
      '.1.3.6.1.2.1.1.1.0 = STRING: "x"\n', asked=nexts((1, 3, 6, 1, 2, 1), (1, 3, 6, 1, 2, 1, 1, 1, 0)))
walks("a root without numbers is sent as 0.0", "snmpwalk -On -CI AGENT .", serving({}), asked=nexts((0, 0)))
walks("a root of one number is sent with a zero", "snmpwalk -On -CI AGENT .2", serving({}), asked=nexts((2, 0)))
walks("a name can have numbers of 32 bits", "snmpwalk -On -CI AGENT .2.4294967295.128.16384", serving({}),
      asked=nexts((2, 4294967295, 128, 16384)))
walks("with --after a walk continues after that name", f"snmpwalk -On --after {ROOT}.1.0 AGENT {ROOT}", serving(ROWS),
      SECOND + THIRD, asked=nexts(*NAMES[1:]))
walks("with --after and the last name a walk prints nothing", f"snmpbulkwalk -On --after {ROOT}.10.0 AGENT {ROOT}",
      serving(ROWS), asked=bulks(10, NAMES[3]))
walks("if nothing is below the root, a Get of the root is sent", f"snmpwalk -On AGENT {ROOT}", serving({}), MISSING,
      asked=nexts(R) + get(R, id=2))
walks("if nothing is below the root, its own value is printed", f"snmpbulkwalk -On AGENT {ROOT}.1.0", serving(ROWS),
      FIRST, asked=bulks(10, NAMES[1]) + get(NAMES[1], id=2))
walks("if nothing is below the root, no Get is sent with -CI", f"snmpwalk -On -CI AGENT {ROOT}", serving({}),
      asked=nexts(R))
walks("with -Ci a Get of the root is sent first", f"snmpwalk -On -Ci AGENT {ROOT}.1.0", serving(ROWS), FIRST,
      asked=get(NAMES[1]) + nexts(NAMES[1], first=2))
walks("with -Ci a root without a value isn't printed", f"snmpwalk -On -Ci AGENT {ROOT}", serving(ROWS), LINES,
      asked=get(R) + nexts(*NAMES, first=2))
walks("-Cp counts the lines", f"snmpwalk -On -Cp AGENT {ROOT}", serving(ROWS), LINES + "Variables found: 3\n",
      asked=nexts(*NAMES))
walks("-Cp counts an exception", f"snmpwalk -On -Cp AGENT {ROOT}", serving({}), MISSING + "Variables found: 1\n",
      asked=nexts(R) + get(R, id=2))
walks("-Cp counts 0 if nothing is printed", f"snmpwalk -On -Cp -CI AGENT {ROOT}", serving({}), "Variables found: 0\n",
      asked=nexts(R))

# A value of each type, and then three values in encodings that the program reads although it writes others.
VALUES = [
    (integer(-2147483648), "INTEGER: -2147483648"),
    (text(b""), '""'),
    (text(b'a"b\\'), r'STRING: "a\"b\\"'),
    (text(b"\x00\xff"), "Hex-STRING: 00 FF "),
    (NULL, "NULL"),
    (identifier((2, 4294967295, 0)), "OID: .2.4294967295.0"),
    (element(0x40, bytes([192, 0, 2, 255])), "IpAddress: 192.0.2.255"),
    (integer(4294967295, 0x41), "Counter32: 4294967295"),
    (integer(0, 0x42), "Gauge32: 0"),
    (integer(14096763, 0x43), "Timeticks: (14096763) 1 day, 15:09:27.63"),
    (element(0x44, b"\x9f"), "OPAQUE: 9F "),
    (integer(18446744073709551615, 0x46), "Counter64: 18446744073709551615"),
    (element(0x42, bytes([255] * 4)), "Gauge32: 4294967295"),
    (element(0x02, bytes([255, 255, 255, 254])), "INTEGER: -2"),
    (bytes([0x04, 0x83, 0, 0, 1, 0x41]), 'STRING: "A"'),
]
walks("values of each type are shown", f"snmpbulkwalk -On -Cr{len(VALUES) + 1} AGENT {ROOT}",
      serving({R + (i,): value for i, (value, _) in enumerate(VALUES)}),
      "".join(f"{ROOT}.{i} = {shown_as}\n" for i, (_, shown_as) in enumerate(VALUES)),
      asked=bulks(len(VALUES) + 1, R))
walks("a length in the long form is read", f"snmpget -On AGENT {ROOT}.1.0",
      lambda seen: [bytes([0x30, 0x82, 0]) + reply_from(ROWS, seen[-1])[1:]], FIRST, asked=get(NAMES[1]))
widest = 65507 - len(message(RESPONSE, 1, [(R, text(b"x" * 65000))])) + 65000
walks("the longest datagram is read", f"snmpget -On AGENT {ROOT}", serving({R: text(b"x" * widest)}),
      f'{ROOT} = STRING: "{"x" * widest}"\n', asked=get(R))

# Long requests and replies.
for least, count in (2000, 130), (60000, 3600):
    many = {R + (i,): integer(i % 100) for i in range(count)}
    assert all(least <= len(it) <= 65507 for it in [*get(*many), reply_from(many, read(*get(*many)))])
    walks(f"a get of {count} names sends a request of {least} octets or more and reads its reply",
          f"snmpget -On AGENT {' '.join(map(dotted, many))}", serving(many), lines_of(many), asked=get(*many))
for least, count in (5000, 280), (65000, 3600):
    many = {R + (i,): integer(i % 100) for i in range(count)} | {R + (count,): text(b"x" * 300)}
    bound = [*many.items(), (R + (count,), END)]
    assert least <= len(message(RESPONSE, 1, bound)) <= 65507
    walks(f"a bulk walk reads a reply of {least} octets or more", f"snmpbulkwalk -On -Cr9999 AGENT {ROOT}",
          saying(bound), lines_of(many), asked=bulks(9999, R))

# Lost datagrams: the same request is sent again, at most -r times.
walks("a request without a reply is sent again", f"snmpwalk -On -r 2 AGENT {ROOT}", losing(2, serving(ROWS)), LINES,
      asked=nexts(R) * 2 + nexts(*NAMES))
walks("a get without a reply is sent again", f"snmpget -On -r 1 AGENT {ROOT}.1.0", losing(1, serving(ROWS)), FIRST,
      asked=get(NAMES[1]) * 2)
walks("-r 0 sends a walk's request once", f"snmpwalk -r 0 AGENT {ROOT}", silent, "", SILENT, 1, asked=nexts(R))
walks("-r 2 sends a bulk walk's request three times", f"snmpbulkwalk -r 2 AGENT {ROOT}", silent, "", SILENT, 1,
      asked=bulks(10, R) * 3)
walks("-r 0 sends a get once", f"snmpget -r 0 AGENT {ROOT}", silent, "", SILENT, 1, asked=get(R))
walks("lines printed before the agent stops replying stay", f"snmpwalk -On -Cp -r 1 -t 4 AGENT {ROOT}",
      lambda seen: [reply_from(ROWS, seen[-1])] if seen[-1].id == 1 else [], FIRST, SILENT, 1,
      asked=nexts(*NAMES[:2]) + nexts(*NAMES[:2])[1:])


@test("a request is sent again as many times as the help says by default")
def retries_by_default():
    said = programs.run("snmpget", "--help").output
    retries, = re.findall(r"^ +-r <RETRIES> .* by default (\d+)$", said, re.M)
    ran = run(["snmpget", "AGENT", ROOT], silent)
    return wrongs(differs(ran[:3], (1, "", SILENT)), sent_not(ran.requests, get(R) * (1 + int(retries))), *ran.faults)


# Neither this test nor the next shows how long a try is, only that -t has an effect and that the program ends.
@test("two tries of a second each end in time")
def tries_end():
    ran = run(["snmpget", "-r", "1", "-t", "1", "AGENT", ROOT], silent)
    return wrongs(differs(ran[:3], (1, "", SILENT)), *ran.faults,
                  differs(1.5 <= ran.seconds <= 30, True) and f"it took {ran.seconds:.1f} seconds")


walks("with -t 8 a reply after more than a second is taken", f"snmpget -On -r 0 -t 8 AGENT {ROOT}.1.0",
      lambda seen: [1.3, reply_from(ROWS, seen[-1])], FIRST, asked=get(NAMES[1]))

walks("a datagram that isn't a reply restarts the wait", f"snmpget -On -r 0 -t 6 AGENT {ROOT}.1.0",
      lambda seen: [3.3, b"\x30", 3.3, reply_from(ROWS, seen[-1])], FIRST, asked=get(NAMES[1]))


@test("a request to a port where no program listens times out")
def nobody_listens():
    with closed_port() as port:
        address = f"127.0.0.1:{port}"
        return wrongs(*(differs(programs.run(command, "-t", "1", "-r", "1", address, ROOT),
                                (1, "", SILENT.replace("AGENT", address))) for command in ("snmpwalk", "snmpget")))


# Datagrams that arrive twice, late or from elsewhere, or that aren't replies: only the reply to the waiting request
# counts.
walks("replies that arrive twice count once", f"snmpwalk -On -r 0 AGENT {ROOT}",
      lambda seen: [reply_from(ROWS, seen[-1])] * 2, LINES, asked=nexts(*NAMES))
walks("late replies are ignored", f"snmpwalk -On -r 1 AGENT {ROOT}",
      losing(1, lambda seen: [reply_from(ROWS, request) for request in seen]), LINES, asked=nexts(R) + nexts(*NAMES))
walks("a reply from another port is ignored", f"snmpget -On -r 0 AGENT {ROOT}.1.0",
      lambda seen: [Elsewhere(reply(seen[-1], [(NAMES[1], integer(7))])), 0.1, reply_from(ROWS, seen[-1])], FIRST,
      asked=get(NAMES[1]))
walks("a request whose only reply is from another port times out", f"snmpget -On -r 0 AGENT {ROOT}.1.0",
      lambda seen: [Elsewhere(reply_from(ROWS, seen[-1]))], "", SILENT, 1, asked=get(NAMES[1]))
WRONG = [(NAMES[1], integer(7))]
RIGHT = message(RESPONSE, 1, WRONG)
STRAYS = {
    "one octet": b"\x30",
    "octets that aren't a message": bytes(range(200)),
    "a reply without its last octet": RIGHT[:-1],
    "a reply with an octet more": RIGHT + b"\0",
    "a reply of indefinite length": b"\x30\x80" + RIGHT[2:] + b"\0\0",
    "a reply with another id": message(RESPONSE, 2, WRONG),
    "a reply with id 0": message(RESPONSE, 0, WRONG),
    "a reply of another community": message(RESPONSE, 1, WRONG, community=b"publi"),
    "a reply of version 1": message(RESPONSE, 1, WRONG, version=0),
    "a reply of version 3": message(RESPONSE, 1, WRONG, version=3),
    "a report": message(REPORT, 1, WRONG),
    "the request": message(GET, 1, [(NAMES[1], NULL)]),
    "an INTEGER of five octets": message(RESPONSE, 1, [(NAMES[1], element(0x02, bytes(4) + b"\x07"))]),
    "an INTEGER of no octets": message(RESPONSE, 1, [(NAMES[1], element(0x02, b""))]),
    "a Counter32 above its range": message(RESPONSE, 1, [(NAMES[1], element(0x41, b"\x01" + bytes(4)))]),
    "an IpAddress of three octets": message(RESPONSE, 1, [(NAMES[1], element(0x40, bytes(3)))]),
    "a NULL with an octet": message(RESPONSE, 1, [(NAMES[1], element(0x05, b"\0"))]),
    "a value of an unknown type": message(RESPONSE, 1, [(NAMES[1], element(0x45, b"\0"))]),
    "a name with a number that begins with zeros": RIGHT.replace(b"\x01\x01\x00\x02\x01\x07",
                                                                 b"\x80\x01\x00\x02\x01\x07"),
    "a name of 129 numbers": message(RESPONSE, 1, [(NAMES[1], integer(7)), ((1, 3) + (1,) * 127, NULL)]),
    "a message within another": element(0x30, RIGHT),
}
assert all(stray != RIGHT for stray in STRAYS.values())
for kind, stray in STRAYS.items():
    walks(f"ignored: {kind}", f"snmpget -On -r 0 AGENT {ROOT}.1.0",
          lambda seen, stray=stray: [stray, reply_from(ROWS, seen[-1])], FIRST, asked=get(NAMES[1]))
walks("after 63 datagrams that aren't replies, a reply is received", f"snmpget -On -r 0 AGENT {ROOT}.1.0",
      lambda seen: [b"\x30"] * 63 + [reply_from(ROWS, seen[-1])], FIRST, asked=get(NAMES[1]))
walks("64 datagrams that aren't replies end a try", f"snmpget -On -r 1 AGENT {ROOT}.1.0",
      lambda seen: [b"\x30"] * 64 + [reply_from(ROWS, seen[-1])] if len(seen) == 1 else [], FIRST,
      asked=get(NAMES[1]) * 2)
walks("64 datagrams that aren't replies end the last try", f"snmpwalk -On -r 0 AGENT {ROOT}",
      lambda seen: [b"\x30"] * 64 + [reply_from(ROWS, seen[-1])], "", SILENT, 1, asked=nexts(R))

# Error statuses.
for number, name in enumerate([*STATUSES, "unknown"], 1):
    walks(f"an error status: {name}", f"snmpget AGENT {ROOT}", failing(number, 1), "",
          f"Error in packet: {name} ({number}), index 1\n", 2, asked=get(R))
walks("an error status in the middle of a walk", f"snmpwalk -On -Cp AGENT {ROOT}",
      lambda seen: (serving(ROWS) if len(seen) == 1 else failing(5, 1, [row(2)]))(seen), FIRST,
      "Error in packet: genErr (5), index 1\n", 2, asked=nexts(*NAMES[:2]))
walks("an error status in the reply to the last Get", f"snmpwalk -On AGENT {ROOT}",
      lambda seen: (serving({}) if len(seen) == 1 else failing(16, 0))(seen), "",
      "Error in packet: authorizationError (16), index 0\n", 2, asked=nexts(R) + get(R, id=2))
walks("an error status without a name", f"snmpwalk -On AGENT {ROOT}", failing(19, 0), "",
      "Error in packet: unknown (19), index 0\n", 2, asked=nexts(R))
walks("an error status below 0", f"snmpbulkwalk AGENT {ROOT}", failing(-1, -2147483648), "",
      "Error in packet: unknown (-1), index -2147483648\n", 2, asked=bulks(10, R))

# Replies that an agent must not send.
walks("a name that occurs again", f"snmpwalk -On AGENT {ROOT}", saying([row(2)], [row(2)]), line(2),
      f"Error: OID not increasing: {ROOT}.2.0 >= {ROOT}.2.0\n", 1, asked=nexts(R, R + (2, 0)))
walks("a name smaller than the one before", f"snmpwalk -On AGENT {ROOT}", saying([row(2)], [row(1)]), line(2),
      f"Error: OID not increasing: {ROOT}.2.0 >= {ROOT}.1.0\n", 1, asked=nexts(R, R + (2, 0)))
walks("a name smaller than the one before in a reply", f"snmpbulkwalk -On -Cr3 AGENT {ROOT}",
      saying([row(1), row(3), row(2)]), line(1) + line(3), f"Error: OID not increasing: {ROOT}.3.0 >= {ROOT}.2.0\n", 1,
      asked=bulks(3, R))
walks("a name before that of --after", f"snmpwalk -On --after {ROOT}.5 AGENT {ROOT}", saying([row(4)]), "",
      f"Error: OID not increasing: {ROOT}.5 >= {ROOT}.4.0\n", 1, asked=nexts(R + (5,)))
walks("the root itself ends a walk", f"snmpwalk -On -CI AGENT {ROOT}", saying([(R, NULL)]), asked=nexts(R))
walks("a name before the root ends a walk", f"snmpwalk -On -CI AGENT {ROOT}", saying([((1, 3), NULL)]),
      asked=nexts(R))
walks("two bindings in the reply to a GetNext of one name", f"snmpwalk -On AGENT {ROOT}", saying([row(1), row(2)]), "",
      BAD, 1, asked=nexts(R))
walks("three bindings in the reply to a GetBulk of two", f"snmpbulkwalk -On -Cr2 AGENT {ROOT}",
      saying([row(1), row(2), row(3)]), "", BAD, 1, asked=bulks(2, R))
walks("noSuchObject in the middle of a walk", f"snmpwalk -On -Cp AGENT {ROOT}",
      saying([row(1)], [(R + (2, 0), OBJECT)]), line(1), BAD, 1, asked=nexts(R, R + (1, 0)))
walks("noSuchInstance after a row of a reply", f"snmpbulkwalk -On AGENT {ROOT}",
      saying([row(1), (R + (2, 0), INSTANCE)]), "", BAD, 1, asked=bulks(10, R))
walks("a reply without bindings", f"snmpwalk -On AGENT {ROOT}", saying([]), "", f"No progress after {ROOT}\n", 1,
      asked=nexts(R))
walks("a later reply without bindings", f"snmpbulkwalk -On -Cp AGENT {ROOT}", saying([row(1), row(2)], []),
      line(1) + line(2), f"No progress after {ROOT}.2.0\n", 1, asked=bulks(10, R, R + (2, 0)))
walks("a reply without bindings for a padded root", "snmpwalk -On AGENT .1", saying([]), "", "No progress after .1.0\n",
      1, asked=nexts((1, 0)))
for what, bindings in {"another name": [row(1)], "endOfMibView": [(R, END)], "no bindings": [],
                       "two bindings": [(R, NULL), (R, NULL)]}.items():
    walks(f"the reply to the last Get has {what}", f"snmpwalk -On AGENT {ROOT}", saying([(R, END)], bindings), "", BAD,
          1, asked=nexts(R) + get(R, id=2))
    walks(f"the reply to the first Get has {what}", f"snmpbulkwalk -On -Ci AGENT {ROOT}", saying(bindings), "", BAD, 1,
          asked=get(R))
walks("the rest of a reply after endOfMibView isn't printed", f"snmpbulkwalk -On AGENT {ROOT}",
      saying([row(1), (R + (1, 0), END), row(2)]), line(1), asked=bulks(10, R))
walks("endOfMibView for each remaining repetition is accepted", f"snmpbulkwalk -On AGENT {ROOT}",
      saying([row(1)] + [(R + (1, 0), END)] * 9), line(1), asked=bulks(10, R))

# Gets of several names.
walks("a get asks once for all names", f"snmpget -On AGENT {ROOT}.10.0 {ROOT}.1.0 .1", serving(ROWS),
      THIRD + FIRST + f".1.0 = {NO_OBJECT}\n", asked=get(NAMES[3], NAMES[1], (1, 0)))
walks("a get prints exceptions", f"snmpget -On AGENT {ROOT}.1.0 {ROOT}.2",
      saying([(NAMES[1], OBJECT), (R + (2,), INSTANCE)]),
      f"{ROOT}.1.0 = {NO_OBJECT}\n{ROOT}.2 = {NO_INSTANCE}\n", asked=get(NAMES[1], R + (2,)))
for what, bindings in {"other names": [row(1), row(3)], "names in another order": [row(2), row(1)],
                       "fewer names": [row(1)], "more names": [row(1), row(2), row(3)], "no names": [],
                       "endOfMibView": [row(1), (R + (2, 0), END)]}.items():
    walks(f"the reply to a get has {what}", f"snmpget -On AGENT {ROOT}.1.0 {ROOT}.2.0", saying(bindings), "", BAD, 1,
          asked=get(R + (1, 0), R + (2, 0)))

# Tables that change during a walk: a name that the table always has is printed once.
BEFORE = {R + (i,): integer(1) for i in (1, 2, 4)}
AFTER = {R + (i,): integer(2) for i in (0, 2, 3, 4)}
walks("rows appear and disappear during a walk", f"snmpwalk -On AGENT {ROOT}",
      lambda seen: [reply_from(BEFORE if len(seen) == 1 else AFTER, seen[-1])],
      f"{ROOT}.1 = INTEGER: 1\n{ROOT}.2 = INTEGER: 2\n{ROOT}.3 = INTEGER: 2\n{ROOT}.4 = INTEGER: 2\n",
      asked=nexts(R, *(R + (i,) for i in (1, 2, 3, 4))))
walks("rows appear and disappear during a bulk walk", f"snmpbulkwalk -On -Cr2 AGENT {ROOT}",
      lambda seen: [reply_from(BEFORE if len(seen) == 1 else AFTER, seen[-1])],
      f"{ROOT}.1 = INTEGER: 1\n{ROOT}.2 = INTEGER: 1\n{ROOT}.3 = INTEGER: 2\n{ROOT}.4 = INTEGER: 2\n",
      asked=bulks(2, R, R + (2,), R + (4,)))
walks("all rows disappear during a walk", f"snmpwalk -On -Cp AGENT {ROOT}",
      lambda seen: [reply_from(BEFORE if len(seen) == 1 else {}, seen[-1])],
      f"{ROOT}.1 = INTEGER: 1\nVariables found: 1\n", asked=nexts(R, R + (1,)))


@test("walks over networks that lose, repeat and delay datagrams print all rows")
def unlucky_walks():
    rows = {R + (i,): integer(i) for i in range(12)}
    lines = lines_of(rows)

    def walk(seed):
        rng = random.Random(seed)

        def unlucky(seen):
            own = [] if rng.random() < 0.2 else [reply_from(rows, seen[-1])] * rng.choice([1, 1, 2])
            earlier = [reply_from(rows, rng.choice(seen)) for _ in range(rng.choice([0, 0, 1, 3]))]
            return rng.sample(own + earlier, len(own + earlier))
        ran = run(["snmpbulkwalk", "-On", "-Cr3", "-r", "1000", "AGENT", ROOT], unlucky)
        sent = [datagram for datagram, _ in itertools.groupby(ran.requests)]
        right = (*ran[:3], sent) == (0, lines, "", bulks(3, R, *list(rows)[2::3]))
        return "" if right else f"seed {seed}: {ran}"
    return wrongs(*side_by_side(walk, range(8), 8))


# Catches: a program that ends with status 0 after an error, or that prints a value which no reply has.
@test("replies with random faults end a get in an expected way")
def faulty_replies():
    rng = random.Random(1)
    wrong, ends = [], set()
    for _ in range(200):
        faulty = mutate(rng, message(RESPONSE, 1, [(NAMES[1], integer(1)), (NAMES[2], text(b"wes"))]))
        words = ["snmpget", "-On", "-r", "0", "AGENT", f"{ROOT}.1.0", f"{ROOT}.2.0"]
        ran = run(patient(words), lambda seen: [faulty, reply_from(ROWS, seen[-1])])
        asked = read(ran.requests[0])
        datagrams = [faulty, reply_from(ROWS, asked)]
        ends.add(ran.status)
        found = [*faults_of(words, ran, [(asked, datagram) for datagram in datagrams]), *ran.faults]
        if ran[:3] not in ends_of_get(asked, datagrams):
            found.append("a Get can't end like this after these datagrams")
        wrong += [f"{faulty.hex()}: {fault}\n    {ran}" for fault in found]
    return wrongs(*wrong, differs({0, 1} <= ends, True))


# -- snmpd against requests of this script

@test("snmpd replies to Get, GetNext, GetBulk and Set, and to nothing else")
def snmpd_replies():
    names = [R, *AGENT_ROWS, E + (10,), R + (2, 5), (0, 0), (2, 4294967295)]
    missing = {**AGENT_ROWS, R + (2, 5): INSTANCE}
    cases = {}

    def case(title, datagram, *replies):
        cases[title] = datagram, list(replies)

    def asks(title, kind, names, a=0, b=0, id=1, rows=AGENT_ROWS):
        datagram = message(kind, id, [(name, NULL) for name in names], a, b)
        case(title, datagram, reply_from(rows, read(datagram)))

    asks("Get", GET, names, rows=missing)
    asks("Get without names", GET, [])
    asks("GetNext", NEXT, names)
    asks("GetBulk without non-repeaters", BULK, [R, E], 0, 2)
    asks("GetBulk with non-repeaters", BULK, names, 2, 3)
    asks("GetBulk with non-repeaters only", BULK, names, 100, 3)
    asks("GetBulk up to the end", BULK, [R, E + (10,)], 1, 2147483647)
    asks("GetBulk with negative repetitions", BULK, names, -1, -2147483648)
    asks("GetBulk with negative non-repeaters", BULK, [R], -2147483648, 2)
    for id in (0, -1, 128, 2147483647, -2147483648):
        asks(f"id {id}", GET, [R + (1, 0)], id=id)
    right = message(GET, 1, [(R + (1, 0), NULL)])
    answer = message(RESPONSE, 1, [(R + (1, 0), integer(1))])
    assert len(right) < 128
    case("a long form of the length", b"\x30\x84\0\0\0" + right[1:], answer)
    case("a value in a Get", message(GET, 1, [(R + (1, 0), text(b"x"))]), answer)
    case("an error status in a Get", message(GET, 1, [(R + (1, 0), NULL)], 5, 1), answer)
    bindings = [(R + (1, 0), integer(7)), (R + (2, 0), text(b"x"))]
    case("Set", message(SET, 1, bindings), message(RESPONSE, 1, bindings, 17, 1))
    case("Set without names", message(SET, 1, []), message(RESPONSE, 1, [], 17, 0))
    case("another community", message(GET, 1, [(R + (1, 0), NULL)], community=b"Public"))
    case("no community", message(GET, 1, [(R + (1, 0), NULL)], community=b""))
    case("version 1", message(GET, 1, [(R + (1, 0), NULL)], version=0))
    case("version 3", message(GET, 1, [(R + (1, 0), NULL)], version=3))
    for kind in (RESPONSE, INFORM, TRAP, REPORT):
        case(f"PDU {kind:X}", message(kind, 1, [(R + (1, 0), NULL)]))
    case("no octet", b"")
    case("one octet", b"\x30")
    case("all but the last octet", right[:-1])
    case("an octet more", right + b"\0")
    case("an indefinite length", b"\x30\x80" + right[2:] + b"\0\0")
    case("the longest datagram", b"\x30" * 65507)
    wrong = []
    with Server("--max-size", "65507") as server:
        for title, (datagram, wanted) in cases.items():
            differing = sent_not(server.ask(datagram), wanted)
            wrong.append(differing and f"{title}: {differing}")
    return wrongs(*wrong)


@test("snmpd replies to 500 random requests as the standard says")
def snmpd_random():
    rng = random.Random(1)

    def some_name():
        return (1, 3, *(rng.choice([0, 1, 2, 128, 4294967295]) for _ in range(rng.randint(1, 4))))

    wrong = []
    for size in 200, 1472:
        rows = {some_name(): integer(rng.randrange(-200, 200)) for _ in range(40)}
        with Server("--max-size", str(size), table=table_text(rows), datagrams=500) as server:
            for _ in range(250):
                names = [(some_name(), NULL) for _ in range(rng.randint(0, 5))]
                kind, id = rng.choice([GET, NEXT, BULK]), rng.randrange(-2 ** 31, 2 ** 31)
                a, b = rng.choice([-1, 0, 1, 3]), rng.choice([-1, 0, 1, 2, 20, 2147483647])
                asked = message(kind, id, names, a, b)
                wrong.append(sent_not(server.ask(asked), [reply_within(rows, read(asked), size)]))
    return wrongs(*wrong)


@test("whichever octet of a request is replaced, a reply has its shortest encoding")
def snmpd_octets():
    asked, replies, wrong = message(NEXT, 1, [(E + (1,), NULL)]), 0, []
    with Server(datagrams=2 * 256 * len(asked)) as server:
        for offset, octet in itertools.product(range(len(asked)), range(256)):
            changed = asked[:offset] + bytes([octet]) + asked[offset + 1:]
            for got in server.ask(changed):
                it = read(got)
                shortest = message(it.kind, it.id, it.bindings, it.a, it.b, it.community, it.version)
                replies += 1
                if got != shortest or it.kind != RESPONSE:
                    wrong.append(f"{changed.hex()} has the reply {got.hex()}")
    return wrongs(*wrong[:5], "" if replies >= 1000 else f"{replies} replies")


# This script may read a datagram as a request that snmpd, which checks more, drops. So a datagram may have no reply,
# but not a wrong one. Catches: a server that replies wrongly to a datagram that is still a request, or replies to one
# that isn't.
@test("snmpd still replies after 300 requests with random faults")
def snmpd_faults():
    rng = random.Random(1)
    kinds = [message(kind, 1, [(R, NULL), (R + (1, 0), NULL)], 1, 2) for kind in (GET, NEXT, BULK, SET)]
    right = message(NEXT, 2, [(R, NULL)])
    wrong, replies = [], 0
    with Server(datagrams=1200) as server:
        for _ in range(300):
            faulty = mutate(rng, rng.choice(kinds))
            it, got = read_or_none(faulty), server.ask(faulty)
            asks = it is not None and it[:2] == (1, b"public") and it.kind in (GET, NEXT, BULK, SET)
            replies += len(got)
            if got not in ([], [reply_within(AGENT_ROWS, it, 1472, OBJECTS)] if asks else []):
                wrong.append(f"{faulty.hex()} has the reply {hex_lines(got)}")
            if server.ask(right) != [message(RESPONSE, 2, [(R + (1, 0), integer(1))])]:
                wrong.append(f"after {faulty.hex()}")
    return wrongs(*wrong, "" if replies >= 10 else f"{replies} replies")


@test("snmpd replies only to the community of -c")
def snmpd_community():
    with Server("-c", "other") as server:
        asked = message(GET, 1, [(R, NULL)])
        own = message(GET, 1, [(R, NULL)], community=b"other")
        return differs([server.ask(asked, b"other"), server.ask(own, b"other")],
                       [[], [message(RESPONSE, 1, [(R, OBJECT)], community=b"other")]])


@test("snmpd sends at most --max-size octets")
def snmpd_sizes():
    rows = {R + (i, 0): integer(i) for i in range(1, 7)}
    bulk = message(BULK, 1, [(R, NULL)], 0, 10)
    wrong = []
    for size, count, octets in (134, 5, 116), (135, 6, 135), (152, 6, 135), (153, 7, 153), (1472, 7, 153):
        with Server("--max-size", str(size), table=table_text(rows)) as server:
            whole = reply(read(bulk), answer_bindings(rows, read(bulk))[:count])
            assert len(whole) == octets
            wrong.append(differs(server.ask(bulk), [whole]))
    # The reply that ends an `ask` is longer than the smallest of these sizes. So the counts show whether the request
    # was dropped. The remaining turns pass without a datagram.
    sizes = (43, ANSWER), (42, TOO_BIG), (26, TOO_BIG), (25, None)
    with contextlib.ExitStack() as stack:
        table = dotted(NAME) + "|4|wes\n"
        servers = [stack.enter_context(Server("--max-size", str(size), "--turns", "11", table=table))
                   for size, _ in sizes]
        for server in servers:
            server.send(ASKED)
        for server, (_, wanted) in zip(servers, sizes):
            if wanted is not None:
                wrong.append(differs(server.receive(), wanted))
            counts = "0 replies, 1 dropped\n" if wanted is None else "1 replies, 0 dropped\n"
            wrong.append(differs(server.end(), (0, counts, "")))
    return wrongs(*wrong)


# Catches: a server that receives only the first 484 or 4,096 octets of a datagram, so that its reply is another or
# missing.
@test("snmpd replies to requests of 2,000 and of 60,000 octets with each of their bindings")
def snmpd_long_requests():
    rows, wrong = {R + (i,): integer(i) for i in range(0, 500, 8)}, []
    with Server("--max-size", "65507", table=table_text(rows)) as server:
        for size, count in (2000, 110), (60000, 3300):
            names = [R + (i * 7 % 501,) for i in range(count)]
            for kind, a, b in (GET, 0, 0), (NEXT, 0, 0), (SET, 0, 0), (BULK, count, 0), (BULK, count - 9, 30):
                asked = asking(size, kind, names, a, b)
                wrong.append(sent_not(server.ask(asked), [reply_within(rows, read(asked), 65507)]))
    return wrongs(*wrong)


# Catches: a server that sends only the first 4,096 octets of a reply, or whose limit is less than --max-size.
@test("snmpd sends complete replies of 5,000, 65,000 and 65,507 octets, and none that is an octet longer")
def snmpd_long_replies():
    wrong, exact, longer = [], E + (2, 1), E + (2, 2)
    for size in 5000, 65000, 65507:
        # The reply with the value of `exact` has `size` octets, the one with the value of `longer` an octet more. Below
        # R there are more rows, all of one length, than fit into a reply.
        count = size // len(element(0x30, identifier(R + (1000,)) + integer(1)))
        bound = {R + (1000 + i,): integer(i % 100) for i in range(count + 9)}
        for name, octets in (exact, size), (longer, size + 1):
            whole = of_size(octets, lambda left, name=name: message(RESPONSE, 1, [(name, text(b"x" * left))]))
            bound.update(read(whole).bindings)
        with Server("--max-size", str(size), table=table_text(bound)) as server:
            for kind, name, right in ((GET, exact, bound[exact]), (NEXT, E + (2,), bound[exact]), (GET, longer, None),
                                      (NEXT, exact, None)):
                it = message(RESPONSE, 1, [(exact, right)] if right else [], 0 if right else 1)
                wrong.append(differs(len(it), size if right else len(TOO_BIG)))
                wrong.append(sent_not(server.ask(message(kind, 1, [(name, NULL)])), [it]))
            shorter = (message(RESPONSE, 1, list(bound.items())[:n]) for n in range(count + 9, 0, -1))
            wrong.append(sent_not(server.ask(message(BULK, 1, [(R, NULL)], 0, count + 9)),
                                  [next(it for it in shorter if len(it) <= size)]))
    return wrongs(*wrong)


# A datagram can arrive from port 0, but none can be sent there. Catches: a server that counts a reply that couldn't be
# sent, as a reply or as a dropped datagram; one that ends then.
@test("a reply that can't be sent isn't counted, and snmpd continues", lacks_raw_datagrams())
def snmpd_unsent():
    with Server("--turns", "12") as server, \
            socket.socket(socket.AF_INET, socket.SOCK_RAW, socket.IPPROTO_UDP) as raw:
        asked = message(GET, 1, [])
        raw.sendto(struct.pack("!4H", 0, server.port, 8 + len(asked), 0) + asked, ("127.0.0.1", 0))
        return differs((server.ask(message(GET, 2, [])), server.end()),
                       ([message(RESPONSE, 2, [])], (0, "2 replies, 0 dropped\n", "")))


@test("snmpd serves a table with names of objects to the program's own commands")
def snmpd_names():
    modules, table = f"{programs.TESTS}/data/tiny.txt", programs.read_file("tests/data/two.tab")
    lines = ["TINY-MIB::tinyState.0 = INTEGER: up(1)\n", 'TINY-MIB::tinyMac."a|b" = STRING: 0:16:3e:5a:78:8e\n',
             "TINY-MIB::tiny.9.0 = OID: TINY-MIB::tinyMac\n"]
    wrong = []
    with Server("--mib", modules, "--turns", "600", table=table) as server:
        for command, names, wanted in (("snmpwalk", ["tiny"], lines), ("snmpbulkwalk", ["tiny"], lines),
                                       ("snmpget", ["tiny.9.0", 'tinyMac."a|b"'], [lines[2], lines[1]])):
            ran = programs.run(command, "--mib", modules, server.address, *names)
            wrong.append(differs(ran, (0, "".join(wanted), WARNINGS)))
        server.program.send_signal(signal.SIGTERM)
        wrong.append(differs(server.end().messages, WARNINGS))
    return wrongs(*wrong)


# If all datagrams were sent within a second of the server's start, each turn received one. Otherwise turns may have
# passed without one, but the counts are never greater than the number of turns. Catches: a server with one turn more or
# less than --turns.
@test("each datagram is a turn of snmpd, and there are as many turns as --turns says")
def snmpd_as_many_turns():
    counts = [(0, f"{turns // 2} replies, {turns - turns // 2} dropped\n", "") for turns in range(6)]
    for _ in range(50):
        with Server("--turns", "5") as server:
            for id in range(15):
                server.send(message(GET, id, [], community=b"public" if id % 2 else b"other"))
            prompt = time.monotonic() - server.begun < 0.9
            outcome = server.end()
        if prompt or outcome not in counts:
            return differs(outcome, counts[5])
    return "in each of fifty rounds, fifteen datagrams took a second to send"


@test("snmpd replies to each sender")
def snmpd_senders():
    with Server() as server, socket.socket(socket.AF_INET, socket.SOCK_DGRAM) as other:
        other.settimeout(60)
        server.send(message(GET, 1, []))
        other.sendto(message(GET, 2, []), ("127.0.0.1", server.port))
        server.send(message(GET, 3, []))
        ids = [read(server.receive()).id, read(server.receive()).id, read(other.recv(65535)).id]
        return differs(ids, [1, 3, 2])


@test("snmpd listens on a named host, and on all of the machine's addresses")
def snmpd_hosts():
    wrong = []
    for host in "localhost", "0.0.0.0":
        with Server(host=host) as server:
            wrong.append(differs(server.listening, f"listening on {host}:{server.port}\n"))
            wrong.append(differs(server.ask(ASKED), [message(RESPONSE, 1, [(NAME, OBJECT)])]))
    return wrongs(*wrong)


@test("an snmpd that is stopped for a moment continues")
def snmpd_stopped():
    with Server() as server:
        programs.stop(server.program.pid, 0.1)
        return differs(server.ask(message(GET, 1, [])), [message(RESPONSE, 1, [])])


@test("snmpd listens on the port of --listen and no other")
def snmpd_port():
    with Server() as server:
        return differs(sockets_of(server.program.pid), (1, [f"0100007F:{server.port:04X}"]))


@test("snmpd refuses a port that another program listens on")
def snmpd_twice():
    with Server() as server:
        ran = programs.run("snmpd", "--table", server.file.name, "--listen", server.address, "--turns", "1")
        return differs(ran, (1, "", NO_LINK))


@test("a signal ends snmpd, and its port is free again")
def snmpd_killed():
    with Server() as server:
        server.program.terminate()
        outcome = server.end()
        ran = programs.run("snmpd", "--table", server.file.name, "--listen", server.address, "--turns", "0")
        return differs((outcome, ran), ((-signal.SIGTERM, "", ""),
                                      (0, f"listening on {server.address}\n0 replies, 0 dropped\n", "")))


# -- walks of snmpd over a network with faults

WALKS, SEED = int(os.environ.get("WALKS", 16)), int(os.environ.get("SEED", 0))


def relayed_walk(seed):
    """Walks a random table through a relay, which mutates datagrams if the seed is odd. Returns what is wrong, and
    whether all rows were printed. If a mutated datagram was still a message, less is required: whole lines with names
    that increase below the root, each from a reply to the waiting request, and one of the known ends."""
    rng = random.Random(seed)
    walk = random_walk(rng)
    with Server("--max-size", str(walk.size), table=walk.table, datagrams=10000) as server, \
            Relay(server.port, rng, rng.choice([2, 5, 10]) / len(walk.lines), seed % 2 == 1) as relay:
        words = [*walk.words, "-t", "1", "-r", str(rng.choice([0, 1, 5, 5])), relay.address, ROOT]
        ran = programs.run_command([programs.PROGRAM, *words])
    ran = ran._replace(messages=ran.messages.replace(relay.address, "AGENT"))
    if ran == (0, "".join(walk.lines), ""):
        return "", True
    wrong = differs(ran, (1, "".join(walk.lines[:ran.output.count("\n")]), SILENT))
    if wrong and relay.tainted:
        wrong = wrongs(*faults_of(words, ran, relay.sent))
    return wrong and f"seed {seed}: {words}: {wrong}\n  {ran}", False


@test("over a network with faults a walk prints all rows, or some from the first on and that the agent didn't reply")
def relayed_walks():
    outcomes = list(side_by_side(relayed_walk, range(SEED, SEED + WALKS), 16))
    return wrongs(*(wrong for wrong, _ in outcomes),
                  differs(WALKS < 16 or any(whole for _, whole in outcomes), True))


if __name__ == "__main__":
    sys.exit(tests.main(sys.argv[1:], programs.BUILT))
