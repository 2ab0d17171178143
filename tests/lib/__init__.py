"""The modules that the scripts of tests/ share.

    messages   encodes and decodes SNMP messages, and computes an agent's reply from its rows
    texts      the lines that the program prints for names and values
    rows       the rows that most tests serve, as a table file and as the lines of a walk
    programs   finds, starts and ends the built programs
    pipes      reads and writes the pipes of a program, without waiting for a program that has ended
    ports      finds UDP ports that no program uses
    agents     agents that a script plays, and runs of the program against them
    server     starts the program's own snmpd
    relays     a network with faults between a walker and an agent
    mutations  makes faulty datagrams from good ones, and checks what the program did with them
    commands   checks which commands this machine has, and what they can do here
    smi        reads module files, to compare them with what the program reads
    packages   compares the facts of modules with packages of Debian
    runner     chooses and runs the tests of a script, and counts them

Python 3.9 or later is required. A script that imports this package uses only the syntax of Python 3.6, so that an
older interpreter gets as far as the check below.
"""
import sys

LEAST = (3, 9)

if sys.version_info < LEAST:
    sys.exit("{}: Python {}.{} or a later one is needed, and this is {}.{}".format(
        sys.argv[0], *LEAST, *sys.version_info[:2]))
