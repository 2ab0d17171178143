"""Checks which commands this machine has, and what they can do here. A function `lacks..` returns a message that says
what is missing, or an empty string.
"""
import functools
import shutil
import socket
import subprocess


def lacks(*names):
    """Returns which of these commands is missing, the first if several are."""
    missing = [name for name in names if shutil.which(name) is None]
    return f"no {missing[0]} here" if missing else ""


@functools.lru_cache(None)
def unless(reason, *words):
    """Returns `reason` if a command fails or takes longer than a minute, and what is missing if it doesn't exist."""
    try:
        ran = subprocess.run(words, stdin=subprocess.DEVNULL, capture_output=True, timeout=60, check=False)
        return reason if ran.returncode else ""
    except (OSError, subprocess.TimeoutExpired):
        return lacks(words[0]) or reason


def lacks_compiler():
    """Returns what is missing for building a library that a program loads before the C library."""
    return "no C compiler here (cc)" if lacks("cc") else ""


def lacks_traces():
    """Returns what is missing for tracing system calls and replacing their results."""
    return unless("strace sees no program here", "strace", "-o", "/dev/null", "true")


def lacks_counts():
    """Returns what is missing for counting the instructions of a program."""
    return unless("valgrind runs no program here", "valgrind", "--tool=none", "true")


def lacks_mounts():
    """Returns what is missing for mounting files and disks that only one program sees."""
    return lacks("mount") or unless("no file can be mounted here (unshare -rm)",
                                    "unshare", "-rm", "mount", "--bind", "/etc/hosts", "/etc/hosts")


def lacks_networks():
    """Returns what is missing for a network that only one program sees."""
    return unless("no network to itself here (unshare -rn)", "unshare", "-rn", "sh", "-c",
                  "echo 40000 40001 >/proc/sys/net/ipv4/ip_local_port_range")


def lacks_raw_datagrams():
    """Returns what is missing for sending datagrams whose source port is 0."""
    try:
        socket.socket(socket.AF_INET, socket.SOCK_RAW, socket.IPPROTO_UDP).close()
    except OSError:
        return "no raw socket can be opened here (CAP_NET_RAW)"
    return ""


def lacks_limits():
    """Returns what is missing for limiting the resources of a program."""
    return unless("prlimit sets no limits here", "prlimit", "--fsize=1000", "true")


def lacks_signals():
    """Returns what is missing for starting a program that ignores no signal, or that ignores one."""
    return unless("env has no --default-signal here (coreutils 8.31)", "env", "--default-signal=HUP",
                  "env", "--ignore-signal=HUP", "true")


def lacks_parallel():
    """Returns what is missing for running GNU parallel. Another command is also called `parallel`."""
    return lacks("parallel") or unless("the parallel here isn't GNU parallel", "sh", "-c",
                                       "parallel --version | grep -q 'GNU parallel'")
