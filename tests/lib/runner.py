"""Runs the tests of a script, which are unittest's, up to 16 at the same time.

The arguments of a script choose its tests: those whose titles contain one of them, or all if there are none. The last
line of a script is 'N passed, M failed, K skipped'. Its status is 0 if no test failed and at least one passed or was
skipped. Each skipped test is on standard error, as 'not tried: TITLE: REASON'.
"""
import concurrent.futures
import multiprocessing.connection
import signal
import sys
import unittest

from lib import programs

# Because of this name unittest leaves the lines of this module out of the tracebacks that it prints.
__unittest = True


def differs(got, wanted):
    """Returns a message that shows both values, or an empty string if they are equal."""
    return "" if got == wanted else f"{got!r}\n  not {wanted!r}"


def hex_lines(datagrams):
    """Returns the first 200 octets of each datagram in hexadecimal, one datagram a line, or 'none'."""
    return "\n    ".join(datagram.hex()[:400] for datagram in datagrams) or "none"


def sent_not(got, wanted):
    """Returns a message that shows the datagrams sent and the expected ones, or an empty string if they are equal."""
    return "" if list(got) == list(wanted) else f"sent\n    {hex_lines(got)}\n  not\n    {hex_lines(wanted)}"


def wrongs(*found):
    """Joins the messages that aren't empty, each on its own line."""
    return "\n  ".join(filter(None, found))


class Test(unittest.TestCase):
    """A test with a title. It fails if its function raises an exception, or returns a string that isn't empty, which
    says what is wrong. If `lacks` isn't empty, it is the reason why the test is skipped."""

    def __init__(self, title, function, lacks=""):
        super().__init__("check")
        self.title, self.function, self.lacks = title, function, lacks

    def __str__(self):
        return self.title

    def check(self):
        if self.lacks:
            self.skipTest(self.lacks)
        if wrong := self.function():
            self.fail(wrong)

    def wrong(self):
        """Runs the test, and returns what is wrong, or an empty string if it passes or is skipped."""
        failures, errors, _ = outcome(self)
        return "".join(text.removeprefix("AssertionError: ") for text in failures + errors)


def outcome(test):
    """Runs a test. Returns the messages of its failures, those of its errors, and the reasons why it was skipped."""
    result = unittest.TestResult()
    test.run(result)
    return [[text for _, text in found] for found in (result.failures, result.errors, result.skipped)]


def in_processes(tests, count):
    """Runs each test in a process of its own, up to `count` at the same time. Yields each with its outcome as it ends.
    The processes end when the script does."""
    fork, left, running = multiprocessing.get_context("fork"), list(tests), {}
    while left or running:
        while left and len(running) < count:
            test, (back, there) = left.pop(0), fork.Pipe(duplex=False)
            process = fork.Process(target=lambda: there.send(outcome(test)), daemon=True)
            process.start()
            there.close()
            running[back] = process, test
        for back in multiprocessing.connection.wait(list(running)):
            process, test = running.pop(back)
            try:
                found = back.recv()
            except EOFError:
                process.join()
                found = [[f"its process ended with status {process.exitcode}"], [], []]
            yield test, found


class SideBySide(unittest.TestSuite):
    """Tests that run up to `count` at the same time: in threads, since most spend their time waiting, or in
    processes."""

    def __init__(self, tests, count, processes):
        super().__init__(tests)
        self.count, self.processes = count, processes

    def run(self, result, debug=False):
        in_threads = zip(self, side_by_side(outcome, self, self.count))
        for test, found in in_processes(self, self.count) if self.processes else in_threads:
            result.startTest(test)
            for texts, listed in zip(found, (result.failures, result.errors, result.skipped)):
                listed.extend((test, text) for text in texts)
            result.stopTest(test)
        return result


class Tests(list):
    """The tests of a script."""

    def __init__(self, script):
        super().__init__()
        self.script = script

    def test(self, title, lacks=""):
        """Returns a decorator that adds a function as a test with this title. If `lacks` isn't empty, it is the reason
        why the test can't run here."""
        def mark(function):
            self.append(Test(title, function, lacks))
            return function
        return mark

    def main(self, words, *built, lacks="", prepare=None, count=16, processes=False):
        """Runs the tests that the words choose, up to `count` at the same time, and returns the script's status: 2 if
        a word is in no title, and 1 if one of the programs `built` isn't current. If `lacks` isn't empty, the tests are
        skipped for this reason. Otherwise `prepare` is called before the first test. With `processes`, each runs in a
        process of its own and not in a thread: they compute much, or change what all threads share."""
        for word in words:
            if not any(word in test.title for test in self):
                print(f"{self.script}: no test here has {word!r} in its title", file=sys.stderr)
                return 2
        if not programs.are_current(self.script, *built):
            return 1
        end_at_signals()
        chosen = [test for test in self if not words or any(word in test.title for word in words)]
        for test in chosen:
            test.lacks = test.lacks or lacks
        if prepare and not lacks:
            prepare()
        result = unittest.TextTestRunner(sys.stdout).run(SideBySide(chosen, count, processes))
        for test, reason in result.skipped:
            print(f"not tried: {test}: {reason}", file=sys.stderr)
        failed, skipped = len(result.failures) + len(result.errors), len(result.skipped)
        print(f"{result.testsRun - failed - skipped} passed, {failed} failed, {skipped} skipped", flush=True)
        return 0 if chosen and not failed else 1


def end_at_signals():
    """Lets SIGINT, SIGTERM and SIGHUP, unless they are ignored, end the script. First they kill all programs that it
    started, so that no thread waits for one any longer."""
    def end(number, _):
        programs.end_all()
        raise SystemExit(128 + number)

    for number in signal.SIGINT, signal.SIGTERM, signal.SIGHUP:
        if signal.getsignal(number) is not signal.SIG_IGN:
            signal.signal(number, end)


def side_by_side(function, items, count):
    """Yields what the function returns for each item, in the order of the items. Up to `count` calls run at once."""
    pool = concurrent.futures.ThreadPoolExecutor(count)
    try:
        yield from pool.map(function, items)
    finally:
        pool.shutdown(cancel_futures=True)
