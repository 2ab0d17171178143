#!/usr/bin/env python3
"""Checks, in a copy, that `rt fmt` leaves each crate unchanged. `rt ci` checks this too, but for each crate only after
the crates that it uses are proved.

usage: layout.py [WORD..]
"""
import os
import shutil
import sys
import tempfile

from lib.programs import TOP, run_command
from lib.runner import Tests, differs

tests = Tests("tests/layout.py")
crates = tempfile.TemporaryDirectory()

for crate in sorted(os.listdir(f"{TOP}/crates")):
    @tests.test(f"rt fmt in crates/{crate}")
    def is_formatted(crate=crate):
        return differs(tuple(run_command(["rt", "fmt"], cwd=f"{crates.name}/{crate}")), (0, "", ""))

if __name__ == "__main__":
    sys.exit(tests.main(sys.argv[1:], count=os.cpu_count(), prepare=lambda: shutil.copytree(
        f"{TOP}/crates", crates.name, ignore=shutil.ignore_patterns("out"), dirs_exist_ok=True)))
