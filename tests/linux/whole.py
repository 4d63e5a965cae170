#!/usr/bin/env python3
"""Checks one image set that Linux wrote as a whole: nothing is wrong with it.

usage: whole.py NAME TRUTH SET PROGRAM   (the set is unpacked in the folder SET)

`check` must print `sound` alone: Linux leaves both index blocks valid, no change open and no bad range. A set with label version 1.1 has areas that
aren't read: there each of the two index blocks of each module is a fault. tests/wholeset.py must work out the same.
"""
import os
import re
import subprocess
import sys

from compare import labels_in

sys.dont_write_bytecode = True
sys.path.insert(1, os.path.dirname(os.path.dirname(os.path.abspath(__file__))))
from harness import lines_of  # noqa: E402
import wholeset  # noqa: E402


def main():
    name, truth, folder, program = sys.argv[1:]
    report = lines_of(name)
    lines = []
    if not labels_in(truth)[1]:
        modules = sorted(int(found[1]) for it in os.listdir(folder) if (found := re.fullmatch(r"labels-(\d+)\.bin", it)))
        lines = [f"fault labels {module} index {side} Version 1 1" for module in modules for side in (0, 1)]
    due = wholeset.ended(lines)
    report("what check has to say", wholeset.text_of(folder), due)
    done = subprocess.run([program, folder, "-", "check"], capture_output=True, text=True, check=False)
    report("check", (done.returncode, done.stdout), (wholeset.status_of(due), due))


if __name__ == "__main__":
    main()
