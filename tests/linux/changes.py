#!/usr/bin/env python3
"""Renames and deletes the namespaces of one image set that Linux wrote, and creates another beside them.

usage: changes.py NAME SET PROGRAM WORK   (the set is unpacked in the folder SET; WORK is made, and has the sets that are)

Each new set must list the same as before, except for the changed namespace, and `check` must find nothing wrong with it. No byte of the contents,
the firmware's table or the lists of bad ranges may change. A set without complete namespaces is skipped.
"""
import os
import shutil
import subprocess
import sys

sys.dont_write_bytecode = True
sys.path.insert(1, os.path.dirname(os.path.dirname(os.path.abspath(__file__))))
from harness import lines_of  # noqa: E402

MADE = "33333333-3333-4333-8333-333333333333"


def main():
    name, folder, program, work = sys.argv[1:]
    os.mkdir(work)
    count = 0

    report = lines_of(name)

    def run(source, out, *words):
        done = subprocess.run([program, source, out, *words], capture_output=True, text=True, check=False)
        return done.returncode, done.stdout

    def made(what, source, *words):
        """Makes a set by a command, and checks that only label areas differ from its source."""
        nonlocal count
        count += 1
        out = os.path.join(work, str(count))
        report(what, run(source, out, *words), (0, "ok\n"))
        for entry in sorted(os.listdir(source)) if os.path.isdir(out) else []:
            if not entry.startswith("labels-"):
                with open(os.path.join(source, entry), "rb") as one, open(os.path.join(out, entry), "rb") as other:
                    if one.read() != other.read():
                        report(f"{what}: {entry}", "changed", "as it was")
        report(f"check after {what}", run(out, "-", "check"), (0, "sound\n"))
        return out

    def listed(source):
        """Returns the lines of each namespace, by its UUID."""
        entries = {}
        for line in run(source, "-", "list")[1].splitlines():
            if line.startswith("ns "):
                own = entries[line.split()[1]] = []
            own.append(line)
        return entries

    before = listed(folder)
    whole = [who for who, lines in before.items() if lines[0].endswith(" complete")]
    for who in whole:
        head = before[who][0]
        shown = head[: head.rindex('"')].split('"', 1)[1]
        after = dict(before)
        after[who] = [head.replace(f'"{shown}"', '"made here"', 1), *before[who][1:]]
        report(f"list after rename of {who}", listed(made(f"rename of {who}", folder, "rename", who, "made here")), after)
        gone = made(f"delete of {who}", folder, "delete", who)
        after = {other: lines for other, lines in before.items() if other != who}
        report(f"list after delete of {who}", listed(gone), after)
        region = head.rsplit(" region ", 1)[1].split()[0]
        size = head.rsplit(" size ", 1)[1].split()[0]
        words = ("create", "--uuid", MADE, "--name", "made here", "--region", region, "--size", size, "--mode", "raw")
        again = listed(made(f"create in place of {who}", gone, *words))
        report(f"others after create in place of {who}", {k: v for k, v in again.items() if k != MADE}, after)
        line = f'ns {MADE} "made here" region {region} mode raw lba 512 size {size} complete'
        report(f"create in place of {who} is listed", again.get(MADE, [""])[0], line)
        shutil.rmtree(work)
        os.mkdir(work)


main()
