#!/usr/bin/env python3
"""Compares `info` and `read` on the sector namespaces of one image set with what Linux read of them.

usage: sectors.py NAME TRUTH SET PROGRAM   (the set is unpacked in the folder SET)

truth/sectors.txt.xz has a line for each block device, with its namespace, its sector size and count, and a line for each
sector that isn't all zero, with the MD5 of its bytes. Each of these is read, and one other sector, which must be zeros; and the
sector after the last one, which must be refused. Linux uses 256 lanes.
"""
import hashlib
import lzma
import os
import re
import subprocess
import sys

sys.dont_write_bytecode = True
sys.path.insert(1, os.path.dirname(os.path.dirname(os.path.abspath(__file__))))
from harness import lines_of  # noqa: E402


def value_of(text, size):
    """The bytes that a line `ok VALUE` says."""
    found = re.fullmatch(r"ok (fill|hex):([0-9a-f]+)\n", text)
    if not found:
        return None
    value = bytes.fromhex(found.group(2))
    return value * size if found.group(1) == "fill" else value


def main():
    name, truth, folder, program = sys.argv[1:]
    path = os.path.join(truth, "sectors.txt.xz")
    if not os.path.exists(path):
        return

    report = lines_of(name, "Linux")

    def run(*words):
        done = subprocess.run([program, folder, "-", *words], capture_output=True, text=True, check=False)
        return done.returncode, done.stdout

    devices, sectors = {}, {}
    with lzma.open(path, "rt", encoding="utf-8") as lines:
        for line in lines:
            word, device, *rest = line.split()
            if word == "device":
                fields = dict(zip(rest[::2], rest[1::2]))
                if fields["mode"] == "sector":
                    devices[device] = (fields["namespace"], int(fields["sector"]), int(fields["sectors"]))
            else:
                sectors.setdefault(device, {})[int(rest[0])] = rest[2]
    for device, (who, size, count) in sorted(devices.items()):
        line = f"arena 0 sector {size} sectors {count} blocks {count + 256} lanes 256 moves 0\n"
        report(f"info of {who}", run("info", who), (0, line))
        report(f"the end of {who}", run("read", who, str(count)), (4, f"refused Range {count}\n"))
        own = sectors.get(device, {})
        for number, digest in own.items():
            status, text = run("read", who, str(number))
            value = value_of(text, size)
            got = (status, hashlib.md5(value).hexdigest() if value else text)
            report(f"sector {number} of {who}", got, (0, digest))
        zero = next(n for n in range(count) if n not in own)
        report(f"sector {zero} of {who}", run("read", who, str(zero)), (0, "ok fill:00\n"))


if __name__ == "__main__":
    main()
