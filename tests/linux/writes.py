#!/usr/bin/env python3
"""Checks the sector namespaces of one image set, writes sectors of them, and compares what is read then with what Linux read before.

usage: writes.py NAME TRUTH SET PROGRAM OUT   (the set is unpacked in the folder SET)

For each block device of truth/sectors.txt.xz the namespace is sound, and a repair changes nothing. A sector that Linux wrote gets other bytes, then a sector of zeros does, then
the last. After each write all sectors that Linux wrote are read. Only contents may differ in the set, and the backup of the info block stays. After the
last write the namespace is sound again.
"""
import hashlib
import lzma
import os
import shutil
import subprocess
import sys

from sectors import value_of

sys.dont_write_bytecode = True
sys.path.insert(1, os.path.dirname(os.path.dirname(os.path.abspath(__file__))))
from harness import lines_of  # noqa: E402


def files_of(folder):
    files = {}
    for name in sorted(os.listdir(folder)):
        if not name.endswith(".xz"):
            with open(os.path.join(folder, name), "rb") as file:
                files[name] = file.read()
    return files


def main():
    name, truth, folder, program, out = sys.argv[1:]
    path = os.path.join(truth, "sectors.txt.xz")
    if not os.path.exists(path):
        return

    report = lines_of(name)

    def run(source, *words):
        done = subprocess.run([program, source, *words], capture_output=True, text=True, check=False)
        return done.returncode, done.stdout

    devices, sectors = {}, {}
    with lzma.open(path, "rt", encoding="utf-8") as lines:
        for line in lines:
            word, device, *rest = line.split()
            if word == "device":
                fields = dict(zip(rest[::2], rest[1::2]))
                if fields["mode"] == "sector":
                    devices[device] = (fields["namespace"], int(fields["sector"]), int(fields["sectors"]))
            else:
                sectors.setdefault(device, {})[int(rest[0])] = rest[2]
    was = files_of(folder)
    for device, (who, size, count) in sorted(devices.items()):
        own = dict(sectors.get(device, {}))
        value = bytes(byte % 251 for byte in range(size))
        zero = next(n for n in range(count) if n not in own)
        report(f"check of {who}", run(folder, out, "check", who), (0, "sound\n"))
        report(f"what changed by a check of {who}", files_of(out) == was, True)
        shutil.rmtree(out)
        report(f"repair of {who}", run(folder, out, "check", who, "--repair"), (0, "sound\n"))
        report(f"what changed by a repair of {who}", files_of(out) == was, True)
        shutil.rmtree(out)
        for number in dict.fromkeys([*list(own)[:1], zero, count - 1]):
            what = f"write of sector {number} of {who}"
            report(what, run(folder, out, "write", who, str(number), f"hex:{value.hex()}"), (0, "ok\n"))
            due = {**own, number: hashlib.md5(value).hexdigest()}
            for at, digest in due.items():
                status, text = run(out, "-", "read", who, str(at))
                found = value_of(text, size)
                report(f"sector {at} after {what}", (status, hashlib.md5(found).hexdigest() if found else text), (0, digest))
            beside = next(n for n in range(count) if n not in due)
            report(f"sector {beside} after {what}", run(out, "-", "read", who, str(beside)), (0, "ok fill:00\n"))
            now = files_of(out)
            report(f"files after {what}", sorted(now), sorted(was))
            report(f"what changed by {what}", {it for it in now if now[it] != was.get(it)} <= {it for it in now if it.startswith("contents")}, True)
            report(f"info after {what}", run(out, "-", "info", who), run(folder, "-", "info", who))
            for other, (another, _, _) in devices.items():
                if other != device:
                    report(f"info of {another} after {what}", run(out, "-", "info", another), run(folder, "-", "info", another))
            if number == count - 1:
                report(f"check after {what}", run(out, f"{out}-checked", "check", who), (0, "sound\n"))
                shutil.rmtree(f"{out}-checked")
            shutil.rmtree(out)


if __name__ == "__main__":
    main()
