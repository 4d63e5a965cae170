#!/usr/bin/env python3
"""Compares `export` of each namespace of one image set with what Linux read of its block device, and has `import` put other bytes there.

usage: exports.py NAME TRUTH SET PROGRAM OUT   (the set is unpacked in the folder SET; OUT doesn't exist yet)

truth/sectors.txt.xz has a line for each block device, with its namespace, its mode, its bytes and their MD5. The bytes of raw and of sector
namespaces must be these, and those of another mode are refused. `rescue` must print the same of sector namespaces, and lose nothing. `sectors.py` says
what else stands there. The same bytes moved by 512 are
imported into OUT, and an export prints them again; label areas, the table and bad ranges are as they were.
"""
import hashlib
import lzma
import os
import shutil
import subprocess
import sys

sys.dont_write_bytecode = True
sys.path.insert(1, os.path.dirname(os.path.dirname(os.path.abspath(__file__))))
from harness import lines_of  # noqa: E402


def main():
    name, truth, folder, program, out = sys.argv[1:]
    path = os.path.join(truth, "sectors.txt.xz")
    if not os.path.exists(path):
        return

    report = lines_of(name, "Linux")

    def run(*words):
        return ran(folder, "-", *words)

    def ran(*words, script=b""):
        done = subprocess.run([program, *words], input=script, stdout=subprocess.PIPE, stderr=subprocess.DEVNULL, check=False)
        return done.returncode, done.stdout

    def beside(at):
        """The objects of a set but its contents."""
        return {it: open(os.path.join(at, it), "rb").read() for it in sorted(os.listdir(at)) if it.endswith(".bin") and not it.startswith("contents")}

    with lzma.open(path, "rt", encoding="utf-8") as lines:
        for line in lines:
            word, _, *rest = line.split()
            if word != "device":
                continue
            fields = dict(zip(rest[::2], rest[1::2]))
            who, mode = fields["namespace"], fields["mode"]
            status, text = run("export", who)
            if mode in ("raw", "sector"):
                due = (0, int(fields["sector"]) * int(fields["sectors"]), fields["md5"])
                report(f"export of {who}, {mode}", (status, len(text), hashlib.md5(text).hexdigest()), due)
                # no sector of these is bad
                again = run("export", who, "--bad-as-zeros")
                report(f"export --bad-as-zeros of {who}", again == (status, text), True)
                if mode == "sector":
                    report(f"rescue of {who}", run("rescue", who) == (status, text), True)
                    found, lines = run("rescue", who, "--lost")
                    report(f"what rescue loses of {who}", (found, lines.splitlines()[-1:]), (0, [b"whole"]))
                moved = text[512:] + text[:512]
                report(f"import into {who}", ran(folder, out, "import", who, script=moved), (0, b"ok\n"))
                report(f"export of {who} after the import", ran(out, "-", "export", who) == (0, moved), True)
                report(f"objects beside the import into {who}", beside(out) == beside(folder), True)
                shutil.rmtree(out, ignore_errors=True)
            else:
                report(f"export of {who}, {mode}", (status, text), (4, b"refused NotSector\n"))
            if mode != "sector":
                report(f"rescue of {who}, {mode}", run("rescue", who), (4, b"refused NotSector\n"))


if __name__ == "__main__":
    main()
