#!/bin/sh
# Times `export` of a raw namespace of 512 MiB in one module, and of sector namespaces of that size whose sectors were all written. Each
# goes to a pipe and is compared with `cat` of the module's contents to a pipe. Least of five rounds, out of the page cache.
# usage: bench/export.sh   (wants the proved build: NVD_BUILD=proved ./nvd samples/small - list)
# shellcheck source=bench/lib.sh
. "$(dirname -- "$0")/lib.sh"
proved
python3 - "$work" "$program" <<'PY'
import os, shutil, struct, subprocess, sys
from rows import one_module, row, timed

work, program = sys.argv[1:]
SIZE, ROUNDS, WHO = 512 << 20, 5, "33333333-3333-4333-8333-333333333333"
blank, ready, made = (os.path.join(work, name) for name in ("blank", "ready", "made"))
contents = os.path.join(made, "contents-0.bin")
one_module(blank, SIZE)
timed([program, blank, ready, "init", "0"])


def number(at, size):
    with open(contents, "rb") as file:
        file.seek(at)
        return int.from_bytes(file.read(size), "little")


def make(*mode):
    """Makes the namespace and fills it; of sectors, each has the block of its own number."""
    shutil.rmtree(made, ignore_errors=True)
    timed([program, ready, made, "create", "--uuid", WHO, "--name", "a", "--region", "0", "--size", str(SIZE), "--mode", *mode])
    block = os.urandom(1 << 20)
    sectors, data, table = (number(60, 4), number(88, 8), number(96, 8)) if mode[0] == "sector" else (0, 0, SIZE)
    with open(contents, "r+b") as file:
        for at in range(data, table, 1 << 20):
            file.seek(at)
            file.write(block[: min(1 << 20, table - at)])
        if sectors:
            file.write(struct.pack(f"<{sectors}I", *(0xC0000000 | it for it in range(sectors))))


def check(words):
    """The bytes that come: as many as the namespace has, and no zeros."""
    ends = subprocess.run(["sh", "-c", f"{words} | tail -c 1048576 | tr -d '\\0' | wc -c"], stdout=subprocess.PIPE, check=True)
    assert int(ends.stdout) > 1000000, (words, ends)


words = f"{program} {made} - export {WHO}"
cat = ["sh", "-c", f"cat {contents} | cat >/dev/null"]
for what, asked, mode in (("a raw namespace of 512 MiB", 2, ["raw"]), ("512 MiB of sectors of 4,096 bytes", 3, ["sector", "--sector", "4096"]),
                          ("512 MiB of sectors of 512 bytes", 3, ["sector", "--sector", "512"])):
    make(*mode)
    check(words)
    ways = {"cat": cat, "export": ["sh", "-c", f"{words} | cat >/dev/null"], "zeros": ["sh", "-c", f"{words} --bad-as-zeros | cat >/dev/null"]}
    turns = [{way: timed(it)[:2] for way, it in ways.items()} for _ in range(ROUNDS)]
    best = {way: min(turn[way] for turn in turns) for way in ways}
    took, zeros, reading, memory = best["export"][0], best["zeros"][0], best["cat"][0], best["export"][1]
    more = f"; with --bad-as-zeros {zeros:.2f} s" if mode[0] == "sector" else ""
    row(f"export of {what}", f"at most {asked} times cat to a pipe", f"{took / reading:.1f} times: {took:.2f} s and {reading:.2f} s{more}; {memory:.0f} MiB", took <= asked * reading)
PY
