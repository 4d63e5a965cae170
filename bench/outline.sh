#!/bin/sh
# Times commands that open no arena, on an image set of 512 MiB in one module with a raw namespace: `labels`, `nfit` and
# `list`, which read no contents, and `rename`, which copies them as it saves. Compares `rename` with `cp`, and with `cp` and `sync`, since
# `rename` syncs what it writes; and once more on sets in memory (/dev/shm), where syncing takes no time. Medians of nine runs; for
# `rename` and `cp` the least of six, from the page cache.
# usage: bench/outline.sh   (wants the proved build: NVD_BUILD=proved ./nvd samples/small - list)
# shellcheck source=bench/lib.sh
. "$(dirname -- "$0")/lib.sh"
proved
python3 - "$work" "$program" <<'PY'
import os, shutil, sys, tempfile
from rows import median, one_module, row, timed

work, program = sys.argv[1:]
SIZE, ROUNDS = 512 << 20, 6
WHO = "11111111-1111-4111-8111-111111111111"
blank, ready, source = (os.path.join(work, name) for name in ("blank", "ready", "set"))
one_module(blank, SIZE, filled=True)
timed([program, blank, ready, "init", "0"])
shutil.rmtree(blank)
timed([program, ready, source, "create", "--uuid", WHO, "--name", "data", "--region", "0", "--size", "65536", "--mode", "raw"])
shutil.rmtree(ready)
for words in (["labels", "0"], ["nfit"], ["list"]):
    took, memory, _ = median([program, source, "-", *words], 9)
    row(f"{words[0]} on a set of 512 MiB", "within 30 ms and 32 MiB", f"{took * 1000:.1f} ms; {memory:.1f} MiB", took <= 0.03 and memory <= 32)


def compare(folder, what):
    """Times `rename` and the ways to copy a set in a folder, on the folder's own file system."""
    here, copy = os.path.join(folder, "set"), os.path.join(folder, "copy")
    ways = {"cp": ["cp", "-r", here, copy], "both": ["sh", "-c", f"cp -r {here} {copy}; sync"], "rename": [program, here, copy, "rename", WHO, "other"]}
    best = dict.fromkeys(ways, (1e9, 0))
    for _ in range(ROUNDS):
        for way, words in ways.items():
            shutil.rmtree(copy, ignore_errors=True)
            os.sync()
            best[way] = min(best[way], timed(words)[:2])
    shutil.rmtree(copy)
    (took, peak), cp, both = best["rename"], best["cp"][0], best["both"][0]
    row(f"rename on a set of 512 MiB{what}", "at most 1.6 times cp", f"{took / cp:.1f} times: {took:.2f} s and {cp:.2f} s; {took / both:.1f} times cp and sync ({both:.2f} s); {peak:.0f} MiB", took <= 1.6 * cp)


compare(work, "")
if os.path.isdir("/dev/shm"):
    with tempfile.TemporaryDirectory(dir="/dev/shm") as memory:
        shutil.copytree(source, os.path.join(memory, "set"))
        compare(memory, " in memory")
PY
