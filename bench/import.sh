#!/bin/sh
# Times `import` of 512 MiB into a raw namespace, and into one of sectors of 4,096 bytes. Compares it with `cp` of the set, and with `cp` and
# `sync`, since `import` syncs what it writes; and once more with sets and FILE in memory (/dev/shm), where syncing takes no time. The least of
# six runs each, from the page cache.
# usage: bench/import.sh   (wants the proved build: NVD_BUILD=proved ./nvd samples/small - list)
# shellcheck source=bench/lib.sh
. "$(dirname -- "$0")/lib.sh"
proved
python3 - "$work" "$program" <<'PY'
import os, shutil, sys, tempfile
from rows import one_module, row, timed

work, program = sys.argv[1:]
SIZE, ROUNDS, WHO = 512 << 20, 6, "33333333-3333-4333-8333-333333333333"


def compare(here, script, copy, figure):
    """Times `import` of a file into a set, and the ways to copy the set, on the file system of the folders."""
    ways = {"cp": ["cp", "-r", here, copy], "both": ["sh", "-c", f"cp -r {here} {copy}; sync"], "import": [program, here, copy, "import", WHO]}
    best = dict.fromkeys(ways, (1e9, 0))
    for _ in range(ROUNDS):
        for way, words in ways.items():
            shutil.rmtree(copy, ignore_errors=True)
            os.sync()
            best[way] = min(best[way], timed(words, script=script)[:2])
    shutil.rmtree(copy)
    (took, peak), cp, both = best["import"], best["cp"][0], best["both"][0]
    row(figure, "at most 3 times cp", f"{took / cp:.1f} times: {took:.2f} s and {cp:.2f} s; {took / both:.1f} times cp and sync ({both:.2f} s); {peak:.0f} MiB", took <= 3 * cp)


def measure(folder, where):
    """Makes both kinds of namespaces in a folder, and a file of their bytes, and times `import`."""
    blank, ready, made, copy, script = (os.path.join(folder, name) for name in ("blank", "ready", "made", "copy", "script"))
    one_module(blank, SIZE, filled=True)
    timed([program, blank, ready, "init", "0"])
    shutil.rmtree(blank)
    for what, mode in (("a raw namespace of 512 MiB", ["raw"]), ("512 MiB of sectors of 4,096 bytes", ["sector", "--sector", "4096"])):
        timed([program, ready, made, "create", "--uuid", WHO, "--name", "a", "--region", "0", "--size", str(SIZE), "--mode", *mode])
        size = SIZE
        if mode[0] == "sector":
            _, _, text = timed([program, made, "-", "info", WHO])
            size = sum(int(line.split()[line.split().index(b"sectors") + 1]) for line in text.splitlines() if line.startswith(b"arena")) * 4096
        with open(script, "wb") as to:
            for at in range(0, size, 1 << 20):
                to.write(os.urandom(min(1 << 20, size - at)))
        compare(made, script, copy, f"import of {what}{where}")
        shutil.rmtree(made)


measure(work, "")
if os.path.isdir("/dev/shm"):
    with tempfile.TemporaryDirectory(dir="/dev/shm") as memory:
        measure(memory, ", set in memory")
PY
