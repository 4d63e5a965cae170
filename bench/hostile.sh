#!/bin/sh
# Times commands on image sets that ask as much as the limits allow: 256,000 labels and 10,000 regions, with a UUID for each label or
# one for all; 64 areas full of labels that a crash left. No command may take longer than 10 s, and `list` no longer than 4 s.
# usage: bench/hostile.sh   (wants the proved build: NVD_BUILD=proved ./nvd samples/small - list)
# shellcheck source=bench/lib.sh
. "$(dirname -- "$0")/lib.sh"
proved
python3 - "$work" "$program" <<'PY'
import os, shutil, sys
from hostile_sets import all_unfinished, many_regions
from rows import row, timed

work, program = sys.argv[1:]
OUT, OWN = os.path.join(work, "out"), "11111111-1111-4111-8111-111111111111"
REFUSED = 4


def took(folder, words, status=0):
    """The seconds and MiB of a command that ends so: the median of three."""
    runs = []
    for _ in range(3):
        shutil.rmtree(OUT, ignore_errors=True)
        runs.append(timed([program, folder, "-" if words[0] in ("list", "info") else OUT, *words], status=status)[:2])
    return sorted(runs)[1]


def create(size):
    return ["create", "--uuid", OWN, "--name", "n", "--region", "0", "--size", str(size), "--mode", "raw"]


sets = {
    "256,000 UUIDs and 10,000 regions": (many_regions, [], 4096),
    "256,000 labels of one UUID and 10,000 regions": (many_regions, [10000, 64, 4000, True], 4096),
    "64 areas, 126,000 unfinished labels": (all_unfinished, [64, 2000], 64 * 4096),
}
for name, (make, shape, size) in sets.items():
    folder = os.path.join(work, "set")
    make(folder, *shape)
    seconds, peak = took(folder, ["list"])
    row(f"list of {name}", "at most 4 s", f"{seconds:.2f} s; {peak:.0f} MiB", seconds <= 4)
    for words, status in [(create(size), 0), (["delete", OWN], REFUSED), (["rename", OWN, "m"], REFUSED), (["info", OWN], REFUSED)]:
        seconds, peak = took(folder, words, status)
        row(f"{words[0]} on {name}", "at most 10 s", f"{seconds:.2f} s; {peak:.0f} MiB", seconds <= 10)
    shutil.rmtree(folder)
folder = os.path.join(work, "full")
all_unfinished(folder)
listing, _ = took(folder, ["list"])
seconds, _ = took(folder, create(2 * 4096))
row("recovery of an area of 4,089 unfinished labels", "at most 1 s beyond list", f"{seconds - listing:.2f} s beyond {listing:.2f} s", seconds - listing <= 1)
PY
