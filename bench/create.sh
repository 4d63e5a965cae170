#!/bin/sh
# Times `create` on an image set of 64 modules in one interleave set, each with a label area of 1 MiB and 4,000 labels. Compares
# it with `init` of one module of the same set whose label area is empty: that also changes an area and saves the set. Both
# copy the contents. The new namespace fits only at the region's last unit.
# usage: bench/create.sh   (wants the proved build: NVD_BUILD=proved ./nvd samples/small - list)
# shellcheck source=bench/lib.sh
. "$(dirname -- "$0")/lib.sh"
proved
python3 - "$work" "$program" <<'PY'
import os, shutil, sys
from label_sets import MODULES, UNIT, make
from rows import row, timed

work, program = sys.argv[1:]


def run(folder, *words):
    """The median time of three runs in seconds, and the peak memory in MiB."""
    times, out = [], os.path.join(work, "out")
    for _ in range(3):
        took, memory, _ = timed([program, folder, out, *words], lambda text: text == b"ok\n")
        times.append(took)
        shutil.rmtree(out)
    return sorted(times)[1], memory


full, blank = os.path.join(work, "full"), os.path.join(work, "blank")
make(full, True, free=1)
make(blank, True, free=1, blank=[MODULES - 1])
saving, saved = run(blank, "init", str(MODULES - 1))
who = "33333333-3333-4333-8333-333333333333"
creating, peak = run(full, "create", "--uuid", who, "--name", "new", "--region", "0", "--size", str(MODULES * UNIT), "--mode", "raw")
row(f"create on {MODULES} modules with areas of 1 MiB nearly full", "under 2 s beyond loading and saving",
    f"{creating - saving:.2f} s beyond init, {saving:.2f} s; {peak:.0f} MiB, init {saved:.0f} MiB", creating - saving < 2)
PY
