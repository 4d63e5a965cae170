#!/bin/sh
# Times `create --mode sector` of a namespace of 32 MiB on an image set of two modules of 32 MiB. Compares it with `init` of one
# module of the same set whose label area is empty: that copies the set and changes one area. Medians of three runs.
# usage: bench/create_sector.sh   (wants the proved build: NVD_BUILD=proved ./nvd samples/small - list)
# shellcheck source=bench/lib.sh
. "$(dirname -- "$0")/lib.sh"
proved
"$top/samples/make_blank.py" "$work/blank" --size $((32 << 20))
python3 - "$work" "$program" <<'PY'
import os, shutil, sys
from rows import row, timed

work, program = sys.argv[1:]
blank, one, ready, out = (os.path.join(work, name) for name in ["blank", "one", "ready", "out"])


def run(folder, into, *words):
    """The time of a run in seconds, and the peak memory in MiB."""
    return timed([program, folder, into, *words], lambda text: text == b"ok\n")[:2]


def often(folder, *words):
    """The median time of three runs, and the memory of the last."""
    times = []
    for _ in range(3):
        took, memory = run(folder, out, *words)
        times.append(took)
        shutil.rmtree(out)
    return sorted(times)[1], memory


run(blank, one, "init", "0")
run(one, ready, "init", "1")
saving, saved = often(blank, "init", "0")
who = "33333333-3333-4333-8333-333333333333"
creating, peak = often(ready, "create", "--uuid", who, "--name", "new", "--region", "0", "--size", str(32 << 20), "--mode", "sector")
row("create --mode sector of 32 MiB", "at most 3 times init on the same set",
    f"{creating / saving:.2f} times: {creating:.2f} s and {saving:.2f} s; {peak:.0f} MiB, init {saved:.0f} MiB", creating <= 3 * saving)
PY
