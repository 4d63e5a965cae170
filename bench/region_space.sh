#!/bin/sh
# Times Space::of and first_fit on the extents of 64 modules: 1,000, 2,000 and 4,000 on each, so 64,000, 128,000 and 256,000 in
# all. There are three kinds of lists. "alike": each owner has an extent on each module at the same offset, and all but the last
# unit is taken. "scattered": each unit is taken on only one module, module after module, so first_fit must pass each extent
# separately. "clashing": only the last two extents of the list overlap. The least of five, and the program's peak memory.
# usage: bench/region_space.sh   (proves and builds a program over region_space in a scratch copy)
# shellcheck source=bench/lib.sh
. "$(dirname -- "$0")/lib.sh"
want python3
scratch space_bench nfit_reader interleave region_space uuid
build
python3 - out/space_bench <<'PY'
import re, sys
from rows import row, timed

_, memory, text = timed([sys.argv[1]])
found = {}
for kind, count, call, us in re.findall(r"(\w+) (\d+): (Space::of) (\d+) us", text.decode()) + re.findall(r"(\w+) (\d+): .*(first_fit) (\d+) us", text.decode()):
    found.setdefault((call, kind), []).append((int(count), int(us)))
for (call, kind), times in found.items():
    row(f"{call}, extents {kind}", "no faster than n log n", ", ".join(f"{us / 1000:.0f} ms of {count}" for count, us in times))
row("memory of Space::of on 256,000 extents", "none", f"{memory:.0f} MiB")
PY
