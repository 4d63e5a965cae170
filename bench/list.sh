#!/bin/sh
# Times `list` on image sets of 64 modules, each with a label area of 1 MiB and 4,000 labels. Compares it with `nfit` on
# the same set. Set `own`: each module is a region, and each label has a
# UUID of its own. Set `shared`: one interleave set of all modules, 4,000 UUIDs with a label on each module.
# Half of the labels lie past the end of their module. They are listed too.
# usage: bench/list.sh   (wants the proved build: NVD_BUILD=proved ./nvd samples/small - list)
# shellcheck source=bench/lib.sh
. "$(dirname -- "$0")/lib.sh"
proved
python3 - "$work" "$program" <<'PY'
import os, sys
from label_sets import LABELS, MODULES, make
from rows import median, row

work, program = sys.argv[1:]
for kind in ["own", "shared"]:
    folder = os.path.join(work, kind)
    count = make(folder, kind == "shared")
    loading, loaded, _ = median([program, folder, "-", "nfit"], 3)
    listing, peak, text = median([program, folder, "-", "list"], 3)
    lines = text.count(b"\n")
    assert text.count(b" complete\n") == count // 2 and text.count(b" incomplete Outside ") == count // 2 and lines == count + MODULES * LABELS, (count, lines, text[:300])
    row(f"list of {count} UUIDs on {MODULES} modules with {LABELS} labels each", "under 3 s beyond loading",
        f"{listing - loading:.2f} s beyond {loading:.2f} s; {peak:.0f} MiB, loading {loaded:.0f} MiB", listing - loading < 3)
PY
