#!/bin/sh
# Times the sessions of `serve`: mixed reads and writes of one session by one worker, and four sessions on one namespace and on four, of mixed
# calls, of reads and of writes, by 1, 2 and 4 workers. Sectors of 512 bytes, 256 lanes. Each figure is beyond a script that opens the
# same namespaces and makes no call on sectors, which is what opening and saving take; medians of fifteen rounds. A script has at
# most 65,536 calls, so the session of 100,000 is two scripts of 50,000.
# usage: bench/serve.sh   (wants the proved build: NVD_BUILD=proved ./nvd samples/small - list)
# shellcheck source=bench/lib.sh
. "$(dirname -- "$0")/lib.sh"
proved
"$top/samples/make_blank.py" "$work/blank" --modules 1 --size $((64 << 20))
python3 - "$work" "$program" <<'PY'
import sys
from rows import row
from sessions import KINDS, Sessions, nanos, session

runs = Sessions(sys.argv[2], sys.argv[1])
mixed, writes, none = session(0, 50000), session(0, 20000, KINDS["writes"]), session(0, 0)
one = runs.beyond({"none": (1, none), "mixed": (1, mixed), "writes": (1, writes)})
row("a session of 100,000 mixed reads and writes, 1 worker", "at most 0.45 s", f"{2 * one['mixed']:.2f} s, {2 * mixed[1] / 1e6:.1f} million steps", 2 * one["mixed"] <= 0.45)
row("a step of a session's write, with all that its call takes", "none", f"{one['writes'] / writes[1] * 1e9:.1f} ns")
for own, where, most in ((False, "one namespace", 2.2), (True, "four namespaces", 2)):
    for kind, is_write in KINDS.items():
        calls = 15000
        by = runs.four(is_write, own, calls)
        asked = f"at least {most} times as fast as 1" if kind == "mixed calls" else "none"
        each = ", ".join(f"{nanos(by[workers], 4 * calls)} a call by {workers}" for workers in by)
        row(f"four sessions of {kind} on {where}, 4 workers", asked, f"{by[1] / by[4]:.2f} times as fast: {each}", asked == "none" or by[1] >= most * by[4])
PY
