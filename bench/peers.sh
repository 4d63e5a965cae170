#!/bin/sh
# Times reads and writes of four sessions of `serve` on one namespace beside those of libpmemblk (pmemblk.c), whose pool is a BTT with 256 lanes, too: random
# sectors of 512 bytes among 32,000, by 1, 2 and 4 threads, nanoseconds a call. A call of `serve` includes that its line is read and its reply is
# printed. The pool is in memory (/dev/shm), with flushes as for persistent memory (PMEM_IS_PMEM_FORCE=1), and without them.
# usage: bench/peers.sh   (wants the proved build, a C compiler and Debian's libpmemblk-dev)
# shellcheck source=bench/lib.sh
. "$(dirname -- "$0")/lib.sh"
proved
want cc
cc -O2 -o "$work/pmemblk" "$top/bench/pmemblk.c" -lpmemblk -lpthread 2>/dev/null || skip 'wants libpmemblk-dev, and it is not here'
"$top/samples/make_blank.py" "$work/blank" --modules 1 --size $((64 << 20))
python3 - "$work" "$program" <<'PY'
import os, statistics, subprocess, sys
from rows import row
from sessions import KINDS, Sessions

work, program = sys.argv[1:]
CALLS, POOL = 200000, f"/dev/shm/nvd-peers-{os.getpid()}"
# who has to be faster than the library, by kind of call and threads
ASKED = {("reads", 2), ("reads", 4), ("writes", 4)}


def library(kind, threads, flushes):
    """The nanoseconds of a call of the library."""
    try:
        words = [os.path.join(work, "pmemblk"), POOL, kind[:-1], str(threads), str(CALLS)]
        made = subprocess.run(words, stdout=subprocess.PIPE, check=True, env={**os.environ, "PMEM_IS_PMEM_FORCE": "1" if flushes else "0"})
        return float(made.stdout)
    finally:
        if os.path.exists(POOL):
            os.remove(POOL)


runs = Sessions(program, work)
for kind in ("reads", "writes"):
    ours = {threads: seconds / 60000 * 1e9 for threads, seconds in runs.four(KINDS[kind], False, 15000).items()}
    for threads, own in ours.items():
        theirs, synced = (statistics.median(library(kind, threads, flushes) for _ in range(9)) for flushes in (True, False))
        asked = "less than libpmemblk's" if (kind, threads) in ASKED else "none"
        row(f"{kind} by {threads} worker{'s' if threads > 1 else ''}, beside libpmemblk's", asked, f"{own:.0f} ns a call; libpmemblk {theirs:.0f} ns, with msync in place of flushes {synced:.0f} ns", asked == "none" or own < theirs)
PY
