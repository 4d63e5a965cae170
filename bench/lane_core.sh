#!/bin/sh
# Times calls of a core on an arena of 256 lanes, and making a core against copying the arena's words; tells a core's memory.
# usage: bench/lane_core.sh   (proves and builds a program over lane_core in a scratch copy)
# shellcheck source=bench/lib.sh
. "$(dirname -- "$0")/lib.sh"
want python3
scratch core_bench nvd_words nvd_media cut_words arena_layout arena_open lane_core uuid

# invariant FUNCTION LOOP: a loop of a function keeps the core sound
invariant() {
    mkdir -p "proofs/$1"
    cat >"proofs/$1/Invariants.antt" <<EOF
use Rattle.lane_core.specs.Machines.{IsSomeCore}
use Rattle.core_bench.proofs.$1.Given as goal

abbrev pub invariant-$2 : goal.invariant-$2
invariant-$2 l = IsSomeCore l.core
EOF
}
mkdir -p specs proofs
: >specs/Lib.antt
: >proofs/Lib.antt
invariant walk loop-made
invariant many loop-turn
build
python3 - out/core_bench <<'PY'
import sys
from rows import row, timed

MIB = 256
_, opened, _ = timed([sys.argv[1]])
_, memory, text = timed([sys.argv[1], "core"])
figures = dict(line.split(": ") for line in text.decode().splitlines())
steps, reads, write, read, copy, made = (int(figures[name]) for name in ("steps", "reads", "write", "read", "copy", "core"))
row("steps of a write of 512 bytes by 256 lanes", "392", str(steps), steps == 392)
row("a step of a write", "at most 25 ns", f"{write / steps:.1f} ns", write <= 25 * steps)
row("a write of 512 bytes by 256 lanes", "under 10 us", f"{write / 1000:.1f} us", write < 10000)
row("a read of 512 bytes", "under 2 us", f"{read / 1000:.2f} us, {reads} steps", read < 2000)
row(f"a core of {MIB} MiB", "at most 2.5 times copying its words", f"{made / copy:.2f} times: {made / 1e6:.0f} ms and {copy / 1e6:.0f} ms", made <= 2.5 * copy)
# opening took the arena's words twice; of the core's run one of them, from which it was made
much = memory - opened / 2
most = 2.2 * MIB + 256 * 200 / 2**20
row("memory of a core", "at most 2.2 times its words, and 200 bytes a lane", f"{much / MIB:.2f} times", much <= most)
PY
