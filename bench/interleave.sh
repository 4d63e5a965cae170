#!/bin/sh
# Times place and offset_of on a two-way set and on a set of four modules with sixteen lines each: nanoseconds a call, best of
# five rounds of ten million random places. Then times read_nfit on a table of 1 MiB, in which 64 modules share an interleave
# structure of 8,192 lines in as many regions as fit, and interleave_set on each region, which Cover refuses: milliseconds for
# all. Runs the program three times, and takes the least of each time.
# usage: bench/interleave.sh   (proves and builds a program over interleave in a scratch copy)
# shellcheck source=bench/lib.sh
. "$(dirname -- "$0")/lib.sh"
want python3
scratch set_bench nfit_reader interleave
build
python3 - out/set_bench <<'PY'
import re, sys
from rows import row, timed

runs = [timed([sys.argv[1]]) for _ in range(3)]
memory = max(it[1] for it in runs)
least = {}
for _, _, text in runs:
    for line in text.decode().splitlines():
        numbers = [int(it) for it in re.findall(r"\b(?:place|offset_of|in) (\d+)", line)]
        name = re.sub(r"\b(?:tenths|in) .*", "", line).strip()
        least[name] = [min(pair) for pair in zip(numbers, least.get(name, numbers))]
for name, numbers in least.items():
    if len(numbers) == 2:
        there, back = numbers[0] / 10, (numbers[1] - numbers[0]) / 10
        row(f"place, {name}", "at most 15 ns", f"{there:.1f} ns", there <= 15)
        row(f"offset_of, {name}", "at most 15 ns", f"{back:.1f} ns", back <= 15)
    else:
        row(name, "under 2 s and 600 MiB" if "Cover" in name else "none", f"{numbers[0]} ms, {memory:.1f} MiB", numbers[0] < 2000 and memory < 600)
PY
