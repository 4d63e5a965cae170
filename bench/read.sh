#!/bin/sh
# Times `info`, and `read` of a sector, of a namespace of 32 MiB that Linux wrote (samples/linux/ns12). Compares them with `export`
# of a UUID that no label has, which reads the labels and opens nothing. Medians of nine runs.
# usage: bench/read.sh   (wants the proved build: NVD_BUILD=proved ./nvd samples/small - list; and xz and python3)
# shellcheck source=bench/lib.sh
. "$(dirname -- "$0")/lib.sh"
want xz
proved
cp "$top"/samples/linux/ns12/*.bin "$top"/samples/linux/ns12/complete "$work"
for packed in "$top"/samples/linux/ns12/*.bin.xz; do
    xz -dc "$packed" >"$work/$(basename "$packed" .xz)"
done
python3 - "$work" "$program" <<'PY'
import sys
from rows import median, row

folder, program = sys.argv[1:]
WHO = "20000000-0000-4000-8000-000000000002"
NONE = "20000000-0000-4000-8000-00000000ffff"
loading, loaded, _ = median([program, folder, "-", "export", NONE], 9, status=4)
for words in [("info", WHO), ("read", WHO, "5000")]:
    took, peak, _ = median([program, folder, "-", *words], 9)
    row(f"{words[0]} on a namespace of 32 MiB", "at most 1.3 times loading", f"{took / loading:.2f} times: {took:.3f} s and {loading:.3f} s; {peak:.0f} MiB, loading {loaded:.0f} MiB", took <= 1.3 * loading)
PY
