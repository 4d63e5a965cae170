#!/bin/sh
# Times `labels` on an image set whose label area has 1 MiB and every slot used, beside `cat` of that file.
# usage: bench/labels.sh   (wants the proved build: NVD_BUILD=proved ./nvd samples/small - labels 0)
# shellcheck source=bench/lib.sh
. "$(dirname -- "$0")/lib.sh"
proved
python3 - "$work" "$program" <<'PY'
import os, sys, uuid
from formats import index_block, label
from make_small import nfit
from rows import median, row

work, program = sys.argv[1:]
size, slots = 768, 4090
area = index_block(0, 2, size, slots, []) + index_block(1, 1, size, slots, [])
for slot in range(slots):
    area += label(uuid.UUID(int=slot + 1), b"namespace %d" % slot, slot, 4096, dpa=4096 * slot)
assert len(area) == 1048576
files = {"nfit.bin": nfit(1, 65536, 1), "labels-0.bin": area, "contents-0.bin": bytes(65536), "complete": b""}
for name, data in files.items():
    with open(os.path.join(work, name), "wb") as file:
        file.write(data)
cat = median(["cat", os.path.join(work, "labels-0.bin")], 21)[0] * 1000
took, memory, _ = median([program, work, "-", "labels", "0"], 21, lambda text: text.count(b"\n") == slots + 1)
bound = 3 * cat + 30
row(f"labels of {slots} labels", f"at most 3 times cat and 30 ms: {bound:.1f} ms", f"{took * 1000:.1f} ms; cat {cat:.1f} ms; {memory:.1f} MiB", took * 1000 <= bound)
PY
