#!/bin/sh
# Times reading a schedule of 16 MiB, the longest that `replay` takes, in texts of five kinds. The last line of each isn't in the
# grammar, so a run ends before it loads a set: its whole time is that of the text. Medians of five runs.
# usage: bench/script.sh   (wants the proved build: NVD_BUILD=proved ./nvd samples/small - list)
# shellcheck source=bench/lib.sh
. "$(dirname -- "$0")/lib.sh"
proved
python3 - "$work" "$program" "$top/samples/small" <<'PY'
import os, sys
from rows import median, row

work, program, folder = sys.argv[1:]
MOST, LAST, WHO = 16 << 20, b"end\n", "11111111-1111-4111-8111-111111111111"
value = "hex:" + "5a" * 16000
KINDS = {
    "the shortest lines": b"step 0 1\n",
    "65,536 calls": None,
    "values of 16,000 bytes": f"call 0 write 0 {value}\n".encode(),
    "counts of many digits": b"step 0 " + b"1" * 19 + b"\n",
    "lanes of one digit, sectors of one": b"call 0 read 0\n",
}
for kind, line in KINDS.items():
    if line is None:
        line = b"call 0 write 0 fill:5a\n"
        text = line * 65535 + b"step 0 1\n" * ((MOST - 65535 * len(line) - len(LAST)) // 9)
    elif line.startswith(b"call 0 read"):
        text = line * 65535 + b"step 0 1\n" * ((MOST - 65535 * len(line) - len(LAST)) // 9)
    else:
        text = line * ((MOST - len(LAST)) // len(line))
    script = os.path.join(work, "script")
    with open(script, "wb") as to:
        to.write(text + LAST)
    number = text.count(b"\n") + 1
    took, peak, _ = median([program, folder, os.path.join(work, "out"), "replay", WHO], 5, lambda said: said.startswith(b"script "), 2, script)
    size = (len(text) + len(LAST)) / (1 << 20)
    row(f"a schedule of {size:.0f} MiB, {kind}", "at most 0.5 s and 3 times its size", f"{took:.2f} s; {peak:.0f} MiB, {peak / size:.1f} times", took <= 0.5 and peak <= 3 * size)
PY
