#!/bin/sh
# Times load, store and keep on 512 MiB of words, and measures how much memory they take.
# usage: bench/cut_words.sh   (proves and builds a program over cut_words in a scratch copy)
# shellcheck source=bench/lib.sh
. "$(dirname -- "$0")/lib.sh"
want python3
scratch cut_bench cut_words
build
python3 - out/cut_bench <<'PY'
import re, sys
from rows import row, timed

_, memory, text = timed([sys.argv[1]])
near, far, pairs = (int(it) for it in re.findall(r"(\d+) ns", text.decode()))
row("load of a word that was loaded just now", "at most 10 ns", f"{near} ns", near <= 10)
row("load of a word that misses the caches", "none", f"{far} ns")
row("pending, store and keep of a word together", "at most 10 ns each", f"{pairs} ns", pairs <= 30)
row("memory of 512 MiB of words, the last one stored", "at most 2.1 times", f"{memory / 512:.2f} times", memory / 512 <= 2.1)
PY
