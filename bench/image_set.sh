#!/bin/sh
# Times `load` on an image set of 512 MiB in one module, made of sparse files. Compares it with `cat` of the contents into a
# program that converts the bytes to words in memory. Each figure is the least of nine runs, alternating. Also measures how
# much memory loading takes.
# usage: bench/image_set.sh   (proves and builds a program over image_set in a scratch copy)
# shellcheck source=bench/lib.sh
. "$(dirname -- "$0")/lib.sh"
want python3
scratch load_bench nvd_words nvd_media nvd_files cut_words image_set
# shellcheck disable=SC2034
given=pipe
build
python3 - "$PWD/out/load_bench" "$work/set" <<'PY'
import os, subprocess, sys, time
from rows import one_module, row, timed

program, folder = sys.argv[1:]
SIZE = 512 << 20
WORDS = b"%d\n" % (SIZE // 8)
contents = os.path.join(folder, "contents-0.bin")
one_module(folder, SIZE)


def load():
    return timed([program, "load", folder], lambda text: text == WORDS)


def pipe():
    start = time.perf_counter()
    cat = subprocess.Popen(["cat", contents], stdout=subprocess.PIPE)
    end = subprocess.run([program, "pipe"], stdin=cat.stdout, stdout=subprocess.PIPE, check=True)
    cat.stdout.close()
    assert cat.wait() == 0 and end.stdout == WORDS
    return time.perf_counter() - start


memory = load()[1]
turns = [(load()[0], pipe()) for _ in range(9)]
loading, piping = min(turn[0] for turn in turns), min(turn[1] for turn in turns)
row("loading a set of 512 MiB", "at most 1.5 times cat to a pipe and turning into words", f"{loading / piping:.2f} times: {loading:.2f} s and {piping:.2f} s", loading <= 1.5 * piping)
row("memory of loading it", "under 1.2 GiB", f"{memory:.0f} MiB", memory < 1.2 * 1024)
PY
