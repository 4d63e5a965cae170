#!/bin/sh
# Times `save` on an image set of 512 MiB in one module, made of sparse files: loading and saving, minus loading alone. Compares
# it with `cp` of the contents, and with `cp` and `sync`, since a saved set is on the disk. Each figure is the least of five
# runs, alternating. Also measures how much memory loading and saving take.
# usage: bench/save.sh   (proves and builds a program over image_set in a scratch copy)
# shellcheck source=bench/lib.sh
. "$(dirname -- "$0")/lib.sh"
want python3
scratch save_bench nvd_words nvd_media nvd_files cut_words power_cut image_set
build
python3 - "$PWD/out/save_bench" "$work/set" <<'PY'
import filecmp, os, shutil, subprocess, sys, time
from rows import one_module, row, timed

program, folder = sys.argv[1:]
out = folder + "-out"
contents = os.path.join(folder, "contents-0.bin")
one_module(folder, 512 << 20, word_each=True)


def run(*words):
    return timed([program, *words], lambda text: text == b"true\n")


def copy(sync):
    start = time.perf_counter()
    os.makedirs(out)
    to = os.path.join(out, "contents-0.bin")
    subprocess.run(["cp", "--sparse=never", contents, to], check=True)
    if sync:
        subprocess.run(["sync", to], check=True)
    return time.perf_counter() - start


def anew(action):
    shutil.rmtree(out, ignore_errors=True)
    return action()


memory = run("save", folder, out)[1]
names = ["complete", "contents-0.bin", "labels-0.bin", "nfit.bin"]
assert sorted(os.listdir(out)) == names and filecmp.cmpfiles(folder, out, names, shallow=False)[0] == names
actions = [lambda: run("load", folder)[0], lambda: run("save", folder, out)[0], lambda: copy(False), lambda: copy(True)]
load, both, plain, synced = (min(times) for times in zip(*[[anew(action) for action in actions] for _ in range(5)]))
saving = both - load
row("saving a set of 512 MiB", "none", f"{saving:.2f} s beyond loading ({load:.2f} s): {saving / plain:.2f} times cp ({plain:.2f} s), {saving / synced:.2f} times cp and sync ({synced:.2f} s); {memory:.0f} MiB")
PY
