#!/bin/sh
# Times `init` on an image set of 512 MiB in one module. Compares it with `cp` of the set, and with `cp` and `sync`, since the
# saved set is on the disk when `init` ends. Each reads the set from the disk, then from the page cache. Least of four rounds.
# usage: bench/init.sh   (wants the proved build: NVD_BUILD=proved ./nvd samples/small - list)
# shellcheck source=bench/lib.sh
. "$(dirname -- "$0")/lib.sh"
proved
python3 - "$work" "$program" <<'PY'
import filecmp, os, shutil, sys
from rows import one_module, row, timed

work, program = sys.argv[1:]
SIZE, ROUNDS = 512 << 20, 4
source, copy = os.path.join(work, "set"), os.path.join(work, "copy")
one_module(source, SIZE, filled=True)
ways = {"cp": ["cp", "-r", source, copy], "cp and sync": ["sh", "-c", f"cp -r {source} {copy} && sync {copy}/*"],
        "init": [program, source, copy, "init", "0"]}


def leave_cache():
    """Has the system drop the set's pages, so that it is read from the disk next."""
    for name in os.listdir(source):
        file = os.open(os.path.join(source, name), os.O_RDONLY)
        os.posix_fadvise(file, 0, 0, os.POSIX_FADV_DONTNEED)
        os.close(file)


best = {}
for _ in range(ROUNDS):
    for cached in (False, True):
        for way, words in ways.items():
            shutil.rmtree(copy, ignore_errors=True)
            os.sync()
            if not cached:
                leave_cache()
            best[way, cached] = min(best.get((way, cached), (1e9, 0)), timed(words)[:2])
same = filecmp.cmp(os.path.join(source, "contents-0.bin"), os.path.join(copy, "contents-0.bin"), shallow=False)
assert same, "init changed the contents"
memory = max(best["init", cached][1] for cached in (False, True))
for cached, whence in ((False, "read from the disk"), (True, "read from the page cache")):
    took = {way: best[way, cached][0] for way in ways}
    row(f"init on a set of 512 MiB, {whence}", "at most 2.5 times cp", f"{took['init'] / took['cp']:.1f} times: {took['init']:.2f} s and {took['cp']:.2f} s; "
        f"{took['init'] / took['cp and sync']:.1f} times cp and sync ({took['cp and sync']:.2f} s)", took["init"] <= 2.5 * took["cp"])
row("memory of init on it", "at most 1.8 GiB", f"{memory:.0f} MiB", memory <= 1.8 * 1024)
PY
