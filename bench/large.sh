#!/bin/sh
# Times commands on large sparse image sets, and takes their memory: sets of one module, and of two that take turns every 4,096 bytes. Sectors
# have 4,096 bytes, arenas 4 lanes. In one set a namespace lies over all contents. In the other one there are two, of a 64th and a 128th of
# the contents: 1 GiB and 512 MiB in a set of 64 GiB. They are freshly made. What only reads is the median of five runs, what saves of three.
# Beside them stand sets of 512 MiB of data: `rename` and `cp` with `sync`, `export` and `cat` to a pipe, `create --mode sector` and `init`.
# At the end a script of `serve` opens 65,536 UUIDs that aren't there.
# usage: bench/large.sh [MIB]   (MIB: the size of the sparse sets, 65536 if it isn't given, at least 512; wants the proved build:
#        NVD_BUILD=proved ./nvd samples/small - list)
# shellcheck source=bench/lib.sh
. "$(dirname -- "$0")/lib.sh"
proved
python3 - "$work" "$program" "${1:-65536}" "$top/samples/small" <<'PY'
import os, shutil, sys, uuid
from rows import by_turns, least, median, row, timed

work, program, mib, small = sys.argv[1], sys.argv[2], int(sys.argv[3]), sys.argv[4]
WHOLE, FIRST, SECOND, NEW = (f"{k * 8}-{k * 4}-4{k * 3}-8{k * 3}-{k * 12}" for k in "1234")
# an arena has at least 16 MiB
INNER, HALF, DATA = max(mib // 64, 16), max(mib // 128, 16), 512
KINDS = {1: "one module", 2: "two modules by turns"}
out, script = os.path.join(work, "out"), os.path.join(work, "script")


def said(mib):
    return f"{mib >> 10} GiB" if mib % 1024 == 0 else f"{mib} MiB"


def sector(who, mib, lanes=4):
    """The words that create a sector namespace."""
    return ["create", "--uuid", who, "--name", "a", "--region", "0", "--mode", "sector", "--sector", "4096", "--lanes", str(lanes), "--size", str(mib << 20)]


def change(folder, name, *words):
    """The set that a command makes of another one."""
    made = os.path.join(work, name)
    timed([program, folder, made, *words], lambda text: text == b"ok\n")
    return made


def ready(modules, mib, filled=False):
    """A blank set, and the same one with index blocks on each module."""
    blank = folder = os.path.join(work, "blank")
    by_turns(blank, modules, (mib << 20) // modules, filled)
    for module in range(modules):
        made = change(folder, f"ready{module}", "init", str(module))
        if folder != blank:
            shutil.rmtree(folder)
        folder = made
    return blank, folder


def reading(words, folder, what, limit):
    """A row of a command that only reads. The limit is in seconds and MiB."""
    took, memory, _ = median([program, folder, "-", *words], 5)
    asked = f"within {limit[0] * 1000:.0f} ms and {limit[1]} MiB" if limit else "none"
    row(f"{words[0]} {what}", asked, f"{took * 1000:.1f} ms; {memory:.1f} MiB", not limit or took <= limit[0] and memory <= limit[1])


def saved(folder, *words):
    """The median time of a command that saves, and its memory."""
    return median([program, folder, out, *words], 3, script=script if words[0] == "serve" else None, before=lambda: shutil.rmtree(out, ignore_errors=True))[:2]


def saving(words, folder, what, most=32):
    """A row of a command that saves; it returns the time."""
    took, memory = saved(folder, *words)
    asked = f"within 15 s and {most} MiB" if most else "within 15 s"
    row(f"{words[0]} {what}", asked, f"{took:.2f} s; {memory:.0f} MiB", took <= 15 and (not most or memory <= most))
    return took


def opening(who):
    """Writes the script of a session that opens a namespace."""
    with open(script, "w", encoding="ascii") as to:
        to.write(f"session 0\nopen {who}\n")


def over_all(modules, folder):
    """Rows of a namespace over all contents."""
    what = f"of a namespace over a sparse set of {said(mib)}, {KINDS[modules]}"
    for words in (["info", WHOLE], ["read", WHOLE, "0"]):
        reading(words, folder, what, (0.5, 80))


def inside(modules, folder):
    """Rows of two namespaces that are a small part of the contents."""
    where = f"a sparse set of {said(mib)}, {KINDS[modules]}"
    what = f"a namespace of {said(INNER)} in {where}"
    for words in (["labels", "0"], ["list"]):
        reading(words, folder, f"on {where}", None)
    for words in (["info", FIRST], ["read", FIRST, "0"]):
        reading(words, folder, f"of {what}", (0.03, 16))
    copy = saving(["rename", FIRST, "b"], folder, f"on {where}")
    saving(["write", FIRST, "0", "fill:5a"], folder, f"of a sector of {what}")
    saving(sector(NEW, INNER), folder, f"of {what}")
    opening(FIRST)
    saving(["serve"], folder, f"that opens {what}", None)
    opening(SECOND)
    took, memory = saved(folder, "serve")
    row(f"serve that opens a namespace of {said(HALF)} in {where}", "at most 1 s beyond rename", f"{took - copy:.2f} s beyond {copy:.2f} s; {memory:.0f} MiB", took - copy <= 1)


def sparse(modules):
    """The rows of sparse sets. Each set is removed once its rows are measured."""
    blank, folder = ready(modules, mib)
    shutil.rmtree(blank)
    whole = change(folder, "whole", *sector(WHOLE, mib))
    over_all(modules, whole)
    shutil.rmtree(whole)
    one = change(folder, "one", *sector(FIRST, INNER))
    shutil.rmtree(folder)
    both = change(one, "both", *sector(SECOND, HALF))
    shutil.rmtree(one)
    inside(modules, both)
    shutil.rmtree(both)


def beside(figure, asked, times, ways):
    """A row of a command's time beside that of another one, by turns; the ways of both are words, and the set that they make."""
    (took, memory), (other, _) = least(ways, 5, lambda: (shutil.rmtree(out, ignore_errors=True), os.sync()))
    row(figure, f"at most {times:g} times {asked}", f"{took / other:.2f} times: {took:.2f} s and {other:.2f} s; {memory:.0f} MiB", took <= times * other)


def data(modules):
    """The rows of sets of data."""
    blank, folder = ready(modules, DATA, True)
    what = f"{DATA} MiB of data, {KINDS[modules]}"
    beside(f"create --mode sector of 32 MiB on {what}", "init", 3, [[program, folder, out, *sector(NEW, 32, 256)], [program, blank, out, "init", "0"]])
    shutil.rmtree(blank)
    raw = change(folder, "raw", "create", "--uuid", FIRST, "--name", "a", "--region", "0", "--mode", "raw", "--size", str(DATA << 20))
    shutil.rmtree(folder)
    beside(f"rename on {what}", "cp and sync", 1.1, [[program, raw, out, "rename", FIRST, "b"], ["sh", "-c", f"cp -r {raw} {out}; sync"]])
    contents = " ".join(os.path.join(raw, f"contents-{module}.bin") for module in range(modules))
    beside(f"export of {what}", "cat to a pipe", 2, [["sh", "-c", f"{program} {raw} - export {FIRST} | cat >/dev/null"], ["sh", "-c", f"cat {contents} | cat >/dev/null"]])
    shutil.rmtree(raw)


def opens(most=65536):
    """The row of a script that opens UUIDs which the set doesn't have. Four times as many take four times as long, or a little more."""
    found = {}
    for count in (most // 4, most // 2, most):
        with open(script, "w", encoding="ascii") as to:
            to.write("session 0\n" + "".join(f"open {uuid.UUID(int=(k + 1) * 0x9E3779B97F4A7C15F39CC0605CEDC835 % (1 << 128))}\n" for k in range(count)))
        found[count] = median([program, small, out, "serve"], 3, lambda text: text.count(b"refused NoSuch") == count, script=script, before=lambda: shutil.rmtree(out, ignore_errors=True))[0]
    row(f"a script that opens {most:,} UUIDs", "no faster than n log n", ", ".join(f"{took:.2f} s of {count}" for count, took in found.items()), found[most] <= 6 * found[most // 4])


for modules in KINDS:
    sparse(modules)
for modules in KINDS:
    data(modules)
opens()
PY
