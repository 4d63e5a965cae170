"""What the Python parts of this folder's scripts share: rows of figures, and runs that are timed."""
import os
import struct
import subprocess
import sys
import tempfile
import time

sys.path.insert(0, os.path.join(os.path.dirname(os.path.abspath(__file__)), "..", "lib"))
from formats import blank_table, control, mapping, memory_range, table  # noqa: E402

TIME = "/usr/bin/time"
if not os.path.exists(TIME):
    print("wants GNU time, and it isn't here", file=sys.stderr)
    sys.exit(77)


def row(figure, asked, measured, met=True):
    """Prints a figure's row; `met` is whether it is what was asked."""
    print(f"| {figure} | {asked} | {measured}{'' if met else ' (NOT MET)'} |", flush=True)


def timed(words, check=lambda text: True, status=0, script=None):
    """The seconds, the peak memory in MiB and the text of a run, which has to end with a status and a text that passes a check.
    script is the path of its standard input, if it reads one. GNU time starts the run: the system counts as a process's own what
    the one that started it took, and Python takes some 15 MiB."""
    given = open(script, "rb") if script else subprocess.DEVNULL
    with tempfile.NamedTemporaryFile("r") as peak:
        start = time.perf_counter()
        child = subprocess.Popen([TIME, "-q", "-f", "%M", "-o", peak.name, *words], stdin=given, stdout=subprocess.PIPE)
        text = child.stdout.read()
        ended = child.wait()
        took = time.perf_counter() - start
        memory = int(peak.read()) / 1024
    if script:
        given.close()
    assert ended == status and check(text), (words, ended, text[:200])
    return took, memory, text


def median(words, runs, check=lambda text: True, status=0, script=None, before=lambda: None):
    """The median time of so many runs, and the memory and text of the last. `before` is called before each."""
    times = []
    for _ in range(runs):
        before()
        took, memory, text = timed(words, check, status, script)
        times.append(took)
    return sorted(times)[runs // 2], memory, text


def least(ways, rounds, before=lambda: None):
    """The least time of each way, with its memory; the ways take turns. `before` is called before each run."""
    best = [(float("inf"), 0)] * len(ways)
    for _ in range(rounds):
        for at, words in enumerate(ways):
            before()
            best[at] = min(best[at], timed(words)[:2])
    return best


def one_region(size):
    """A firmware's table of one region of one module (ACPI 6.5, section 5.2.25)."""
    return table([memory_range(1, size), mapping(1, 1, 1, size), control(1, 1)], (b"NVDBCH", b"ONE     "))


def image_set(folder, nfit, count, size, word_each=None, filled=False):
    """An image set of modules: sparse, or with a word in each MiB of the contents, or filled throughout."""
    os.makedirs(folder)
    block = os.urandom(1 << 20) if filled else None
    with open(os.path.join(folder, "nfit.bin"), "wb") as file:
        file.write(nfit)
    for module in range(count):
        with open(os.path.join(folder, f"labels-{module}.bin"), "wb") as file:
            file.truncate(131072)
        with open(os.path.join(folder, f"contents-{module}.bin"), "wb") as file:
            file.truncate(size)
            for at in range(0, size, 1 << 20) if filled or word_each else []:
                file.seek(at)
                file.write(block or struct.pack("<Q", at + 1))
    with open(os.path.join(folder, "complete"), "wb"):
        pass


def one_module(folder, size, word_each=None, filled=False):
    """An image set of one module."""
    image_set(folder, one_region(size), 1, size, word_each, filled)


def by_turns(folder, count, size, filled=False):
    """An image set of modules that take turns every 4,096 bytes; a single one has no turns."""
    image_set(folder, blank_table([size] * count), count, size, filled=filled)
