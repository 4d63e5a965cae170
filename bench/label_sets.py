"""Image sets of 64 modules, each with a label area of 1 MiB and 4,000 labels, for the measurements of this folder."""
import os
import random
import sys
import uuid

sys.dont_write_bytecode = True
sys.path.insert(0, os.path.join(os.path.dirname(os.path.abspath(__file__)), "..", "lib"))
from formats import VENDOR, control, cookie_of, index_block, interleave, label, mapping, memory_range, table  # noqa: E402

MODULES, LABELS, BLOCK, SLOTS, UNIT = 64, 4000, 768, 4090, 4096
# the bytes of a module: half of the labels lie past its end
SPAN = LABELS // 2 * UNIT


def cookie_of_all():
    return cookie_of([(UNIT * m, m + 1, VENDOR) for m in range(MODULES)])


def nfit(shared):
    ranges = [MODULES * SPAN] if shared else [SPAN] * MODULES
    structures = [memory_range(i + 1, size, (i + 1) << 32) for i, size in enumerate(ranges)]
    for m in range(MODULES):
        index, offset, way, ways = (1, UNIT * m, 1, MODULES) if shared else (m + 1, 0, 0, 1)
        structures.append(mapping(m + 1, index, m + 1, SPAN, offset, 0, way, ways, m))
    structures += [interleave([0], UNIT)] if shared else []
    return table([*structures, *(control(m + 1, m + 1) for m in range(MODULES))], (b"NVDBCH", b"LISTSETS"))


def make(folder, shared, free=0, blank=()):
    """Makes a set and answers how many UUIDs it has.

    With `shared` all modules are one interleave set, and each UUID has a label on each module; else each module is a
    region, and each label has a UUID of its own. The last `free` units of each module have no label, and the label
    areas of the modules in `blank` are empty.
    """
    os.mkdir(folder)
    drawn = random.Random(1)
    own = [uuid.UUID(int=drawn.getrandbits(128)) for _ in range(LABELS if shared else LABELS * MODULES)]
    cookie = cookie_of_all()
    files = {"nfit.bin": nfit(shared), "complete": b""}
    for m in range(MODULES):
        area = bytearray(index_block(0, 2, BLOCK, SLOTS, range(LABELS, SLOTS)) + index_block(1, 1, BLOCK, SLOTS, range(LABELS, SLOTS)))
        for slot in range(LABELS):
            if shared:
                place = {"count": MODULES, "position": m, "cookie": cookie}
            else:
                place = {"cookie": cookie_of([(0, m + 1, VENDOR)])}
            who = own[slot if shared else m * LABELS + slot]
            unit = slot if slot < SPAN // UNIT - free else slot + free
            area += label(who, b"namespace %d" % slot, slot, UNIT, dpa=UNIT * unit, **place)
        files[f"labels-{m}.bin"] = bytes(1 << 20) if m in blank else bytes(area.ljust(1 << 20, b"\0"))
    for name, data in files.items():
        with open(os.path.join(folder, name), "wb") as file:
            file.write(data)
    for m in range(MODULES):
        with open(os.path.join(folder, f"contents-{m}.bin"), "wb") as file:
            file.truncate(SPAN)
    return len(own)
