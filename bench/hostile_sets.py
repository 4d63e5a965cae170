"""Image sets that ask as much of a command as their limits allow: many regions, many labels, and labels that a crash left."""
import os
import random
import sys
import uuid

sys.dont_write_bytecode = True
sys.path.insert(0, os.path.join(os.path.dirname(os.path.abspath(__file__)), "..", "lib"))
from formats import VENDOR, control, cookie_of, index_block, interleave, label, mapping, memory_range, table  # noqa: E402

BLOCK, SLOTS, UNIT, AREA = 768, 4090, 4096, 1 << 20
UPDATING = 8


def nfit(ranges, mappings, modules, lines=b""):
    """A firmware table: the sizes of the ranges; of each mapping the module, the range, size, offset, start, the interleave structure, ways."""
    structures = [memory_range(i + 1, size, (i + 1) << 32) for i, size in enumerate(ranges)]
    structures += [mapping(module + 1, at + 1, module + 1, size, offset, start, way, ways, module) for module, at, size, offset, start, way, ways in mappings]
    return table([*structures, lines, *(control(m + 1, m + 1) for m in range(modules))], (b"NVDBCH", b"HOSTILES"))


def area_with(labels):
    """A label area whose first slots have these labels."""
    blocks = [index_block(side, 2 - side, BLOCK, SLOTS, range(len(labels), SLOTS)) for side in (0, 1)]
    return b"".join([*blocks, *labels]).ljust(AREA, b"\0")


def write(folder, nfit_bytes, areas, sizes):
    os.mkdir(folder)
    files = {"nfit.bin": nfit_bytes, "complete": b"", **{f"labels-{m}.bin": area for m, area in enumerate(areas)}}
    for name, data in files.items():
        with open(os.path.join(folder, name), "wb") as file:
            file.write(data)
    for module, size in enumerate(sizes):
        with open(os.path.join(folder, f"contents-{module}.bin"), "wb") as file:
            file.truncate(size)


def drawn_uuids(count):
    drawn = random.Random(1)
    return [uuid.UUID(int=drawn.getrandbits(128)) for _ in range(count)]


def many_regions(folder, regions=10000, modules=64, labels=4000, one_uuid=False):
    """Each region is a unit of one module. Each label has a UUID of its own (or all have one), and lies behind the last region of its module."""
    each = -(-regions // modules)
    mappings = [(i % modules, i, UNIT, 0, UNIT * (i // modules), 0, 1) for i in range(regions)]
    owners = drawn_uuids(1 if one_uuid else modules * labels)
    areas = []
    for module in range(modules):
        own = owners * labels if one_uuid else owners[module * labels:][:labels]
        areas.append(area_with([label(own[slot], b"namespace %d" % slot, slot, UNIT, dpa=UNIT * (each + slot), cookie=cookie_of([(0, module + 1, VENDOR)])) for slot in range(labels)]))
    write(folder, nfit([UNIT] * regions, mappings, modules), areas, [UNIT * each] * modules)


def all_unfinished(folder, modules=2, labels=SLOTS - 1):
    """One region over all modules. Each UUID has a label with UPDATING on all modules but the last, so recovery removes all of them."""
    span = UNIT * (labels + 1)
    cookie = cookie_of([(UNIT * m, m + 1, VENDOR) for m in range(modules)])
    mappings = [(m, 0, span, UNIT * m, 0, 1, modules) for m in range(modules)]
    owners = drawn_uuids(labels)
    areas = []
    for module in range(modules):
        place = {"count": modules, "position": module, "cookie": cookie, "flags": UPDATING}
        own = owners if module < modules - 1 else []
        areas.append(area_with([label(who, b"namespace %d" % slot, slot, UNIT, dpa=UNIT * slot, **place) for slot, who in enumerate(own)]))
    write(folder, nfit([modules * span], mappings, modules, interleave([0], UNIT)), areas, [span] * modules)
