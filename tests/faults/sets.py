"""Image sets with one fault each, written from the fields of UEFI 2.10 and ACPI 6.5, without the program."""
import os
import struct
import sys
import uuid

TOP = os.path.dirname(os.path.dirname(os.path.dirname(os.path.abspath(__file__))))
sys.path.insert(0, os.path.join(TOP, "lib"))
import formats  # noqa: E402
from formats import BTT_2_0, VENDOR, checked, cookie_of, fletcher64, index_block, label  # noqa: E402, F401

SIZE, LINE, SLOTS, BLOCK = 65536, 4096, 14, 256
FIRST, SECOND = uuid.UUID("11111111-1111-4111-8111-111111111111"), uuid.UUID("22222222-2222-4222-8222-222222222222")
THIRD = uuid.UUID("33333333-3333-4333-8333-333333333333")


def spa(index=1, length=2 * SIZE, base=1 << 32):
    return formats.memory_range(index, length, base)


def mapping(module, region=1, control=None, size=SIZE, offset=None, start=0, lines=1, ways=2):
    offset = LINE * module if offset is None else offset
    return formats.mapping(module + 1, region, module + 1 if control is None else control, size, offset, start, lines, ways, module)


def interleave(offsets=(0,), line=LINE, index=1):
    return formats.interleave(offsets, line, index)


def control(module):
    return formats.control(module + 1, module + 1)


def table(*structures):
    return formats.table(structures, (b"NVDTST", b"FAULTSET"))


def two(*structures):
    """A table of two modules with these structures, or an interleave set of both."""
    return table(*(structures or (spa(), mapping(0), mapping(1), interleave())), control(0), control(1))


def cookie(modules=2, line=LINE):
    return cookie_of([(line * m, m + 1, VENDOR) for m in range(modules)])


def area(labels=(), used=None):
    """A label area of 4,096 bytes with labels from slot 0 on; `used` slots are used, as many as there are labels if not given."""
    free = range(len(labels) if used is None else used, SLOTS)
    text = index_block(0, 1, BLOCK, SLOTS, free) + index_block(1, 2, BLOCK, SLOTS, free) + b"".join(labels)
    return text.ljust(4096, b"\0")


def part(module, who=FIRST, slot=0, name=b"a", raw=8192, dpa=0, **fields):
    """A module's label of a namespace on both modules."""
    return label(who, name, slot, raw, dpa=dpa, **{"count": 2, "position": module, "cookie": cookie(), **fields})


def of_version(block, major, minor):
    block = bytearray(block)
    block[60:64] = struct.pack("<HH", major, minor)
    block[64:72] = bytes(8)
    block[64:72] = struct.pack("<Q", fletcher64(bytes(block)))
    return bytes(block)


def pair(labels0=None, labels1=None, nfit=None, **other):
    """A set of two modules, with these label areas (two empty ones, if not given)."""
    return {"nfit.bin": two() if nfit is None else nfit, "labels-0.bin": area() if labels0 is None else labels0,
            "labels-1.bin": area() if labels1 is None else labels1, "contents-0.bin": SIZE, "contents-1.bin": SIZE, "complete": b"", **other}


SPARE = [uuid.UUID(int=0x44444444_4444_4444_8444_000000000000 + k) for k in range(SLOTS - 1)]


def full_and_pending():
    """A set of two modules, of which module 0 has a second region for itself and no free slot: FIRST is pending under two names, and the rest are small."""
    nfit = two(spa(), mapping(0), mapping(1), interleave(), spa(2, SIZE, 1 << 33), mapping(0, 2, 1, SIZE, 0, SIZE, 0, 1))
    small = [label(who, b"s%d" % k, k + 1, 4096, dpa=SIZE + 4096 * k, cookie=cookie(1)) for k, who in enumerate(SPARE)]
    return pair(area([part(0, name=b"b", flags=8), *small]), area([part(1)]), nfit, **{"contents-0.bin": 2 * SIZE})


ARENA = 16 << 20
SECTOR, LANES = 4096, 256
INNER = (ARENA - 8192 - 64 * LANES - 4096) // (SECTOR + 4)
OUTER = INNER - LANES
MAP_SIZE = -(-4 * OUTER // 4096) * 4096
MAP_AT = ARENA - 4096 - 64 * LANES - MAP_SIZE
LOG_AT = MAP_AT + MAP_SIZE
INFO_AT = LOG_AT + 64 * LANES


def info(seal=True, unused=b"", **fields):
    """An info block with these fields; `unused` stands behind them."""
    it = {"signature": b"BTT_ARENA_INFO\0\0", "parent": FIRST.bytes, "flags": 0, "major": 2, "minor": 0, "sector": SECTOR, "outer": OUTER, "block": SECTOR,
          "inner": INNER, "lanes": LANES, "info": 4096, "next": 0, "data": 4096, "map": MAP_AT, "log": LOG_AT, "backup": INFO_AT, **fields}
    numbers = ["flags", "major", "minor", "sector", "outer", "block", "inner", "lanes", "info", "next", "data", "map", "log", "backup"]
    text = it["signature"] + SECOND.bytes + it["parent"] + struct.pack("<IHHIIIIIIQQQQQ", *(it[name] for name in numbers))
    text = (text + unused).ljust(4088, b"\0")
    return text + struct.pack("<Q", fletcher64(text + bytes(8)) if seal else 1)


def bad(*records):
    """A list of bad ranges: pairs of a start and a length."""
    return b"".join(struct.pack("<QQ", *it) for it in records)


def sectors(first=None, entries=(), halves=(), mode=BTT_2_0, last=None, ranges=None):
    """A set of one module with a sector namespace of 16 MiB, with these map entries and log groups changed, this backup and these bad ranges."""
    entry = dict(entries)
    half = dict(halves)
    pieces = {0: info() if first is None else first, INFO_AT: info() if last is None else last,
              MAP_AT: b"".join(struct.pack("<I", entry.get(i, 1 << 31 | i)) for i in range(OUTER)),
              LOG_AT: b"".join(half.get(lane, struct.pack("<IIII48x", lane, OUTER + lane, OUTER + lane, 1)) for lane in range(LANES))}
    labels = area([label(FIRST, b"a", 0, ARENA, count=1, position=0, cookie=cookie(1), lba=SECTOR, abstraction=mode)])
    nfit = table(spa(length=ARENA), mapping(0, size=ARENA, lines=0, ways=1), control(0))
    files = {"nfit.bin": nfit, "labels-0.bin": labels, "contents-0.bin": (ARENA, pieces), "complete": b""}
    return files if ranges is None else {**files, "badranges-0.bin": bad(*ranges)}


# the most bytes of arenas that a command opens in memory
HELD = 1 << 30


def group(old, new, seq, padding=bytes(32)):
    """A lane's log group with only the first half written."""
    return struct.pack("<IIII16x", 0, old, new, seq) + padding


def few_sectors(who, count, size, first=None):
    """The pieces of an arena of so many bytes, most of them unused, with so many sectors."""
    block = info(parent=who.bytes, outer=count, inner=count + LANES, backup=size - 4096)
    return {0: block if first is None else first, size - 4096: block, MAP_AT: b"".join(struct.pack("<I", 1 << 31 | 1 << 30 | i) for i in range(count)),
            LOG_AT: b"".join(group(count + lane, count + lane, 1) for lane in range(LANES))}


def wide(*sizes, broken=None):
    """A set of one module of holes, with a sector namespace of 3 sectors in one arena for each of these sizes. That of one place may have no info block."""
    ends = [sum(sizes[: it + 1]) for it in range(len(sizes))]
    labels, pieces = [], {}
    for slot, (who, size, end) in enumerate(zip((FIRST, SECOND, THIRD), sizes, ends)):
        start = end - size
        labels.append(label(who, b"n%d" % slot, slot, size, dpa=start, count=1, position=0, cookie=cookie(1), lba=SECTOR, abstraction=BTT_2_0))
        pieces |= {start + at: piece for at, piece in few_sectors(who, 3, size, bytes(4096) if slot == broken else None).items()}
    nfit = table(spa(length=ends[-1]), mapping(0, size=ends[-1], lines=0, ways=1), control(0))
    return {"nfit.bin": nfit, "labels-0.bin": area(labels), "contents-0.bin": (ends[-1], pieces), "complete": b""}


def past_the_limit():
    """A set of six modules of holes with 3 TiB each, which file systems of small blocks take, too: 18 TiB, and the first five have 15."""
    size = 3 << 40
    nfit = table(spa(length=6 * size), *(mapping(m, size=size, ways=6) for m in range(6)), interleave(), *(control(m) for m in range(6)))
    return {"nfit.bin": nfit, **{f"contents-{m}.bin": size for m in range(6)}, "complete": b""}


def chain(**other):
    """A set of one module with a sector namespace of two arenas of 16 MiB, of which the first names the second; `other` changes the second one."""
    _, pieces = sectors()["contents-0.bin"]
    first = info(next=ARENA)
    both = {**pieces, 0: first, INFO_AT: first, **{ARENA + at: piece for at, piece in sectors(**other)["contents-0.bin"][1].items()}}
    labels = area([label(FIRST, b"a", 0, 2 * ARENA, count=1, position=0, cookie=cookie(1), lba=SECTOR, abstraction=BTT_2_0)])
    nfit = table(spa(length=2 * ARENA), mapping(0, size=2 * ARENA, lines=0, ways=1), control(0))
    return {"nfit.bin": nfit, "labels-0.bin": labels, "contents-0.bin": (2 * ARENA, both), "complete": b""}


def write(folder, files):
    """Writes a set: a file is its bytes, its length, or its length with bytes at some places; None is a directory in its place."""
    os.mkdir(folder)
    for name, data in files.items():
        path = os.path.join(folder, name)
        if data is None:
            os.mkdir(path)
            continue
        with open(path, "wb") as file:
            if isinstance(data, bytes):
                file.write(data)
            else:
                size, pieces = data if isinstance(data, tuple) else (data, {})
                file.truncate(size)
                for at, piece in pieces.items():
                    file.seek(at)
                    file.write(piece)
