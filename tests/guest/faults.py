"""The faults of tests/guest/run: each has its group, what is wrong in words, and its bytes.

The namespace is `sec-4k` of samples/linux/ns12, as Linux left it: one arena of 16 MiB with 3,829
sectors of 4,096 bytes, 4,085 blocks and 256 lanes. Six of its sectors were written, all by lane 0;
all other map entries are initial. Lane L begins with block 3829 + L as its free one.
"""
import os
import struct
import sys

sys.dont_write_bytecode = True
HERE = os.path.dirname(os.path.realpath(__file__))
sys.path.insert(1, os.path.join(os.path.dirname(os.path.dirname(HERE)), "lib"))
from formats import fletcher64  # noqa: E402

SIZE, PAGE = 16 << 20, 4096
SECTORS, BLOCKS, LANES = 3829, 4085, 256
MAP_AT, LOG_AT, BACKUP_AT = 16740352, 16756736, 16773120
# the runs of bytes that a namespace has beside its blocks
AREAS = ((0, PAGE), (MAP_AT, SIZE - MAP_AT))
# the fields of an info block: where each begins, and its form
FIELDS = {
    "flags": (48, "<I"), "major": (52, "<H"), "minor": (54, "<H"), "sector": (56, "<I"),
    "sectors": (60, "<I"), "block": (64, "<I"), "blocks": (68, "<I"), "lanes": (72, "<I"),
    "info": (76, "<I"), "next": (80, "<Q"), "data": (88, "<Q"), "map": (96, "<Q"),
    "log": (104, "<Q"), "backup": (112, "<Q"),
}
ZERO, ERROR = 1 << 31, 1 << 30
NORMAL = ZERO | ERROR
FIRST, BACKUP, BOTH = (0,), (BACKUP_AT,), (0, BACKUP_AT)
OTHER_UUID, NO_UUID = bytes(range(16)), bytes(16)


def areas_of(data):
    """The info blocks, the map and the log of a namespace with these bytes."""
    return b"".join(data[at : at + count] for at, count in AREAS)


class Space:
    """The bytes of the namespace, to be changed."""

    def __init__(self, data):
        self.data = bytearray(data)

    def put(self, at, piece):
        self.data[at : at + len(piece)] = piece

    def seal(self, at):
        """Gives the info block at this byte the checksum of its bytes."""
        block = bytes(self.data[at : at + PAGE - 8]) + bytes(8)
        self.put(at + PAGE - 8, struct.pack("<Q", fletcher64(block)))

    def entry(self, sector, word):
        self.put(MAP_AT + 4 * sector, struct.pack("<I", word))

    def entry_of(self, sector):
        return struct.unpack_from("<I", self.data, MAP_AT + 4 * sector)[0]

    def half(self, lane, side, fields):
        """Writes a log half: sector, old block, new block, sequence number."""
        self.put(LOG_AT + 64 * lane + 16 * side, struct.pack("<IIII", *fields))


# ---- changes: each is a function that changes a Space


def fields(places, **values):
    """Fields of the info blocks at these bytes, with right checksums."""
    def change(space):
        for place in places:
            for name, value in values.items():
                at, form = FIELDS[name]
                space.put(place + at, struct.pack(form, value))
            space.seal(place)
    return change


def sealed(places, at, piece):
    """Other bytes of info blocks, with right checksums."""
    def change(space):
        for place in places:
            space.put(place + at, piece)
            space.seal(place)
    return change


def bits(*places):
    """The lowest bit of each of these bytes."""
    def change(space):
        for place in places:
            space.data[place] ^= 1
    return change


def blank(at, count, byte=0):
    return lambda space: space.put(at, bytes([byte]) * count)


def entry(sector, word):
    return lambda space: space.entry(sector, word)


def exchanged(one, two):
    """The map entries of two sectors."""
    def change(space):
        first, second = space.entry_of(one), space.entry_of(two)
        space.entry(one, second)
        space.entry(two, first)
    return change


def numbers(lane, first, second):
    """The sequence numbers of a lane that never wrote; both halves name its free block."""
    def change(space):
        for side, number in enumerate((first, second)):
            space.half(lane, side, (lane, SECTORS + lane, SECTORS + lane, number))
    return change


def half(lane, side, *values):
    return lambda space: space.half(lane, side, values)


def resting(lane, old, new, sector=None):
    """The first half of a lane that never wrote."""
    return half(lane, 0, lane if sector is None else sector, old, new, 1)


def moving(lane, sector, old, new):
    """The next move of a lane that never wrote."""
    return half(lane, 1, sector, old, new, 2)


def pending(lane, sector):
    """A sector that was never written gets the lane's free block; its map entry hasn't it yet."""
    return moving(lane, sector, sector, SECTORS + lane)


def all_of(*changes):
    def change(space):
        for it in changes:
            it(space)
    return change


def spread(space):
    """The log layout of older Linux kernels: the halves of a lane stand 32 bytes apart."""
    for lane in range(LANES):
        at = LOG_AT + 64 * lane
        second = bytes(space.data[at + 16 : at + 32])
        space.put(at + 16, bytes(16) + second)


# ---- info blocks


def of_fields(places):
    """Wrong fields with right checksums."""
    rows = (
        ("the version is 3.0", {"major": 3}),
        ("the version is 2.1", {"minor": 1}),
        ("the version is 1.1", {"major": 1, "minor": 1}),
        ("the flag Error is set", {"flags": 1}),
        ("the unknown flag 2 is set", {"flags": 2}),
        ("ExternalLbaSize is 512", {"sector": 512}),
        ("ExternalLbaSize is 0", {"sector": 0}),
        ("ExternalNLba is one less", {"sectors": SECTORS - 1}),
        ("ExternalNLba is one more", {"sectors": SECTORS + 1}),
        ("InternalLbaSize is 4160", {"block": 4160}),
        ("InternalLbaSize is 0", {"block": 0}),
        ("InternalNLba is one less", {"blocks": BLOCKS - 1}),
        ("InternalNLba is one more", {"blocks": BLOCKS + 1}),
        ("NFree is 255", {"lanes": LANES - 1}),
        ("NFree is 257", {"lanes": LANES + 1}),
        ("NFree is 0", {"lanes": 0}),
        ("InfoSize is 512", {"info": 512}),
        ("InfoSize is 8192", {"info": 8192}),
        ("NextOff is 4096", {"next": PAGE}),
        ("NextOff is 16 MiB, the namespace's end", {"next": SIZE}),
        ("DataOff is 8192", {"data": 2 * PAGE}),
        ("DataOff is 0", {"data": 0}),
        ("MapOff is 4096 less", {"map": MAP_AT - PAGE}),
        ("MapOff is past the end", {"map": SIZE + PAGE}),
        ("LogOff is 4096 more", {"log": LOG_AT + PAGE}),
        ("LogOff is past the end", {"log": SIZE + PAGE}),
        ("InfoOff is 4096 less", {"backup": BACKUP_AT - PAGE}),
        ("InfoOff is past the end", {"backup": SIZE + PAGE}),
    )
    for text, values in rows:
        yield text, fields(places, **values)
    yield "ParentUuid is another one", sealed(places, 32, OTHER_UUID)
    yield "ParentUuid is zero", sealed(places, 32, NO_UUID)
    yield "Uuid is another one", sealed(places, 16, OTHER_UUID)
    yield "a byte that isn't read is set", sealed(places, 200, b"x")


def of_bytes(places):
    """Blocks whose checksums are wrong, or that aren't there."""
    yield "a bit of the signature", bits(*places)
    yield "a bit of the checksum", bits(*(it + PAGE - 8 for it in places))
    yield "a bit of MapOff", bits(*(it + 97 for it in places))
    yield "a bit that isn't read", bits(*(it + 2000 for it in places))
    yield "all bytes are zero", all_of(*(blank(it, PAGE) for it in places))


# of the wrong fields those that the backup and both blocks are tried with
OF_BACKUP = {
    "the version is 3.0", "the flag Error is set", "ExternalNLba is one less", "NFree is 255",
    "MapOff is 4096 less", "NextOff is 4096", "ParentUuid is another one", "Uuid is another one",
    "a byte that isn't read is set",
}
OF_BOTH = OF_BACKUP | {"the version is 1.1", "ExternalLbaSize is 512", "ParentUuid is zero"}


def first_infos():
    yield from of_bytes(FIRST)
    yield from of_fields(FIRST)


def backups():
    yield from of_bytes(BACKUP)
    yield from (it for it in of_fields(BACKUP) if it[0] in OF_BACKUP)


def both_infos():
    yield "the first one is another namespace's, the backup's bytes are zero", \
        all_of(sealed(FIRST, 32, OTHER_UUID), blank(BACKUP_AT, PAGE))
    yield from of_bytes(BOTH)
    yield from (it for it in of_fields(BOTH) if it[0] in OF_BOTH)


# ---- log and map


def log_numbers():
    for one, two in ((0, 0), (1, 1), (2, 2), (3, 3), (4, 1), (0, 4), (5, 6), (0xFFFFFFFF, 1)):
        yield f"sequence numbers {one} and {two} of lane 5", numbers(5, one, two)
    yield "sequence numbers 1 and 3 of lane 5: the first is newer by the ring", numbers(5, 1, 3)
    yield "lane 0's older half counts: its numbers 3 and 2 are exchanged", \
        all_of(half(0, 0, 8, 8, 1000, 2), half(0, 1, 7, 1000, 1, 3))


def log_groups():
    at, free = LOG_AT + 64 * 5, SECTORS + 5
    yield "all 64 bytes of lane 5 are zero", blank(at, 64)
    yield "all 64 bytes of lane 5 are ff", blank(at, 64, 0xFF)
    yield "a bit in the first byte of lane 5's padding", bits(at + 32)
    yield "a bit in the last byte of lane 5's padding", bits(at + 63)
    yield "a bit where lane 5's padding would have a sequence number", bits(at + 44)
    yield "lane 5's sector doesn't exist, and it moves nothing", resting(5, free, free, SECTORS)
    yield "lane 5 moves a sector that doesn't exist", moving(5, SECTORS, 9, free)
    yield "lane 5's old block doesn't exist", moving(5, 9, BLOCKS, free)
    yield "lane 5's new block doesn't exist", moving(5, 9, 9, BLOCKS)
    yield "both blocks of lane 5 don't exist", resting(5, BLOCKS, BLOCKS)
    yield "the older half of lane 0 names what doesn't exist", \
        half(0, 1, SECTORS, BLOCKS, BLOCKS, 2)
    yield "the blocks of lane 5 have both flag bits, as PMDK writes them", \
        resting(5, NORMAL | free, NORMAL | free)
    yield "lanes 5 and 6 have the same free block", resting(6, free, free)
    yield "lane 5's free block is a sector's", resting(5, 9, 9)
    yield "the groups of lanes 5 and 6 are exchanged", \
        all_of(resting(5, free + 1, free + 1, 6), resting(6, free, free, 5))


def whole_logs():
    yield "the bytes of all lanes are zero", blank(LOG_AT, 64 * LANES)
    yield "the bytes of all lanes are ff", blank(LOG_AT, 64 * LANES, 0xFF)
    yield "sequence numbers 1 and 1 of all lanes", \
        all_of(*(numbers(lane, 1, 1) for lane in range(LANES)))
    yield "a bit in the padding of all lanes", bits(*range(LOG_AT + 40, BACKUP_AT, 64))
    yield "all groups in the layout of older Linux kernels, halves 32 bytes apart", spread


def logs():
    yield from log_numbers()
    yield from log_groups()
    yield from whole_logs()


def blocks():
    for name, flags in (("normal", NORMAL), ("zero", ZERO), ("error", ERROR)):
        yield f"the entry of sector 9 is {name}, and its block doesn't exist", \
            entry(9, flags | BLOCKS)
    yield "the entry of sector 9 has the greatest block number", entry(9, NORMAL | ERROR - 1)
    yield "sector 9, never written, has the block of sector 1000", entry(9, NORMAL | 500)
    yield "sector 1000 has the block of sector 500, which has the same bytes", \
        entry(1000, NORMAL | 7)
    yield "sector 9 has a lane's free block", entry(9, NORMAL | SECTORS + 5)
    yield "a bit of the block number of sector 1000", bits(MAP_AT + 4000)
    yield "a bit of the block number of sector 9, which makes another valid one", \
        entry(9, NORMAL | 8)


def flags():
    yield "sector 1000 has the flag Zero alone", entry(1000, ZERO | 500)
    yield "sector 1000 has the flag Error alone", entry(1000, ERROR | 500)
    yield "sector 9, never written, has the flag Error alone", entry(9, ERROR | 9)
    yield "sector 1000 has an initial entry", entry(1000, 0)
    yield "sector 1000 has neither flag, but its block", entry(1000, 500)
    yield "sector 9 has neither flag, and a block number that isn't read", entry(9, 5)
    yield "sector 9 has both flags and its own block", entry(9, NORMAL | 9)


def maps():
    yield from blocks()
    yield from flags()
    yield "the entries of sectors 1 and 7, both written, are exchanged", exchanged(1, 7)
    yield "the entries of sectors 1000 and 9 (normal 9) are exchanged", \
        all_of(entry(1000, NORMAL | 9), entry(9, NORMAL | 500))
    yield "the entries of sectors 20 and 21, never written, are exchanged", \
        all_of(entry(20, NORMAL | 21), entry(21, NORMAL | 20))
    yield "all entries are zero", blank(MAP_AT, 4 * SECTORS)
    yield "all entries are ff", blank(MAP_AT, 4 * SECTORS, 0xFF)
    yield "the entries of sectors 0 to 1023 are ff", blank(MAP_AT, PAGE, 0xFF)
    yield "512 bytes of the map are ff", blank(MAP_AT + 8192, 512, 0xFF)
    yield "bytes behind the map, before the log, are ff", blank(MAP_AT + 4 * SECTORS, 16, 0xFF)


# ---- pending moves, and the rest


def moves():
    move = pending(5, 9)
    yield "lane 5 moves sector 9", move
    yield "lanes 5 and 6 move sectors 9 and 10", all_of(move, pending(6, 10))
    yield "lane 5 moves sector 1000, which was written", moving(5, 1000, 500, SECTORS + 5)
    yield "lane 5 moves sector 9, whose entry has another block", \
        all_of(move, entry(9, NORMAL | 20))
    yield "lane 5 moves sector 9, whose entry has a block that doesn't exist", \
        all_of(move, entry(9, NORMAL | BLOCKS))
    yield "lane 5 moves sector 9, whose entry is Zero", all_of(move, entry(9, ZERO | 9))
    yield "lane 5 moves sector 9, whose entry is Error", all_of(move, entry(9, ERROR | 9))
    yield "lanes 5 and 6 both move sector 9", all_of(move, pending(6, 9))
    yield "lane 5 moves sector 9 to the block of sector 20", moving(5, 9, 9, 20)
    yield "a move that the map has", all_of(move, entry(9, NORMAL | SECTORS + 5))
    yield "lane 5 moves sector 9, and lane 6 has the numbers 1 and 1", \
        all_of(move, numbers(6, 1, 1))
    yield "lane 5 moves sector 9, and the first info block is zero", all_of(move, blank(0, PAGE))
    yield "lane 5 moves sector 9, and the backup is zero", all_of(move, blank(BACKUP_AT, PAGE))


def others():
    yield "the first info block is zero, and sectors 9 and 1000 share a block", \
        all_of(blank(0, PAGE), entry(9, NORMAL | 500))
    yield "the backup is zero, and lane 5 has the numbers 1 and 1", \
        all_of(blank(BACKUP_AT, PAGE), numbers(5, 1, 1))
    yield "lane 5 has the numbers 1 and 1, and sectors 9 and 1000 share a block", \
        all_of(numbers(5, 1, 1), entry(9, NORMAL | 500))
    yield "a bit of the bytes of sector 1000", bits(PAGE + 500 * PAGE + 7)
    yield "all bytes of sector 1000 are zero", blank(PAGE + 500 * PAGE, PAGE)
    yield "a bit of a free block", bits(PAGE + (SECTORS + 5) * PAGE)
    yield "a bit between the last block and the map", bits(PAGE + BLOCKS * PAGE)


GROUPS = {
    "first info block": first_infos, "backup": backups, "both info blocks": both_infos,
    "log": logs, "map": maps, "pending moves": moves, "several, or bytes of sectors": others,
}


def faults(base):
    """Yields each fault's group, text and damaged bytes."""
    for group, rows in GROUPS.items():
        for text, change in rows():
            space = Space(base)
            change(space)
            yield group, text, bytes(space.data)
