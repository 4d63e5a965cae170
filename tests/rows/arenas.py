"""Sets with a sector namespace in one module, for the rows of `write`: a chain of two arenas, and an arena with a pending move."""
import os
import struct
import sys

sys.dont_write_bytecode = True
sys.path.insert(0, os.path.join(os.path.dirname(os.path.dirname(os.path.dirname(os.path.abspath(__file__)))), "lib"))
from formats import fletcher64  # noqa: E402

ARENA, BLOCK = 16 << 20, 4096


def number(data, at, size=8):
    return int.from_bytes(data[at : at + size], "little")


def grown(table, size):
    """A firmware table of one module with a region and a mapping of this size; its Checksum isn't set."""
    data = bytearray(table)
    struct.pack_into("<Q", data, 80, size)
    struct.pack_into("<Q", data, 112, size)
    return bytes(data)


def chained(arena):
    """Two arenas with these bytes, of which the first names the second."""
    first = bytearray(arena)
    for at in (0, number(arena, 112)):
        block = bytearray(first[at : at + BLOCK])
        struct.pack_into("<Q", block, 80, len(arena))
        block[4088:] = bytes(8)
        block[4088:] = struct.pack("<Q", fletcher64(bytes(block)))
        first[at : at + BLOCK] = block
    return bytes(first) + arena


def entry_of(arena, sector):
    at = number(arena, 96) + 4 * sector
    return at, arena[at : at + 4]


def with_entry(arena, sector, entry):
    """The arena with another map entry of a sector."""
    at, _ = entry_of(arena, sector)
    return arena[:at] + entry + arena[at + 4 :]
