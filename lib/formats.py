"""The formats that scripts pack and unpack, from the fields of ACPI 6.5, section 5.2.25, and UEFI 2.10, sections 6.2 and 13.19, without the program.

Each structure stands here once. The samples, the tests, the figures of bench/ and nvd's own commands take them from here.
"""
import os
import struct
import uuid

# the multiple of every size of contents, and the most bytes of contents that a set may have
PAGE, LIMIT = 4096, 16 << 40
PERSISTENT_MEMORY = uuid.UUID("66f0d379-b4f3-4074-ac43-0d3318b78cdb")
BTT_2_0 = uuid.UUID("18633bfc-1735-4217-8ac9-17239282d3f8")
NO_ABSTRACTION = uuid.UUID(int=0)
# the types of the firmware table's structures
RANGE, MAPPING, INTERLEAVE, CONTROL = 0, 1, 2, 4
MAPPING_FORM, CONTROL_FORM = "<HHIHHHHQQQHHHH", "<HHHHHHHHHBBHHIHH"
VENDOR = 0x1234


def fletcher64(data):
    """The checksum of index blocks, labels and info blocks, and of a set cookie."""
    low = high = 0
    for (word,) in struct.iter_unpack("<I", data):
        low = (low + word) & 0xFFFFFFFF
        high = (high + low) & 0xFFFFFFFF
    return high << 32 | low


# ---- label areas


def index_block(side, seq, size, slots, free):
    """An index block; `free` has the numbers of the free slots."""
    place, other = (0, size) if side == 0 else (size, 0)
    bits = bytearray(size - 72)
    for slot in free:
        bits[slot // 8] |= 1 << slot % 8
    block = bytearray(b"NAMESPACE_INDEX\0" + bytes(3) + bytes([1]))
    block += struct.pack("<IQQQQIHHQ", seq, place, size, other, 2 * size, slots, 1, 2, 0)
    block += bits
    block[64:72] = struct.pack("<Q", fletcher64(bytes(block)))
    return bytes(block)


def label(namespace, name, slot, raw, dpa=0, flags=0, count=1, position=0, cookie=0, lba=512,
          kind=PERSISTENT_MEMORY, abstraction=NO_ABSTRACTION, align=0):
    body = bytearray(namespace.bytes + name.ljust(64, b"\0"))
    body += struct.pack("<IHHQQQQIB3x", flags, count, position, cookie, lba, dpa, raw, slot, align)
    body += kind.bytes_le + abstraction.bytes_le + bytes(88)
    body += struct.pack("<Q", fletcher64(bytes(body) + bytes(8)))
    return bytes(body)


# ---- the firmware's table


def table(structures, maker=(b"NVDSMP", b"SMALLSET"), creator=b"NVDM"):
    """A firmware's table of these structures, with its Length and Checksum."""
    return checked(struct.pack("<4sIBB6s8sI4sI4x", b"NFIT", 0, 1, 0, *maker, 1, creator, 1) + b"".join(structures))


def checked(text):
    """A table with its Length and Checksum."""
    text = bytearray(text)
    text[4:8] = struct.pack("<I", len(text))
    text[9] = 0
    text[9] = -sum(text) & 0xFF
    return bytes(text)


def memory_range(index, length, base=1 << 32, flags=0, attribute=0):
    """A range of persistent memory (System Physical Address Range)."""
    return struct.pack("<HHHHII16sQQQ", RANGE, 56, index, flags, 0, 0, PERSISTENT_MEMORY.bytes_le, base, length, attribute)


def mapping(handle, index, control, size, offset=0, start=0, interleave=0, ways=1, identity=0):
    """A module's part of the range with this index (NVDIMM Region Mapping)."""
    return struct.pack(MAPPING_FORM, MAPPING, 48, handle, identity, 0, index, control, size, offset, start, interleave, ways, 0, 0)


def interleave(offsets, line, index=1):
    """An interleave structure: the offsets of the lines, in lines."""
    return struct.pack("<HHHHII", INTERLEAVE, 16 + 4 * len(offsets), index, 0, len(offsets), line) + struct.pack(f"<{len(offsets)}I", *offsets)


def control(index, serial, vendor=VENDOR, device=0, revision=0, length=32):
    """A module's control region, whose serial number and vendor go into the set cookie."""
    text = struct.pack(CONTROL_FORM, CONTROL, length, index, vendor, device, revision, 0, 0, 0, 0, 0, 0, 0, serial, 0x301, 0)
    return text.ljust(length, b"\0")


def cookie_of(parts):
    """The set cookie of label version 1.2: of each module its region offset, serial number and vendor, in the order of offsets."""
    return fletcher64(b"".join(struct.pack("<QIHHB31x", offset, serial, vendor, 0, 0) for offset, serial, vendor in parts))


def unpacked_mapping(text):
    """The fields of a mapping (memory device to address range) by their names."""
    names = ("handle", "identity", "region", "index", "control", "size", "offset", "start", "interleave", "ways", "flags")
    found = struct.unpack_from(MAPPING_FORM, text)
    return dict(zip(names, (found[2], found[3], found[4], found[5], found[6], found[7], found[8], found[9], found[10], found[11], found[12])))


def structures_of(table):
    """The structures of a firmware's table behind its header of 40 bytes, each with its type; it ends where no whole one stands."""
    at = 40
    while at + 4 <= len(table):
        kind, length = struct.unpack_from("<HH", table, at)
        if length < 4 or at + length > len(table):
            return
        yield kind, table[at : at + length]
        at += length


def mappings_of(table):
    """The mappings of a firmware's table."""
    return [unpacked_mapping(text) for kind, text in structures_of(table) if kind == MAPPING and len(text) >= 48]


def handles_of(table):
    """The device handles in the order in which the table first names them: module M has the M-th."""
    return list(dict.fromkeys(it["handle"] for it in mappings_of(table)))


def table_of(folder):
    """The firmware's table of an image set; empty if it can't be read."""
    try:
        with open(os.path.join(folder, "nfit.bin"), "rb") as file:
            return file.read()
    except OSError:
        return b""


# ---- whole tables


def blank_table(sizes):
    """One range over all modules, which take turns every 4,096 bytes; a single module has no interleave structure."""
    count, size = len(sizes), sizes[0]
    structures = [memory_range(1, count * size)]
    structures += [mapping(m + 1, 1, m + 1, size, offset=PAGE * m, interleave=int(count > 1), ways=count, identity=m) for m in range(count)]
    structures += [interleave([0], PAGE)] if count > 1 else []
    return table([*structures, *(control(m + 1, m + 1) for m in range(count))], (b"NVDSMP", b"BLANKSET"))


QEMU_VENDOR, QEMU_SERIAL = 0x8086, 0x123456


def qemu_table(sizes):
    """QEMU's table (hw/acpi/nvdimm.c): for each slot a range, its mapping and its control region."""
    structures, base = [], 1 << 32
    for slot, size in enumerate(sizes):
        index = 2 * (slot + 1)
        structures += [memory_range(index, size, base, flags=3, attribute=0x8008), mapping(slot + 1, index, index + 1, size),
                       control(index + 1, QEMU_SERIAL + slot, QEMU_VENDOR, device=1, revision=1, length=80)]
        base += size
    return table(structures, (b"BOCHS ", b"BXPC    "), b"BXPC")
