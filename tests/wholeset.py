"""What `check` and `check --repair` of a whole image set have to print, worked out from the files alone, without the program.

The rules are those of docs/commands/check.md, over the formats of docs/FORMATS.md (UEFI 2.10, chapter 6 and section 13.19; ACPI 6.5, section 5.2.25).
`text_of` gives the text of a folder's set, and `repair_of` that of its repair, with the label areas that this writes. tests/rows compares it with the program on all sets that come by there, tests/linux on those of Linux.
Contents are read piece by piece, since a set may have 16 TiB of holes.
"""
import bisect
import os
import struct
import sys
import uuid as uuids

sys.dont_write_bytecode = True
sys.path.insert(1, os.path.join(os.path.dirname(os.path.dirname(os.path.realpath(__file__))), "lib"))
from formats import BTT_2_0, CONTROL, INTERLEAVE, LIMIT, MAPPING, PAGE, PERSISTENT_MEMORY, RANGE, fletcher64  # noqa: E402

WORD, SLOT, MOST_MODULES = 8, 256, 64
ROLABEL, LOCAL, UPDATING = 1, 2, 8


class Refused(Exception):
    """Something that can't be read: its fault."""


def number(data, at, size=8):
    """A number of so many bytes; bytes past the end are none."""
    return int.from_bytes(data[at : at + size], "little")


def sealed(data, at):
    """Whether eight bytes have the checksum of all bytes, with these as zero."""
    return number(data, at) == fletcher64(data[:at] + bytes(8) + data[at + 8 :])


def first_pair(items, meets):
    """The first item that meets a later one, with the first such later one; None if there is no such pair."""
    return next(((one, other) for at, one in enumerate(items) for other in items[at + 1 :] if meets(one, other)), None)


def is_newer(one, other):
    """Whether the second number is newer on the ring 1, 2, 3; 0 is older than each."""
    return 1 <= other <= 3 and (one == 0 or 1 <= one <= 3 and other == one % 3 + 1)


class Files:
    """The files of an image set; those in `written` stand for what is in the folder."""

    def __init__(self, folder, written=None):
        self.folder, self.written = folder, written or {}

    def size(self, name):
        """The bytes of an object; None if there is none."""
        if name in self.written:
            return len(self.written[name])
        try:
            return os.stat(os.path.join(self.folder, name)).st_size
        except FileNotFoundError:
            return None

    def read(self, name, at=0, count=-1):
        if name in self.written:
            return self.written[name][at : None if count < 0 else at + count]
        with open(os.path.join(self.folder, name), "rb") as file:
            file.seek(at)
            return file.read(count)


# ---- the firmware's table


class Mapping:
    """A module's part of a range."""

    def __init__(self, text):
        self.handle, self.range, self.control = number(text, 4, 4), number(text, 12, 2), number(text, 14, 2)
        self.size, self.offset, self.start = number(text, 16), number(text, 24), number(text, 32)
        self.interleave, self.ways = number(text, 40, 2), number(text, 42, 2)
        self.module = self.lines = self.identity = None

    @property
    def line(self):
        """The bytes of a line."""
        return self.lines[0] if self.lines else PAGE

    @property
    def offsets(self):
        return self.lines[1] if self.lines else [0]

    @property
    def names(self):
        """The numbers of its lines in the first stripe."""
        return [self.offset // self.line + it for it in self.offsets]

    @property
    def end(self):
        return self.start + self.size

    def holds(self, placed):
        """Whether a label's extent lies in it."""
        return self.start <= placed.dpa and placed.dpa + placed.raw <= self.end


class Table:
    """The modules and regions of a firmware's table; Refused if it is refused."""

    def __init__(self, data):
        said = number(data, 4, 4)
        if data[:4] != b"NFIT":
            raise Refused("Signature")
        if said > len(data) or said < 40:
            raise Refused(f"Length {said} {len(data)}")
        if sum(data[:said]) % 256:
            raise Refused(f"Checksum {sum(data[:said]) % 256}")
        self.ranges, self.mappings, self.lines, self.controls, names = [], [], {}, {}, []
        for kind, text in self.structures(data[:said]):
            index = number(text, 4, 2)
            if kind == MAPPING:
                self.mappings.append(Mapping(text))
            elif kind in (RANGE, INTERLEAVE, CONTROL) and index:
                names.append((kind, index))
                self.take(kind, index, text)
        pair = first_pair(names, lambda one, other: one == other)
        if pair:
            raise Refused(f"TwiceIndex {pair[0][0]} {pair[0][1]}")
        self.resolve()

    @staticmethod
    def structures(data):
        at = 40
        while at < len(data):
            kind, length = number(data, at, 2), number(data, at + 2, 2)
            least = {RANGE: 56, MAPPING: 48, INTERLEAVE: 16, CONTROL: 32}.get(kind, 4)
            lines = number(data, at + 8, 4) if kind == INTERLEAVE else 1
            if at + 4 > len(data) or length < least or at + length > len(data) or kind == INTERLEAVE and not 16 + 4 <= 16 + 4 * lines <= length:
                raise Refused(f"Structure {at}")
            yield kind, data[at : at + length]
            at += length

    def take(self, kind, index, text):
        if kind == RANGE:
            self.ranges.append((index, text[16:32] == PERSISTENT_MEMORY.bytes_le, number(text, 40)))
        elif kind == INTERLEAVE:
            self.lines[index] = number(text, 12, 4), [number(text, 16 + 4 * it, 4) for it in range(number(text, 8, 4))]
        else:
            # of a set cookie: serial number, vendor, date, location
            self.controls[index] = number(text, 24, 4), number(text, 6, 2), number(text, 20, 2), text[19]

    def resolve(self):
        """Finds what mappings name, and makes the regions."""
        kinds = {index: persistent for index, persistent, _ in self.ranges}
        for it in self.mappings:
            persistent = kinds.get(it.range, False)
            for kind, index, lacks in ((RANGE, it.range, it.range and it.range not in kinds), (CONTROL, it.control, persistent and it.control not in self.controls),
                                       (INTERLEAVE, it.interleave, persistent and it.interleave and it.interleave not in self.lines)):
                if lacks:
                    raise Refused(f"MissingIndex {kind} {index}")
        handles = list(dict.fromkeys(it.handle for it in self.mappings))
        if len(handles) > MOST_MODULES:
            raise Refused(f"TooLarge {len(handles)}")
        for it in self.mappings:
            it.module, it.lines, it.identity = handles.index(it.handle), self.lines.get(it.interleave), self.controls.get(it.control, (0, 0, 0, 0))
        self.modules = len(handles)
        used = {it.range for it in self.mappings}
        numbers = {index: at for at, index in enumerate(index for index, persistent, _ in self.ranges if persistent and index in used)}
        self.regions = [Region(length, [it for it in self.mappings if it.range == index]) for index, _, length in self.ranges if index in numbers]
        pair = first_pair([it for it in self.mappings if it.range in numbers],
                          lambda a, b: a.module == b.module and a.range != b.range and max(a.start, b.start) < min(a.end, b.end))
        if pair:
            raise Refused(f"Alias {pair[0].module} {numbers[pair[0].range]} {numbers[pair[1].range]}")


class Region:
    """A range of persistent memory: its fault, if it is no interleave set, and else its mappings by position."""

    def __init__(self, length, mappings):
        self.length, self.mappings, first = length, mappings, mappings[0]
        self.stripe = len(first.offsets) * first.line
        self.unit, self.span = max(PAGE, self.stripe), first.size
        self.fault = next(self.faults(first), None)
        self.set = sorted(mappings, key=lambda it: it.offset)
        self.cookie = fletcher64(b"".join(struct.pack("<QIHHB31x", it.offset, *it.identity) for it in self.set))

    def faults(self, first):
        """The seven checks, in their order."""
        ways = len(self.mappings)
        yield from (f"Ways {it.ways} {ways}" for it in self.mappings if it.ways != ways)
        pair = first_pair(self.mappings, lambda a, b: a.module == b.module)
        if pair:
            yield f"Twice {pair[0].module}"
        pair = first_pair(self.mappings, lambda a, b: a.offset == b.offset)
        if pair:
            yield f"Offsets {pair[0].module} {pair[1].module}"
        yield from (f"Line {it.module}" for it in self.mappings
                    if ways > 1 and not it.lines or it.line < 8 or it.line != first.line or len(it.offsets) != len(first.offsets) or it.offset % it.line
                    or it.start % PAGE or it.end > 1 << 63)
        if self.stripe.bit_count() != 1 or self.stripe > 1 << 30:
            yield f"Share {self.stripe}"
        if any(it.size != self.span or it.size == 0 or it.size % self.unit for it in self.mappings) or ways * self.span != self.length:
            yield f"Size {self.length} {sum(it.size for it in self.mappings)}"
        named = [name for it in self.mappings for name in it.names]
        yield from (f"Cover {line}" for line in range(len(first.offsets) * ways) if named.count(line) != 1)

    def mapping_of(self, module):
        return next((it for it in self.set if it.module == module), None)


# ---- label areas


def block_size(area):
    """The bytes of an index block: as many slots as fit into the area with both blocks."""
    for slots in range(area // SLOT, -1, -1):
        size = -(-(72 + (slots + 7) // 8) // SLOT) * SLOT
        if 2 * size + SLOT * slots <= area:
            return size
    return SLOT


def index_fault(area, side, size):
    """Why an index block is refused; None if it is accepted."""
    place, other = (0, size) if side == 0 else (size, 0)
    block = area[place : place + size]
    slots = number(block, 56, 4)
    if block[:16] != b"NAMESPACE_INDEX\0":
        return "Signature"
    if block[20] % 4 == 0:
        return "Sequence"
    if struct.unpack_from("<HH", block, 60) != (1, 2):
        return "Version {} {}".format(*struct.unpack_from("<HH", block, 60))
    if struct.unpack_from("<QQQQ", block, 24) != (place, size, other, 2 * size):
        return "Offsets"
    if block[19] != 1 or slots < 1 or 72 + (slots + 7) // 8 > size or 2 * size + SLOT * slots > len(area):
        return "Slots"
    return None if sealed(block, 64) else "Checksum"


def older_block(block, side, size):
    """The block of a side as it was before the current one, `block`: the number before its own on the ring, and the same free slots."""
    slots = number(block, 56, 4)
    bits = "".join(str(block[72 + it // 8] >> it % 8 & 1) for it in range(slots))
    free = int(bits[::-1], 2).to_bytes(-(-slots // 8), "little")
    text = struct.pack("<16s3xBIQQQQIHH8x", b"NAMESPACE_INDEX\0", 1, (block[20] % 4 + 1) % 3 + 1, side * size, size, (1 - side) * size, 2 * size, slots, 1, 2) + free
    text = text.ljust(size, b"\0")
    return text[:64] + struct.pack("<Q", fletcher64(text)) + text[72:]


def index_repair(area):
    """The side of a label area that a repair writes, why it was refused, and the area after it; None if nothing is repaired. A closed block stays."""
    size = block_size(len(area))
    faults = [index_fault(area, side, size) for side in (0, 1)]
    if faults.count(None) != 1 or "Sequence" in faults:
        return None
    side = 0 if faults[0] else 1
    written = older_block(area[(1 - side) * size : (2 - side) * size], side, size)
    return side, faults[side], area[: side * size] + written + area[(side + 1) * size :]


class Placed:
    """A label in its slot on a module."""

    def __init__(self, module, slot, data):
        self.module, self.slot = module, slot
        self.uuid, self.name = data[:16], data[16:80].split(b"\0", 1)[0]
        self.flags, self.count, self.position, self.cookie, self.lba, self.dpa, self.raw = struct.unpack_from("<IHHQQQQ", data, 80)
        self.guids = data[128:160]
        self.is_updating = bool(self.flags & UPDATING)

    @property
    def owner(self):
        return str(uuids.UUID(bytes=self.uuid))


def label_fault(data, slot):
    """Why a label isn't valid in a slot; None if it is."""
    dpa, raw = struct.unpack_from("<QQ", data, 104)
    if not sealed(data, 248):
        return "Checksum"
    if number(data, 120, 4) != slot:
        return f"Slot {number(data, 120, 4)}"
    if dpa % PAGE:
        return "OddSize Dpa"
    return "OddSize RawSize" if raw % PAGE or raw == 0 or dpa + raw > 1 << 63 else None


class Area:
    """A module's label area: what is said of it, and its labels by the current index block."""

    def __init__(self, module, data):
        size = block_size(len(data))
        faults = [index_fault(data, side, size) for side in (0, 1)]
        self.lines, self.labels = [], []
        if faults == ["Signature"] * 2:
            self.lines.append(f"notice labels {module} NoIndex")
            return
        self.lines += [f"{'notice' if fault == 'Sequence' else 'fault'} labels {module} index {side} {fault}" for side, fault in enumerate(faults) if fault]
        seqs = [data[side * size + 20] % 4 for side in (0, 1)]
        if all(faults):
            return
        # of two valid blocks the newer one is current, or the one at the higher offset
        side = 1 if faults[0] or not faults[1] and (seqs[0] == seqs[1] or is_newer(*seqs)) else 0
        block = data[side * size : (side + 1) * size]
        for slot in range(number(block, 56, 4)):
            if block[72 + slot // 8] >> slot % 8 & 1:
                continue
            label = data[2 * size + SLOT * slot :][:SLOT]
            fault = label_fault(label, slot)
            if fault:
                self.lines.append(f"fault labels {module} slot {slot} {fault}")
            else:
                self.labels.append(Placed(module, slot, label))


# ---- namespaces


class Namespace:
    """The labels of one UUID, under the interleave sets."""

    def __init__(self, regions, labels):
        self.labels, first = labels, labels[0]
        self.uuid = first.owner
        self.region = next((it for it in regions if (mapping := it.mapping_of(first.module)) and mapping.holds(first)), None)
        self.faults = list(self.broken_rules()) if self.region else [f"Outside {first.module}"]
        is_local = any(it.flags & LOCAL for it in labels)
        # Missing is no broken rule if all labels that are there have UPDATING
        self.is_short = bool(self.region) and bool(self.missing()) and all(it.is_updating for it in labels)
        # names are judged only if nothing else is wrong, since a change leaves two
        if not self.faults and not self.is_short and self.has_odd_names():
            self.faults = ["Differs Names"]
        self.notice = "local" if is_local else "unfinished" if self.is_short else None
        if not self.notice and not self.faults and any(it.is_updating for it in labels):
            self.notice = "pending"
        self.is_complete = not self.faults and self.notice in (None, "pending")
        self.has_sectors = first.guids == PERSISTENT_MEMORY.bytes_le + BTT_2_0.bytes_le

    def lines(self):
        notices = [f"notice namespace {self.uuid} {self.notice}"] if self.notice else []
        return notices if self.notice == "local" else [f"fault namespace {self.uuid} {it}" for it in self.faults] + notices

    def missing(self):
        """The modules of the set without a label."""
        return [it.module for it in self.region.set if all(label.module != it.module for label in self.labels)]

    def relative(self, label):
        """A label's first byte, from the start of its module's mapping on."""
        mapping = self.region.mapping_of(label.module)
        return max(label.dpa - mapping.start, 0) if mapping else label.dpa

    def least(self, test):
        """The label of the least module that a test is true of; the first of several."""
        return min((it for it in self.labels if test(it)), key=lambda it: it.module, default=None)

    def broken_rules(self):
        """The rules that the labels break, each once, in the rules' order; of several modules the least is named."""
        region, labels, first = self.region, self.labels, self.labels[0]
        places = {it.module: place for place, it in enumerate(region.set)}
        twice = self.least(lambda it: sum(other.module == it.module for other in labels) > 1)
        if twice:
            yield f"Twice {twice.module}"
        outside = self.least(lambda it: it.module not in places or not region.mapping_of(it.module).holds(it))
        if outside:
            yield f"Outside {outside.module}"
        other = self.least(lambda it: it.cookie != region.cookie)
        if other:
            yield f"Cookie {other.module} {other.cookie}"
        if any(it.count != len(region.set) for it in labels):
            yield "Differs Count"
        elsewhere = self.least(lambda it: places.get(it.module) != it.position)
        if elsewhere:
            yield f"Position {elsewhere.module} {elsewhere.position}"
        for name, key in (("Dpa", self.relative), ("RawSize", lambda it: it.raw), ("LbaSize", lambda it: it.lba), ("Guids", lambda it: it.guids)):
            if any(key(it) != key(first) for it in labels):
                yield f"Differs {name}"
        unaligned = self.least(lambda it: self.relative(it) % region.unit or it.raw % region.unit)
        if unaligned:
            yield f"Unaligned {unaligned.module}"
        if self.missing() and not all(it.is_updating for it in labels):
            yield f"Missing {min(self.missing())}"

    def has_odd_names(self):
        """Whether names differ in a way that no rename leaves: one name on the labels with UPDATING, and another one on those without."""
        labels = self.labels
        return len({it.name for it in labels}) > 1 and [len({it.name for it in labels if it.is_updating is flag}) for flag in (False, True)] != [1, 1]

    @property
    def size(self):
        return len(self.region.set) * self.labels[0].raw

    def pieces(self, at, count):
        """Where bytes of a complete namespace lie: for each line the byte, the module, its address there, and how many bytes."""
        region, first = self.region, self.region.set[0]
        line, lines, ways = first.line, len(first.offsets), len(region.set)
        owners = {name: (it, place) for it in region.set for place, name in enumerate(it.names)}
        front = ways * self.relative(self.labels[0])
        end = at + count
        while at < end:
            place = front + at
            stripe, inside = divmod(place // line, lines * ways)
            mapping, own = owners[inside]
            # one module's lines follow one another
            here = end - at if ways == lines == 1 else min(line - place % line, end - at)
            yield at, mapping.module, mapping.start + (stripe * lines + own) * line + place % line, here
            at += here


# ---- arenas


class Arena:
    """An arena that begins at a byte of a namespace. `info` is the info block that is used: its first page, or the namespace's last one, or None."""

    def __init__(self, space, at):
        self.space, self.at, self.rest = space, at, space.size - at
        self.first, self.next = space.read(at, PAGE), 0
        self.fault = self.info_fault(self.first)
        self.info = self.used()
        if self.info:
            self.sector, self.external, self.inner, self.internal, self.lanes = struct.unpack_from("<IIIII", self.info, 56)
            self.next, self.data, self.map, self.log, self.backup = struct.unpack_from("<QQQQQ", self.info, 80)

    def used(self):
        if not self.fault:
            return self.first
        last = self.space.read(self.space.size - PAGE, PAGE)
        return None if self.info_fault(last) or number(last, 112) + PAGE != self.rest else last

    def findings(self):
        """What `check` finds in it."""
        if self.fault:
            yield f"Info {self.fault}"
        if not self.info:
            return
        if not self.fault:
            copy = self.space.read(self.at + self.backup, PAGE)
            other = self.info_fault(copy)
            yield from [f"Backup {other}"] if other else ["Unequal"] if copy != self.first else []
        yield from self.of_lanes_and_map()
        yield from self.bad_meta()

    def info_fault(self, block):
        """Why 4,096 bytes are no info block of an arena that begins here; None if they are one."""
        sector, external, inner, internal, lanes, own = struct.unpack_from("<IIIIII", block, 56)
        after, data, table, log, backup = struct.unpack_from("<QQQQQ", block, 80)
        if block[:16] != b"BTT_ARENA_INFO\0\0":
            return "Signature"
        if not sealed(block, 4088):
            return "Checksum"
        if struct.unpack_from("<HH", block, 52) not in ((2, 0), (1, 1)):
            return "Version {} {}".format(*struct.unpack_from("<HH", block, 52))
        if block[32:48] != self.space.namespace.labels[0].uuid:
            return "Parent"
        if block[48] & 1:
            return "ErrorState"
        areas = own == PAGE and not any(it % PAGE for it in (data, table, log, backup)) and PAGE <= data and data + internal * inner <= table \
            and table + 4 * external <= log and log + 64 * lanes <= backup
        for field, holds in (("Sector", sector in (512, 520, 528, 4096, 4104, 4160, 4224)), ("Inner", inner % 64 == 0 and sector <= inner), ("Free", 1 <= lanes <= 256),
                             ("Blocks", 1 <= external and internal == external + lanes <= 1 << 30), ("Areas", areas), ("Size", 16 << 20 <= backup + PAGE <= min(512 << 30, self.rest)),
                             ("Next", after == 0 or after == backup + PAGE < self.rest)):
            if not holds:
                return f"Layout {field}"
        return None

    def groups(self):
        """Of each lane its current half, sector, old and new block, and what is wrong with its group, or None."""
        log = self.space.read(self.at + self.log, 64 * self.lanes)
        for lane in range(self.lanes):
            group = log[64 * lane : 64 * (lane + 1)]
            both = [struct.unpack_from("<IIII", group, 16 * it) for it in (0, 1)]
            seqs = [it[3] for it in both]
            sector, old, new = both[is_newer(*seqs)][:3]
            old, new = old % (1 << 30), new % (1 << 30)
            wrong = next((it for it, most in ((old, self.internal), (new, self.internal), (sector, self.external if old != new else 1 << 32)) if it >= most), None)
            fault = None
            if any(group[32:]):
                fault = f"Flog {lane} Padding"
            elif max(seqs) > 3 or not (is_newer(*seqs) or is_newer(*reversed(seqs))):
                fault = f"Flog {lane} Sequences {seqs[0]} {seqs[1]}"
            elif wrong is not None:
                fault = f"Flog {lane} Range {wrong}"
            yield (sector, old, new), fault

    def entries(self):
        """The map as it was read."""
        return list(struct.unpack(f"<{self.external}I", self.space.read(self.at + self.map, 4 * self.external)))

    def pending(self, entries, halves):
        """The halves whose moves a map doesn't show yet."""
        return [it for it in halves if it[1] != it[2] and self.block(entries[it[0]], it[0]) == it[1]]

    def of_lanes_and_map(self):
        """What is wrong with groups, or else with blocks, or else with sectors."""
        groups = list(self.groups())
        faults = [fault for _, fault in groups if fault]
        if faults:
            return faults
        current, entries = [half for half, _ in groups], self.entries()
        # all pending moves are found by the map as it was read
        for sector, _, new in self.pending(entries, current):
            entries[sector] = 3 << 30 | new
        blocks = [self.block(entry, sector) for sector, entry in enumerate(entries)]
        named = blocks + [old for _, old, _ in current]
        counts = [0] * self.internal
        for block in named:
            if block < self.internal:
                counts[block] += 1
        found = [f"Range {it}" for it in named if it >= self.internal]
        found += [f"Twice {it}" for it, count in enumerate(counts) if count > 1]
        found += [f"Missing {it}" for it, count in enumerate(counts) if count == 0]
        if found or not self.space.bad:
            return found
        return [f"BadData {sector}" for sector, entry in enumerate(entries) if self.is_bad_data(entry, sector)]

    def is_bad_data(self, entry, sector):
        """Whether a sector has bytes, and one of them is in a bad word."""
        return entry >> 30 in (0, 3) and self.space.is_bad(self.at + self.data + self.block(entry, sector) * self.inner, self.sector // WORD * WORD)

    @staticmethod
    def block(entry, sector):
        """The block of a map entry; an initial one has the sector's own number."""
        return entry % (1 << 30) if entry >> 30 else sector

    def bad_meta(self):
        """The bad words of the info block, and of all from the map on, numbered in the namespace."""
        if self.space.bad:
            for first, end in ((self.at, self.at + PAGE), (self.at + self.map, self.at + self.backup + PAGE)):
                yield from (f"BadMeta {it // WORD}" for it in range(first, end, WORD) if self.space.is_bad(it, WORD))


class Space:
    """The bytes of a complete namespace in the files of a set, and which of its words are bad."""

    def __init__(self, files, namespace, records):
        self.files, self.namespace, self.size = files, namespace, namespace.size
        self.bad = self.bad_runs(records)
        self.starts = [it[0] for it in self.bad]

    def read(self, at, count):
        return b"".join(self.files.read(f"contents-{module}.bin", address, length) for _, module, address, length in self.namespace.pieces(at, count))

    def bad_runs(self, records):
        """The runs of the namespace's bytes that records meet, rising, by whole words."""
        runs = []
        if not any(records.values()):
            return runs
        for at, module, address, length in self.namespace.pieces(0, self.size):
            for start, count in records.get(module, ()):
                low, high = max(start, address), min(start + count, address + length)
                if low < high:
                    runs.append((at + (low - address) // WORD * WORD, at - (address - high) // WORD * WORD))
        joined = []
        for low, high in sorted(runs):
            if joined and low <= joined[-1][1]:
                joined[-1] = joined[-1][0], max(joined[-1][1], high)
            else:
                joined.append((low, high))
        return joined

    def is_bad(self, at, count):
        """Whether one of these bytes is in a bad word."""
        place = bisect.bisect_left(self.starts, at + count) - 1
        return place >= 0 and self.bad[place][1] > at

    def arenas(self):
        """The arenas along the chain, each with its place in it."""
        at, place = 0, 0
        while True:
            it = Arena(self, at)
            yield place, it
            if it.next == 0:
                return
            at, place = at + it.next, place + 1

    def findings(self):
        """The findings of all arenas, each with its arena's place in the chain."""
        return [(place, finding) for place, it in self.arenas() for finding in it.findings()]


# ---- the set


class Set:
    """The lines of a set, part by part. Files in `written` stand for those of the folder."""

    def __init__(self, folder, written=None):
        self.files, self.table = Files(folder, written), None
        self.parts = {"table": [], "objects": [], "regions": [], "areas": [], "namespaces": [], "ranges": [], "arenas": []}
        try:
            self.table = self.read_table()
        except Refused as fault:
            self.parts["table"].append(f"fault {fault}")
            return
        self.records, labels = {}, []
        self.look_at_objects()
        self.parts["regions"] = [f"fault region {at} {it.fault}" for at, it in enumerate(self.table.regions) if it.fault]
        for module in range(self.table.modules):
            name = f"labels-{module}.bin"
            size = self.files.size(name)
            if size is not None and is_area_size(size):
                area = Area(module, self.files.read(name))
                self.parts["areas"] += area.lines
                labels += area.labels
        self.namespaces = self.look_at_namespaces(labels)
        self.parts["ranges"] = [f"notice badranges {module} {len(its)}" for module, its in self.records.items() if its]
        self.look_at_arenas()

    def read_table(self):
        size = self.files.size("nfit.bin")
        if self.files.size("complete") is None:
            raise Refused("mark Missing")
        if size is None:
            raise Refused("nfit Missing")
        if size > 1 << 20:
            raise Refused(f"nfit Size {size}")
        try:
            return Table(self.files.read("nfit.bin"))
        except Refused as fault:
            raise Refused(f"nfit {fault}") from None

    def look_at_objects(self):
        """The objects of each module; the lists of bad ranges are read."""
        lines, before = self.parts["objects"], 0
        ends = {}
        for region in self.table.regions:
            for it in region.mappings:
                ends[it.module] = max(ends.get(it.module, 0), it.end)
        for module in range(self.table.modules):
            area, contents, ranges = (self.files.size(f"{name}-{module}.bin") for name in ("labels", "contents", "badranges"))
            if area is not None and not is_area_size(area):
                lines.append(f"fault labels {module} Size {area}")
            if contents is None:
                lines.append(f"fault contents {module} Missing")
            elif contents == 0 or contents % PAGE or before + contents > LIMIT or contents < ends.get(module, 0):
                lines.append(f"fault contents {module} Size {contents}")
            before += contents or 0
            if ranges is not None and (ranges % 16 or ranges > 1 << 16):
                lines.append(f"fault badranges {module} Size {ranges}")
            elif ranges:
                self.records[module] = list(struct.iter_unpack("<QQ", self.files.read(f"badranges-{module}.bin")))

    def look_at_namespaces(self, labels):
        """The namespaces by UUID; none if a region is no interleave set."""
        lines = self.parts["namespaces"]
        if self.parts["regions"]:
            lines.append("notice namespaces Unchecked")
            return []
        self.overlap = first_pair(labels, lambda a, b: a.module == b.module and a.uuid != b.uuid and a.dpa < b.dpa + b.raw and b.dpa < a.dpa + a.raw)
        if self.overlap:
            lines.append(f"fault labels Overlap {self.overlap[0].owner} {self.overlap[1].owner}")
        owned = {}
        for it in labels:
            owned.setdefault(it.uuid, []).append(it)
        found = [Namespace(self.table.regions, owned[it]) for it in sorted(owned)]
        for it in found:
            lines += it.lines()
        return found

    def look_at_arenas(self):
        lines = self.parts["arenas"]
        if self.parts["objects"] or self.parts["regions"] or self.overlap:
            lines.append("notice arenas Unchecked")
            return
        for it in self.namespaces:
            if it.is_complete and it.has_sectors:
                lines += [f"fault arena {it.uuid} {arena} {finding}" for arena, finding in Space(self.files, it, self.records).findings()]


def is_area_size(size):
    return size % SLOT == 0 and 1024 <= size <= 1 << 20


def lines_of(folder, written=None):
    """The lines of a set but for the last one."""
    return [line for part in Set(folder, written).parts.values() for line in part]


def is_loaded(folder):
    """Whether commands load a set: its table is read, and no object has a fault."""
    parts = Set(folder).parts
    return not parts["table"] and not parts["objects"]


def repair_of(folder):
    """What `check --repair` prints of a set that is loaded, and the label areas that it writes, by the names of their files."""
    files, lines, written = Files(folder), [], {}
    for module in range(Table(files.read("nfit.bin")).modules):
        name = f"labels-{module}.bin"
        repair = index_repair(files.read(name)) if files.size(name) else None
        if repair:
            lines.append(f"repaired labels {module} index {repair[0]} {repair[1]}")
            written[name] = repair[2]
    return "".join(f"{it}\n" for it in lines) + ended(lines_of(folder, written)), written


def ended(lines):
    """The whole text with these lines."""
    faults = sum(it.startswith("fault ") for it in lines)
    return "".join(f"{it}\n" for it in [*lines, f"broken {faults}" if faults else "sound"])


def status_of(text):
    """The exit status with a text: 3 if it has a fault."""
    return 0 if text.splitlines()[-1] == "sound" else 3


def text_of(folder):
    """The text of `check` of a set."""
    return ended(lines_of(folder))
