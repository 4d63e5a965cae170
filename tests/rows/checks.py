"""The rows of `check`: image sets with a sector namespace of 16 MiB, made without the program, and what is said of them.

A row is what is wrong, the files of the set, and the text. One of a repair has in place of the text that of `check --repair`, and the bytes that
it writes into the contents, by their first one. Sectors have 4,096 bytes, and so have blocks; all entries are Zero, and lane l owns block
OUTER + l, unless a row says otherwise. The namespace begins at byte 0 of the module, so a byte of a record is one of the namespace.
"""
import os
import struct
import sys

sys.dont_write_bytecode = True
sys.path.insert(1, os.path.join(os.path.dirname(os.path.dirname(os.path.abspath(__file__))), "faults"))
from sets import ARENA, INFO_AT, INNER, LANES, LOG_AT, MAP_AT, OUTER, bad, chain, group, info, sectors, wide  # noqa: E402

BLOCK, WORD = 4096, 8
MOST = (1 << 64) - 1
# the flags of a map entry
ZERO, ERROR = 1 << 31, 1 << 30
NORMAL = ZERO | ERROR


def block(number):
    """The first byte of a block."""
    return 4096 + BLOCK * number


def by_turns(byte, length):
    """A record over bytes of a namespace in one line, where two modules take turns every 4,096 bytes: its module's list of bad ranges."""
    line, inside = divmod(byte, 4096)
    return {f"badranges-{line % 2}.bin": bad((line // 2 * 4096 + inside, length))}


def found(*findings, arena=0):
    """The text with these findings of one arena."""
    return "".join(f"arena {arena} {it}\n" for it in findings) + (f"broken {len(findings)}\n" if findings else "sound\n")


def changed(data, at):
    """Bytes of which one is another."""
    return data[:at] + bytes([data[at] ^ 1]) + data[at + 1 :]


def halves(lane, one, two):
    """The log group of a lane with these sequence numbers."""
    return {lane: struct.pack("<IIII", 0, OUTER + lane, OUTER + lane, one) + struct.pack("<IIII", 0, OUTER + lane, OUTER + lane, two) + bytes(32)}


def infos():
    """The info block and its backup."""
    yield "nothing", sectors(), found()
    yield "a byte of the first info block", sectors(changed(info(), 84)), found("Info Checksum")
    yield "no first info block", sectors(bytes(4096)), found("Info Signature")
    for fault, fields in (("Version 1 0", {"major": 1}), ("Parent", {"parent": bytes(16)}), ("ErrorState", {"flags": 1}), ("Layout Sector", {"sector": 100}),
                          ("Layout Size", {"backup": INFO_AT + 4096}), ("Layout Next", {"next": 4096})):
        yield f"the first info block has {fault}", sectors(info(**fields)), found(f"Info {fault}")
        yield f"the backup has {fault}", sectors(last=info(**fields)), found(f"Backup {fault}")
    older = info(major=1, minor=1)
    yield "both info blocks of version 1.1", sectors(older, last=older), found()
    yield "a backup of version 1.1", sectors(last=older), found("Unequal")
    yield "no first info block, and a backup of version 1.1", sectors(bytes(4096), last=older), found("Info Signature")
    yield "the first info block has Version 2 1", sectors(info(minor=1)), found("Info Version 2 1")
    yield "a byte of the backup", sectors(last=changed(info(), 84)), found("Backup Checksum")
    yield "no backup", sectors(last=bytes(4096)), found("Backup Signature")
    yield "a byte of both", sectors(changed(info(), 84), last=changed(info(), 84)), found("Info Checksum")
    yield "both, otherwise", sectors(bytes(4096), last=info(flags=1)), found("Info Signature")
    yield "a byte of the backup that isn't read", sectors(last=info(unused=b"x")), found("Unequal")
    yield "a byte of the first one that isn't read", sectors(info(unused=b"x")), found("Unequal")
    yield "a backup of another arena of that size", sectors(last=info(outer=OUTER - 1, inner=INNER - 1)), found("Unequal")
    # by the backup everything else is looked at; without it nothing is
    wrong = {"entries": {9: NORMAL | 100}, "ranges": [(0, 8), (INFO_AT, 8)]}
    yield "the first info block and a map entry", sectors(bytes(4096), **wrong), found("Info Signature", "Twice 100", "Missing 9", "BadMeta 0", f"BadMeta {INFO_AT // WORD}")
    yield "both info blocks and a map entry", sectors(bytes(4096), last=bytes(4096), **wrong), found("Info Signature")
    yield "the backup and a map entry", sectors(last=bytes(4096), **wrong), found("Backup Signature", "Twice 100", "Missing 9", "BadMeta 0", f"BadMeta {INFO_AT // WORD}")


def lanes():
    """The lanes' groups."""
    for one, two in ((0, 0), (1, 1), (3, 3), (4, 1), (0, 4)):
        yield f"sequence numbers {one} and {two}", sectors(halves=halves(5, one, two)), found(f"Flog 5 Sequences {one} {two}")
    for one, two in ((1, 2), (3, 1), (0, 2), (2, 0)):
        yield f"sequence numbers {one} and {two}", sectors(halves=halves(5, one, two)), found()
    for at in (0, 31):
        yield f"byte {at} of padding", sectors(halves={3: group(OUTER + 3, OUTER + 3, 1, changed(bytes(32), at))}), found("Flog 3 Padding")
    yield "a new block out of range", sectors(halves={0: group(OUTER, INNER, 1)}), found(f"Flog 0 Range {INNER}")
    yield "an old block out of range", sectors(halves={255: group(INNER + 7, INNER, 1)}), found(f"Flog 255 Range {INNER + 7}")
    yield "a sector out of range", sectors(halves={0: struct.pack("<IIII", OUTER, OUTER, 3, 1) + bytes(48)}), found(f"Flog 0 Range {OUTER}")
    yield "a sector out of range that doesn't move", sectors(halves={0: struct.pack("<IIII", OUTER, OUTER, OUTER, 1) + bytes(48)}), found()
    # of blocks and sectors nothing is said then
    several = {200: bytes(64), 2: group(OUTER + 2, OUTER + 2, 1, b"x" + bytes(31))}
    yield "two lanes, and what isn't looked at", sectors(halves=several, entries={7: NORMAL | 7, 9: NORMAL | 100}, ranges=[(block(7), 8), (LOG_AT, 8)]), \
        found("Flog 2 Padding", "Flog 200 Sequences 0 0", f"BadMeta {LOG_AT // WORD}")


def blocks():
    """The blocks that the map and the lanes name."""
    yield "an entry out of range", sectors(entries={7: ZERO | INNER}), found(f"Range {INNER}", "Missing 7")
    yield "the greatest block", sectors(entries={7: ERROR | ERROR - 1}), found(f"Range {ERROR - 1}", "Missing 7")
    yield "several out of range", sectors(entries={10: NORMAL | INNER, 3: NORMAL | INNER + 5, 9: NORMAL | INNER + 5}), \
        found(f"Range {INNER + 5}", f"Range {INNER + 5}", f"Range {INNER}", "Missing 3", "Missing 9", "Missing 10")
    yield "a block named twice", sectors(entries={9: NORMAL | 100}), found("Twice 100", "Missing 9")
    yield "blocks named two and three times", sectors(entries={9: NORMAL | 100, 10: ZERO | 100, 11: ERROR | 50}), found("Twice 50", "Twice 100", "Missing 9", "Missing 10", "Missing 11")
    yield "two lanes with one free block", sectors(halves={1: group(OUTER, OUTER, 1)}), found(f"Twice {OUTER}", f"Missing {OUTER + 1}")
    yield "a lane with a sector's block", sectors(halves={0: group(5, 5, 1)}), found("Twice 5", f"Missing {OUTER}")
    yield "everything at once", sectors(entries={0: NORMAL | INNER, 1: NORMAL | 2}), found(f"Range {INNER}", "Twice 2", "Missing 0", "Missing 1")
    yield "flags alone", sectors(entries={1: ERROR | 1, 2: NORMAL | 2, 3: 0}), found()
    yield "initial entries, whose low bits aren't read", sectors(entries={1: 2, 2: OUTER}), found()
    yield "an initial entry's block that another one has", sectors(entries={7: ZERO | 8, 8: 0}), found("Twice 8", "Missing 7")
    # lane 0 moves sector 0 from block 0 to its free block
    moves = {0: group(0, OUTER, 1)}
    yield "a pending move", sectors(halves=moves), found()
    yield "a move that the map has", sectors(halves=moves, entries={0: NORMAL | OUTER}), found()
    yield "a move of a sector that has another block", sectors(halves=moves, entries={0: NORMAL | 5}), found("Twice 5", f"Missing {OUTER}")


def data():
    """Bad ranges over blocks. Sectors 7 and 9 have bytes, 8 reads as zeros and 10 as bad."""
    entries = {7: NORMAL | 7, 9: NORMAL | 9, 10: ERROR | 10}
    moves = {0: group(0, OUTER, 1)}
    for what, ranges, findings in (
            ("a sector's block", [(block(7), BLOCK)], ["BadData 7"]), ("its first byte", [(block(7), 1)], ["BadData 7"]), ("its last byte", [(block(8) - 1, 1)], ["BadData 7"]),
            ("what ends just before", [(block(7) - 64, 64)], []), ("the byte before", [(block(7) - 1, 1)], []), ("what begins behind", [(block(8), BLOCK)], []),
            ("a byte more at the front", [(block(7) - 1, 2)], ["BadData 7"]), ("a block that reads as zeros", [(block(8), BLOCK)], []), ("one that reads as bad", [(block(10), BLOCK)], []),
            ("a free block", [(block(OUTER), BLOCK)], []), ("what no block has", [(block(INNER), MAP_AT - block(INNER))], []), ("two sectors", [(block(7), 3 * BLOCK)], ["BadData 7", "BadData 9"]),
            ("two records, the later sector first", [(block(9), 1), (block(7), 1)], ["BadData 7", "BadData 9"]), ("one record twice", [(block(7), 1), (block(7), 1)], ["BadData 7"]),
            ("no byte", [(block(7), 0)], []), ("the greatest start and length", [(MOST, MOST)], []), ("a start past the module", [(ARENA, BLOCK)], []), ("no record", [], [])):
        yield f"bad: {what}", sectors(entries=entries, ranges=ranges), found(*findings)
    meta = [*range(512), *range(MAP_AT // WORD, ARENA // WORD)]
    yield "bad: everything, by the greatest length", sectors(entries=entries, ranges=[(0, MOST)]), found("BadData 7", "BadData 9", *(f"BadMeta {it}" for it in meta))
    yield "bad: all from a byte on", sectors(entries=entries, ranges=[(ARENA - 1, MOST)]), found(f"BadMeta {ARENA // WORD - 1}")
    yield "bad: an initial entry's block", sectors(entries={7: 0}, ranges=[(block(7), 1)]), found("BadData 7")
    yield "bad: the block of another sector", sectors(entries={7: NORMAL | 9, 9: NORMAL | 7}, ranges=[(block(7), 1)]), found("BadData 9")
    yield "bad: the new block of a pending move", sectors(halves=moves, ranges=[(block(OUTER), 1)]), found("BadData 0")
    yield "bad: the old block of a pending move", sectors(halves=moves, entries={0: NORMAL}, ranges=[(block(0), 1)]), found()
    yield "bad: a sector, with a block named twice", sectors(entries={7: NORMAL | 7, 9: NORMAL | 100}, ranges=[(block(7), 1)]), found("Twice 100", "Missing 9")


def meta():
    """Bad ranges over the words of the format."""
    for what, record, words in (
            ("the first byte of the info block", (0, 1), [0]), ("its last byte and the byte behind", (4095, 2), [511]), ("two words of it", (6, 4), [0, 1]),
            ("a map word", (MAP_AT + 8, 8), [MAP_AT // WORD + 1]), ("the map's first byte and the byte before", (MAP_AT - 1, 2), [MAP_AT // WORD]),
            ("the map area behind the map", (LOG_AT - 8, 8), [LOG_AT // WORD - 1]), ("the log", (LOG_AT + 60, 8), [LOG_AT // WORD + 7, LOG_AT // WORD + 8]),
            ("the backup", (INFO_AT, 1), [INFO_AT // WORD]), ("its last byte", (ARENA - 1, 1), [ARENA // WORD - 1])):
        yield f"bad: {what}", sectors(ranges=[record]), found(*(f"BadMeta {it}" for it in words))
    yield "bad: a sector and the map", sectors(entries={7: NORMAL | 7}, ranges=[(MAP_AT, 1), (block(7), 1)]), found("BadData 7", f"BadMeta {MAP_AT // WORD}")


def chains():
    """Two arenas, one behind the other."""
    both = {"entries": {7: NORMAL | 7}}
    yield "two arenas", chain(), found()
    yield "the second arena's first info block", chain(first=bytes(4096), entries={9: NORMAL | 100}), found("Info Signature", "Twice 100", "Missing 9", arena=1)
    yield "the second arena's backup", chain(last=bytes(4096)), found("Backup Signature", arena=1)
    yield "both of the second arena", chain(first=bytes(4096), last=bytes(4096)), found("Info Signature", arena=1)
    yield "bad: both arenas", {**chain(**both), "badranges-0.bin": bad((LOG_AT, 1), (ARENA + block(7), 1), (ARENA + MAP_AT, 1))}, \
        f"arena 0 BadMeta {LOG_AT // WORD}\narena 1 BadData 7\narena 1 BadMeta {(ARENA + MAP_AT) // WORD}\nbroken 3\n"
    # the last page is an info block, but of an arena that begins elsewhere, so the chain ends at the first arena
    whole = chain(entries={9: NORMAL | 100})
    size, pieces = whole["contents-0.bin"]
    yield "the first arena's info block, and the second arena", {**whole, "contents-0.bin": (size, {**pieces, 0: changed(pieces[0], 84)})}, found("Info Checksum")
    yield "the first arena's backup, and the second arena", {**whole, "contents-0.bin": (size, {**pieces, INFO_AT: changed(pieces[0], 84)})}, \
        "arena 0 Backup Checksum\narena 1 Twice 100\narena 1 Missing 9\nbroken 3\n"


def places():
    """Two namespaces on one module: records have addresses of the module, and words are counted in the namespace."""
    files = {**wide(ARENA, ARENA), "badranges-0.bin": bad((ARENA + LOG_AT, 8))}
    yield "bad: the namespace behind", files, found()
    yield "bad: the namespace in front", {**files, "badranges-0.bin": bad((LOG_AT, 8), (2 * ARENA - 1, MOST))}, found(f"BadMeta {LOG_AT // WORD}")


def behind():
    """The same of the second namespace."""
    files = wide(ARENA, ARENA)
    yield "bad: this namespace", {**files, "badranges-0.bin": bad((ARENA + LOG_AT, 8))}, found(f"BadMeta {LOG_AT // WORD}")
    yield "bad: only the namespace in front", {**files, "badranges-0.bin": bad((0, ARENA))}, found()
    yield "another namespace without an info block", wide(ARENA, ARENA, broken=0), found()


def rows():
    for group_of in (infos, lanes, blocks, data, meta, chains, places):
        yield from group_of()


def mended(*repaired, left=(), arena=0):
    """The text with these findings of one arena: repaired ones, and those that stay open."""
    return "".join(f"arena {arena} repaired {it}\n" for it in repaired) + found(*left, arena=arena)


def entry(sector, word, arena=0):
    """What a repair writes of a map: the entry of a sector, in an arena that begins at this byte."""
    return {arena + MAP_AT + 4 * sector: struct.pack("<I", word)}


def repaired_infos():
    """The info block and its backup. Only damaged ones are written over, and the map is repaired by the one that is used."""
    worn = {"entries": {7: NORMAL | 7}, "ranges": [(block(7), 1)]}
    yield "nothing", sectors(), mended(), {}
    yield "a byte of the first info block", sectors(changed(info(), 200)), mended("Info Checksum"), {0: info()}
    yield "no first info block", sectors(bytes(4096)), mended("Info Signature"), {0: info()}
    yield "a backup with a byte that isn't read", sectors(bytes(4096), last=info(unused=b"x")), mended("Info Signature"), {0: info(unused=b"x")}
    for fault, fields in (("Version 1 0", {"major": 1}), ("Parent", {"parent": bytes(16)}), ("ErrorState", {"flags": 1}), ("Layout Sector", {"sector": 100}), ("Layout Next", {"next": 4096})):
        yield f"the first info block has {fault}", sectors(info(**fields)), mended(left=[f"Info {fault}"]), {}
        yield f"the first info block has {fault}, and a sector is bad", sectors(info(**fields), **worn), mended("BadData 7", left=[f"Info {fault}"]), entry(7, ERROR | 7)
        yield f"the backup has {fault}", sectors(last=info(**fields)), mended(f"Backup {fault}"), {INFO_AT: info()}
    yield "a byte of the backup", sectors(last=changed(info(), 84)), mended("Backup Checksum"), {INFO_AT: info()}
    yield "no backup", sectors(last=bytes(4096)), mended("Backup Signature"), {INFO_AT: info()}
    yield "a byte of the backup that isn't read", sectors(last=info(unused=b"x")), mended("Unequal"), {INFO_AT: info()}
    yield "a byte of the first one that isn't read", sectors(info(unused=b"x")), mended("Unequal"), {INFO_AT: info(unused=b"x")}
    yield "a backup of another arena of that size", sectors(last=info(outer=OUTER - 1, inner=INNER - 1)), mended("Unequal"), {INFO_AT: info()}
    yield "both, and a sector is bad", sectors(bytes(4096), last=changed(info(), 84), **worn), mended(left=["Info Signature"]), {}
    yield "the first info block, and a sector is bad", sectors(bytes(4096), **worn), mended("Info Signature", "BadData 7"), {0: info(), **entry(7, ERROR | 7)}
    yield "the backup, and a sector is bad", sectors(last=bytes(4096), **worn), mended("Backup Signature", "BadData 7"), {INFO_AT: info(), **entry(7, ERROR | 7)}
    yield "the first info block, and a block named twice", sectors(bytes(4096), entries={9: NORMAL | 100}), mended("Info Signature", left=["Twice 100", "Missing 9"]), {0: info()}
    yield "the backup, and a log group", sectors(last=bytes(4096), halves=halves(5, 1, 1)), mended("Backup Signature", left=["Flog 5 Sequences 1 1"]), {INFO_AT: info()}


def repaired_maps():
    """Pending moves and bad sectors. If a group is refused, or a block isn't named once, nothing of the map is written."""
    # lane 0 moves sector 0 from block 0 to its free block, and lane 3 does so with sector 9
    move, other = {0: group(0, OUTER, 1)}, {3: struct.pack("<IIII16x", 9, 9, OUTER + 3, 1) + bytes(32)}
    moved, worn = entry(0, NORMAL | OUTER), {"entries": {7: NORMAL | 7}, "ranges": [(block(7), 1)]}
    yield "a pending move", sectors(halves=move), mended(), moved
    yield "a move that the map has", sectors(halves=move, entries={0: NORMAL | OUTER}), mended(), {}
    yield "two pending moves", sectors(halves={**move, **other}), mended(), {**moved, **entry(9, NORMAL | OUTER + 3)}
    yield "a pending move, and the first info block", sectors(bytes(4096), halves=move), mended("Info Signature"), {0: info(), **moved}
    yield "a pending move, and a sector is bad", sectors(halves=move, **worn), mended("BadData 7"), {**moved, **entry(7, ERROR | 7)}
    yield "the new block of a pending move is bad", sectors(halves=move, ranges=[(block(OUTER), 1)]), mended("BadData 0"), entry(0, ERROR | OUTER)
    yield "the old block of a pending move is bad", sectors(halves=move, entries={0: NORMAL}, ranges=[(block(0), 1)]), mended(), moved
    yield "a pending move, and the log of another lane", sectors(halves={**move, **halves(5, 0, 0)}), mended(left=["Flog 5 Sequences 0 0"]), {}
    yield "a pending move, and padding of another lane", sectors(halves={**move, 4: group(OUTER + 4, OUTER + 4, 1, changed(bytes(32), 3))}), mended(left=["Flog 4 Padding"]), {}
    yield "a pending move, and a block named twice", sectors(halves=move, entries={9: NORMAL | 100}), mended(left=["Twice 100", "Missing 9"]), {}
    yield "a pending move, and a block that doesn't exist", sectors(halves=move, entries={9: NORMAL | INNER}), mended(left=[f"Range {INNER}", "Missing 9"]), {}
    yield "a pending move of a sector that has another block", sectors(halves=move, entries={0: NORMAL | 5}), mended(left=["Twice 5", f"Missing {OUTER}"]), {}
    yield "a bad sector", sectors(**worn), mended("BadData 7"), entry(7, ERROR | 7)
    yield "the last sector", sectors(entries={OUTER - 1: NORMAL | 3, 3: ZERO | OUTER - 1}, ranges=[(block(3), 1)]), mended(f"BadData {OUTER - 1}"), entry(OUTER - 1, ERROR | 3)
    yield "bad sectors, side by side", sectors(entries={7: NORMAL | 9, 8: NORMAL | 8, 9: NORMAL | 7}, ranges=[(block(7), 3 * BLOCK)]), mended("BadData 7", "BadData 8", "BadData 9"), \
        {**entry(7, ERROR | 9), **entry(8, ERROR | 8), **entry(9, ERROR | 7)}
    # an initial entry has no flags, and names no block
    yield "a bad sector of an initial entry", sectors(entries={7: 5}, ranges=[(block(7), 1)]), mended("BadData 7"), entry(7, ERROR | 7)
    yield "sectors that read as zeros and as bad", sectors(entries={10: ERROR | 10}, ranges=[(block(8), 3 * BLOCK)]), mended(), {}
    yield "free blocks", sectors(ranges=[(block(OUTER), LANES * BLOCK)]), mended(), {}
    yield "a bad sector, with a block named twice", sectors(entries={7: NORMAL | 7, 9: NORMAL | 100}, ranges=[(block(7), 1)]), mended(left=["Twice 100", "Missing 9"]), {}
    yield "a bad sector, with a block that doesn't exist", sectors(entries={7: NORMAL | 7, 9: ZERO | INNER}, ranges=[(block(7), 1)]), mended(left=[f"Range {INNER}", "Missing 9"]), {}
    yield "a bad sector, with a refused group", sectors(entries={7: NORMAL | 7}, halves=halves(2, 4, 1), ranges=[(block(7), 1)]), mended(left=["Flog 2 Sequences 4 1"]), {}
    # bad words of the format stay, whatever is written there
    yield "a bad sector, and a bad word of the map", sectors(entries={7: NORMAL | 7}, ranges=[(block(7), 1), (MAP_AT + 28, 1)]), mended("BadData 7", left=[f"BadMeta {(MAP_AT + 28) // WORD}"]), entry(7, ERROR | 7)
    yield "bad words of the log and of the backup", sectors(ranges=[(LOG_AT, 1), (INFO_AT, 1)]), mended(left=[f"BadMeta {LOG_AT // WORD}", f"BadMeta {INFO_AT // WORD}"]), {}
    yield "the first info block, in a bad range", sectors(bytes(4096), ranges=[(0, 8)]), mended("Info Signature", left=["BadMeta 0"]), {0: info()}


def repaired_chains():
    """Two arenas, one behind the other, and two namespaces."""
    move, worn = {0: group(0, OUTER, 1)}, {7: NORMAL | 7}
    first, second = [(block(7), 1)], [(ARENA + block(7), 1)]
    yield "two arenas", chain(), mended(), {}
    yield "the second arena's first info block", chain(first=bytes(4096), entries={9: NORMAL | 100}), mended("Info Signature", left=["Twice 100", "Missing 9"], arena=1), {ARENA: info()}
    yield "the second arena's backup", chain(last=bytes(4096)), mended("Backup Signature", arena=1), {ARENA + INFO_AT: info()}
    yield "both of the second arena", chain(first=bytes(4096), last=bytes(4096)), mended(left=["Info Signature"], arena=1), {}
    yield "a pending move and a bad sector of the second arena", {**chain(entries=worn, halves=move), "badranges-0.bin": bad(*second)}, mended("BadData 7", arena=1), \
        {**entry(0, NORMAL | OUTER, ARENA), **entry(7, ERROR | 7, ARENA)}
    both = chain(entries=worn)
    size, pieces = both["contents-0.bin"]
    log, table = pieces[LOG_AT], pieces[MAP_AT]

    def with_first(**other):
        """The chain with other bytes of the first arena, and bad sectors in both."""
        of = {"info": 0, "table": MAP_AT, "log": LOG_AT, "backup": INFO_AT}
        return {**both, "contents-0.bin": (size, {**pieces, **{of[name]: data for name, data in other.items()}}), "badranges-0.bin": bad(*first, *second)}

    bad_first = table[:28] + struct.pack("<I", NORMAL | 7) + table[32:]
    yield "bad sectors of both", with_first(table=bad_first), "arena 0 repaired BadData 7\narena 1 repaired BadData 7\nsound\n", {**entry(7, ERROR | 7), **entry(7, ERROR | 7, ARENA)}
    yield "a pending move of the first one", with_first(log=move[0] + log[64:]), mended("BadData 7", arena=1), {**entry(0, NORMAL | OUTER), **entry(7, ERROR | 7, ARENA)}
    yield "the first one's backup", with_first(backup=bytes(4096), table=bad_first), "arena 0 repaired Backup Signature\narena 0 repaired BadData 7\narena 1 repaired BadData 7\nsound\n", \
        {INFO_AT: pieces[0], **entry(7, ERROR | 7), **entry(7, ERROR | 7, ARENA)}
    # findings of one arena don't keep another one from being repaired
    yield "the first one's log", with_first(log=bytes(64) + log[64:]), "arena 0 Flog 0 Sequences 0 0\narena 1 repaired BadData 7\nbroken 1\n", entry(7, ERROR | 7, ARENA)
    twice = table[:36] + struct.pack("<I", NORMAL | 100) + table[40:]
    yield "the first one's map", with_first(table=twice), "arena 0 Twice 100\narena 0 Missing 9\narena 1 repaired BadData 7\nbroken 2\n", entry(7, ERROR | 7, ARENA)
    # the last page is no backup of the first arena, and where the second one begins isn't known then
    yield "the first one's info block", with_first(info=changed(pieces[0], 84)), mended(left=["Info Checksum"]), {}
    files = wide(ARENA, ARENA)
    yield "the first namespace of two", {**files, "badranges-0.bin": bad((block(1), 1), (ARENA + block(1), 1))}, mended("BadData 1"), entry(1, ERROR | 1)
    yield "another namespace without an info block", wide(ARENA, ARENA, broken=1), mended(), {}


def repaired_behind():
    """The same of the second namespace."""
    files = wide(ARENA, ARENA)
    yield "the second namespace of two", {**files, "badranges-0.bin": bad((block(1), 1), (ARENA + block(1), 1))}, mended("BadData 1"), entry(1, ERROR | 1, ARENA)
    yield "another namespace without an info block, in front", wide(ARENA, ARENA, broken=0), mended(), {}


def repairs():
    for group_of in (repaired_infos, repaired_maps, repaired_chains):
        yield from group_of()
