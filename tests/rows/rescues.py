"""The rows of `rescue`: damaged image sets, made without the program, and what can be read of
them.

Each set has a sector namespace of one arena of 16 MiB, or of two. A row is what is wrong, the
files of the set, the text of `--lost`, and the bytes: of each sector that has other bytes than
zeros the one byte that fills it, for each arena in order; or the text on why nothing can be
read. All of it is worked out by hand. Sectors have 4,096 bytes, and so have blocks. All entries
are Zero, and lane l owns block OUTER + l, unless a row says otherwise. Byte 0 of the namespace
is byte 0 of the module.
"""
import os
import struct
import sys

sys.dont_write_bytecode = True
sys.path.insert(
    1, os.path.join(os.path.dirname(os.path.dirname(os.path.abspath(__file__))), "faults")
)
from checks import BLOCK, ERROR, NORMAL, WORD, ZERO, block, changed, halves  # noqa: E402
from sets import (ARENA, BTT_2_0, FIRST, INFO_AT, INNER, LOG_AT, MAP_AT, OUTER, SECOND,  # noqa: E402
                  THIRD, area, bad, chain, control, cookie, info, interleave, label, mapping,
                  sectors, spa, table, wide)

# blocks of arenas that have bytes: the byte that fills each
BYTES = {0: 0xA0, 7: 0xA7, 9: 0xA9, OUTER: 0xB0, OUTER + 1: 0xB1}
# sectors 0, 7 and 9 have bytes of their own
ENTRIES = {0: NORMAL, 7: NORMAL | 7, 9: NORMAL | 9}
OWN = {0: 0xA0, 7: 0xA7, 9: 0xA9}


def filled(files, *starts):
    """A set whose arenas, which begin at these bytes, have these blocks filled."""
    size, pieces = files["contents-0.bin"]
    for start in starts or (0,):
        more = {start + block(number): bytes([byte]) * BLOCK for number, byte in BYTES.items()}
        pieces = {**pieces, **more}
    return {**files, "contents-0.bin": (size, pieces)}


def damaged(first=None, entries=(), **other):
    """A set with these map entries beside the three of before."""
    return filled(sectors(first, entries={**ENTRIES, **dict(entries)}, **other))


def move(lane, sector, old, new, padding=bytes(32)):
    """The log group of a lane of which only the first half is written, as a move."""
    return {lane: struct.pack("<IIII16x", sector, old, new, 1) + padding}


def lost(*lines, count=0):
    """The text with these lines, and so many lost sectors."""
    return "".join(f"{it}\n" for it in [*lines, f"lost {count}" if count else "whole"])


def without(*gone):
    """The bytes of the three sectors but for these."""
    return {sector: byte for sector, byte in OWN.items() if sector not in gone}


def entries():
    """Map entries. Each reason for a loss, and which one is named of several."""
    yield "nothing is lost", damaged(), lost(), OWN
    yield "two entries that were exchanged, which can't be seen", \
        damaged(entries={7: NORMAL | 9, 9: NORMAL | 7}), lost(), {0: 0xA0, 7: 0xA9, 9: 0xA7}
    yield "flags that changed, which can't be seen", damaged(entries={7: ZERO | 7}), lost(), \
        without(7)
    yield "an initial entry", damaged(entries={7: 5}), lost(), OWN
    yield "a marked sector", damaged(entries={7: ERROR | 7}), \
        lost("arena 0 lost 7 Marked", count=1), without(7)
    yield "an entry out of range", damaged(entries={7: NORMAL | INNER}), \
        lost(f"arena 0 lost 7 Range {INNER}", count=1), without(7)
    yield "the greatest block", damaged(entries={7: NORMAL | ERROR - 1}), \
        lost(f"arena 0 lost 7 Range {ERROR - 1}", count=1), without(7)
    yield "a Zero entry out of range", damaged(entries={8: ZERO | INNER}), \
        lost(f"arena 0 lost 8 Range {INNER}", count=1), OWN
    yield "a marked one out of range", damaged(entries={8: ERROR | INNER}), \
        lost(f"arena 0 lost 8 Range {INNER}", count=1), OWN
    yield "two sectors with one block that doesn't exist", \
        damaged(entries={7: NORMAL | INNER, 9: NORMAL | INNER}), \
        lost(f"arena 0 lost 7 Range {INNER}", f"arena 0 lost 9 Range {INNER}", count=2), \
        without(7, 9)
    yield "the last block", damaged(entries={8: NORMAL | INNER - 1}), \
        lost(f"arena 0 lost 8 Twice {INNER - 1}", count=1), OWN
    yield "a block named twice", damaged(entries={9: NORMAL | 7}), \
        lost("arena 0 lost 7 Twice 7", "arena 0 lost 9 Twice 7", count=2), without(7, 9)
    yield "one named by a sector of zeros", damaged(entries={100: ZERO | 7}), \
        lost("arena 0 lost 7 Twice 7", "arena 0 lost 100 Twice 7", count=2), without(7)
    yield "one named by a marked sector", damaged(entries={100: ERROR | 7}), \
        lost("arena 0 lost 7 Twice 7", "arena 0 lost 100 Twice 7", count=2), without(7)
    yield "one named by an initial entry", damaged(entries={9: 0, 10: NORMAL | 9}), \
        lost("arena 0 lost 9 Twice 9", "arena 0 lost 10 Twice 9", count=2), without(9)
    yield "the first and the last sector", \
        damaged(entries={0: ERROR, OUTER - 1: NORMAL | INNER}), \
        lost("arena 0 lost 0 Marked", f"arena 0 lost {OUTER - 1} Range {INNER}", count=2), \
        without(0)


def bad_words():
    """Bad ranges. A bad map word has two sectors, and what these name counts for no other one."""
    yield "a bad word of a sector", damaged(ranges=[(block(7), 1)]), \
        lost("arena 0 lost 7 BadData", count=1), without(7)
    yield "its last byte", damaged(ranges=[(block(8) - 1, 1)]), \
        lost("arena 0 lost 7 BadData", count=1), without(7)
    yield "the bytes around it", damaged(ranges=[(block(7) - 8, 8), (block(8), 8)]), lost(), OWN
    yield "one of an initial entry", damaged(entries={7: 0}, ranges=[(block(7), 1)]), \
        lost("arena 0 lost 7 BadData", count=1), without(7)
    yield "blocks of sectors without bytes, and free ones", \
        damaged(
            entries={10: ERROR | 10}, ranges=[(block(8), 1), (block(10), 1), (block(OUTER), 1)]
        ), lost("arena 0 lost 10 Marked", count=1), OWN
    word = MAP_AT // WORD
    yield "a bad map word", damaged(ranges=[(MAP_AT + 28, 1)]), \
        lost(
            f"arena 0 BadMeta {word + 3}",
            "arena 0 lost 6 BadMap",
            "arena 0 lost 7 BadMap",
            count=2,
        ), without(7)
    yield "the map's last word, which has one entry", \
        damaged(ranges=[(MAP_AT + 4 * (OUTER - 1), 1)]), \
        lost(
            f"arena 0 BadMeta {word + (OUTER - 1) // 2}",
            f"arena 0 lost {OUTER - 1} BadMap",
            count=1,
        ), OWN
    yield "the map area behind the map", damaged(ranges=[(MAP_AT + 4 * (OUTER + 1), 1)]), \
        lost(f"arena 0 BadMeta {word + (OUTER + 1) // 2}", count=0), OWN
    # the block of sector 7 is named by 6 too, but nobody knows what 6 and 7 name
    yield "a bad map word of two that share a block", \
        damaged(entries={6: NORMAL | 7}, ranges=[(MAP_AT + 24, 1)]), \
        lost(
            f"arena 0 BadMeta {word + 3}",
            "arena 0 lost 6 BadMap",
            "arena 0 lost 7 BadMap",
            count=2,
        ), without(7)
    yield "a bad map word, and another sector with its block", \
        damaged(entries={6: NORMAL | 9}, ranges=[(MAP_AT + 24, 1)]), \
        lost(
            f"arena 0 BadMeta {word + 3}",
            "arena 0 lost 6 BadMap",
            "arena 0 lost 7 BadMap",
            count=2,
        ), without(7)
    yield "a bad map word before everything else", \
        damaged(
            entries={6: NORMAL | INNER, 7: ERROR | 9}, ranges=[(MAP_AT + 24, 1), (block(7), 1)]
        ), \
        lost(
            f"arena 0 BadMeta {word + 3}",
            "arena 0 lost 6 BadMap",
            "arena 0 lost 7 BadMap",
            count=2,
        ), without(7)
    yield "a block named twice, in a bad range", \
        damaged(entries={9: NORMAL | 7}, ranges=[(block(7), 1)]), \
        lost("arena 0 lost 7 Twice 7", "arena 0 lost 9 Twice 7", count=2), without(7, 9)
    yield "words of info blocks", damaged(ranges=[(0, 1), (INFO_AT, 1)]), \
        lost("arena 0 BadMeta 0", f"arena 0 BadMeta {INFO_AT // WORD}"), OWN


def lanes():
    """Moves, and lanes that don't count: their groups are refused, or have a bad word."""
    first = move(0, 0, 0, OUTER)
    yield "a pending move", damaged(halves=first), lost(f"arena 0 moved 0 0 {OUTER}"), \
        {**OWN, 0: 0xB0}
    yield "one of a sector of zeros", damaged(entries={0: ZERO}, halves=first), \
        lost(f"arena 0 moved 0 0 {OUTER}"), {**OWN, 0: 0xB0}
    yield "one of a marked sector", damaged(entries={0: ERROR}, halves=first), \
        lost(f"arena 0 moved 0 0 {OUTER}"), {**OWN, 0: 0xB0}
    yield "a move that the map has", damaged(entries={0: NORMAL | OUTER}, halves=first), lost(), \
        {**OWN, 0: 0xB0}
    yield "a move of a sector that has another block", \
        damaged(entries={0: NORMAL | 5}, halves=first), \
        lost("arena 0 lost 0 Twice 5", "arena 0 lost 5 Twice 5", count=2), without(0)
    yield "two moves", damaged(halves={**first, **move(1, 9, 9, OUTER + 1)}), \
        lost(f"arena 0 moved 0 0 {OUTER}", f"arena 0 moved 9 9 {OUTER + 1}"), \
        {0: 0xB0, 7: 0xA7, 9: 0xB1}
    # of two moves of one sector the later lane counts
    yield "two moves of one sector", damaged(halves={**first, **move(1, 0, 0, OUTER + 1)}), \
        lost(f"arena 0 moved 0 0 {OUTER}", f"arena 0 moved 0 0 {OUTER + 1}"), {**OWN, 0: 0xB1}
    yield "two moves to one block", damaged(halves={**first, **move(1, 9, 9, OUTER)}), \
        lost(
            f"arena 0 moved 0 0 {OUTER}",
            f"arena 0 moved 9 9 {OUTER}",
            f"arena 0 lost 0 Twice {OUTER}",
            f"arena 0 lost 9 Twice {OUTER}",
            count=2,
        ), without(0, 9)
    yield "the new block of a move is bad", damaged(halves=first, ranges=[(block(OUTER), 1)]), \
        lost(f"arena 0 moved 0 0 {OUTER}", "arena 0 lost 0 BadData", count=1), without(0)
    yield "the old block of a move is bad", damaged(halves=first, ranges=[(block(0), 1)]), \
        lost(f"arena 0 moved 0 0 {OUTER}"), {**OWN, 0: 0xB0}
    yield "a move of a sector whose map word is bad", \
        damaged(halves=first, ranges=[(MAP_AT, 1)]), \
        lost(
            f"arena 0 BadMeta {MAP_AT // WORD}",
            f"arena 0 moved 0 0 {OUTER}",
            "arena 0 lost 0 BadMap",
            "arena 0 lost 1 BadMap",
            count=2,
        ), without(0)
    yield "a refused group", damaged(halves=halves(5, 0, 0)), \
        lost("arena 0 Flog 5 Sequences 0 0"), OWN
    yield "all groups", damaged(halves={lane: bytes(64) for lane in range(256)}), \
        lost(*(f"arena 0 Flog {lane} Sequences 0 0" for lane in range(256))), OWN
    yield "a refused group with a move", damaged(halves=move(0, 0, 0, OUTER, b"x" + bytes(31))), \
        lost("arena 0 Flog 0 Padding"), OWN
    yield "a refused group, and a move of another lane", \
        damaged(halves={**first, **halves(5, 1, 1)}), \
        lost("arena 0 Flog 5 Sequences 1 1", f"arena 0 moved 0 0 {OUTER}"), {**OWN, 0: 0xB0}
    yield "a group that names a block that doesn't exist", \
        damaged(halves=move(2, 0, INNER, INNER)), lost(f"arena 0 Flog 2 Range {INNER}"), OWN
    for what, at in (("its first word", 0), ("its last word", 63)):
        yield f"a move in a group of which {what} is bad", \
            damaged(halves=first, ranges=[(LOG_AT + at, 1)]), \
            lost(f"arena 0 BadMeta {(LOG_AT + at) // WORD}"), OWN
    yield "a bad word of the group behind", damaged(halves=first, ranges=[(LOG_AT + 64, 1)]), \
        lost(f"arena 0 BadMeta {LOG_AT // WORD + 8}", f"arena 0 moved 0 0 {OUTER}"), \
        {**OWN, 0: 0xB0}
    yield "a lane with a sector's block", damaged(halves=move(0, 0, 7, 7)), \
        lost("arena 0 lost 7 Twice 7", count=1), without(7)
    yield "one that doesn't count", damaged(halves=move(0, 0, 7, 7), ranges=[(LOG_AT, 1)]), \
        lost(f"arena 0 BadMeta {LOG_AT // WORD}"), OWN
    yield "two lanes with one free block", damaged(halves=move(1, 0, OUTER, OUTER)), lost(), OWN
    several = {**first, **move(1, 8, 9, 9), **halves(3, 2, 2), 200: bytes(64)}
    entry, ranges = {10: ERROR | 10, 11: NORMAL | INNER}, [(MAP_AT + 28, 1), (LOG_AT + 64 * 7, 8)]
    yield "everything at once", \
        damaged(bytes(4096), entries=entry, halves=several, ranges=ranges), \
        lost(
            "arena 0 Info Signature",
            "arena 0 Flog 3 Sequences 2 2",
            "arena 0 Flog 200 Sequences 0 0",
            f"arena 0 BadMeta {MAP_AT // WORD + 3}",
            f"arena 0 BadMeta {LOG_AT // WORD + 56}",
            f"arena 0 moved 0 0 {OUTER}",
            "arena 0 lost 6 BadMap",
            "arena 0 lost 7 BadMap",
            "arena 0 lost 9 Twice 9",
            "arena 0 lost 10 Marked",
            f"arena 0 lost 11 Range {INNER}",
            count=5,
        ), {0: 0xB0}


def infos():
    """The info block, its backup, and neither."""
    yield "the first info block", damaged(changed(info(), 84)), lost("arena 0 Info Checksum"), OWN
    yield "one of another version", damaged(info(major=3)), lost("arena 0 Info Version 3 0"), OWN
    yield "the backup", damaged(last=bytes(4096)), lost(), OWN
    older = info(major=1, minor=1)
    yield "both of version 1.1", damaged(older, last=older), lost(), OWN
    yield "no first info block, and a backup of version 1.1", damaged(bytes(4096), last=older), \
        lost("arena 0 Info Signature"), OWN
    wrong = {
        "Signature": bytes(4096), "Checksum": changed(info(), 84), "Version 3 0": info(major=3)
    }
    for fault, first in wrong.items():
        yield f"neither: {fault}", damaged(first, last=bytes(4096)), \
            lost(f"arena 0 Info {fault}", count=1), f"image arena {FIRST} 0 Info {fault}\n"


def linked(**other):
    """Two arenas with the same entries and blocks, of which the second one has these changes."""
    files = chain(**{"entries": ENTRIES, **other})
    size, pieces = files["contents-0.bin"]
    table = sectors(entries=ENTRIES)["contents-0.bin"][1][MAP_AT]
    return filled({**files, "contents-0.bin": (size, {**pieces, MAP_AT: table})}, 0, ARENA)


def with_piece(files, at, data):
    size, pieces = files["contents-0.bin"]
    return {**files, "contents-0.bin": (size, {**pieces, at: data})}


def chains():
    """Two arenas, one behind the other. Sectors count in their arena, words in the namespace."""
    both = [OWN, OWN]
    yield "two arenas", linked(), lost(), both
    yield "a sector of the second one", linked(entries={**ENTRIES, 7: ERROR | 7}), \
        lost("arena 1 lost 7 Marked", count=1), [OWN, without(7)]
    yield "bad words of both", \
        {
            **linked(),
            "badranges-0.bin": bad((MAP_AT + 28, 1), (ARENA + LOG_AT, 1), (ARENA + block(9), 1)),
        }, \
        lost(
            f"arena 0 BadMeta {MAP_AT // WORD + 3}",
            "arena 0 lost 6 BadMap",
            "arena 0 lost 7 BadMap",
            f"arena 1 BadMeta {(ARENA + LOG_AT) // WORD}",
            "arena 1 lost 9 BadData",
            count=3,
        ), [without(7), without(9)]
    yield "a move of the second one", linked(halves=move(0, 0, 0, OUTER)), \
        lost(f"arena 1 moved 0 0 {OUTER}"), [OWN, {**OWN, 0: 0xB0}]
    yield "the second one's first info block", linked(first=bytes(4096)), \
        lost("arena 1 Info Signature"), both
    yield "both info blocks of the second one", linked(first=bytes(4096), last=bytes(4096)), \
        lost("arena 1 Info Signature", count=1), [OWN]
    # only the damaged block said where its backup is, and where the second arena begins
    yield "the first one's first info block", \
        with_piece(linked(), 0, changed(info(next=ARENA), 84)), \
        lost("arena 0 Info Checksum", count=1), f"image arena {FIRST} 0 Info Checksum\n"
    yield "the first one's backup", with_piece(linked(), INFO_AT, bytes(4096)), lost(), both
    yield "the first one's log", with_piece(linked(), LOG_AT, bytes(64 * 256)), \
        lost(*(f"arena 0 Flog {lane} Sequences 0 0" for lane in range(256))), both


PART = ARENA // 2


def spread(files, first=None, second=None, **other):
    """A set of one module as one of two, which take turns every 4,096 bytes; each has this label
    area, or that with its label of the namespace."""
    pieces = [{}, {}]
    for at, data in files["contents-0.bin"][1].items():
        for begin in range(at - at % 4096, at + len(data), 4096):
            part = data[max(begin - at, 0) : begin + 4096 - at]
            to = begin // 8192 * 4096 + max(at - begin, 0)
            pieces[begin // 4096 % 2][to] = part
    nfit = table(spa(length=ARENA), mapping(0, size=PART), mapping(1, size=PART), interleave(),
                 control(0), control(1))
    areas = [area([own(module)]) if it is None else it for module, it in enumerate((first, second))]
    found = {"nfit.bin": nfit, "complete": b"", **other,
             **{f"labels-{it}.bin": data for it, data in enumerate(areas)},
             **{f"contents-{it}.bin": (PART, its) for it, its in enumerate(pieces)}}
    return {name: data for name, data in found.items() if data != b"none"}


def own(module, who=FIRST, slot=0, raw=PART, **fields):
    """A module's label of the namespace over both modules."""
    fields = {"count": 2, "position": module, "cookie": cookie(), "lba": 4096,
              "abstraction": BTT_2_0, **fields}
    return label(who, b"a", slot, raw, **fields)


def labels():
    """Labels that are missing: the sectors are read all the same."""
    good = damaged()
    yield "no label is missing", spread(good), lost(), OWN
    for module, areas in ((0, {"first": area()}), (1, {"second": area()})):
        yield f"the label of module {module}", spread(good, **areas), \
            lost(f"labels {module} Missing"), OWN
    hurt = area([changed(own(1), 20)])
    for what, it in (("no label area", b"none"), ("a blank label area", bytes(4096)),
                     ("a label that isn't valid", hurt)):
        yield what, spread(good, second=it), lost("labels 1 Missing"), OWN
    yield "another name is missing with it", spread(good, area([own(0, flags=1)]), area()), \
        lost("labels 1 Missing"), OWN
    yield "a missing label, and a lost sector", \
        spread(damaged(entries={9: NORMAL | 7}), second=area()), \
        lost("labels 1 Missing", "arena 0 lost 7 Twice 7", "arena 0 lost 9 Twice 7", count=2), \
        without(7, 9)
    yield "a missing label, and no first info block", spread(damaged(bytes(4096)), area()), \
        lost("labels 0 Missing", "arena 0 Info Signature"), OWN


def refused():
    """Namespaces whose place isn't known, and the refusal."""
    good = damaged()
    yield "both labels are missing", spread(good, area(), area()), "NoSuch"
    yield "a label with UPDATING alone", spread(good, area([own(0, flags=8)]), area()), \
        "NotComplete"
    yield "a local label alone", spread(good, area([own(0, flags=2)]), area()), "NotComplete"
    yield "another cookie", spread(good, area([own(0, cookie=5)]), area()), "NotComplete"
    yield "another count", spread(good, area([own(0, count=3)]), area()), "NotComplete"
    yield "another mode", spread(good, area([own(0, abstraction=THIRD)]), area()), "NotSector"
    taken = own(1, SECOND, raw=8192, dpa=4096)
    yield "another namespace in the place", spread(good, second=area([taken])), "NotComplete"


def rows():
    for group_of in (entries, bad_words, lanes, infos, chains):
        yield from group_of()


def behind():
    """The second namespace of two on one module, of three sectors: what is lost of it."""
    files = wide(ARENA, ARENA)
    yield "the namespace behind", files, lost()
    yield "the namespace behind, with a bad map word", \
        {**files, "badranges-0.bin": bad((ARENA + MAP_AT + 8, 8))}, \
        lost(f"arena 0 BadMeta {MAP_AT // WORD + 1}", "arena 0 lost 2 BadMap", count=1)
    yield "only the namespace in front", {**files, "badranges-0.bin": bad((0, ARENA))}, lost()
    yield "the namespace in front has no info block", wide(ARENA, ARENA, broken=0), lost()


def bytes_of(sectors_of):
    """The bytes of a row."""
    out = bytearray()
    for its in sectors_of if isinstance(sectors_of, list) else [sectors_of]:
        part = bytearray(BLOCK * OUTER)
        for sector, byte in its.items():
            part[BLOCK * sector : BLOCK * (sector + 1)] = bytes([byte]) * BLOCK
        out += part
    return bytes(out)
