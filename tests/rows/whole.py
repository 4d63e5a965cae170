"""The rows of `check` on whole sets: what is wrong, the files of the set, and the lines but for the last one, worked out by hand; and those of
`check --repair`, with the label areas that it writes.

Sets are those of tests/faults/sets.py: two modules of 64 KiB, which take turns every 4,096 bytes, with a namespace over both; or one module with a
sector namespace. Index block 1 is current there. tests/wholeset.py has to say the same of each row as the program.
"""
import os
import struct
import sys

sys.dont_write_bytecode = True
sys.path.insert(1, os.path.join(os.path.dirname(os.path.dirname(os.path.abspath(__file__))), "faults"))
from sets import (ARENA, BLOCK, BTT_2_0, FIRST, INNER, LINE, LOG_AT, OUTER, SECOND, SIZE, SLOTS, THIRD, area, bad, chain, checked, control, cookie,  # noqa: E402
                  fletcher64, group, index_block, info, interleave, label, mapping, of_version, pair, part, sectors, spa, table, two, wide)

UNCHECKED, NO_NAMESPACES = "notice arenas Unchecked", "notice namespaces Unchecked"
WHOLE = [part(0)], [part(1)]
# a slot of bytes that are no label; one of zeros has the checksum of zeros
JUNK = b"x" * 256


def whole(**other):
    """A set with one namespace over both modules; a name of `other` is a file's, with _ for -. None is no file."""
    files = {**pair(area(WHOLE[0]), area(WHOLE[1])), **{f"{name.replace('_', '-')}.bin" if name != "complete" else name: data for name, data in other.items()}}
    return {name: data for name, data in files.items() if data is not None}


def labelled(first, second, nfit=None):
    """A set whose modules have these labels."""
    return pair(area(first), area(second), nfit)


def namespace(who, *whys):
    return [f"fault namespace {who} {it}" for it in whys]


def changed(data, at, text):
    return data[:at] + text + data[at + len(text) :]


def tables():
    """The mark and the table: nothing else is looked at."""
    good, alone = two(), {"lines": 0, "ways": 1, "offset": 0}
    yield "nothing", whole(), []
    yield "no mark", whole(complete=None), ["fault mark Missing"]
    yield "no table", whole(nfit=None), ["fault nfit Missing"]
    yield "neither", whole(complete=None, nfit=None), ["fault mark Missing"]
    yield "no mark, and a module's contents are missing", whole(complete=None, contents_0=None), ["fault mark Missing"]
    many = [piece for m in range(65) for piece in (mapping(m, ways=65), control(m))]
    for fault, nfit in (
            ("Size 1048577", bytes(1048577)), ("Signature", b"X" + good[1:]), ("Signature", b""), (f"Length {len(good)} 100", good[:100]), ("Length 0 4", b"NFIT"),
            ("Checksum 1", changed(good, 9, bytes([good[9] + 1 & 0xFF]))), ("Structure 40", checked(changed(good, 42, struct.pack("<H", 2)))),
            ("TwiceIndex 4 1", two(spa(), mapping(0), mapping(1), interleave(), control(0))), ("TwiceIndex 0 1", two(spa(), spa(), mapping(0), mapping(1), interleave())),
            ("MissingIndex 4 9", two(spa(), mapping(0, control=9), mapping(1), interleave())), ("MissingIndex 0 7", two(spa(), mapping(0, region=7), mapping(1), interleave())),
            ("MissingIndex 2 1", two(spa(), mapping(0), mapping(1))), ("TooLarge 65", table(spa(length=65 * SIZE), interleave(), *many)),
            ("Alias 0 0 1", two(spa(1, SIZE), spa(2, SIZE, 2 << 32), mapping(0, 1, **alone), mapping(0, 2, **alone)))):
        yield f"the table: {fault}", whole(nfit=nfit, labels_0=bytes(7)), [f"fault nfit {fault}"]


def sized(*sizes):
    """A set of modules of holes with these sizes, without label areas; the table maps 64 KiB of each."""
    nfit = table(spa(length=len(sizes) * SIZE), *(mapping(m, ways=len(sizes)) for m in range(len(sizes))), interleave(), *(control(m) for m in range(len(sizes))))
    return {"nfit.bin": nfit, **{f"contents-{m}.bin": size for m, size in enumerate(sizes)}, "complete": b""}


def objects():
    """Objects that are missing or of a wrong size; an area with a fault has no labels."""
    lost = [*namespace(FIRST, "Missing 0")]
    for size in (0, 768, 1000, 1025, 1048832):
        yield f"a label area of {size} bytes", whole(labels_0=bytes(size)), [f"fault labels 0 Size {size}", *lost, UNCHECKED]
    yield "no label area", whole(labels_0=None), lost
    yield "no label areas", whole(labels_0=None, labels_1=None), []
    yield "both label areas", whole(labels_0=bytes(7), labels_1=bytes(8)), ["fault labels 0 Size 7", "fault labels 1 Size 8", UNCHECKED]
    for module in (0, 1):
        yield f"no contents {module}", whole(**{f"contents_{module}": None}), [f"fault contents {module} Missing", UNCHECKED]
        # no multiple of a page, nothing, and a mapping that passes the end
        for size in (0, 100, 4096, SIZE - 4096, SIZE + 5):
            yield f"contents {module} of {size} bytes", whole(**{f"contents_{module}": size}), [f"fault contents {module} Size {size}", UNCHECKED]
    yield "longer contents", whole(contents_0=SIZE + 4096), []
    for size in (1, 15, 17, 65552):
        yield f"a list of {size} bytes", whole(badranges_1=bytes(size)), [f"fault badranges 1 Size {size}", UNCHECKED]
    # contents with a fault count for those behind; a module's own part comes together
    each = 3 << 40
    yield "more contents than a set may have", sized(*[each] * 5, SIZE, each, SIZE, 0), [f"fault contents 6 Size {each}", f"fault contents 7 Size {SIZE}", "fault contents 8 Size 0", UNCHECKED]
    yield "no contents in the middle", {it: data for it, data in sized(*[each] * 7).items() if it != "contents-2.bin"}, ["fault contents 2 Missing", f"fault contents 6 Size {each}", UNCHECKED]
    everything = {"labels_0": bytes(1), "contents_0": 2, "badranges_0": bytes(3), "labels_1": bytes(4), "contents_1": None, "badranges_1": bytes(5)}
    yield "every object", whole(**everything), \
        ["fault labels 0 Size 1", "fault contents 0 Size 2", "fault badranges 0 Size 3", "fault labels 1 Size 4", "fault contents 1 Missing", "fault badranges 1 Size 5", UNCHECKED]


def regions():
    """Regions that aren't interleave sets. Label areas are looked at, namespaces and arenas aren't."""
    for fault, nfit in (
            ("Ways 3 2", two(spa(), mapping(0, ways=3), mapping(1, ways=3), interleave())), ("Twice 0", two(spa(), mapping(0), mapping(0, offset=LINE, start=SIZE), interleave())),
            ("Offsets 0 1", two(spa(), mapping(0), mapping(1, offset=0), interleave())), ("Line 0", two(spa(), mapping(0, lines=0), mapping(1, lines=0))),
            ("Share 12288", two(spa(), mapping(0), mapping(1), interleave((0, 2, 4)))),
            (f"Size {4 * SIZE} {2 * SIZE}", two(spa(length=4 * SIZE), mapping(0), mapping(1), interleave())), ("Cover 0", two(spa(), mapping(0), mapping(1), interleave((0, 0))))):
        yield f"a region: {fault}", whole(nfit=nfit, contents_0=2 * SIZE), [f"fault region 0 {fault}", NO_NAMESPACES, UNCHECKED]
    alone = {"lines": 0, "ways": 1, "offset": 0}
    nfit = two(spa(1, SIZE), spa(2, SIZE, 2 << 32), spa(3, SIZE, 3 << 32), mapping(0, 1, **{**alone, "ways": 2}), mapping(1, 2, **alone), mapping(1, 3, **{**alone, "ways": 5, "start": SIZE}))
    yield "two regions of three", whole(nfit=nfit, contents_1=2 * SIZE), ["fault region 0 Ways 2 1", "fault region 2 Ways 5 1", NO_NAMESPACES, UNCHECKED]
    both = pair(area([part(0), part(0, SECOND, 1), changed(part(0, slot=2), 20, b"x")]), bytes(4096), two(spa(length=4 * SIZE), mapping(0), mapping(1), interleave()))
    yield "a region, with labels that overlap and a bad one", both, [f"fault region 0 Size {4 * SIZE} {2 * SIZE}", "fault labels 0 slot 2 Checksum", "notice labels 1 NoIndex", NO_NAMESPACES, UNCHECKED]


def sealed(block):
    """An index block with its checksum."""
    return block[:64] + struct.pack("<Q", fletcher64(block[:64] + bytes(8) + block[72:])) + block[72:]


def sides():
    """Each fault of an index block, on each side; the labels are the same by either."""
    good = area(WHOLE[0])
    blocks = [good[:BLOCK], good[BLOCK : 2 * BLOCK]]

    def areas(first, second):
        return whole(labels_0=first + second + good[2 * BLOCK :])

    def faulty(block):
        yield "Signature", changed(block, 3, b"x")
        yield "Signature", bytes(BLOCK)
        yield "Sequence", sealed(changed(block, 20, b"\0"))
        # only the low two bits count, and nothing else of a closed block is looked at
        yield "Sequence", sealed(changed(block, 20, b"\4"))
        yield "Sequence", changed(changed(block, 20, b"\0"), 60, b"xxxxxxxx")
        yield "Version 1 1", of_version(block, 1, 1)
        yield "Version 2 7", of_version(block, 2, 7)
        for at in (24, 32, 40, 48):
            yield "Offsets", sealed(changed(block, at, b"\1\1"))
        yield "Slots", sealed(changed(block, 19, b"\0"))
        yield "Slots", sealed(changed(block, 56, bytes(4)))
        yield "Slots", sealed(changed(block, 56, struct.pack("<I", SLOTS + 1)))
        yield "Checksum", changed(block, 17, b"x")
        yield "Checksum", changed(block, 72, b"x")

    yield "older blocks with other free slots", areas(sealed(changed(blocks[0], 72, b"\xff")), blocks[1]), []
    for side in (0, 1):
        for fault, block in faulty(blocks[side]):
            kind = "notice" if fault == "Sequence" else "fault"
            yield f"index block {side}: {fault}", areas(*((block, blocks[1]) if side == 0 else (blocks[0], block))), [f"{kind} labels 0 index {side} {fault}"]
    lost = namespace(FIRST, "Missing 0")
    yield "a blank area", whole(labels_0=bytes(4096)), ["notice labels 0 NoIndex", *lost]
    yield "no signature, but slots", areas(bytes(BLOCK), bytes(BLOCK)), ["notice labels 0 NoIndex", *lost]
    yield "blank areas", pair(bytes(4096), bytes(1024)), ["notice labels 0 NoIndex", "notice labels 1 NoIndex"]
    closed = sealed(changed(blocks[1], 20, b"\0"))
    yield "no valid block: none and a closed one", areas(bytes(BLOCK), closed), ["fault labels 0 index 0 Signature", "notice labels 0 index 1 Sequence", *lost]
    yield "no valid block: closed ones", areas(sealed(changed(blocks[0], 20, b"\0")), closed), ["notice labels 0 index 0 Sequence", "notice labels 0 index 1 Sequence", *lost]
    yield "no valid block: another version", areas(of_version(blocks[0], 1, 1), of_version(blocks[1], 1, 1)), ["fault labels 0 index 0 Version 1 1", "fault labels 0 index 1 Version 1 1", *lost]
    yield "no valid block: a checksum and a version", areas(changed(blocks[0], 17, b"x"), of_version(blocks[1], 3, 0)), ["fault labels 0 index 0 Checksum", "fault labels 0 index 1 Version 3 0", *lost]
    # the block of before the label was put: it isn't there, or the bytes in its slot aren't looked at
    empty = index_block(0, 1, BLOCK, SLOTS, range(SLOTS))
    yield "the newer block, and an older one without the label", areas(empty, changed(blocks[1], 17, b"x")), ["fault labels 0 index 1 Checksum", *lost]
    yield "the older block, which lacks the label", areas(changed(empty, 17, b"x"), blocks[1]), ["fault labels 0 index 0 Checksum"]


def slots():
    """Used slots without a valid label."""
    for fault, wrong in (("Checksum", changed(part(0), 20, b"x")), ("Checksum", JUNK), ("OddSize RawSize", bytes(256)), ("Slot 3", part(0, slot=3)), ("OddSize Dpa", part(0, dpa=512)), ("OddSize RawSize", part(0, raw=0)),
                         ("OddSize RawSize", part(0, raw=8193)), ("OddSize RawSize", part(0, dpa=(1 << 63) - 4096, raw=8192))):
        yield f"a label: {fault}", labelled([wrong], []), [f"fault labels 0 slot 0 {fault}"]
        yield f"a label of two: {fault}", labelled([wrong], [part(1)]), [f"fault labels 0 slot 0 {fault}", *namespace(FIRST, "Missing 0")]
    free = index_block(0, 1, BLOCK, SLOTS, range(SLOTS)) + index_block(1, 2, BLOCK, SLOTS, range(SLOTS)) + b"x" * 512
    yield "free slots aren't looked at", pair(free.ljust(4096, b"\0")), []
    several = [part(0), JUNK, part(0, slot=3), part(0, SECOND, 3, dpa=16384, raw=0)]
    yield "several slots", pair(area(several), area([part(1), part(1, slot=7)], used=3)), \
        ["fault labels 0 slot 1 Checksum", "fault labels 0 slot 2 Slot 3", "fault labels 0 slot 3 OddSize RawSize", "fault labels 1 slot 1 Slot 7", "fault labels 1 slot 2 Slot 0"]
    first = area(several)
    yield "a block and slots", pair(changed(first, 17, b"x"), area(WHOLE[1])), \
        ["fault labels 0 index 0 Checksum", "fault labels 0 slot 1 Checksum", "fault labels 0 slot 2 Slot 3", "fault labels 0 slot 3 OddSize RawSize"]


def namespaces():
    """Each rule, and several at once. A rule names the least module that breaks it."""
    doubled = two(spa(), mapping(0), mapping(1, offset=LINE), interleave((0, 2)))
    for whys, first, second, nfit in (
            ("Twice 0, Differs Dpa", [part(0), part(0, slot=1, dpa=16384)], [part(1)], None), ("Twice 1", [part(0)], [part(1), part(1, slot=1)], None),
            ("Outside 1, Differs Dpa", [part(0)], [part(1, dpa=1 << 20)], None), ("Outside 1, Differs RawSize", [part(0)], [part(1, raw=1 << 20)], None),
            # the first label is in no region, so nothing else is known
            ("Outside 0", [part(0, dpa=1 << 20, cookie=5)], [part(1, count=9)], None),
            ("Cookie 1 5", [part(0)], [part(1, cookie=5)], None), ("Cookie 0 6", [part(0, cookie=6)], [part(1, cookie=5)], None), ("Differs Count", [part(0)], [part(1, count=3)], None),
            ("Differs Count", [part(0, count=3)], [part(1, count=3)], None), ("Position 1 0", [part(0)], [part(1, position=0)], None), ("Position 0 1", [part(0, position=1)], [part(1, position=0)], None),
            ("Differs Dpa", [part(0)], [part(1, dpa=8192)], None), ("Differs RawSize", [part(0)], [part(1, raw=4096)], None), ("Differs LbaSize", [part(0)], [part(1, lba=4096)], None),
            ("Differs Guids", [part(0)], [part(1, abstraction=SECOND)], None), ("Differs Guids", [part(0)], [part(1, kind=SECOND)], None),
            ("Unaligned 0", [part(0, dpa=4096)], [part(1, dpa=4096)], doubled), ("Differs RawSize, Unaligned 1", [part(0)], [part(1, raw=4096)], doubled),
            ("Missing 1", [part(0)], [], None), ("Missing 0", [], [part(1)], None), ("Differs Names", [part(0)], [part(1, name=b"b")], None),
            ("Differs Names", [part(0, flags=8)], [part(1, name=b"b", flags=8)], None),
            ("Cookie 1 5, Position 1 7, Differs LbaSize", [part(0)], [part(1, cookie=5, position=7, lba=0)], None),
            ("Cookie 0 5, Missing 1", [part(0, cookie=5)], [], None), ("Cookie 1 5", [part(0)], [part(1, cookie=5, name=b"b")], None),
            ("Cookie 1 5", [part(0, flags=8)], [part(1, cookie=5)], None),
            # names that differ are named only if nothing else is wrong
            ("Twice 0, Outside 1, Cookie 1 5, Differs Count, Position 1 7, Differs Dpa, Differs RawSize, Differs LbaSize, Differs Guids",
             [part(0), part(0, slot=1)], [part(1, dpa=1 << 20, raw=4096, cookie=5, count=9, position=7, lba=4096, abstraction=THIRD, name=b"b")], None),
            ("Twice 0, Outside 0, Cookie 0 5, Differs Count, Position 0 7, Differs Dpa, Differs RawSize, Differs LbaSize, Differs Guids, Unaligned 0, Missing 1",
             [part(0), part(0, slot=1, dpa=(1 << 20) + 4096, raw=4096, cookie=5, count=9, position=7, lba=4096, abstraction=THIRD, name=b"b")], [], doubled)):
        yield f"a namespace: {whys}", labelled(first, second, nfit), namespace(FIRST, *whys.split(", "))
    for status, first, second in (
            ("pending", [part(0, flags=8)], [part(1)]), ("pending", [part(0, flags=8)], [part(1, flags=8)]), ("pending", [part(0, name=b"b", flags=8)], [part(1)]), ("unfinished", [part(0, flags=8)], []),
            ("unfinished", [], [part(1, flags=8, name=b"b")]), ("local", [part(0, flags=2)], [part(1)]), ("local", [part(0)], [part(1, flags=2, cookie=5)]), ("local", [part(0, flags=10)], []),
            ("local", [part(0, flags=2, dpa=1 << 20)], [])):
        yield f"a namespace that is {status}", labelled(first, second), [f"notice namespace {FIRST} {status}"]
    # recovery doesn't touch it
    yield "a namespace that is unfinished, and another machine's", labelled([part(0, cookie=5, flags=8)], []), [*namespace(FIRST, "Cookie 0 5"), f"notice namespace {FIRST} unfinished"]
    yield "other flags", labelled([part(0, flags=5)], [part(1, flags=1)]), []
    yield "namespaces by UUID", labelled([part(0, THIRD, 0), part(0, FIRST, 1, dpa=8192, flags=8), part(0, SECOND, 2, dpa=16384)], [part(1, SECOND, 0, dpa=16384)]), \
        [f"notice namespace {FIRST} unfinished", *namespace(THIRD, "Missing 1")]
    both = [part(0), part(0, SECOND, 1)]
    yield "an overlap", labelled(both, [part(1)]), [f"fault labels Overlap {FIRST} {SECOND}", *namespace(SECOND, "Missing 1"), UNCHECKED]
    yield "an overlap of whole namespaces", labelled(both, [part(1), part(1, SECOND, 1)]), [f"fault labels Overlap {FIRST} {SECOND}", UNCHECKED]
    yield "an overlap, the later UUID first", labelled([part(0, THIRD), part(0, FIRST, 1)], [part(1, THIRD), part(1, FIRST, 1)]), [f"fault labels Overlap {THIRD} {FIRST}", UNCHECKED]
    yield "an overlap by one page", labelled([part(0), part(0, SECOND, 1, dpa=4096)], [part(1), part(1, SECOND, 1, dpa=4096)]), [f"fault labels Overlap {FIRST} {SECOND}", UNCHECKED]
    yield "side by side", labelled([part(0), part(0, SECOND, 1, dpa=8192)], [part(1), part(1, SECOND, 1, dpa=8192)]), []
    # of several pairs the first is named: that of the first label
    third = [part(0, SECOND, 0, dpa=8192), part(0, FIRST, 1), part(0, THIRD, 2, raw=16384)]
    yield "three overlaps", labelled(third, [part(1), part(1, SECOND, 1, dpa=8192), part(1, THIRD, 2, raw=16384)]), [f"fault labels Overlap {SECOND} {THIRD}", UNCHECKED]
    yield "an overlap on the other module", labelled([part(0), part(0, SECOND, 1, dpa=8192)], [part(1), part(1, SECOND, 1, dpa=4096)]), \
        [f"fault labels Overlap {FIRST} {SECOND}", *namespace(SECOND, "Differs Dpa"), UNCHECKED]


def ranges():
    """Bad ranges are counted, also where nothing lies."""
    yield "a bad range", whole(badranges_0=bad((0, 1))), ["notice badranges 0 1"]
    yield "bad ranges of both modules", whole(badranges_0=bad((0, 1), (0, 0), (1 << 40, 1)), badranges_1=bad(*[(0, 1)] * 4096)), ["notice badranges 0 3", "notice badranges 1 4096"]
    yield "lists without a record", whole(badranges_0=b"", badranges_1=b""), []
    yield "a list, and one of a wrong size", whole(badranges_0=bytes(17), badranges_1=bad((0, 1))), ["fault badranges 0 Size 17", "notice badranges 1 1", UNCHECKED]
    yield "a list, and labels that overlap", {**labelled([part(0), part(0, SECOND, 1)], []), "badranges-1.bin": bad((0, 1))}, \
        [f"fault labels Overlap {FIRST} {SECOND}", *namespace(FIRST, "Missing 1"), *namespace(SECOND, "Missing 1"), "notice badranges 1 1", UNCHECKED]


def arena(who, *findings, number=0):
    return [f"fault arena {who} {number} {it}" for it in findings]


def arenas():
    """Arenas of complete sector namespaces; what is found in one is in checks.py."""
    normal = {"entries": {7: 3 << 30 | 7}}
    yield "an arena", sectors(), []
    yield "an arena without its first info block", sectors(bytes(4096)), arena(FIRST, "Info Signature")
    yield "an arena without info blocks", sectors(bytes(4096), last=bytes(4096)), arena(FIRST, "Info Signature")
    yield "an arena's backup", sectors(last=info(major=1)), arena(FIRST, "Backup Version 1 0")
    yield "blocks that differ", sectors(last=info(unused=b"x")), arena(FIRST, "Unequal")
    yield "a lane", sectors(halves={3: bytes(64)}), arena(FIRST, "Flog 3 Sequences 0 0")
    yield "a block", sectors(entries={9: 3 << 30 | 100}), arena(FIRST, "Twice 100", "Missing 9")
    yield "a block that doesn't exist", sectors(entries={9: 3 << 30 | INNER}), arena(FIRST, f"Range {INNER}", "Missing 9")
    yield "a pending move", sectors(halves={0: group(0, OUTER, 1)}), []
    yield "a sector in a bad range", sectors(**normal, ranges=[(4096 * 8, 1), (LOG_AT, 8)]), ["notice badranges 0 2", *arena(FIRST, "BadData 7", f"BadMeta {LOG_AT // 8}")]
    yield "a bad range in a free block", sectors(ranges=[(4096 * (1 + OUTER), 1)]), ["notice badranges 0 1"]
    yield "the second arena", chain(first=bytes(4096), entries={9: 3 << 30 | 100}), arena(FIRST, "Info Signature", "Twice 100", "Missing 9", number=1)
    size, pieces = chain()["contents-0.bin"]
    both = {**chain(), "contents-0.bin": (size, {**pieces, LOG_AT: bytes(64) + pieces[LOG_AT][64:], ARENA + LOG_AT: bytes(64) + pieces[ARENA + LOG_AT][64:]})}
    yield "both arenas", both, [*arena(FIRST, "Flog 0 Sequences 0 0"), *arena(FIRST, "Flog 0 Sequences 0 0", number=1)]
    yield "one of two namespaces", wide(ARENA, ARENA, broken=1), arena(SECOND, "Info Signature")
    yield "the first of three namespaces, and bad ranges", {**wide(ARENA, ARENA, ARENA, broken=0), "badranges-0.bin": bad((2 * ARENA - 1, 1), (3 * ARENA - 1, 1))}, \
        ["notice badranges 0 2", *arena(FIRST, "Info Signature"), *arena(SECOND, f"BadMeta {ARENA // 8 - 1}"), *arena(THIRD, f"BadMeta {ARENA // 8 - 1}")]
    hurt = sectors(bytes(4096))

    def marked(**fields):
        """The broken arena, whose label has other fields."""
        own = {"count": 1, "position": 0, "cookie": cookie(1), "lba": 4096, "abstraction": BTT_2_0, **fields}
        return {**hurt, "labels-0.bin": area([label(FIRST, b"a", 0, ARENA, **own)])}

    yield "a pending namespace", marked(flags=8), [f"notice namespace {FIRST} pending", *arena(FIRST, "Info Signature")]
    yield "an incomplete namespace isn't looked into", marked(count=2), namespace(FIRST, "Differs Count")
    yield "nor a local one", marked(flags=2), [f"notice namespace {FIRST} local"]
    yield "nor one of another mode", marked(abstraction=THIRD), []
    yield "with a bad label beside it", {**hurt, "labels-0.bin": area([label(FIRST, b"a", 0, ARENA, count=1, cookie=cookie(1), lba=4096, abstraction=BTT_2_0), JUNK])}, \
        ["fault labels 0 slot 1 Checksum", *arena(FIRST, "Info Signature")]
    yield "with a list of a wrong size", {**hurt, "badranges-0.bin": bytes(15)}, ["fault badranges 0 Size 15", UNCHECKED]
    yield "with contents that are cut off", {**hurt, "contents-0.bin": ARENA - 4096}, [f"fault contents 0 Size {ARENA - 4096}", UNCHECKED]


def several():
    """Faults of many kinds at once, in their order."""
    first = changed(area([part(0), part(0, SECOND, 1, dpa=8192, cookie=5), JUNK]), 17, b"x")
    second = area([part(1, position=0), part(1, SECOND, 1, dpa=8192)])
    second = changed(second, BLOCK, sealed(changed(second[BLOCK : 2 * BLOCK], 20, b"\0")))
    yield "many kinds", {**pair(first, second), "contents-1.bin": 4096, "badranges-0.bin": bad((0, 1))}, \
        ["fault contents 1 Size 4096", "fault labels 0 index 0 Checksum", "fault labels 0 slot 2 Checksum", "notice labels 1 index 1 Sequence", *namespace(FIRST, "Position 1 0"),
         *namespace(SECOND, "Cookie 0 5"), "notice badranges 0 1", UNCHECKED]


def repairs():
    """Repairs of label areas: what is wrong, the files, the lines but for the last one, and the areas that are written."""
    used, free = range(1, SLOTS), range(SLOTS)
    blocks = [index_block(0, 1, BLOCK, SLOTS, used), index_block(1, 2, BLOCK, SLOTS, used)]
    label_of = part(0).ljust(4096 - 2 * BLOCK, b"\0")

    def hurt(*pieces):
        return whole(labels_0=b"".join(pieces) + label_of)

    def written(*pieces):
        return {"labels-0.bin": b"".join(pieces) + label_of}

    wrong = changed(blocks[0], 17, b"x")
    yield "nothing", whole(), [], {}
    yield "the older block", hurt(wrong, blocks[1]), ["repaired labels 0 index 0 Checksum"], written(*blocks)
    # the newer block is lost, and the older one counts: it has no label, and stays the current one
    empty = index_block(0, 3, BLOCK, SLOTS, free)
    yield "the newer block", hurt(empty, changed(blocks[1], 17, b"x")), ["repaired labels 0 index 1 Checksum", *namespace(FIRST, "Missing 0")], \
        written(empty, index_block(1, 2, BLOCK, SLOTS, free))
    # the number before, on the ring
    for seq, before in ((1, 3), (2, 1), (3, 2)):
        for side in (0, 1):
            current, other = (index_block(it, its, BLOCK, SLOTS, used) for it, its in ((side, seq), (1 - side, before)))
            pieces, after = ([current, bytes(BLOCK)], [current, other]) if side == 0 else ([bytes(BLOCK), current], [other, current])
            yield f"beside number {seq} on side {side}", hurt(*pieces), [f"repaired labels 0 index {1 - side} Signature"], written(*after)
    # each other reason, also a block of another version; free slots are those of the block that counts
    for fault, block in (("Version 1 1", of_version(blocks[0], 1, 1)), ("Offsets", sealed(changed(blocks[0], 24, b"\1"))), ("Slots", sealed(changed(blocks[0], 19, b"\0"))),
                         ("Checksum", changed(blocks[0], 72, b"\0"))):
        yield f"a block: {fault}", hurt(block, blocks[1]), [f"repaired labels 0 index 0 {fault}"], written(*blocks)
    # what readers ignore isn't copied: Flags, the high bits of Seq, and bits behind the last slot
    odd = sealed(changed(changed(changed(blocks[1], 16, b"xyz"), 20, b"\xf2\xff\xff\xff"), 73, bytes([blocks[1][73] | 0xC0])))
    yield "beside a block with other unused bits", hurt(bytes(BLOCK), odd), ["repaired labels 0 index 0 Signature"], written(blocks[0], odd)
    closed = sealed(changed(blocks[0], 20, b"\0"))
    yield "a closed block stays", hurt(closed, blocks[1]), ["notice labels 0 index 0 Sequence"], {}
    yield "two blocks that are refused stay", hurt(wrong, changed(blocks[1], 17, b"x")), \
        ["fault labels 0 index 0 Checksum", "fault labels 0 index 1 Checksum", *namespace(FIRST, "Missing 0")], {}
    yield "a blank area stays", whole(labels_0=bytes(4096)), ["notice labels 0 NoIndex", *namespace(FIRST, "Missing 0")], {}
    # a larger area, whose blocks have 512 bytes; its last 256 bytes have no slot
    large = [index_block(it, it + 1, 512, 1600, range(1, 1600)) for it in (0, 1)]
    behind = part(0).ljust(256 * 1601, b"\0")
    yield "a larger area", whole(labels_0=bytes(512) + large[1] + behind), ["repaired labels 0 index 0 Signature"], {"labels-0.bin": b"".join(large) + behind}
    both = pair(wrong + blocks[1] + label_of, blocks[0] + bytes(BLOCK) + part(1).ljust(4096 - 2 * BLOCK, b"\0"))
    yield "both modules", both, ["repaired labels 0 index 0 Checksum", "repaired labels 1 index 1 Signature"], \
        {**written(*blocks), "labels-1.bin": blocks[0] + index_block(1, 3, BLOCK, SLOTS, used) + part(1).ljust(4096 - 2 * BLOCK, b"\0")}
    broken = hurt(wrong, blocks[1])
    yield "what stays is said behind it", {**broken, "labels-1.bin": area([part(1, cookie=5), JUNK]), "badranges-0.bin": bad((0, 1))}, \
        ["repaired labels 0 index 0 Checksum", "fault labels 1 slot 1 Checksum", *namespace(FIRST, "Cookie 1 5"), "notice badranges 0 1"], written(*blocks)
    yield "a region and labels that are refused", {**broken, "nfit.bin": two(spa(length=4 * SIZE), mapping(0), mapping(1), interleave())}, \
        ["repaired labels 0 index 0 Checksum", f"fault region 0 Size {4 * SIZE} {2 * SIZE}", NO_NAMESPACES, UNCHECKED], written(*blocks)
    arena_set = sectors(bytes(4096))
    yield "arenas aren't repaired", {**arena_set, "labels-0.bin": changed(arena_set["labels-0.bin"], 17, b"x")}, \
        ["repaired labels 0 index 0 Checksum", *arena(FIRST, "Info Signature")], {"labels-0.bin": arena_set["labels-0.bin"]}


def rows():
    for group_of in (tables, objects, regions, sides, slots, namespaces, ranges, arenas, several):
        yield from group_of()
