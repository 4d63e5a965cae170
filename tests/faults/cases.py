"""The cases of tests/faults/run: each is an image set with one fault, the words after it, the exit status, the text (for `list`, `nfit`,
`labels`, `check` and `serve` with status 0 the end of a line), a word that nvd must say, if any, and the script, if there is one."""
import struct

from sets import FIRST, INNER, LANES, LINE, OUTER, SECOND, SIZE, SLOTS, THIRD, area, checked, control, info, interleave, mapping, of_version, pair, part
from sets import ARENA, BLOCK, BTT_2_0, HELD, LOG_AT, MAP_AT, bad, chain, fletcher64, group, past_the_limit, sectors, spa, table, two, wide

CREATE = ["OUT", "create", "--uuid", str(THIRD), "--name", "c", "--region", "0", "--size", "8192", "--mode", "raw"]
LIST, NFIT, LABELS, INFO, READ = ["-", "list"], ["-", "nfit"], ["-", "labels", "0"], ["-", "info", str(FIRST)], ["-", "read", str(FIRST), "0"]
CHECK = ["OUT", "check", str(FIRST)]
REPAIR = [*CHECK, "--repair"]
SET = ["-", "check"]
MEND = ["OUT", "check", "--repair"]
WRITE = ["OUT", "write", str(FIRST), "0", "fill:5a"]
REPLAY = ["OUT", "replay", str(FIRST)]
EXPORT = ["-", "export", str(FIRST)]
RESCUE = ["-", "rescue", str(FIRST)]
LOST = [*RESCUE, "--lost"]
IMPORT = ["OUT", "import", str(FIRST)]
SERVE = ["OUT", "serve"]
LOAD = ["OUT", "load", "0", "--uuid", str(FIRST)]
RENAME, DELETE, INIT = ["OUT", "rename", str(FIRST), "b"], ["OUT", "delete", str(FIRST)], ["OUT", "init", "0"]


def changed(data, at, text):
    return data[:at] + text + data[at + len(text) :]


def create(name, value):
    """Returns the words of a create with another value of an option."""
    at = CREATE.index(name)
    return [*CREATE[: at + 1], value, *CREATE[at + 2 :]]


def whole():
    return pair(area([part(0)]), area([part(1)]))


def blank():
    return pair(bytes(4096), bytes(4096))


def without(name):
    return {it: data for it, data in whole().items() if it != name}


def image(text, files, words, hint=None):
    return files, words, 3, f"image {text}", hint or f"nvd: image {text}: "


def refused(text, files, words, hint=None):
    return files, words, 4, f"refused {text}", hint or f"nvd: refused {text}: "


def usage():
    yield whole(), ["-"], 2, "usage", "nvd IN OUT COMMAND"
    for words, hint in ((["-", "lsit"], "there is no command 'lsit': did you mean 'list'?"), (["-", "--hlep", "list"], "they are labels"), (["-", "LIST"], "they are labels")):
        yield whole(), words, 2, "usage", hint
    for words, hint in ((["OUT", "rename", str(FIRST)], "NAME is missing"), ([*INIT, "--evct", "1"], "did you mean '--evict'?")):
        yield whole(), words, 2, "usage", hint
    for words in (["-", "labels"], ["-", "labels", "64"], ["-", "labels", "007"], ["-", "nfit", "x"], create("--mode", "fsdax"), [*CREATE[:-4], *CREATE[-2:]],
                  ["OUT", "serve", "--workers", "0"], LOAD[:-2], [*LOAD, "--sessions", "1024", "--calls", "63"],
                  ["OUT", "delete", "no-uuid"], [*DELETE, "--cut", "-1"], [*DELETE, "--cut", "1", "--cut", "2"], [*INIT, "--force"]):
        yield whole(), words, 2, "usage", f"nvd help {words[1]}"


def tables():
    """Firmware tables that are refused."""
    good = two()
    many = [piece for m in range(65) for piece in (mapping(m, ways=65), control(m))]
    alone = {"lines": 0, "ways": 1, "offset": 0}
    for text, nfit in (
            ("Size 1048577", bytes(1048577)),
            ("Signature", b"X" + good[1:]),
            (f"Length {len(good)} 100", good[:100]),
            ("Checksum 1", changed(good, 9, bytes([good[9] + 1 & 0xFF]))),
            ("Structure 40", checked(changed(good, 42, struct.pack("<H", 2)))),
            ("TwiceIndex 4 1", two(spa(), mapping(0), mapping(1), interleave(), control(0))),
            ("MissingIndex 4 9", two(spa(), mapping(0, control=9), mapping(1), interleave())),
            ("TooLarge 65", table(spa(length=65 * SIZE), interleave(), *many)),
            ("Alias 0 0 1", two(spa(1, SIZE), spa(2, SIZE, 2 << 32), mapping(0, 1, **alone), mapping(0, 2, **alone)))):
        yield image(f"nfit {text}", pair(nfit=nfit), NFIT)


def asked_first():
    """A name in place of a UUID, or a region that isn't given: what the question ends with is the end of the command."""
    named = ["OUT", "create", "--name", "c", "--size", "8192"]
    for words in (["-", "info", "a"], ["-", "read", "a", "0"], ["-", "export", "a"], ["-", "rescue", "a"], ["-", "rescue", "a", "--lost"], ["OUT", "delete", "a"], ["OUT", "rename", "a", "b"], ["OUT", "load", "7", "--uuid", "a"], named):
        yield image("mark Missing", None, words, "isn't there: name the directory")
        yield image("mark Missing", without("complete"), words, "no file 'complete'")
        yield image("contents 0 Size 100", {**whole(), "contents-0.bin": 100}, words)
        yield {**whole(), "contents-0.bin": None}, words, 5, "read fault", "no regular file"
    overlapping = pair(area([part(0), part(0, SECOND, 1)]), area([part(1)]))
    yield image(f"labels Overlap {FIRST} {SECOND}", overlapping, ["OUT", "delete", "a"])
    for words in (["-", "info", "nobody"], ["OUT", "delete", "A"]):
        yield whole(), words, 2, "usage", "is no UUID, and no namespace alone has this name"
    # the words are told first
    yield None, ["-", "info", "a", "x"], 2, "usage", "'x' is one word too many"


def objects():
    """Objects that are missing or outside their limits."""
    yield image("mark Missing", without("complete"), LIST, "no file 'complete'")
    yield image("mark Missing", None, LIST, "isn't there")
    yield image("nfit Missing", without("nfit.bin"), NFIT)
    yield from tables()
    yield image("labels 0 Size 1000", pair(labels0=bytes(1000)), LIST)
    yield image("contents 1 Missing", without("contents-1.bin"), LIST)
    yield image("contents 0 Size 100", {**whole(), "contents-0.bin": 100}, LIST, f"is cut off: by the firmware's table module 0 has at least {SIZE} (64K) bytes, so {SIZE - 100} bytes")
    yield image("contents 0 Size 4096", {**whole(), "contents-0.bin": 4096}, LIST, f"is cut off: by the firmware's table module 0 has at least {SIZE} (64K) bytes, so {SIZE - 4096} bytes")
    yield image(f"contents 1 Size {SIZE + 5}", {**whole(), "contents-1.bin": SIZE + 5}, LIST, "has 5 bytes more than a multiple of 4096")
    yield image(f"contents 5 Size {3 << 40}", past_the_limit(), LIST, "the modules up to 5 have 19791209299968 (18T) bytes together, and a set has at most 17592186044416 (16T)")
    yield {**whole(), "contents-0.bin": 3 << 40, "contents-1.bin": 3 << 40}, LIST, 0, "complete", None
    yield image("labels 1 Size 4000", {**whole(), "labels-1.bin": whole()["labels-1.bin"][:4000]}, LIST, "is cut off: its index block counts 14 slots, so the area has at least 4096 (4K) bytes, and 96 are missing")
    yield image("badranges 0 Size 15", {**whole(), "badranges-0.bin": bytes(15)}, LIST)
    yield {**whole(), "contents-0.bin": None}, LIST, 5, "read fault", "no regular file"


def areas():
    """Label areas that are refused, and labels that are bad."""
    yield image("labels 7 Missing", whole(), ["-", "labels", "7"])
    yield image("labels 0 NoIndex", blank(), LABELS)
    old = area()
    old = of_version(old[:256], 1, 1) + of_version(old[256:512], 1, 1) + old[512:]
    yield image("labels 0 Unsupported 1 1", pair(labels0=old), LABELS)
    yield image("labels 0 Unsupported 1 1", pair(labels0=old), INIT)
    yield image("labels 0 AlreadyInitialised 2", whole(), INIT)
    for text, bad in (("Checksum", changed(part(0), 20, b"x")), ("Slot 3", part(0, slot=3)), ("OddSize Dpa", part(0, dpa=512)),
                      ("OddSize RawSize", part(0, raw=0))):
        yield pair(labels0=area([bad])), LABELS, 0, f"bad 0 {text}", None


# how what a fault of a region means begins; the numbers of a case are always the same
REGION_MEANS = {"Ways": "a mapping says 3 ways", "Twice": "module 0 has two mappings", "Offsets": "modules 0 and 1 have", "Line": "module 0's mapping lacks",
                "Share": "the lines of a mapping have 12288 bytes", "Size": "the mappings' sizes differ", "Cover": "line 0 of the region"}
# and a fault of an arena
ARENA_MEANS = {"Info Signature": "there is no info block", "Info Checksum": "a byte of the info block", "Info Version": "the arena has version 3.0", "Info Parent": "the arena says that it belongs",
               "Info ErrorState": "its writer marked the arena", "Info Layout": "the info block breaks the layout in", "Flog 0": "", "Block Range": f"the map names block {INNER},",
               "Block Twice": "map and lanes name block 1 twice"}


def regions():
    """Regions that aren't interleave sets, and namespaces that overlap."""
    for text, nfit in (
            ("Ways 3 2", two(spa(), mapping(0, ways=3), mapping(1, ways=3), interleave())),
            ("Twice 0", two(spa(), mapping(0), mapping(0, offset=LINE, start=SIZE), interleave())),
            ("Offsets 0 1", two(spa(), mapping(0), mapping(1, offset=0), interleave())),
            ("Line 0", two(spa(), mapping(0, lines=0), mapping(1, lines=0))),
            ("Share 12288", two(spa(), mapping(0), mapping(1), interleave((0, 2, 4)))),
            (f"Size {4 * SIZE} {2 * SIZE}", two(spa(length=4 * SIZE), mapping(0), mapping(1), interleave())),
            ("Cover 0", two(spa(), mapping(0), mapping(1), interleave((0, 0))))):
        files = {**pair(nfit=nfit), "contents-0.bin": 2 * SIZE}
        yield files, NFIT, 0, f"fault {text}", None
        for words in (LIST, CREATE, CHECK, RESCUE, LOST, SERVE, LOAD):
            yield image(f"region 0 {text}", files, words, f"nvd: image region 0 {text}: {REGION_MEANS[text.split()[0]]}")
    for words in (LIST, CHECK, RESCUE, LOST, SERVE, LOAD):
        yield image(f"labels Overlap {FIRST} {SECOND}", pair(area([part(0), part(0, SECOND, 1)]), area([part(1)])), words)


def statuses():
    """What `list` prints of the labels of one UUID."""
    wide = two(spa(), mapping(0), mapping(1, offset=LINE), interleave((0, 2)))
    for text, first, second, nfit in (
            ("complete", [part(0)], [part(1)], None),
            ("complete pending", [part(0, flags=8)], [part(1)], None),
            ("unfinished", [part(0, flags=8)], [], None),
            ("local", [part(0, flags=2)], [part(1)], None),
            ("incomplete Twice 0", [part(0), part(0, slot=1, dpa=16384)], [part(1)], None),
            ("incomplete Outside 1", [part(0)], [part(1, dpa=1 << 20)], None),
            ("incomplete Cookie 1 5", [part(0)], [part(1, cookie=5)], None),
            ("incomplete Differs Count", [part(0)], [part(1, count=3)], None),
            ("incomplete Position 1 0", [part(0)], [part(1, position=0)], None),
            ("incomplete Differs Dpa", [part(0)], [part(1, dpa=8192)], None),
            ("incomplete Differs RawSize", [part(0)], [part(1, raw=4096)], None),
            ("incomplete Differs LbaSize", [part(0)], [part(1, lba=4096)], None),
            ("incomplete Differs Guids", [part(0)], [part(1, abstraction=SECOND)], None),
            ("incomplete Unaligned 0", [part(0, dpa=4096)], [part(1, dpa=4096)], wide),
            ("incomplete Missing 1", [part(0)], [], None),
            ("incomplete Differs Names", [part(0)], [part(1, name=b"b")], None)):
        yield pair(area(first), area(second), nfit), LIST, 0, text, None


def refusals():
    long = "n" * 64
    mixed = pair(area([part(0)]), area([part(1, cookie=5)]))
    full = pair(area([part(0)], used=SLOTS), area([part(1)], used=SLOTS))
    half = pair(area([part(0)]))
    locked = pair(area([part(0)]), area([part(1, flags=1)]))
    for text, files, words in (
            ("BadName 64", whole(), create("--name", long)), ("BadName 64", whole(), [*RENAME[:-1], long]),
            ("NoRegion 7", whole(), create("--region", "7")), ("ModuleLabels 0", blank(), CREATE),
            ("Exists", whole(), create("--uuid", str(FIRST))), (f"NoSpace {SIZE}", whole(), create("--size", str(2 * SIZE))),
            ("NoSlot 0", full, CREATE), ("NoSlot 0", full, RENAME), ("NoSlot 0", full, DELETE),
            ("NoSuch", pair(), DELETE), ("NoSuch", pair(), RENAME), ("NoSuch", pair(), INFO), ("NoSuch", pair(), CHECK), ("NoSuch", pair(), READ), ("NoSuch", pair(), WRITE), ("NoSuch", pair(), REPLAY), ("NoSuch", pair(), EXPORT), ("NoSuch", pair(), RESCUE), ("NoSuch", pair(), LOST), ("NoSuch", pair(), IMPORT), ("NoSuch", pair(), LOAD),
            ("NotComplete", half, DELETE), ("NotComplete", half, RENAME), ("NotComplete", half, INFO), ("NotComplete", half, CHECK), ("NotComplete", half, READ), ("NotComplete", half, WRITE), ("NotComplete", half, REPLAY), ("NotComplete", half, EXPORT), ("NotComplete", mixed, RESCUE), ("NotComplete", mixed, LOST), ("NotSector", half, RESCUE), ("NotSector", half, LOST), ("NotComplete", half, IMPORT), ("NotComplete", half, LOAD),
            ("ReadOnlyLabel 1", locked, DELETE), ("ReadOnlyLabel 1", locked, RENAME),
            ("NotSector", whole(), INFO), ("NotSector", whole(), CHECK), ("NotSector", whole(), READ), ("NotSector", whole(), WRITE), ("NotSector", whole(), REPLAY), ("NotSector", whole(), RESCUE), ("NotSector", whole(), LOST), ("NotSector", whole(), LOAD), ("Range 3", small(3), LOAD),
            ("BadSector 1", sectors(entries={1: 1 << 30 | 1, 2: 1 << 30 | 2}), EXPORT),
            (f"Range {OUTER}", sectors(), [*READ[:-1], str(OUTER)]), (f"Range {OUTER}", sectors(), [*WRITE[:-2], str(OUTER), "hex:"]),
            ("Length 0 4096", sectors(), [*WRITE[:-1], "hex:"]), ("Length 513 4096", sectors(), [*WRITE[:-1], "hex:" + 513 * "5a"]),
            ("Arenas 2", chain(), REPLAY)):
        yield refused(text, files, words)
    yield from too_large()
    yield refused(f"Length 0 {OUTER * 4096}", sectors(), IMPORT, f"the namespace, which has {OUTER * 4096};")
    # the set has 57344 bytes of each module free at one offset
    for size, words, hint in (
            (0, create("--size", "0"), "--size 0 is no positive multiple of 8192 (8K) bytes, which is the unit of region 0, 4096, times its 2 modules"),
            (0, create("--size", "0"), "the nearest that fits is 8192 (8K) bytes"),
            (4096, create("--size", "4096"), "the nearest that fits is 8192 (8K) bytes"),
            (12289, create("--size", "12289"), "the nearest that fit are 8192 (8K) and 16384 (16K) bytes"),
            (300000, create("--size", "300000"), "the nearest that fits is 114688 (112K) bytes"),
            (8192, create("--mode", "sector"), "--size 8192 is below the least size of an arena, 16777216 (16M) bytes"),
            (8192, create("--mode", "sector"), "no size fits into region 0: 114688 bytes are free there at one offset"),
            (8192, [*create("--mode", "sector"), "--sector", "100"], "sectors of 100 bytes aren't made: --sector is one of 512, 520,")):
        yield refused(f"BadSize {size}", whole(), words, hint)


def session(*lines):
    """Returns a script of one session."""
    return "".join(f"{it}\n" for it in ("session 0", *lines))


def too_large():
    """Arenas of more than 1 GiB together: `replay`, `serve` and `load` open none of them."""
    more, each = HELD + 4096, 600 << 20
    for words in (REPLAY, [*LOAD, "--sessions", "4"]):
        yield refused(f"TooLarge {more}", wide(more), words, f"the arenas that the command opens in memory have {more} bytes together")
    yield *refused(f"TooLarge {more}", wide(more), SERVE), session(f"open {FIRST}")
    # those of both namespaces count, each once, and no session begins
    yield *refused(f"TooLarge {2 * each}", wide(each, each), SERVE), session(f"rename {FIRST} z", f"open {FIRST}", "close", f"open {SECOND}", "close", f"open {FIRST}")
    # one that isn't opened doesn't count
    yield wide(more, 16 << 20), SERVE, 0, "ok", None, session(f"open {THIRD}", f"open {SECOND}")
    # 1 GiB isn't too large; a broken arena comes first, also if it is behind one that is too large
    yield refused("Range 3", wide(HELD), [*LOAD, "--sessions", "4"])
    yield *image(f"arena {SECOND} 0 Info Signature", wide(more, 16 << 20, broken=1), SERVE), session(f"open {FIRST}", f"open {SECOND}")
    # other commands take arenas of any size
    for words, text in (([*READ[:-1], "2"], "ok fill:00"), (LOST, "whole"), (INFO, "sectors 3 blocks 259 lanes 256 moves 0"), (WRITE, "ok")):
        yield wide(more), words, 0, text, None


def replies():
    """Replies of `serve` to single calls. The status is 0."""
    long = "n" * 64
    full = pair(area([part(0)], used=SLOTS), area([part(1)], used=SLOTS))
    half = pair(area([part(0)]))
    locked = pair(area([part(0)]), area([part(1, flags=1)]))
    made, other, first = f"create {THIRD}", f"rename {FIRST}", f"open {FIRST}"
    for text, files, *lines in (
            ("NotOpen", sectors(), "close"), ("NotOpen", sectors(), "read 0"), ("NotOpen", sectors(), "write 0 hex:"),
            ("IsOpen", sectors(), first, first), ("Busy 1", sectors(), first, f"delete {FIRST}"),
            (f"Range {OUTER}", sectors(), first, f"read {OUTER}"), (f"Range {OUTER}", sectors(), first, f"write {OUTER} hex:"),
            ("Length 0 4096", sectors(), first, "write 0 hex:"), ("NoSuch", sectors(), f"open {SECOND}"), ("NoSuch", pair(), f"delete {FIRST}"), ("NoSuch", pair(), f"{other} b"),
            ("NotComplete", half, first), ("NotComplete", half, f"delete {FIRST}"), ("NotComplete", half, f"{other} b"), ("NotSector", whole(), first),
            ("BadName 64", whole(), f"{made} 0 8192 {long}"), ("BadName 64", whole(), f"{other} {long}"), ("NoRegion 7", whole(), f"{made} 7 8192 c"),
            ("ModuleLabels 0", blank(), f"{made} 0 8192 c"), ("Exists", whole(), f"create {FIRST} 0 8192 c"), ("BadSize 0", whole(), f"{made} 0 0 c"),
            (f"NoSpace {SIZE}", whole(), f"{made} 0 {2 * SIZE} c"), ("NoSlot 0", full, f"{made} 0 8192 c"), ("NoSlot 0", full, f"{other} b"), ("NoSlot 0", full, f"delete {FIRST}"),
            ("ReadOnlyLabel 1", locked, f"delete {FIRST}"), ("ReadOnlyLabel 1", locked, f"{other} b")):
        yield files, SERVE, 0, f"refused {text}", None, session(*lines)


def small(count):
    """Returns a set with a sector namespace of so many sectors."""
    return sectors(info(outer=count, inner=count + LANES), halves={lane: group(count + lane, count + lane, 1) for lane in range(LANES)})


def arenas():
    yield sectors(), INFO, 0, "lanes 256 moves 0", None
    yield sectors(), READ, 0, "ok fill:00", None
    yield sectors(entries={0: 1 << 30}), READ, 0, "bad", None
    yield sectors(), WRITE, 0, "ok", None
    for text, fields in (
            ("Signature", {"signature": bytes(16)}), ("Checksum", {"seal": False}), ("Version 3 0", {"major": 3}), ("Parent", {"parent": SECOND.bytes}),
            ("ErrorState", {"flags": 1}), ("Layout Sector", {"sector": 100}), ("Layout Inner", {"block": 4100}), ("Layout Free", {"lanes": 257}),
            ("Layout Blocks", {"inner": INNER + 1}), ("Layout Areas", {"info": 8192}), ("Layout Size", {"backup": 4096 + (16 << 20)}),
            ("Layout Next", {"next": 4096})):
        means = ARENA_MEANS[" ".join(["Info", text.split()[0]])]
        yield image(f"arena {FIRST} 0 Info {text}", sectors(info(**fields)), INFO, f"nvd: image arena {FIRST} 0 Info {text}: {means}")
    for text, other in (
            ("Flog 0 Padding", {"halves": {0: group(OUTER, OUTER, 1, b"x" + bytes(31))}}), ("Flog 0 Sequences 0 0", {"halves": {0: group(OUTER, OUTER, 0)}}),
            (f"Flog 0 Range {INNER}", {"halves": {0: group(INNER, INNER, 1)}}), (f"Block Range {INNER}", {"entries": {0: 1 << 31 | INNER}}),
            ("Block Twice 1", {"entries": {0: 1 << 31 | 1}})):
        means = ARENA_MEANS[" ".join(text.split()[:2])]
        yield image(f"arena {FIRST} 0 {text}", sectors(**other), INFO, f"nvd: image arena {FIRST} 0 {text}: {means}")
    broken = sectors(info(signature=bytes(16)))
    yield image(f"arena {FIRST} 0 Info Signature", broken, LOAD)
    yield *image(f"arena {FIRST} 0 Info Signature", broken, SERVE, "there is no info block: the arena was never formatted"), session(f"open {SECOND}", f"open {FIRST}")


# how what a finding means begins
FINDING_MEANS = {"Info": "the arena's first info block is refused", "Backup": "the info block's backup,", "Unequal": "the info block and its backup are both accepted",
                 "Flog": "the log group of lane 0 is refused", "Range": f"the map names block {INNER},", "Twice": "map and lanes name block 1 more than once", "Missing": "neither map nor lanes name block 0;",
                 "BadData": "sector 5, numbered in its arena, has bytes in a bad range", "BadMeta": f"word {ARENA // 8 - 1} of the namespace"}

# and that of one that was repaired
REPAIRED_MEANS = {"Info": "the arena's first info block was damaged;", "Backup": "the info block's backup was refused;", "Unequal": "the info block and its backup differed in a byte;",
                  "BadData": "sector 5, numbered in its arena, had bytes in a bad range;"}


def findings():
    """What `check` finds and repairs; nvd says what it means."""
    yield sectors(), CHECK, 0, "sound", None
    yield sectors(entries={0: 1 << 31 | 1}), CHECK, 0, "broken 2", "'nvd help check' says what to do"
    for text, files in (
            ("Info Checksum", sectors(info(seal=False))), ("Info Signature", sectors(bytes(4096), last=bytes(4096))), ("Backup Version 1 0", sectors(last=info(major=1))),
            ("Unequal", sectors(last=info(unused=b"x"))), ("Flog 0 Padding", sectors(halves={0: group(OUTER, OUTER, 1, b"x" + bytes(31))})),
            ("Flog 0 Sequences 0 0", sectors(halves={0: group(OUTER, OUTER, 0)})), (f"Flog 0 Range {INNER}", sectors(halves={0: group(INNER, INNER, 1)})),
            (f"Range {INNER}", sectors(entries={0: 1 << 31 | INNER})), ("Twice 1", sectors(entries={0: 1 << 31 | 1})), ("Missing 0", sectors(entries={0: 1 << 31 | 1})),
            ("BadData 5", sectors(entries={5: 3 << 30 | 5}, ranges=[(4096 * 6, 1)])), (f"BadMeta {ARENA // 8 - 1}", sectors(ranges=[(ARENA - 1, 1)]))):
        yield files, CHECK, 0, f"arena 0 {text}", f"nvd: arena 0 {text}: {FINDING_MEANS[text.split()[0]]}"
    for text, files in (
            ("Info Checksum", sectors(info(seal=False))), ("Info Signature", sectors(bytes(4096))), ("Backup Version 1 0", sectors(last=info(major=1))), ("Unequal", sectors(last=info(unused=b"x"))),
            ("BadData 5", sectors(entries={5: 3 << 30 | 5}, ranges=[(4096 * 6, 1)]))):
        yield files, REPAIR, 0, f"arena 0 repaired {text}", f"nvd: arena 0 repaired {text}: {REPAIRED_MEANS[text.split()[0]]}"
    # what stays open is told as without --repair
    yield sectors(info(major=1)), REPAIR, 0, "arena 0 Info Version 1 0", "nvd: arena 0 Info Version 1 0: the arena's first info block is refused"
    yield sectors(bytes(4096), entries={0: 1 << 31 | 1}), REPAIR, 0, "broken 2", "nvd: arena 0 Twice 1: map and lanes name block 1 more than once"
    yield sectors(), REPAIR, 0, "sound", None
    # the reason of a refused block or group is told as for other commands
    yield sectors(info(seal=False)), CHECK, 0, "arena 0 Info Checksum", "nvd: arena 0 Info Checksum: a byte of the info block was changed"
    yield sectors(halves={7: bytes(64)}), CHECK, 0, "arena 0 Flog 7 Sequences 0 0", "nvd: arena 0 Flog 7 Sequences 0 0: the two log halves of lane 7 have the sequence numbers 0 and 0"


def rescues():
    """What `rescue --lost` says of damaged arenas; nvd says what each line means there, which is something else than for `check`."""
    yield sectors(), LOST, 0, "whole", None
    word = MAP_AT // 8
    for lines, files, means in (
            (["lost 7 Marked"], sectors(entries={7: 1 << 30 | 7}), "the map entry of sector 7 has only the error flag"),
            ([f"lost 7 Range {INNER}"], sectors(entries={7: 1 << 31 | INNER}), f"the map entry of sector 7 names block {INNER}, which doesn't exist"),
            (["lost 0 Twice 1", "lost 1 Twice 1"], sectors(entries={0: 1 << 31 | 1}), "the map entry of sector 0 names block 1, and another sector or a lane names it too"),
            (["lost 5 BadData"], sectors(entries={5: 3 << 30 | 5}, ranges=[(4096 * 6, 1)]), "the bytes of sector 5 are in a bad range"),
            ([f"BadMeta {word}", "lost 0 BadMap", "lost 1 BadMap"], sectors(ranges=[(MAP_AT, 1)]), f"word {word} of the namespace, of eight bytes, is in a bad range. If it is of a log group"),
            ([f"BadMeta {word}", "lost 0 BadMap", "lost 1 BadMap"], sectors(ranges=[(MAP_AT, 1)]), "the map word of sector 0 is in a bad range"),
            (["Info Signature"], sectors(bytes(4096), last=bytes(4096)), "the arena's first info block is refused. Its sectors are read by its backup")):
        text = "\n".join([*(f"arena 0 {it}" for it in lines), f"lost {sum('lost' in it or 'Info' in it for it in lines)}"])
        line = next((it for it in lines if "map word" in means and "lost" in it), lines[0])
        yield files, LOST, 3, text, f"nvd: arena 0 {line}: {means}"
    for line, files, means in (
            (f"moved 0 0 {OUTER}", sectors(halves={0: group(0, OUTER, 1)}), f"the log moves sector 0 from block 0 to block {OUTER}, and the map doesn't show it yet"),
            ("Flog 0 Sequences 0 0", sectors(halves={0: group(OUTER, OUTER, 0)}), "the log group of lane 0 is refused, so the lane doesn't count"),
            ("Flog 0 Sequences 0 0", sectors(halves={0: group(OUTER, OUTER, 0)}), "the two log halves of lane 0 have the sequence numbers 0 and 0"),
            (f"BadMeta {LOG_AT // 8}", sectors(ranges=[(LOG_AT, 1)]), f"word {LOG_AT // 8} of the namespace"),
            ("Info Checksum", sectors(info(seal=False)), "the arena's first info block is refused. Its sectors are read by its backup"),
            ("Info Checksum", sectors(info(seal=False)), "a byte of the info block was changed")):
        yield files, LOST, 0, f"arena 0 {line}", f"nvd: arena 0 {line}: {means}"
    # a label is missing, and the place of its part is known by the other one
    yield pair(area([part(0, abstraction=BTT_2_0, lba=4096)])), LOST, 3, "labels 1 Missing\narena 0 Info Signature\nlost 1", "nvd: labels 1 Missing: module 1 has no label of the namespace"
    # without an info block of the first arena nothing can be read
    yield image(f"arena {FIRST} 0 Info Signature", sectors(bytes(4096), last=bytes(4096)), RESCUE, f"nvd: image arena {FIRST} 0 Info Signature: {ARENA_MEANS['Info Signature']}")
    yield sectors(), [*RESCUE, "--lsot"], 2, "usage", "did you mean '--lost'?"


def said(*lines):
    """The text of a whole set's check with these lines."""
    faults = sum(line.startswith("fault ") for line in lines)
    return "\n".join([*lines, f"broken {faults}" if faults else "sound"])


def on_set(files, means, *lines):
    """A whole set's check with these lines, of which nvd explains the first one so."""
    text = said(*lines)
    yield files, SET, 3 if "broken" in text else 0, text if "broken" in text else lines[0], f"nvd: {lines[0]}: {means}"


def whole_sets():
    """What `check` says of whole sets; nvd says what each line means, as it does after other commands with the same fault."""
    unchecked = "notice arenas Unchecked"
    lost = f"fault namespace {FIRST} Missing 0"
    yield whole(), SET, 0, "sound", None
    yield whole(), MEND, 0, "sound", None
    yield whole(), [*MEND, "--repair"], 2, "usage", "'--repair' is given twice"
    yield whole(), [*SET, "--"], 2, "usage", "UUID is missing"
    yield whole(), [*SET, "--repiar"], 2, "usage", "did you mean '--repair'?"
    yield from on_set(without("complete"), "IN has no file complete", "fault mark Missing")
    yield from on_set(without("nfit.bin"), "there is no nfit.bin", "fault nfit Missing")
    yield from on_set(pair(nfit=bytes(1048577)), "nfit.bin has 1048577 bytes", "fault nfit Size 1048577")
    yield from on_set(pair(nfit=two()[:100]), f"the table's Length says {len(two())} bytes, and the file has 100", f"fault nfit Length {len(two())} 100")
    yield from on_set(pair(labels0=bytes(1000)), "labels-0.bin has 1000 bytes", "fault labels 0 Size 1000", unchecked)
    yield from on_set({**pair(), "badranges-0.bin": bytes(15)}, "badranges-0.bin has 15 bytes", "fault badranges 0 Size 15", unchecked)
    yield from on_set({it: data for it, data in pair().items() if it != "contents-1.bin"}, "there is no contents-1.bin", "fault contents 1 Missing", unchecked)
    # which limit a size breaks is said as after other commands
    for hint in ("contents-0.bin has 4096 bytes", f"is cut off: by the firmware's table module 0 has at least {SIZE} (64K) bytes", "an object or a region has a fault"):
        yield {**pair(), "contents-0.bin": 4096}, SET, 3, said("fault contents 0 Size 4096", unchecked), hint
    for fault, nfit in (("Cover 0", two(spa(), mapping(0), mapping(1), interleave((0, 0)))), ("Ways 3 2", two(spa(), mapping(0, ways=3), mapping(1, ways=3), interleave()))):
        lines = [f"fault region 0 {fault}", "notice namespaces Unchecked", unchecked]
        for hint in (f"fault region 0 {fault}: region 0 is no interleave set", f"fault region 0 {fault}: {REGION_MEANS[fault.split()[0]]}", "notice namespaces Unchecked: a region is no interleave set"):
            yield pair(nfit=nfit), SET, 3, said(*lines), f"nvd: {hint}"
    yield from on_set(pair(labels0=bytes(4096)), "neither index block of module 0 has a signature", "notice labels 0 NoIndex")
    good = area()

    def sealed(block):
        return changed(block, 64, struct.pack("<Q", fletcher64(block[:64] + bytes(8) + block[72:])))

    for fault, block, means in (
            ("Signature", bytes(BLOCK), "the block doesn't begin with NAMESPACE_INDEX"), ("Version 1 1", of_version(good[:BLOCK], 1, 1), "the block has label version 1.1;"),
            ("Offsets", sealed(changed(good[:BLOCK], 24, b"x")), "MyOff, MySize,"), ("Slots", sealed(changed(good[:BLOCK], 56, bytes(4))), "the block has no slots"), ("Checksum", changed(good[:BLOCK], 17, b"x"), "a byte of the block")):
        for hint in ("index block 0 of module 0 is refused", means):
            yield from on_set(pair(labels0=block + good[BLOCK:]), hint, f"fault labels 0 index 0 {fault}")
        for hint in ("index block 0 of module 0 was refused; in OUT it is written anew", means):
            yield pair(labels0=block + good[BLOCK:]), MEND, 0, f"repaired labels 0 index 0 {fault}", f"nvd: repaired labels 0 index 0 {fault}: {hint}"
    closed = sealed(changed(good[BLOCK : 2 * BLOCK], 20, bytes(4)))
    yield from on_set(pair(labels0=good[:BLOCK] + closed + good[2 * BLOCK :]), "index block 1 of module 0 has the sequence number 0", "notice labels 0 index 1 Sequence")
    for text, wrong, means in (("Checksum", changed(part(0), 20, b"x"), "slot 0 is used, but"), ("Slot 3", part(0, slot=3), "the label in slot 0 says that its slot is 3"), ("OddSize Dpa", part(0, dpa=512), "the label's field is no"),
                               ("OddSize RawSize", part(0, raw=0), "the label's field is no")):
        yield from on_set(pair(area([wrong])), means, f"fault labels 0 slot 0 {text}")
    yield from on_set(pair(area([part(0), part(0, SECOND, 1)]), area([part(1), part(1, SECOND, 1)])), "extents of these two namespaces overlap", f"fault labels Overlap {FIRST} {SECOND}", unchecked)
    yield from on_set(pair(area([part(0, flags=8)]), area([part(1)])), "a change of the namespace isn't finished", f"notice namespace {FIRST} pending")
    yield from on_set(pair(area([part(0, flags=8)])), "labels of the namespace are missing", f"notice namespace {FIRST} unfinished")
    yield from on_set(pair(area([part(0, flags=2)])), "a label of the namespace has the flag LOCAL", f"notice namespace {FIRST} local")
    for text, first, second, means in (
            ("Twice 0", [part(0), part(0, slot=1)], [part(1)], "module 0 has two labels of it"), ("Outside 1", [part(0)], [part(1, dpa=SIZE)], "the label on module 1 is outside"),
            ("Cookie 1 5", [part(0)], [part(1, cookie=5)], "the label on module 1 has the set cookie 5"), ("Differs Count", [part(0)], [part(1, count=3)], "a label's NLabel"),
            ("Position 1 0", [part(0)], [part(1, position=0)], "the label on module 1 says position 0"), ("Differs LbaSize", [part(0)], [part(1, lba=4096)], "the labels differ in this field"),
            ("Missing 1", [part(0)], [], "module 1 has no label of it"), ("Differs Names", [part(0)], [part(1, name=b"b")], "the names differ")):
        # a label elsewhere has another Dpa, too
        more = [f"fault namespace {FIRST} Differs Dpa"] if text == "Outside 1" else []
        yield from on_set(pair(area(first), area(second)), means, f"fault namespace {FIRST} {text}", *more)
    yield from on_set({**pair(), "badranges-0.bin": bad((0, 1), (5, 5))}, "the list of bad ranges of module 0 has 2 records", "notice badranges 0 2")
    broken = sectors(info(seal=False), entries={0: 1 << 31 | 1})
    lines = [f"fault arena {FIRST} 0 {it}" for it in ("Info Checksum", "Twice 1", "Missing 0")]
    for line, means in ((lines[0], FINDING_MEANS["Info"]), (lines[0], "a byte of the info block was changed"), (lines[1], FINDING_MEANS["Twice"]), (lines[2], FINDING_MEANS["Missing"])):
        yield broken, SET, 3, said(*lines), f"nvd: {line}: {means}"
    # what a repair doesn't mend is explained too; a set that no command loads isn't repaired
    yield pair(area([part(0)]), area([])), MEND, 0, "broken 1", f"nvd: fault namespace {FIRST} Missing 1: module 1 has no label of it"
    yield image("labels 0 Size 1000", pair(labels0=bytes(1000)), MEND, "labels-0.bin has 1000 bytes")
    # all lines of a set are explained, a fault of an area behind that of an object
    many = {**pair(labels0=bytes(1000), labels1=area([part(1)])), "contents-1.bin": 4096}
    for line in ("fault labels 0 Size 1000", "fault contents 1 Size 4096", lost, unchecked):
        yield many, SET, 3, said("fault labels 0 Size 1000", "fault contents 1 Size 4096", lost, unchecked), f"nvd: {line}: "


def scripts():
    """Scripts that aren't taken, which is told before any image is looked at."""
    yield REPLAY, "step 0 1\r\n", "Line 1 Encoding"
    yield REPLAY, "step 0 1\nstep 0\n", "Line 2 Word"
    yield REPLAY, "step 01 1\n", "Line 1 Number"
    yield REPLAY, "call 0 write 1 fill:1\n", "Line 1 Value"
    yield REPLAY, "call 0 read 1\n" * 65537, "TooMany Calls"
    yield REPLAY, "call 0 write 1 hex:" + "00" * 16385 + "\n", "TooMany Bytes"
    yield REPLAY, "step 0 1\n" * 1864136, "TooLong 16777216"
    for kind, line in (("Encoding", "close\r"), ("Word", ""), ("Word", "nope"), ("Word", "read 1 2"), ("Word", "read"), ("Number", "read 01"), ("Number", "write x fill:00"),
                       ("Value", "write 1 fill:1"), ("Uuid", "open a"), ("Uuid", f"delete {FIRST.hex}"), ("Name", f"rename {FIRST}"), ("Name", f"create {FIRST} 0 8192"),
                       ("Order", "labelcut 1"), ("Order", "session 2"), ("Order", "session 0")):
        yield SERVE, session(line), f"Line 2 {kind}"
    yield SERVE, "read 0\n", "Line 1 Order"
    yield SERVE, session("close", "cut 1"), "Line 3 Order"
    yield SERVE, "".join(f"session {it}\n" for it in range(1025)), "TooMany Sessions"
    yield SERVE, session(*["close"] * 65537), "TooMany Calls"
    yield SERVE, session("write 1 hex:" + "00" * 16385), "TooMany Bytes"
    yield SERVE, "session 0\n" * 1677722, "TooLong 16777216"


def cases():
    for some in (usage, asked_first, objects, areas, regions, statuses, refusals, replies, arenas, findings, rescues, whole_sets):
        yield from some()
