"""The rows of tests/rows/run: each has the files of an image set, the words of a command, its status and its text."""
from areas import AREA, AREA_SIZE, CASES, LINUX, LINUX_SIZE, LINUX_TEXT
from lists import AGREED, ALONE, LISTS, MEETING, ONE, RULES, SINGLES, UNITS, WIDE
from tables import ONE_WAY, REGIONS, TWO_LINES, TWO_WAY

OK, USAGE, IMAGE, REFUSED, CUT = 0, 2, 3, 4, 8
BYTES = 8192
FIRST, SECOND = "11111111-1111-4111-8111-111111111111", "22222222-2222-4222-8222-222222222222"
NONE = "11111111-1111-4111-8111-111111111112"

# Patches that turn TWO_WAY and TWO_LINES into tables of two modules of BYTES each.
SMALL = [(81, b"\x40"), (83, b"\0"), (113, b"\x20"), (115, b"\0"), (161, b"\x20"), (163, b"\0")]
MODULES = "module 0 handle 16\nmodule 1 handle 32\n"
SMALL_TEXT = MODULES + "region 0 index 1 base 4294967296 length 16384 modules 0 1 cookie 0002e2420000346b unit 4096\n"


def patched(data, patches):
    """The bytes with patches, as far as they lie inside."""
    data = bytearray(data)
    for at, piece in patches:
        piece = piece[: max(0, len(data) - at)]
        data[at : at + len(piece)] = piece
    return bytes(data)


def table_of(table, patches):
    """A firmware table with patches, and its Checksum set right."""
    data = bytearray(patched(table, patches))
    data[9] = (data[9] - sum(data)) % 256
    return bytes(data)


def area_of(size, *patches):
    data = bytes(size)
    for row in patches:
        data = patched(data, row)
    return data


def pair(table=TWO_WAY, **other):
    """A set of two modules without label areas; a name of `other` is a file's, with _ for - and without .bin."""
    files = {"nfit.bin": table_of(table, SMALL), "contents-0.bin": bytes(BYTES), "contents-1.bin": bytes(BYTES), "complete": b""}
    for name, data in other.items():
        name = name if name == "complete" else name.replace("_", "-") + ".bin"
        if data is None:
            files.pop(name, None)
        else:
            files[name] = data
    return files


def with_area(area, **other):
    return pair(**{"labels_0": area, **other})


def with_areas(first, second, table=TWO_WAY):
    """The pair with the areas of AGREED under these patches; None is no area."""
    areas = {f"labels_{m}": None if row is None else area_of(AREA_SIZE, AGREED[m], row) for m, row in enumerate((first, second))}
    return pair(table, **areas)


def single(damage):
    """A set of one module."""
    return {"nfit.bin": bytes(ONE), "contents-0.bin": bytes(BYTES), "labels-0.bin": area_of(AREA_SIZE, ALONE, damage), "complete": b""}


def create(uuid, size="8192", name="v", region="0", mode="raw", *more):
    return ["OUT", "create", "--uuid", uuid, "--name", name, "--region", region, "--size", size, "--mode", mode, *more]


def labels():
    """Areas by hand, and one that Linux wrote."""
    for damage, text, status in CASES:
        yield with_area(area_of(AREA_SIZE, AREA, damage)), ["-", "labels", "0"], status, text
    yield with_area(area_of(LINUX_SIZE, LINUX)), ["-", "labels", "0"], OK, LINUX_TEXT
    for number in (0, 1, 2, 63):
        yield pair(), ["-", "labels", str(number)], IMAGE, f"image labels {number} Missing\n"


def unloaded():
    """Sets that are refused: the first wrong object is named."""
    zeros = bytes
    for other, text in (
            ({"complete": None}, "mark Missing"),
            ({"nfit": None}, "nfit Missing"),
            ({"nfit": zeros(2000000)}, "nfit Size 2000000"),
            ({"nfit": zeros(1048577)}, "nfit Size 1048577"),
            ({"nfit": zeros(1048576)}, "nfit Signature"),
            ({"nfit": b""}, "nfit Signature"),
            ({"nfit": b"NFIT"}, "nfit Length 0 4"),
            ({"labels_0": b""}, "labels 0 Size 0"),
            ({"labels_0": zeros(768)}, "labels 0 Size 768"),
            ({"labels_0": zeros(1000)}, "labels 0 Size 1000"),
            ({"labels_0": zeros(1048832)}, "labels 0 Size 1048832"),
            ({"labels_1": zeros(1025)}, "labels 1 Size 1025"),
            ({"contents_0": None}, "contents 0 Missing"),
            ({"contents_1": None}, "contents 1 Missing"),
            ({"contents_0": b""}, "contents 0 Size 0"),
            ({"contents_1": zeros(8193)}, "contents 1 Size 8193"),
            # a mapping passes the end
            ({"contents_1": zeros(4096)}, "contents 1 Size 4096"),
            ({"badranges_0": zeros(15)}, "badranges 0 Size 15"),
            ({"badranges_1": zeros(65552)}, "badranges 1 Size 65552"),
            # the first in the order of objects
            ({"nfit": None, "complete": None}, "mark Missing"),
            ({"contents_0": None, "labels_0": zeros(1)}, "labels 0 Size 1"),
            ({"contents_0": zeros(4096), "labels_1": zeros(1)}, "labels 1 Size 1"),
            # 272 bytes with a Length of 276, and a mapping of a missing range
            ({"nfit": table_of(TWO_WAY[:272], [(4, b"\x14")])}, "nfit Length 276 272"),
            ({"nfit": table_of(TWO_WAY, [(44, b"\x03")])}, "nfit MissingIndex 0 1")):
        for words in (["-", "nfit"], ["-", "labels", "0"], ["-", "list"], ["OUT", "init", "0"], ["OUT", "delete", FIRST]):
            yield with_area(bytes(AREA_SIZE), **other), words, IMAGE, f"image {text}\n"


def tables():
    yield pair(), ["-", "nfit"], OK, SMALL_TEXT
    yield pair(TWO_LINES), ["-", "nfit"], OK, MODULES + "region 0 index 1 fault Cover 1\n"
    for table, patches, text in REGIONS:
        yield {"nfit.bin": table_of(table, patches), "contents-0.bin": 64 << 20, "contents-1.bin": 64 << 20, "complete": b""}, ["-", "nfit"], OK, text


def lists():
    """The status of the labels of one UUID by each rule; several UUIDs, names and modes."""
    for table, rows in ((TWO_WAY, RULES), (patched(table_of(TWO_WAY, WIDE), []), UNITS), (TWO_WAY, LISTS)):
        for first, second, status, text in rows:
            yield with_areas(first, second, table), ["-", "list"], status, text
    for damage, text in SINGLES:
        yield single(damage), ["-", "list"], OK, text
    # a region whose lines are covered twice is named first, whatever the labels are
    for first in (None, [], MEETING):
        yield with_areas(first, None, TWO_LINES), ["-", "list"], IMAGE, "image region 0 Cover 1\n"


def command_lines():
    """Words that aren't a command line, and some that are."""
    none = (["labels"], ["label", "0"], ["Labels", "0"], ["labels 0"], ["0", "labels"], ["labels", ""], ["labels", "007"], ["labels", "+1"],
            ["labels", "-1"], ["labels", "64"], ["labels", "18446744073709551616"], ["labels", "0x1"], ["labels", "0", "0"],
            ["labels", "--module", "0"], ["labels", "--module=0"], ["labels", "0", "--cut", "1"], ["labels", "--help"], ["labels", "0", "--help"],
            ["labels", "-h", "0"], ["labels", "--version"], ["nfit", "0"], ["nfit", "--help"], ["nfit", "nfit"], ["NFIT"], [""],
            ["help"], ["--", "nfit"], ["list", "0"], ["list", ""], ["list", "list"], ["list", "--help"], ["list", "--cut", "1"], ["List"],
            ["init"], ["init", "64"], ["init", "00"], ["init", "0", "1"], ["init", "0", "--cut"], ["init", "0", "--cut", "-1"],
            ["init", "0", "--cut", "01"], ["init", "0", "--cut", "1", "--cut", "1"], ["init", "0", "--evict", "18446744073709551616"],
            ["init", "0", "--help"], ["info"], ["info", "0"], ["info", NONE, "0"], ["check", "a"], ["check", NONE, "0"], ["check", NONE, "--repair", "--repair"], ["check", NONE, "--repair=true"], ["check", NONE, "--repair", "true"], ["check", NONE, "--cut", "1"], ["read", NONE], ["read", NONE, "01"],
            ["read", NONE, "18446744073709551616"], ["write", NONE, "0"], ["write", NONE, "0", "5a"], ["write", NONE, "0", "fill:5"],
            ["write", NONE, "0", "fill:5a5a"], ["write", NONE, "0", "fill:xx"], ["write", NONE, "0", "hex:5"], ["write", NONE, "01", "fill:00"],
            ["write", NONE, "0", "fill:00", "--cut", "1"], ["replay"], ["replay", "9"], ["replay", NONE, "0"], ["replay", NONE, "--cut", "1"],
            ["replay", NONE, "--evict", "01"], ["replay", NONE, "--evict"], ["export"], ["export", "a"], ["export", NONE, "0"],
            ["export", NONE, "--bad-as-zeros", "--bad-as-zeros"], ["export", NONE, "--bad-as-zeros=true"], ["export", NONE, "--bad-as-zeros", "true"],
            ["export", NONE, "--evict", "1"], ["rescue"], ["rescue", "a"], ["rescue", NONE, "0"], ["rescue", NONE, "--lost", "--lost"], ["rescue", NONE, "--lost=true"],
            ["rescue", NONE, "--lost", "true"], ["rescue", NONE, "--Lost"], ["rescue", NONE, "--bad-as-zeros"], ["rescue", NONE, "--evict", "1"], ["serve", NONE], ["serve", "--workers", "0"], ["serve", "--workers", "65"], ["serve", "--cut", "1"],
            ["serve", "--evict", "01"], ["load"], ["load", "1"], ["load", "--uuid", NONE], ["load", "01", "--uuid", NONE], ["load", "1", NONE],
            ["load", "1", "--uuid", NONE, "--sessions", "0"], ["load", "1", "--uuid", NONE, "--sessions", "1025"], ["load", "1", "--uuid", NONE, "--calls", "65535"],
            ["load", "1", "--uuid", NONE, "--sessions", "1024", "--calls", "63"], ["load", "1", "--uuid", NONE, "--workers", "65"],
            ["load", "1", "--uuid", NONE, "--evict", "1"], ["delete", "1"], ["rename", FIRST], ["create", "--uuid", SECOND, "--name", "v"],
            create(SECOND, mode="Raw")[1:])
    for words in none:
        yield pair(), ["OUT", *words], USAGE, "usage\n"
    # clap takes `--` before the place that it stands for
    yield pair(), ["-", "nfit", "--"], OK, SMALL_TEXT
    yield pair(), ["-", "labels", "--", "0"], IMAGE, "image labels 0 Missing\n"
    yield pair(), ["-", "list", "--"], OK, ""
    yield pair(), ["-", "check"], OK, "sound\n"
    for words in (["--cut", "5", "0", "--evict", "18446744073709551615"], ["--evict=1", "--cut=5", "0"], ["0", "--cut=5"]):
        yield with_area(bytes(AREA_SIZE)), ["OUT", "init", *words], CUT, "cut 5\n"
    yield pair(), ["-", "read", NONE, "18446744073709551615"], REFUSED, "refused NoSuch\n"
    for value in ("fill:aF", "hex:", "hex:0aF1"):
        yield pair(), ["OUT", "write", NONE, "18446744073709551615", value], REFUSED, "refused NoSuch\n"
    yield pair(), ["-", "info", "{11111111-1111-4111-8111-111111111112}"], REFUSED, "refused NoSuch\n"
    for words in ([NONE, "--repair"], ["--repair", NONE], ["--repair", "--", NONE]):
        yield pair(), ["OUT", "check", *words], REFUSED, "refused NoSuch\n"
    for words in ([NONE, "--bad-as-zeros"], ["--bad-as-zeros", NONE], ["--bad-as-zeros", "--", NONE]):
        yield pair(), ["-", "export", *words], REFUSED, "refused NoSuch\n"
    for words in ([NONE], [NONE, "--lost"], ["--lost", NONE], ["--lost", "--", NONE]):
        yield pair(), ["-", "rescue", *words], REFUSED, "refused NoSuch\n"
    # the ranges of --sector and --lanes count in either mode
    for mode in ("raw", "sector"):
        for more in (["--lanes", "0"], ["--lanes", "257"], ["--lanes", "01"], ["--sector", "4294967296"], ["--sector", "0512"], ["--sector", "x"]):
            yield pair(), create(FIRST, "8192", "a", "1", mode, *more), USAGE, "usage\n"
        for more in (["--lanes", "256"], ["--sector", "0"]):
            yield pair(), create(FIRST, "8192", "a", "1", mode, *more), REFUSED, "refused NoRegion 1\n"


def refusals():
    """Commands that existing labels refuse."""
    whole, read_only, local = [], [(592, b"\x15"), (760, b"\x09\xf1v\xfa\xf5J")], [(592, b"\x02"), (760, b"\xf6\xf0v\xfa\xb1")]
    other, delete, rename = create(SECOND), ["OUT", "delete", FIRST], ["OUT", "rename", FIRST, "b"]
    yield with_areas(whole, None), other, REFUSED, "refused ModuleLabels 1\n"
    yield with_areas(None, whole), other, REFUSED, "refused ModuleLabels 0\n"
    yield with_areas(None, None), other, REFUSED, "refused ModuleLabels 0\n"
    for first, second, text in ((whole, None, "NotComplete"), (local, whole, "NotComplete"), (read_only, whole, "ReadOnlyLabel 0"),
                                # of incomplete labels ROLABEL is no reason
                                (read_only, None, "NotComplete")):
        for words in (delete, rename):
            yield with_areas(first, second), words, REFUSED, f"refused {text}\n"
    for area, module, text in ((area_of(AREA_SIZE, AREA), "0", "labels 0 AlreadyInitialised 1"),
                               (area_of(AREA_SIZE, AREA, [(62, b"\x01"), (318, b"\x01")]), "0", "labels 0 Unsupported 1 1"),
                               (None, "0", "labels 0 Missing"), (None, "63", "labels 63 Missing")):
        yield with_area(area), ["OUT", "init", module, "--cut", "0"], IMAGE, f"image {text}\n"


def sectors():
    """Namespaces whose sectors can't be read."""
    mode = (656, b"\xfc;c\x185\x17\x17B\x8a\xc9\x17#\x92\x82\xd3\xf8")
    first = [(609, b"\0"), mode, (760, b"A\x8e\xdcp\xc61\x13\xbe")]
    second = [(609, b"\0"), mode, (760, b"A\x8e\xddp\xc61>\xbe")]
    for files, uuid, status, text in (
            (with_areas([], []), FIRST, REFUSED, "refused NotSector\n"),
            (with_areas([], []), NONE, REFUSED, "refused NoSuch\n"),
            (with_areas(first, None), FIRST, REFUSED, "refused NotComplete\n"),
            # labels whose extents overlap come first, and a region whose lines are covered twice before these
            (with_areas(MEETING, None), FIRST, IMAGE, f"image labels Overlap {FIRST} {SECOND}\n"),
            (with_areas(first, None, TWO_LINES), NONE, IMAGE, "image region 0 Cover 1\n"),
            # zeros aren't an arena, and no sector is read
            (with_areas(first, second), FIRST, IMAGE, f"image arena {FIRST} 0 Info Signature\n")):
        for words in (["-", "info", uuid], ["-", "read", uuid, "99"], ["OUT", "write", uuid, "99", "hex:"],
                      ["OUT", "replay", uuid, "--evict", "7"]):
            yield files, words, status, text
        # a raw namespace is exported
        for words in (["-", "export", uuid], ["-", "export", uuid, "--bad-as-zeros"]):
            yield files, words, *((OK, "\0" * 2 * 4096) if text == "refused NotSector\n" else (status, text))
        # a raw namespace isn't rescued, and without an info block nothing can be read; that is what is lost. A missing label is passed over
        lacks = "labels 1 Missing\n" if text == "refused NotComplete\n" else ""
        plain = (IMAGE, f"image arena {FIRST} 0 Info Signature\n") if lacks else (status, text)
        yield files, ["-", "rescue", uuid], *plain
        yield files, ["-", "rescue", uuid, "--lost"], plain[0], f"{lacks}arena 0 Info Signature\nlost 1\n" if plain[1].startswith("image arena") else text
        # to check, an arena that breaks the format is no fault; the last 4,096 bytes are no info block either
        for words in (["OUT", "check", uuid], ["OUT", "check", uuid, "--repair"]):
            yield files, words, *((OK, "arena 0 Info Signature\nbroken 1\n") if text.startswith("image arena") else (status, text))
    # and one of another use isn't
    for words in (["export", FIRST], ["rescue", FIRST], ["rescue", FIRST, "--lost"]):
        yield with_areas(*LISTS[-1][:2]), ["-", *words], REFUSED, "refused NotSector\n"


def cases():
    for group in (labels, unloaded, tables, lists, command_lines, refusals, sectors):
        yield from group()


def changes(size):
    """Commands on the pair with the first namespace, in label areas of this many bytes, that was made by `create`."""
    if size == 1536:
        # there is no room beside labels either
        yield create(SECOND, "16384"), REFUSED, "refused NoSpace 8192\n"
        return
    long = "n" * 64
    for words, text in ((create(SECOND), "NoSlot 0"), (create(FIRST, name="a"), "Exists"), (["OUT", "delete", SECOND], "NoSuch"),
                        (["OUT", "rename", SECOND, "c"], "NoSuch"), (create(SECOND, "0"), "BadSize 0"), (create(SECOND, "4096"), "BadSize 4096"),
                        (create(SECOND, region="1"), "NoRegion 1"), (create(SECOND, "0", long, "1"), "BadName 64"),
                        (["OUT", "rename", SECOND, long], "BadName 64"), (create(SECOND, "8192", "v", "0", "sector"), "BadSize 8192")):
        yield words, REFUSED, f"refused {text}\n"
    yield ["OUT", "rename", FIRST, "c", "--cut", "0"], CUT, "cut 0\n"
    yield ["OUT", "delete", FIRST, "--cut=391"], CUT, "cut 391\n"
    for words in (["delete", FIRST, "--cut=392"], ["delete", "{11111111-1111-4111-8111-111111111111}"], ["rename", FIRST, ""]):
        yield ["OUT", *words], OK, "ok\n"


def said_after():
    """Commands on the pair with areas of 1,024 bytes, and what `labels` says of each module then.

    Each change writes the block that isn't current, under the next Seq of the ring 1, 2, 3 (UEFI 2.10, section 13.19). `init` wrote 2 at side 1 and
    3 at side 0. Each command makes two changes on a module: it puts a label into the free slot, and puts it again or removes it."""
    label = 'label 1 %s "a" pos %d of 2 dpa 0 size 4096 flags 0 lba 512 mode raw cookie 0002e2420000346b\n'
    yield create(FIRST, name="a"), ["index 0 seq 2 slots 2 free 1\n" + label % (FIRST, m) for m in range(2)]
    yield ["OUT", "rename", FIRST, "a"], ["index 0 seq 1 slots 2 free 1\n" + label % (FIRST, m) for m in range(2)]
    yield ["OUT", "delete", FIRST], ["index 0 seq 3 slots 2 free 2\n"] * 2


def seeded():
    """Commands that are cut while stores are pending: two words of a label area that are pending then, and which of them has its new value.

    The chooser is begun from the number of `--evict`, and asked for each pending word, rising. For 4 its first answers are no and yes, for 13 yes
    and no; of a rename's third and thirty-second word it is the other way round. Another program worked them out."""
    # checksum and free bits of the first block, of which all words from there on are stored
    yield "bare", ["OUT", "init", "0"], "40", (320, 328), {"0": (False, False), "7": (False, True)}
    # the UUID in the first label, of which 20 words are stored
    yield "fresh", create(FIRST, name="a"), "20", (512, 520), {"4": (False, True), "13": (True, False)}
    # the name in the first label, and its checksum
    yield "made", ["OUT", "rename", FIRST, "b"], "32", (528, 760), {"4": (True, False), "13": (False, True)}
    # checksum and free bits of the first block, of which 31 words are stored
    yield "made", ["OUT", "delete", FIRST], "293", (64, 72), {"4": (False, True), "13": (True, False)}
    # the UUID in the first label, behind the format of an arena, which takes 38,912 steps
    yield "large", create(FIRST, str(ARENA), "a", "0", "sector"), "38932", (512, 520), {"4": (False, True), "13": (True, False)}


# A module, or two, in which each byte of the contents is other than zero.
ARENA = 16 << 20


def blank(modules):
    """Modules of 16 MiB with an empty label area each, and none of their contents zero."""
    files = {"nfit.bin": table_of(TWO_WAY if modules == 2 else ONE_WAY, []), "complete": b""}
    for m in range(modules):
        files[f"contents-{m}.bin"] = b"\xa5" * (ARENA * modules)
        files[f"labels-{m}.bin"] = bytes(131072 if modules == 2 else 1024)
    return files


def sizes():
    """A namespace of sectors in a module of 16 MiB: sector size and lanes, and how many sectors and blocks `info` tells (Linux, alloc_arena)."""
    for lanes, rows in ((1, ((512, 32481), (520, 28896), (528, 28896), (4096, 4087), (4104, 4024), (4160, 4024), (4224, 3963))),
                        (2, ((512, 32480), (520, 28895), (528, 28895), (4096, 4086), (4104, 4023), (4160, 4023), (4224, 3962))),
                        (256, ((512, 32202), (520, 28620), (528, 28620), (4096, 3829), (4104, 3766), (4160, 3766), (4224, 3705)))):
        for sector, count in rows:
            yield sector, lanes, count, f"arena 0 sector {sector} sectors {count} blocks {count + lanes} lanes {lanes} moves 0\n"


def unplanned():
    """Sizes for which no arena is planned."""
    for size, sector in (("16773120", "512"), ("16777216", "513"), ("16777216", "4294967295")):
        yield create(FIRST, size, "a", "0", "sector", "--sector", sector), REFUSED, f"refused BadSize {size}\n"
