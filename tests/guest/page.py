"""Makes docs/INTEROP_CHECK.md of the results of tests/guest/run."""
import os
import re
import sys
from typing import NamedTuple

sys.dont_write_bytecode = True
HERE = os.path.dirname(os.path.realpath(__file__))
sys.path.insert(1, HERE)
from sides import AS_BEFORE, TRACE  # noqa: E402

HEAD = ("what is wrong", "`check UUID`", "sectors here", "rescued here", "here after `--repair`",
        "`ndctl check-namespace -v`", "sectors under Linux", "Linux after `--repair`")
FEW = 2  # if no more sectors are lost, nearly all are read
# the words of a cell for each kind of sectors
KINDS = {
    "right": "right",
    "size": "right, but fewer or more",
    "wrong": "wrong bytes, and no error",
    "errors": "some sectors are refused, or listed as lost",
    "refused": "nothing is read",
    "raw device": "a raw device of all bytes, also of info block, map and log",
}


def named_here(row):
    return row["ours"]["check"][-1] != "sound"


def named_there(row):
    check = row["linux"].get("check")
    return check is None or check["status"] != 0 or bool(check["said"])


class Readings(NamedTuple):
    """What comes of the sectors in a row, or its kinds."""

    here: str
    rescued: str
    repaired: str
    linux: str
    mended: str  # under Linux, after ndctl's repair


def kind(text):
    """What a reader gets of the sectors: a key of KINDS."""
    if "error" in text or text.startswith("refused BadSector"):
        return "errors"
    if "wrong" in text:
        return "wrong"
    if text.startswith("lost"):
        return "errors"
    if text.startswith("right of"):
        return "size"
    return text if text in ("right", "raw device") else "refused"


def reads(row):
    ours, linux = row["ours"], row["linux"]
    theirs = [linux["ended"]] * 2 if "ended" in linux else \
        [linux["attach"]["read"], linux["read after repair"]]
    return Readings(ours["read"], ours["rescue"]["read"], ours["read after repair"], *theirs)


def kinds(row):
    return Readings(*map(kind, reads(row)))


# ---- the cells of a row


def at_most_six(found):
    """A word and the sectors behind it: at most six, or else how many."""
    count = len(found[2].split())
    return f"{found[1]}: {count} sectors" if count > 6 else found[0]


def cut(text):
    """A reading in a cell, with few sectors, and a refusal in one word."""
    if text.startswith("image arena"):
        return "refused"
    return re.sub(r"(wrong|lost): ([\d ]*\d)", at_most_six, text)


def by_rescue(text):
    """What `rescue` gives, in a cell; a refusal is that of the info block."""
    refusal = re.fullmatch("image arena (Info .*)", text)
    return f"`{refusal[1]}`" if refusal else cut(text)


def here(row):
    lines = row["ours"]["check"]
    text = "; ".join(it if it.endswith(" more") else f"`{it}`" for it in lines[:-1]) or "`sound`"
    moves = re.search(r"moves ([1-9]\d*)$", row["ours"]["info"][0])
    return f"{text} ({moves[1]} pending by `info`)" if moves else text


def there(row):
    check = row["linux"].get("check")
    if check is None:
        return row["linux"]["ended"]
    lines = [re.sub(r"^arena 0: ", "", it, flags=re.I) for it in check["said"]]
    status = f" (status {check['status']})" if check["status"] else ""
    lines = [it for it in lines if not it.startswith("error checking")]
    return ("; ".join(lines) or "nothing") + status


def after(changed, reading):
    """A reading after a repair, and what the repair changed."""
    if changed == AS_BEFORE:
        return f"{cut(reading)}; {AS_BEFORE}"
    return f"{cut(reading)}; changed {', '.join(changed)}" if changed else f"{cut(reading)}; -"


def line_of(cells):
    return "| " + " | ".join(cells) + " |"


def row_of(row):
    ours, linux, got = row["ours"], row["linux"], reads(row)
    log = linux["attach"]["log"] if "attach" in linux else []
    changed = linux["repair"]["changed"] if "repair" in linux else []
    return line_of([row["fault"], here(row), cut(got.here), by_rescue(got.rescued),
                    after(ours["changed by repair"], got.repaired), there(row),
                    "; ".join([cut(got.linux), *log]), after(changed, got.mended)])


# ---- the counts and the lists


def named(rows):
    """How many rows are named by whom."""
    said = [(named_here(it), named_there(it)) for it in rows]
    lost = sum(map(is_blind, rows))
    right = said.count((False, False)) - lost
    yield from ("| who says that something is wrong | rows |", "|---|---|")
    yield line_of(["both", str(said.count((True, True)))])
    yield line_of(["`check UUID` alone", str(said.count((True, False)))])
    yield line_of(["ndctl alone", str(said.count((False, True)))])
    yield line_of(["neither, and both read the sectors rightly", str(right)])
    yield line_of(["neither, and sectors are lost or others", str(lost)])


def sectors(rows):
    """How many rows have which kind of sectors."""
    yield line_of(["what comes of the sectors", "here", "here, by `rescue`", HEAD[4],
                   "under Linux", HEAD[7]])
    yield "|---" * 6 + "|"
    columns = list(zip(*map(kinds, rows)))
    for name, text in KINDS.items():
        yield line_of([text, *(str(column.count(name)) for column in columns)])


def has_new_backup(row, changed):
    """Whether a changed first info block was written over the good backup."""
    first = row["group"] == "first info block"
    return first and changed != AS_BEFORE and "the backup" in changed


def is_blind(row):
    got = kinds(row)
    return not named_here(row) and not named_there(row) and {got.here, got.linux} != {"right"}


def has_no_device(row):
    """Whether ndctl ends with status 0, and Linux gives no block device of the sectors."""
    check = row["linux"].get("check")
    no_device = reads(row).linux in ("raw device", "no device")
    return bool(check) and check["status"] == 0 and no_device


def is_nearly_whole(row):
    """Whether `rescue` lists few sectors as lost, and all others come rightly."""
    found = re.fullmatch(r"lost: ([\d ]+)", reads(row).rescued)
    return bool(found) and len(found[1].split()) <= FEW


def is_rescued(row):
    """Whether `rescue` alone gives all sectors, or nearly all."""
    got = kinds(row)
    if "right" in (got.here, got.linux):
        return False
    return got.rescued == "right" or (got.linux != "errors" and is_nearly_whole(row))


def of_reading():
    """What is listed of the sectors: a title, and whether it holds of a row's kinds."""
    yield "Linux returns other bytes without an error, and here `export` prints nothing", \
        lambda got: (got.here, got.linux) == ("refused", "wrong")
    yield "Both return other bytes without an error", \
        lambda got: (got.here, got.linux) == ("wrong", "wrong")
    yield "Linux reads the sectors rightly, and here `export` doesn't", \
        lambda got: got.linux == "right" != got.here
    yield "`export` reads them rightly, and Linux doesn't", \
        lambda got: got.here == "right" != got.linux
    yield "Linux reads them rightly, and `rescue` doesn't give all", \
        lambda got: got.linux == "right" != got.rescued
    yield "`rescue` returns other bytes of a sector that it doesn't list", \
        lambda got: got.rescued == "wrong"
    yield "After `check --repair` they are right, and after ndctl's not", \
        lambda got: got.repaired == "right" != got.mended
    yield "After ndctl's `--repair` they are right, and after that here not", \
        lambda got: got.mended == "right" != got.repaired


def questions():
    """What is listed: a title, and whether it holds of a row."""
    yield "Only `check UUID` says that something is wrong", \
        lambda it: named_here(it) and not named_there(it)
    yield "Only ndctl says so", lambda it: named_there(it) and not named_here(it)
    yield "Neither says so, and sectors are lost or others", is_blind
    yield "Only `rescue` reads all or nearly all sectors where Linux refuses them or returns " \
        "others, fewer or more", is_rescued
    for title, test in of_reading():
        yield title, lambda it, test=test: test(kinds(it))
    yield "`check --repair` writes the changed first info block over the good backup", \
        lambda it: has_new_backup(it, it["ours"]["changed by repair"])
    yield "ndctl's `--repair` does so", \
        lambda it: has_new_backup(it, it["linux"].get("repair", {"changed": []})["changed"])
    yield "ndctl ends with status 0, and Linux makes no block device of the sectors", has_no_device
    yield "Linux's log has a warning with a trace of its calls", \
        lambda it: TRACE in it["linux"].get("attach", {"log": []})["log"]


def lists(rows):
    for title, test in questions():
        found = [it for it in rows if test(it)]
        yield f"**{title}**: {len(found)} row{'' if len(found) == 1 else 's'}"
        yield ""
        for group in dict.fromkeys(it["group"] for it in found):
            yield f"- {group}: " + "; ".join(it["fault"] for it in found if it["group"] == group)
        if found:
            yield ""


def tables(rows):
    for group in dict.fromkeys(it["group"] for it in rows):
        yield from (f"### {group[0].upper()}{group[1:]}", "", line_of(HEAD))
        yield "|---" * len(HEAD) + "|"
        yield from (row_of(it) for it in rows if it["group"] == group)
        yield ""


def page(found):
    rows = found["faults"]
    version = re.match(r"linux (\S+) ndctl (\S+)", found["linux"])
    parts = {"ROWS": [str(len(rows))], "LINUX": [version[1]], "NDCTL": [version[2]],
             "NAMED": named(rows), "SECTORS": sectors(rows), "LISTS": lists(rows),
             "TABLES": tables(rows)}
    with open(os.path.join(HERE, "page.txt"), encoding="utf-8") as file:
        return re.sub(r"@([A-Z]+)@", lambda it: "\n".join(parts[it[1]]).rstrip(), file.read())
