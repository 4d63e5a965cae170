"""nvd diff: what differs between two image sets, by namespace and by label."""
import argparse
import os

from holes import next_data
from known import Known, shown_name
from places import Ended, say

USAGE = "nvd diff A B"
PAGE = 4096


class Words(argparse.ArgumentParser):
    def error(self, message):
        say(f"{message}: {USAGE}")
        raise Ended(2)


def quoted(text):
    return '"' + text.replace("\\", "\\\\").replace('"', '\\"') + '"'


def fields_of(namespace):
    """What is compared of a namespace, in the order of its line."""
    extents = " ".join(f"{it['module']}:{it['start']}+{it['length']}" for it in namespace["extents"])
    region = "-" if namespace["region"] is None else namespace["region"]
    return {"name": quoted(shown_name(namespace)), "region": region, "mode": namespace["mode"], "lba": namespace["lba"], "size": namespace["size"], "status": namespace["status"], "extents": extents}


def told(fields):
    return " ".join(f"{name} {value}" for name, value in fields.items())


def pages_that_differ(one, other, namespace):
    """How many pages of a namespace's extents differ, and how many there are."""
    differ = whole = 0
    for it in namespace["extents"]:
        with open(os.path.join(one.folder, f"contents-{it['module']}.bin"), "rb") as first, open(os.path.join(other.folder, f"contents-{it['module']}.bin"), "rb") as second:
            at, end = it["start"], it["start"] + it["length"]
            whole += -(-it["length"] // PAGE)
            # holes of both are alike
            while (data := min(next_data(first, at, end), next_data(second, at, end))) < end:
                at += (data - at) // PAGE * PAGE
                size = min(end - at, 256 * PAGE)
                here, there = os.pread(first.fileno(), size, at), os.pread(second.fileno(), size, at)
                if here != there:
                    differ += sum(here[page : page + PAGE] != there[page : page + PAGE] for page in range(0, size, PAGE))
                at += size
    return differ, whole


def lines_of(one, other):
    """The lines of the difference."""
    yield from changed("module", {it["module"]: f"handle {it['handle']} bytes {one.size_of(it['module'])}" for it in one.modules},
                       {it["module"]: f"handle {it['handle']} bytes {other.size_of(it['module'])}" for it in other.modules})
    regions = [{it["region"]: " ".join(f"{key} {value}" for key, value in it.items() if key != "region") for it in known.regions} for known in (one, other)]
    yield from changed("region", *regions)
    yield from namespaces(one, other)
    for module in sorted({*one.areas, *other.areas}):
        areas = [known.areas.get(module) or {"index": None, "labels": [], "bad": []} for known in (one, other)]
        yield from changed(f"module {module}", *({"index": index_of(it)} for it in areas))
        yield from changed(f"module {module} slot", *(slots_of(it) for it in areas))


def index_of(area):
    index = area["index"]
    return f"side {index['side']} seq {index['seq']} slots {index['slots']} free {index['free']}" if index else area.get("fault", "none")


def slots_of(area):
    slots = {it["slot"]: f"label {it['uuid']} {quoted(shown_name(it))} pos {it['pos']} of {it['of']} dpa {it['dpa']} size {it['size']} flags {it['flags']} mode {it['mode']}" for it in area["labels"]}
    return {**slots, **{it["slot"]: f"bad {it['fault']}" for it in area["bad"]}}


def changed(what, before, after):
    """A line for each key that is gone, new or has another text."""
    for key in sorted({*before, *after}):
        if before.get(key) != after.get(key):
            if key in before:
                yield f"- {what} {key} {before[key]}"
            if key in after:
                yield f"+ {what} {key} {after[key]}"


def namespaces(one, other):
    first, second = ({it["uuid"]: it for it in known.namespaces} for known in (one, other))
    for uuid in sorted({*first, *second}):
        if uuid not in second:
            yield f"- ns {uuid} {told(fields_of(first[uuid]))}"
        elif uuid not in first:
            yield f"+ ns {uuid} {told(fields_of(second[uuid]))}"
        else:
            before, after = fields_of(first[uuid]), fields_of(second[uuid])
            for name in before:
                if before[name] != after[name]:
                    yield f"! ns {uuid} {name} {before[name]} -> {after[name]}"
            if before["extents"] == after["extents"]:
                differ, whole = pages_that_differ(one, other, first[uuid])
                if differ:
                    yield f"! ns {uuid} contents {differ} of {whole} pages"


def main(program, words):
    parser = Words(prog="nvd diff", add_help=False)
    parser.add_argument("A")
    parser.add_argument("B")
    given = parser.parse_args(words)
    lines = list(lines_of(Known(program, given.A), Known(program, given.B)))
    for line in lines:
        print(line)
    return 1 if lines else 0
