#!/usr/bin/env python3
"""Compares the lines of `nfit`, `list` and `labels 0` on one image set with what Linux and ndctl reported.

usage: compare.py NAME TRUTH WORK   (the lines are WORK/NAME.nfit, WORK/NAME.list and WORK/NAME.labels)

It prints a line for each thing compared: `ok SET WHAT`, or `differs SET WHAT` with both sides.

Regions and namespaces are those of sysfs (regions.txt, namespaces.txt). An extent is what `ndctl read-labels`
prints of a label. ndctl also prints some free slots, here with the same extent as a used one. It prints GUIDs
in byte order. An area with label version 1.1 isn't read, so its namespaces aren't expected, and `labels 0` must
print the version. Linux then shows the cookies of version 1.1, made of fewer fields, so only the size of these
regions is compared.
"""
import json
import lzma
import os
import re
import sys
import uuid

sys.dont_write_bytecode = True
sys.path.insert(1, os.path.dirname(os.path.dirname(os.path.abspath(__file__))))
from harness import lines_of  # noqa: E402

MODES = {uuid.UUID(int=0): "raw", uuid.UUID("18633bfc-1735-4217-8ac9-17239282d3f8"): "sector",
         uuid.UUID("8aed63a2-29a2-4c66-8b12-f05d15d3922a"): "sector1"}
# what sysfs calls the use of a namespace
HELD = {"raw": "raw", "safe": "sector", "memory": "other:266400ba-fb9f-4677-bcb0-968f11d0d225"}
NS = re.compile(r'^ns (\S+) ("(?:[^"\\]|\\.)*"|hex:\S*) region (\S+) mode (\S+) lba (\d+) size (\d+) (.*)$')


def read(path):
    with open(path, encoding="utf-8") as file:
        return file.read()


def name_of(text):
    if text.startswith("hex:"):
        return bytes.fromhex(text[4:]).decode("utf-8", "surrogateescape")
    return re.sub(r"\\(.)", r"\1", text[1:-1])


def listed(text):
    """The namespaces of `list`, by UUID, in the order of the lines."""
    spaces = {}
    for line in text.splitlines():
        found = NS.match(line)
        if found:
            who, name, region, mode, lba, size, status = found.groups()
            extents = []
            spaces[who] = {"name": name_of(name), "region": region, "mode": mode, "lba": int(lba),
                           "size": int(size), "status": status, "extents": extents}
        else:
            word, *numbers = line.split()
            assert word == "extent", line
            extents.append(tuple(map(int, numbers)))
    return spaces


def labels_in(truth):
    """The labels that ndctl read, by UUID: place and use of each; and whether all are of version 1.2."""
    labels, current = {}, True
    for file in sorted(os.listdir(truth)):
        found = re.match(r"read-labels-nmem(\d+)\.json\.xz$", file)
        if not found:
            continue
        with lzma.open(os.path.join(truth, file), "rt", encoding="utf-8") as packed:
            for dimm in json.load(packed):
                current = current and all(block["minor"] == 2 for block in dimm["index"])
                for label in dimm.get("label", []):
                    guid = uuid.UUID(bytes_le=uuid.UUID(label.get("abstraction_guid", str(uuid.UUID(int=0)))).bytes)
                    labels.setdefault(label["uuid"], set()).add(
                        (int(found.group(1)), label["dpa"], label["rawsize"], MODES.get(guid, f"other:{guid}")))
    return labels, current


def namespaces_in(truth):
    """The namespaces that sysfs shows, by UUID; seeds have no UUID."""
    labels, current = labels_in(truth)
    spaces = {}
    for line in read(os.path.join(truth, "namespaces.txt")).splitlines():
        region = re.match(r"namespace(\d+)\.", line).group(1)
        fields = dict(re.findall(r"(\w+)=\[(.*?) ?\](?= \w+=| *$)", line))
        who = fields["uuid"].strip()
        if not who or not current:
            continue
        sector = re.search(r"\[(\d+)\]", fields["sector_size"])
        own = labels[who]
        assert len({use for *_, use in own}) == 1 and HELD[fields["mode"].strip()] in {use for *_, use in own}
        spaces[who] = {"name": fields["alt_name"], "region": region, "mode": HELD[fields["mode"].strip()],
                       "lba": int(sector.group(1)), "size": int(fields["size"]), "status": "complete",
                       "extents": sorted({label[:3] for label in own})}
        assert len(spaces[who]["extents"]) == int(fields["dpa_extents"]), line
    return spaces


def main():
    name, truth, work = sys.argv[1:]

    report = lines_of(name, "Linux")

    current = labels_in(truth)[1]
    for command, wanted in [("nfit", "0"), ("list", "0"), ("labels", "0" if current else "3")]:
        report(f"status of {command}", read(os.path.join(work, f"{name}.{command}.status")).strip(), wanted)
    if not current:
        report("text of labels", read(os.path.join(work, f"{name}.labels")), "image labels 0 Unsupported 1 1\n")
    regions = {}
    for line in read(os.path.join(work, f"{name}.nfit")).splitlines():
        found = re.match(r"region (\d+) .* length (\d+) .* cookie (\S+) ", line)
        if found:
            regions[found.group(1)] = (int(found.group(3), 16), int(found.group(2)))
    want = {}
    for line in read(os.path.join(truth, "regions.txt")).splitlines():
        found = re.match(r"region(\d+) set_cookie (\S+) .* size (\d+) ", line)
        want[found.group(1)] = (int(found.group(2), 16), int(found.group(3)))
    report("regions", sorted(regions), sorted(want))
    for number in want:
        if current:
            report(f"cookie of region {number}", regions.get(number, (None, None))[0], want[number][0])
        report(f"size of region {number}", regions.get(number, (None, None))[1], want[number][1])
    got, want = listed(read(os.path.join(work, f"{name}.list"))), namespaces_in(truth)
    report("UUIDs, rising", list(got), sorted(want))
    for who in want:
        for field in want[who]:
            report(f"{field} of {who}", got.get(who, {}).get(field), want[who][field])


if __name__ == "__main__":
    main()
