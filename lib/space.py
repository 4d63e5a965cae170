"""The free space of each region of an image set."""
from formats import mappings_of, table_of


def starts_of(folder):
    """The first byte of each mapping on its module, by the index of its range and its device handle."""
    return {(it["index"], it["handle"]): it["start"] for it in mappings_of(table_of(folder))}


def holes(span, unit, used):
    """The free pieces (start, length) below a span, cut to whole units; used has pairs of start and end."""
    at, out = 0, []
    for start, end in sorted([*used, (span, span)]):
        first, last = -(-at // unit) * unit, min(start, span) // unit * unit
        if last > first:
            out.append((first, last - first))
        at = max(at, end)
    return out


def free_of(folder, nfit, listed):
    """For each region that is a set: its number, all that is free, and the largest size that a create takes."""
    starts = starts_of(folder)
    handles = {fields["module"]: fields["handle"] for kind, fields in nfit if kind == "module"}
    extents, counts = [], False
    for kind, fields in listed:
        if kind == "ns":
            # a create takes an unfinished namespace back before it looks for room
            counts = fields["status"] != "unfinished"
        elif kind == "extent" and counts:
            extents.append(fields)
    for kind, region in nfit:
        if kind != "region" or "fault" in region:
            continue
        ways = len(region["modules"])
        span = region["length"] // ways
        used = []
        for module in region["modules"]:
            start = starts[region["index"], handles[module]]
            used += [(max(it["start"] - start, 0), it["start"] - start + it["length"]) for it in extents
                     if it["module"] == module and it["start"] + it["length"] > start and it["start"] < start + span]
        pieces = [length * ways for _, length in holes(span, region["unit"], used)]
        yield {"region": region["region"], "available": sum(pieces), "largest": max(pieces, default=0), "pieces": len(pieces)}
