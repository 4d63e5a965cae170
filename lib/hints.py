"""What nvd knows of a fault beyond its row of FAULTS: which limit a size breaks, the sizes that fit, and what lists all faults of arenas."""
import os
import re

from formats import LIMIT, PAGE, handles_of, mappings_of, table_of
from runs import asked
from space import free_of
from texts import records_of
from units import shown
from words import taken

SECTORS = (512, 520, 528, 4096, 4104, 4160, 4224)
LEAST_ARENA, GREATEST_ARENA = 16 << 20, 512 << 30


def hint(run, text):
    """The lines for a run's text; none if nvd knows no more of it."""
    lines = known_of(run, text)
    # the fault of one object, one region or one pair of namespaces may not be the only one
    if re.fullmatch(r"image (labels \d+ Size|labels Overlap|contents|badranges|region) .*", text):
        lines.append("'nvd IN - check' lists everything that is wrong with the set")
    return lines


def hint_of_line(run, line):
    """The lines for one line of a whole set's check: those for the same fault of another command."""
    return known_of(run, re.sub("^fault ", "image ", line)) if line.startswith(("fault contents ", "fault labels ")) else []


def known_of(run, text):
    for form, lines in FORMS:
        found = re.fullmatch(form, text)
        if found:
            try:
                return list(lines(run, *map(int, found.groups())))
            except (OSError, LookupError, ValueError):
                return []
    return []


def records(run, command):
    status, text = asked(run.program, [run.source, "-", command])
    return [] if status else records_of(text)


def options_of(run):
    return {name.lstrip("-"): value for name, value, _, _ in taken(run.command, run.words[3:])[0]}


def free_in(run, region):
    """The most bytes that a create takes in a region; 0 if it is no set."""
    return next((it["largest"] for it in free_of(run.source, records(run, "nfit"), records(run, "list")) if it["region"] == region), 0)


def no_space(run, _):
    if run.command == "create":
        region = int(options_of(run)["region"])
        yield f"the largest size that fits into region {region} is {free_in(run, region)} bytes: 'nvd IN - free' shows each region"


def bad_size(run, size):
    """Which rule a size breaks, and the nearest ones that keep them all."""
    if run.command != "create":
        return
    asked_for = options_of(run)
    number, makes_sectors, sector = int(asked_for["region"]), asked_for["mode"] == "sector", int(asked_for.get("sector", 512))
    region = next((fields for kind, fields in records(run, "nfit") if kind == "region" and fields["region"] == number and "fault" not in fields), None)
    if region is None:
        return
    ways, unit = len(region["modules"]), region["unit"]
    step, most = unit * ways, free_in(run, number)
    if makes_sectors and sector not in SECTORS:
        yield f"sectors of {sector} bytes aren't made: --sector is one of {', '.join(map(str, SECTORS))}"
    broken = []
    if size == 0 or size % step:
        parts = f", {unit}, times its {ways} modules" if ways > 1 else ""
        broken.append(f"no positive multiple of {shown(step)} bytes, which is the unit of region {number}{parts}")
    if makes_sectors and size < LEAST_ARENA:
        broken.append(f"below the least size of an arena, {shown(LEAST_ARENA)} bytes")
    if makes_sectors and size > GREATEST_ARENA:
        broken.append(f"above the greatest size of an arena, {shown(GREATEST_ARENA)} bytes")
    if broken:
        yield f"--size {size} is {' and '.join(broken)}"
    low, high = (LEAST_ARENA, min(most, GREATEST_ARENA)) if makes_sectors else (step, most)
    low, high = -(-low // step) * step, high // step * step
    if low > high:
        yield f"no size fits into region {number}: {most} bytes are free there at one offset; 'nvd IN - free' shows each region"
        return
    if broken:
        near = {min(max(it, low), high) for it in (size // step * step, -(-size // step) * step)}
        yield f"the nearest that fit are {' and '.join(shown(it) for it in sorted(near))} bytes" if len(near) > 1 else f"the nearest that fits is {shown(near.pop())} bytes"


def contents_size(run, module, size):
    """Why a module's contents have no size that they may have."""
    table = table_of(run.source)
    handles = handles_of(table)
    due = max((it["start"] + it["size"] for it in mappings_of(table) if it["handle"] == handles[module]), default=0)
    path = os.path.join(run.source, f"contents-{module}.bin")
    if size < due:
        yield (f"'{path}' is cut off: by the firmware's table module {module} has at least {shown(due)} bytes, so {due - size} bytes are missing at its end; "
               "copy it again, and see that the disk has room")
    elif size % PAGE:
        yield f"'{path}' isn't cut off below what the table names, {due} bytes, but has {size % PAGE} bytes more than a multiple of {PAGE}"
    else:
        whole = sum(os.path.getsize(os.path.join(run.source, f"contents-{it}.bin")) for it in range(module + 1))
        if whole > LIMIT:
            yield f"the modules up to {module} have {shown(whole)} bytes together, and a set has at most {shown(LIMIT)}"


def labels_size(run, module, size):
    """Whether a label area was cut off: its index blocks count its slots."""
    import struct

    path = os.path.join(run.source, f"labels-{module}.bin")
    with open(path, "rb") as file:
        front = file.read(128)
    if front.startswith(b"NAMESPACE_INDEX\0") and len(front) >= 64:
        start, = struct.unpack_from("<Q", front, 48)
        slots, = struct.unpack_from("<I", front, 56)
        due = start + 256 * slots
        if size < due <= 1 << 20:
            yield f"'{path}' is cut off: its index block counts {slots} slots, so the area has at least {shown(due)} bytes, and {due - size} are missing; copy it again"
    if size > 1 << 20:
        yield f"'{path}' has more than the limit, {shown(1 << 20)} bytes"
    elif size < 1024:
        yield f"'{path}' has fewer than the least size of a label area, 1024 bytes"


def broken_arena(run):
    """An arena's first fault may not be the only one, and most of it may be readable."""
    yield "'nvd IN OUT check UUID' lists everything that is wrong with the arenas of a namespace, and with --repair it mends what needs no guess"
    if run.command != "rescue":
        yield "'nvd IN - rescue UUID >FILE' prints all sectors that can still be read"


def not_sector(run):
    """A namespace without a map loses nothing of it."""
    if run.command == "rescue":
        yield "'nvd IN - export UUID >FILE' prints all bytes of a raw namespace"


FORMS = [(r"refused NotSector", not_sector), (r"refused NoSpace (\d+)", no_space), (r"refused BadSize (\d+)", bad_size), (r"image contents (\d+) Size (\d+)", contents_size),
         (r"image labels (\d+) Size (\d+)", labels_size), (r"image arena .*", broken_arena)]
