"""What `rescue` has to print of a sector namespace, worked out from the files of a set alone.

The rules are those of docs/commands/rescue.md, over the arenas of wholeset.py; the program
isn't asked. `answers` gives the bytes and the text of `--lost`, each with its status.
tests/rows compares both with the program on all sets of its rows of `check` and of repairs. The
set must be one that is loaded: nothing is said of objects with a fault.
"""
import os
import sys
from collections import Counter

sys.dont_write_bytecode = True
sys.path.insert(1, os.path.dirname(os.path.realpath(__file__)))
from wholeset import WORD, Set, Space  # noqa: E402

INITIAL, BAD, ZERO, NORMAL = range(4)
DONE, IMAGE, REFUSED = 0, 3, 4


class Rescue:
    """What can be read of an arena: what it stands on, which moves are made, and what is lost."""

    def __init__(self, arena):
        self.arena, self.moves, self.losses = arena, [], {}
        self.notes = [f"Info {arena.fault}"] if arena.fault else []
        if not arena.info:
            return
        groups = list(arena.groups())
        self.notes += [fault for _, fault in groups if fault]
        self.notes += arena.bad_meta()
        halves = [half for lane, (half, fault) in enumerate(groups)
                  if not fault and not self.is_bad(arena.log + 64 * lane, 64)]
        self.entries = arena.entries()
        self.moves = arena.pending(self.entries, halves)
        for sector, _, new in self.moves:
            self.entries[sector] = NORMAL << 30 | new
        self.look_for_losses([old for _, old, _ in halves])

    def is_bad(self, at, count):
        """Whether one of these bytes of the arena is in a bad word."""
        return self.arena.space.is_bad(self.arena.at + at, count)

    def is_known(self, sector):
        """Whether the map word of a sector, which has two entries, isn't bad."""
        return not self.is_bad(self.arena.map + sector // 2 * WORD, WORD)

    def look_for_losses(self, free):
        """Finds the lost sectors, each with the first reason; lanes that count own `free`."""
        known = [self.is_known(sector) for sector in range(len(self.entries))]
        counts = Counter(free)
        counts.update(self.block(sector) for sector, is_known in enumerate(known) if is_known)
        for sector, is_known in enumerate(known):
            why = self.loss(sector, counts) if is_known else "BadMap"
            if why:
                self.losses[sector] = why

    def loss(self, sector, counts):
        block = self.block(sector)
        if block >= self.arena.internal:
            return f"Range {block}"
        if counts[block] > 1:
            return f"Twice {block}"
        if self.entries[sector] >> 30 == BAD:
            return "Marked"
        return "BadData" if self.arena.is_bad_data(self.entries[sector], sector) else None

    def block(self, sector):
        return self.arena.block(self.entries[sector], sector)

    def lines(self, place):
        yield from (f"arena {place} {it}" for it in self.notes)
        yield from (f"arena {place} moved {sector} {old} {new}" for sector, old, new in self.moves)
        yield from (f"arena {place} lost {sector} {why}" for sector, why in self.losses.items())

    @property
    def lost(self):
        """How many sectors are lost; an arena without an info block counts as one."""
        return len(self.losses) if self.arena.info else 1

    def bytes(self):
        """The bytes of its sectors, a lost one as zeros."""
        arena = self.arena
        if not arena.info:
            return b""
        blocks = arena.space.read(arena.at + arena.data, arena.internal * arena.inner)
        out = bytearray(arena.external * arena.sector)
        for sector, entry in enumerate(self.entries):
            if sector not in self.losses and entry >> 30 in (INITIAL, NORMAL):
                at, to = self.block(sector) * arena.inner, sector * arena.sector
                out[to : to + arena.sector] = blocks[at : at + arena.sector]
        return bytes(out)


def text_of(missing, rescues):
    """The lines on missing labels and on what is lost, and the last one."""
    lost = sum(it.lost for it in rescues)
    lines = [f"labels {number} Missing" for number in sorted(missing)]
    lines += [line for place, it in enumerate(rescues) for line in it.lines(place)]
    return "".join(f"{it}\n" for it in [*lines, f"lost {lost}" if lost else "whole"])


def is_disputed(namespaces, found):
    """Whether a label of another namespace has bytes in the place of a missing label."""
    for number in found.missing():
        start = found.region.mapping_of(number).start + found.relative(found.labels[0])
        end = start + found.labels[0].raw
        others = [it for other in namespaces if other.uuid != found.uuid for it in other.labels]
        if any(it.module == number and it.dpa < end and start < it.dpa + it.raw for it in others):
            return True
    return False


def is_placed(namespaces, found):
    """Whether it is known where a namespace lies: its labels are complete; or some are missing,
    nothing else is wrong, and no other namespace claims the place of one that is missing."""
    if found.is_complete:
        return True
    is_short = found.faults[:1] and found.faults[0].startswith("Missing ") and not found.notice
    return bool(is_short) and not is_disputed(namespaces, found)


def refusal(looked_at, uuid):
    """Why the namespace isn't looked into: the status and the text; None if it is."""
    parts = looked_at.parts
    overlaps = [it for it in parts["namespaces"] if it.startswith("fault labels Overlap ")]
    faults = parts["regions"] or overlaps
    if faults:
        return IMAGE, f"image {faults[0][len('fault '):]}\n"
    found = next((it for it in looked_at.namespaces if it.uuid == uuid), None)
    if not found:
        return REFUSED, "refused NoSuch\n"
    if not found.is_complete and not is_placed([], found):
        return REFUSED, "refused NotComplete\n"
    if not found.has_sectors:
        return REFUSED, "refused NotSector\n"
    return None if is_placed(looked_at.namespaces, found) else (REFUSED, "refused NotComplete\n")


def rescues_of(looked_at, namespace):
    """What can be read of each arena of a namespace."""
    space = Space(looked_at.files, namespace, looked_at.records)
    return [Rescue(arena) for _, arena in space.arenas()]


def answers(folder, uuid):
    """The status and what is printed, without `--lost` and with it, both as bytes."""
    looked_at = Set(folder)
    refused = refusal(looked_at, uuid)
    if refused:
        return [(refused[0], refused[1].encode())] * 2
    namespace = next(it for it in looked_at.namespaces if it.uuid == uuid)
    rescues = rescues_of(looked_at, namespace)
    text = text_of(namespace.missing(), rescues)
    first = rescues[0].arena
    plain = DONE, b"".join(it.bytes() for it in rescues)
    if not first.info:
        plain = IMAGE, f"image arena {uuid} 0 Info {first.fault}\n".encode()
    return [plain, (DONE if text.endswith("whole\n") else IMAGE, text.encode())]
