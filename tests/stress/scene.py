"""Scripts with every kind of line, on a set of two modules with two sector namespaces, a raw one, and room for others.

What a script leaves is what the next one begins with, if the three namespaces are still whole there.
"""
import os
import random
import shutil

from account import Events, Known, Region, replies_of, said_of_cuts, said_of_list, said_of_overlaps, said_of_sectors, said_of_session
from program import Sectors, listing, made_set, must, run, shape_of
from scripts import Generator, with_wrong_line

FIRST, SECOND, RAW, *OTHERS = (f"{it * 8}-{it * 4}-4{it * 3}-8{it * 3}-{it * 12}" for it in "1234567")
ARENA, MODULE = 16 << 20, 24 << 20


class State:
    """A set: its directory, its namespaces once labels are recovered, and the sectors of those that sessions open."""

    def __init__(self, folder, listed, sectors):
        self.folder, self.listed, self.sectors = folder, listed, sectors


class Scene:
    """The sets, the script at hand, and what it left."""

    def __init__(self, work):
        self.work, self.script, self.what, self.left, self.wanted = work, os.path.join(work, "script"), "", None, None
        folder = made_set(work, "scene", MODULE, 2, (FIRST, "--name", "a", "--size", ARENA, "--mode", "sector", "--lanes", 4),
                          (SECOND, "--name", "b", "--size", ARENA, "--mode", "sector", "--sector", 4096, "--lanes", 1), (RAW, "--name", "r", "--size", 1 << 20, "--mode", "raw"))
        listed = listing(folder)
        self.shapes, self.region = [shape_of(folder, it) for it in (FIRST, SECOND)], Region(2, 4096)
        self.arenas = [(it["module"], it["start"], it["length"]) for uuid in (FIRST, SECOND) for it in listed[uuid]["extents"]]
        self.fill(folder)
        self.base = self.now = State(folder, listed, {it.uuid: Sectors(folder, it) for it in self.shapes})
        self.broken = State(self.spoiled(folder), listed, {FIRST: self.base.sectors[FIRST]})
        self.folder = folder

    def fill(self, folder):
        """Gives the bytes outside the arenas values that differ from place to place."""
        for m in range(2):
            with open(os.path.join(folder, f"contents-{m}.bin"), "r+b") as file:
                for at in range(0, MODULE, 4096):
                    if not any(n == m and start <= at < start + length for n, start, length in self.arenas):
                        file.seek(at)
                        file.write((at + m).to_bytes(8, "little") * 512)

    def spoiled(self, folder):
        """Returns a copy of a set with another byte in the second namespace's info block."""
        out, (module, start, _) = os.path.join(self.work, "broken"), self.arenas[2]
        shutil.copytree(folder, out)
        with open(os.path.join(out, f"contents-{module}.bin"), "r+b") as file:
            file.seek(start + 16)
            file.write(b"\xff")
        return out

    def beside(self, folder):
        """Returns the bytes of the modules outside the arenas."""
        out = []
        for m in range(2):
            with open(os.path.join(folder, f"contents-{m}.bin"), "rb") as file:
                data = bytearray(file.read())
            for n, start, length in self.arenas:
                if n == m:
                    data[start : start + length] = bytes(length)
            out.append(data)
        return out

    def one(self, seed, number):
        """Runs one script, which a number draws, and says what is wrong."""
        draw, out = random.Random(f"{seed} {number}"), os.path.join(self.work, f"out{number}")
        is_wrong, is_broken, workers = draw.random() < 0.08, draw.random() < 0.08, draw.choice((1, 2, 4, 8, 64))
        state = self.broken if is_broken else self.now
        self.folder = state.folder
        script = Generator(draw, self.shapes, lambda shape, sector: state.sectors[shape.uuid].value(sector) if shape.uuid in state.sectors else "", OTHERS, RAW, self.region).script()
        text, due = with_wrong_line(draw, script) if is_wrong else (script.text(), "")
        opens = any(line[:2] == ("open", SECOND) for session in script.sessions for line in session.lines)
        if is_broken and opens and not is_wrong:
            due = f"image arena {SECOND} 0 Info Checksum"
        with open(self.script, "w", encoding="utf-8") as file:
            file.write(text)
        self.what = f"script {number} of seed {seed} by {workers} workers" + ", with a broken arena" * is_broken
        status, said = run([state.folder, out, "serve", "--workers", workers, "--evict", draw.randrange(1 << 64)], self.script)
        if status != (0 if not due else 2 if is_wrong else 3) or due and said.decode() != f"{due}\n":
            yield f"status {status} and {said[:200]!r}, and it has to be {due or 'status 0'}"
        elif due and os.path.exists(out):
            yield "nothing was to be saved, and OUT is there"
        elif not due:
            yield from self.said(script, said.decode(), state, out, workers == 1)

    def said(self, script, text, before, out, in_order):
        """Says what is wrong with replies, and with what is left once labels are recovered. `in_order`: one worker ran the sessions."""
        replies = replies_of(text, len(script.sessions))
        if replies is None:
            yield f"the text isn't that of {len(script.sessions)} sessions: {text[:200]!r}"
            return
        events, known = Events(), Known(script, self.shapes, self.region, before.listed, in_order)
        for q, (session, own) in enumerate(zip(script.sessions, replies)):
            yield from said_of_session(q, session, own, known, events)
        yield from said_of_cuts(script, replies)
        yield from said_of_overlaps(listing(out))
        after = self.recovered(out, before)
        yield from said_of_overlaps(after.listed)
        yield from said_of_list(script, replies, known, before.listed, after.listed)
        if self.beside(after.folder) != self.beside(before.folder):
            yield "bytes outside the arenas differ"
        yield from said_of_sectors(events, lambda uuid, sector: before.sectors[uuid].value(sector),
                                   lambda uuid, sector: after.sectors[uuid].value(sector) if uuid in after.sectors else None)
        for uuid, found in after.sectors.items():
            yield from before.sectors[uuid].differing(found, {it for other, it in events.sectors if other == uuid})
        shutil.rmtree(after.folder)
        self.left = State(out, after.listed, after.sectors)

    def recovered(self, out, before):
        """Returns the state of a set after recovery: that of a `serve` without sessions."""
        folder = os.path.join(self.work, "recovered")
        shutil.rmtree(folder, ignore_errors=True)
        must(out, folder, "serve")
        listed = listing(folder)
        return State(folder, listed, {it.uuid: Sectors(folder, it) for it in self.shapes if it.uuid in before.sectors and listed.get(it.uuid, {}).get("status") == "complete"})

    def go_on(self):
        """Takes what was left for the next script, or the first set again if something of it is gone."""
        left, self.left = self.left, None
        if left is None:
            return
        if self.now is not self.base:
            shutil.rmtree(self.now.folder)
        whole = len(left.sectors) == 2 and RAW in left.listed and all(it["status"] == "complete" for it in left.listed.values())
        self.now = left if whole else self.base
        if not whole:
            shutil.rmtree(left.folder)
