"""Runs of 65,536 calls on a set with one sector namespace. What a run leaves is what the next one begins with."""
import os
import shutil

from account import Events, Known, replies_of, said_of_cuts, said_of_sectors, said_of_session
from formats import fletcher64
from program import Sectors, listing, made_set, run, shape_of
from scripts import load_script, race_script, with_cuts

UUID, ARENA, CALLS = "11111111-1111-4111-8111-111111111111", 16 << 20, 65536
KINDS = ("load", "cuts", "race", "race with cuts")


def played(script, sectors):
    """Returns the replies of sessions that have sectors of their own, if power stays on."""
    out = []
    for session in script.sessions:
        values, replies = {}, []
        for line in session.lines:
            if line[0] == "write":
                values[line[1]] = line[2]
            if line[0] == "read" and line[1] not in values:
                values[line[1]] = sectors.value(line[1])
            replies.append(f"ok {values[line[1]]}" if line[0] == "read" else "ok")
        out.append(replies)
    return out


def summary(script, replies):
    """Returns the text of `load`."""
    writes, reads = (sum(line[0] == kind for session in script.sessions for line in session.lines) for kind in ("write", "read"))
    text = "".join(f"session {q}\n" + "".join(f"{it}\n" for it in own) for q, own in enumerate(replies)).encode()
    return f"sessions {len(script.sessions)} calls {reads + writes} reads {reads} writes {writes}\nreplies {fletcher64(text + bytes(-len(text) % 4)):016x}\n"


def said_of_own(script, replies, due, before, after):
    """Says what is wrong if sessions have sectors of their own: then each reply and each sector is known."""
    last, other = {}, {}
    for q, (session, own, full) in enumerate(zip(script.sessions, replies, due)):
        whole = own[:-1] if own[-1:] == ["cut"] else own
        if whole != full[: len(whole)] or len(whole) < len(full) and whole is own:
            yield f"session {q}: its replies aren't those that are due: {own[:4]} .. {own[-2:]}"
        for line, reply in zip(session.lines, own):
            if line[0] == "write":
                (last if reply == "ok" else other)[line[1]] = line[2]
    for sector in {*last, *other}:
        may = {last.get(sector) or before.value(sector), other.get(sector)}
        if after.value(sector) not in may:
            yield f"sector {sector} has {after.value(sector)}, and it has to be one of {may}"
    yield from before.differing(after, {*last, *other})


class Store:
    """The set, the words and the script of the run at hand, and what it left."""

    def __init__(self, work, lanes):
        self.work, self.script, self.name, self.what = work, os.path.join(work, f"script-{lanes}"), f"lanes{lanes}", ""
        self.folder = made_set(work, self.name, ARENA, 1, (UUID, "--name", "a", "--size", ARENA, "--mode", "sector", "--lanes", lanes))
        self.shape, self.listed, self.left = shape_of(self.folder, UUID), listing(self.folder), None
        self.sectors = Sectors(self.folder, self.shape)

    def words(self, draw, kind, workers, sessions, calls):
        """Returns the words of a run, and its script."""
        number = draw.randrange(1 << 64)
        if kind.startswith("race"):
            script = race_script(draw, self.shape, lambda _, sector: self.sectors.value(sector), sessions, calls, 512)
        else:
            script = load_script(number, UUID, self.shape.sectors, sessions, calls)
        if kind == "load":
            return ["load", number, "--uuid", UUID, "--sessions", sessions, "--calls", calls, "--workers", workers], script
        if kind.endswith("cuts"):
            with_cuts(draw, script, calls * self.shape.write_steps() // 2)
        return ["serve", "--workers", workers, "--evict", number], script

    def one(self, draw, number):
        """Makes one run, and says what is wrong with it."""
        kind, workers, sessions = KINDS[number // 4 % 4], (1, 2, 4, 8)[number % 4], draw.choice((16, 32, 64, 128, 256, 512, 1024))
        self.what = f"run {number}: {kind}, {sessions} sessions by {workers} workers on {self.shape.lanes} lanes"
        words, script = self.words(draw, kind, workers, sessions, CALLS // sessions - 2)
        with open(self.script, "w", encoding="utf-8") as file:
            file.write(script.text())
        out = os.path.join(self.work, f"{self.name}-run{number}")
        status, text = run([self.folder, out, *words], self.script)
        if status:
            yield f"status {status} and {text[:200]!r}"
            return
        self.left = out, Sectors(out, self.shape)
        yield from self.said(kind, script, text.decode())

    def said(self, kind, script, text):
        """Says what is wrong with a text and with the set that was left."""
        out, after = self.left
        if listing(out) != self.listed:
            yield "`list` differs"
        replies = played(script, self.sectors) if kind == "load" else replies_of(text, len(script.sessions))
        if kind == "load" and text != summary(script, replies):
            yield f"the text is {text!r}, and it has to be {summary(script, replies)!r}"
        if replies is None:
            yield f"the text isn't that of {len(script.sessions)} sessions: {text[:200]!r}"
        elif kind in ("load", "cuts"):
            yield from said_of_cuts(script, replies)
            yield from said_of_own(script, replies, played(script, self.sectors), self.sectors, after)
        else:
            yield from self.said_of_race(script, replies, after)

    def said_of_race(self, script, replies, after):
        """Says what is wrong if sessions write the same sectors."""
        events, known = Events(), Known(script, [self.shape], None, self.listed)
        for q, (session, own) in enumerate(zip(script.sessions, replies)):
            yield from said_of_session(q, session, own, known, events)
        yield from said_of_cuts(script, replies)
        yield from said_of_sectors(events, lambda uuid, sector: self.sectors.value(sector), lambda uuid, sector: after.value(sector))
        yield from self.sectors.differing(after, {sector for _, sector in events.sectors})

    def go_on(self):
        """Takes the set that was left for the next run."""
        if self.left:
            shutil.rmtree(self.folder)
            (self.folder, self.sectors), self.left = self.left, None
