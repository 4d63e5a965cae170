"""What the scripts on sessions share: a set of four namespaces, scripts of sessions on them, and the time that a run of one takes."""
import os
import random
import shutil

from rows import timed

ROUNDS, ARENA, WRITE, READ = 15, 16 << 20, 255 + 128 + 9, 64 + 4
SECTORS = 32000
UUIDS = [f"{k * 8}-{k * 4}-4{k * 3}-8{k * 3}-{k * 12}" for k in "1234"]
DRAW = random.Random(1)
KINDS = {"mixed calls": lambda: DRAW.random() < 0.5, "reads": lambda: False, "writes": lambda: True}


class Sessions:
    """Runs of `serve` on a set, which it makes below the directory `work` from `work/blank`."""

    def __init__(self, program, work):
        self.program, self.out, self.script = program, os.path.join(work, "out"), os.path.join(work, "script")
        self.folder, self.work, self.number = os.path.join(work, "blank"), work, 0
        self.change("init", "0")
        for who in UUIDS:
            self.change("create", "--uuid", who, "--name", who, "--region", "0", "--size", str(ARENA), "--mode", "sector")
            _, _, text = timed([program, self.folder, "-", "info", who])
            with open(self.script, "wb") as to:
                to.write(b"".join(bytes([it % 255 + 1]) * 512 for it in range(int(text.split()[5]))))
            # a read of a sector that was never written looks at its map entry alone
            self.change("import", who, data=self.script)

    def change(self, *words, data=None):
        """Makes the next set by a command."""
        made, self.number = os.path.join(self.work, f"set{self.number}"), self.number + 1
        timed([self.program, self.folder, made, *words], lambda text: text == b"ok\n", script=data)
        shutil.rmtree(self.folder)
        self.folder = made

    def took(self, workers, *sessions):
        """The seconds of a script, by so many workers."""
        with open(self.script, "w", encoding="ascii") as to:
            to.write("".join(f"{line}\n" for lines, _ in sessions for line in lines))
        words = [self.program, self.folder, self.out, "serve", "--workers", str(workers)]
        found = timed(words, lambda text: b"refused" not in text and b"cut" not in text, script=self.script)[0]
        shutil.rmtree(self.out)
        return found

    def beyond(self, ways):
        """The median seconds of each way, beyond its way `none`; the ways take turns."""
        rounds = [{name: self.took(*way) for name, way in ways.items()} for _ in range(ROUNDS)]
        return {name: sorted(it[name] - it["none"] for it in rounds)[ROUNDS // 2] for name in ways if name != "none"}

    def four(self, is_write, own, calls, by=(1, 2, 4)):
        """The seconds that four sessions take by so many workers, beyond the same without calls."""
        sessions, empty = [session(q, calls, is_write, own) for q in range(4)], [session(q, 0, own=own) for q in range(4)]
        return {workers: self.beyond({"none": (workers, *empty), "calls": (workers, *sessions)})["calls"] for workers in by}


def session(q, calls, is_write=KINDS["mixed calls"], own=True):
    """The lines of session q on its own namespace, or on the first one, and its least steps."""
    lines, steps = [f"session {q}", f"open {UUIDS[q if own else 0]}"], 0
    for _ in range(calls):
        sector, write = DRAW.randrange(SECTORS), is_write()
        lines.append(f"write {sector} fill:{DRAW.randrange(256):02x}" if write else f"read {sector}")
        steps += WRITE if write else READ
    return [*lines, "close"], steps


def nanos(seconds, calls):
    return f"{seconds / calls * 1e9:.0f} ns"
