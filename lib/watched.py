"""Shows on a terminal how far a long command has come: how much of its input is read, of OUT written, or of a namespace printed."""
import os
import stat
import time

from commands import commands, writes
from progress import Progress

MIB = 1 << 20
# what prints the bytes of a namespace
STREAMING = ("export", "rescue")


def watcher(words):
    """What watches a run with these words; None if there is nothing to show, or no terminal."""
    row = commands().get(words[2]) if len(words) > 2 else None
    if row and (writes(words) or row.name in STREAMING and not os.isatty(1)):
        return Watcher(row, words)
    return None


def size_of(folder):
    """The bytes of the files of a directory; None if it isn't there."""
    try:
        return sum(it.stat().st_size for it in os.scandir(folder))
    except OSError:
        return None


def place_in(descriptor):
    """How far a regular file has been read or written, and its size; None if it is none."""
    try:
        said = os.fstat(descriptor)
        return (os.lseek(descriptor, 0, os.SEEK_CUR), said.st_size) if stat.S_ISREG(said.st_mode) else None
    except OSError:
        return None


def has_text(reader):
    import select

    return bool(select.select([reader], [], [], 0)[0])


class Watcher:
    """One run. The line of progress would mix with the program's text on a terminal, so that text waits here until the line is gone."""

    def __init__(self, row, words):
        self.row, self.source, self.sink = row, words[0], words[1]
        self.takes_text = row.writes and os.isatty(1)
        self.whole = size_of(self.source) or 0

    def far(self):
        """How far it has come."""
        if self.row.name in STREAMING:
            place = place_in(1)
            return f" {place[0] // MIB} MiB" if place else ""
        written = size_of(self.sink)
        if written is not None:
            return f", writes OUT: {written // MIB} of {self.whole // MIB} MiB"
        place = place_in(0) if self.row.script else None
        return f", reads its input: {place[0] // MIB} of {place[1] // MIB} MiB" if place and place[0] < place[1] else ""

    def until_end(self, child, reader):
        """Shows how far the run has come, until it ends or its text begins to come from this pipe, if there is one."""
        with Progress(self.row.name) as shown:
            pause = 0.001
            while not os.waitid(os.P_PID, child, os.WEXITED | os.WNOHANG | os.WNOWAIT):
                time.sleep(pause)
                pause = min(pause * 2, 0.2)
                if reader is not None and pause == 0.2 and has_text(reader):
                    # text that fills the pipe must go on
                    break
                shown.show(self.far())
