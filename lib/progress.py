"""A line on a terminal that shows what a long command does, and how long it has been at it."""
import os
import sys
import time

# how often a line is said if standard error is no terminal
SELDOM = 60


class Progress:
    """Shows nothing for the first second; on a terminal a line that is written over, else a line a minute."""

    def __init__(self, what):
        self.what, self.start, self.shown = what, time.monotonic(), 0.0
        self.is_quiet = bool(os.environ.get("NVD_QUIET"))
        self.on_terminal = sys.stderr.isatty() and os.environ.get("TERM") != "dumb" and not self.is_quiet

    def __enter__(self):
        return self

    def show(self, more=""):
        spent = time.monotonic() - self.start
        if self.on_terminal and spent >= 1 and spent - self.shown >= 0.2:
            self.shown = spent
            sys.stderr.write(f"\r\033[Knvd: {self.what}{more}: {spent:.0f} s")
            sys.stderr.flush()
        elif not self.on_terminal and not self.is_quiet and spent - self.shown >= SELDOM:
            self.shown = spent
            sys.stderr.write(f"nvd: {self.what}{more}: {spent:.0f} s so far\n")
            sys.stderr.flush()

    def clear(self):
        """Takes the line away before another one is printed."""
        if self.on_terminal and self.shown:
            sys.stderr.write("\r\033[K")
            sys.stderr.flush()

    def __exit__(self, *_):
        self.clear()
