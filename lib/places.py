"""Where things are, and how nvd says something."""
import os
import sys

TOP = os.path.dirname(os.path.dirname(os.path.realpath(__file__)))
NVD = os.path.join(TOP, "nvd")
CRATE = os.path.join(TOP, "crates", "nvdimm_shell")
PROVED = os.path.join(CRATE, "out", "nvdimm_shell")
UNPROVED = os.path.join(CRATE, "out", "unproved", "nvdimm_shell")
RELEASE = os.path.join(TOP, "release")
PAGES = os.path.join(TOP, "docs", "commands")
FAULTS = os.path.join(PAGES, "FAULTS.md")
SMALL = os.path.join(TOP, "samples", "small")


class Ended(Exception):
    """The end of nvd with this status; all is said."""

    def __init__(self, status):
        super().__init__(status)
        self.status = status


def cache():
    """The user's folder for what can be made again; it may not exist."""
    home = os.environ.get("XDG_CACHE_HOME") or os.path.join(os.path.expanduser("~"), ".cache")
    return os.path.join(home, "nvd")


def say(text):
    print(f"nvd: {text}", file=sys.stderr, flush=True)


def tell(text):
    """Says what isn't a fault."""
    if not os.environ.get("NVD_QUIET"):
        say(text)


def text_of(path):
    """The text of a file; None if it can't be read."""
    try:
        with open(path, encoding="utf-8", errors="surrogateescape") as file:
            return file.read()
    except OSError:
        return None
