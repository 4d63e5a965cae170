"""What the scripts of tests/ share: they count what they compare, print the differences, and last `N passed, M failed`."""
import os
import sys

sys.dont_write_bytecode = True
TOP = os.path.dirname(os.path.dirname(os.path.realpath(__file__)))
NVD = os.path.join(TOP, "nvd")
sys.path.insert(1, os.path.join(TOP, "lib"))
counts = {"passed": 0, "failed": 0}


def report(what, got, want):
    """Counts a comparison, and prints it if both differ."""
    counts["passed" if got == want else "failed"] += 1
    if got != want:
        print(f"differs: {what}: {got!r}, and it has to be {want!r}", flush=True)


def faultless(what, found):
    """Counts a check; `found` is what is wrong."""
    counts["failed" if found else "passed"] += 1
    if found:
        print(f"wrong: {what}:", *found, sep="\n  ", flush=True)


def says(text, noted):
    """True if nvd says this, else what it says."""
    return text in noted or noted


def counted():
    """Prints the counts: the exit status, 77 if nothing was compared."""
    print(f"{counts['passed']} passed, {counts['failed']} failed")
    return 1 if counts["failed"] else 0 if counts["passed"] else 77


def lines_of(name, wanted="it has to be"):
    """A report for tests/linux/run: a line that begins with `ok` or `differs`; `name` stands before what was compared."""
    front = f"{name} " if name else ""

    def line(what, got, want):
        print(f"ok {front}{what}" if got == want else f"differs {front}{what}: {got!r}, and {wanted}: {want!r}")

    return line
