"""Sizes with units: 16K is 16384."""
import re

UNITS = {"": 1, "K": 1 << 10, "M": 1 << 20, "G": 1 << 30, "T": 1 << 40}


def bytes_of(text):
    """A size in plain bytes; None if it is no size with a unit."""
    found = re.fullmatch(r"(0|[1-9]\d*)([KMGTkmgt])(?:i?[Bb])?", text)
    return int(found.group(1)) * UNITS[found.group(2).upper()] if found else None


def plain_or_bytes(text):
    """A size in plain bytes, with a unit or without; None if it is no size."""
    return int(text) if re.fullmatch(r"0|[1-9]\d*", text) else bytes_of(text)


def size_word(text):
    """A size of a script's command line, for argparse."""
    import argparse

    size = plain_or_bytes(text)
    if size is None:
        raise argparse.ArgumentTypeError(f"'{text}' is no size: give bytes in decimal digits, or a number with K, M, G or T")
    return size


def shown(size):
    """A size as bytes, and with the largest unit that it is a multiple of."""
    for unit in "TGMK":
        if size and size % UNITS[unit] == 0:
            return f"{size} ({size // UNITS[unit]}{unit})"
    return str(size)
