"""The holes of sparse files: what was never written is neither read nor copied."""
import os


def next_data(file, start, end):
    """The first place from `start` on to which something was written; `end` if there is none before it."""
    try:
        return min(os.lseek(file.fileno(), start, os.SEEK_DATA), end)
    except OSError:
        # no data any more
        return end


def pieces_of(file, start, end, most=1 << 20):
    """The bytes between two places to which something was written, so many at a time, each piece behind its place. All others are zero."""
    while (start := next_data(file, start, end)) < end:
        hole = min(os.lseek(file.fileno(), start, os.SEEK_HOLE), end)
        while start < hole:
            piece = os.pread(file.fileno(), min(hole - start, most), start)
            if not piece:
                raise OSError(0, "it became shorter while it was read", file.name)
            yield start, piece
            start += len(piece)


def copied(file, start, size, new, at):
    """Copies bytes of a file to a place in a new one, and returns how many; what was never written there stays unwritten."""
    if os.fstat(file.fileno()).st_size < start + size:
        raise OSError(0, "it became shorter while it was read", file.name)
    new.truncate(at + size)
    for place, piece in pieces_of(file, start, start + size):
        os.pwrite(new.fileno(), piece, at + place - start)
    return size


def copied_set(source, target):
    """Copies an image set to a new directory, `complete` last."""
    os.mkdir(target)
    for name in sorted(os.listdir(source), key=lambda it: it == "complete"):
        with open(os.path.join(source, name), "rb") as file, open(os.path.join(target, name), "xb") as new:
            copied(file, 0, os.fstat(file.fileno()).st_size, new, 0)
