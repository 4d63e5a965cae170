"""The checksums of the sources and of programs, kept by each file's length, times and number, so that a run reads no file twice."""
import os
import time

try:
    from _blake2 import blake2b
except ImportError:
    from hashlib import blake2b

from places import CRATE, TOP, cache, text_of

# of a crate: what a program is made of, and what its proof is made of
SOURCES, ALL = ("src",), ("src", "specs", "proofs")
# A file that changed so short a while ago may change again within one tick of the file system's clock.
FRESH = 2.0


def files_in(parts):
    """The files of these folders of all crates, and crates.txt: their paths below TOP and what the system says of them."""
    found = []
    for name in os.listdir(os.path.join(TOP, "crates")):
        waiting = [f"crates/{name}/{part}" for part in parts]
        while waiting:
            folder = waiting.pop()
            try:
                entries = os.scandir(f"{TOP}/{folder}")
            except OSError:
                continue
            with entries:
                for it in entries:
                    said = it.stat(follow_symlinks=False)
                    if said.st_mode & 0o170000 == 0o040000:
                        waiting.append(f"{folder}/{it.name}")
                    else:
                        found.append((f"{folder}/{it.name}", said))
    found.append(("crates.txt", os.stat(os.path.join(TOP, "crates.txt"))))
    return found


def sum_of_file(path):
    from hashlib import sha256

    total = sha256()
    with open(path, "rb") as file:
        while piece := file.read(1 << 20):
            total.update(piece)
    return total.hexdigest()


def mark_of(said):
    return f"{said.st_size} {said.st_mtime_ns} {said.st_ctime_ns} {said.st_ino}"


class Sums:
    """Checksums that were made before, and those that are made now."""

    def __init__(self):
        self.path, self.known = None, {}
        for folder in (os.path.join(CRATE, "out"), os.path.join(cache(), blake2b(os.fsencode(TOP), digest_size=8).hexdigest())):
            if os.access(folder, os.W_OK) or folder.startswith(cache()):
                self.path = os.path.join(folder, "sums")
                break
        for line in (text_of(self.path) or "").splitlines():
            key, stamp, total = line.rsplit(" ", 2) if line.count(" ") >= 2 else ("", "", "")
            self.known[key] = stamp, total

    def made(self, key, marks, newest, make):
        stamp = blake2b("\n".join(marks).encode(errors="surrogateescape"), digest_size=16).hexdigest()
        if self.known.get(key, ("", ""))[0] == stamp:
            return self.known[key][1]
        total = make()
        if abs(time.time() - newest) > FRESH:
            self.known[key] = stamp, total
            self.keep()
        return total

    def keep(self):
        """Writes what is known; a folder that can't be written makes the next run slower."""
        try:
            os.makedirs(os.path.dirname(self.path), exist_ok=True)
            with open(f"{self.path}.{os.getpid()}", "w", encoding="utf-8", errors="surrogateescape") as file:
                file.writelines(f"{key} {stamp} {total}\n" for key, (stamp, total) in self.known.items() if key)
            os.replace(f"{self.path}.{os.getpid()}", self.path)
        except OSError:
            pass

    def of_sources(self, parts):
        """The checksum of the sources: that of the lines that sha256sum prints of them, in the order of their paths."""
        found = sorted(files_in(parts), key=lambda it: os.fsencode(it[0]))

        def make():
            from hashlib import sha256

            total = sha256()
            for path, _ in found:
                total.update(f"{sum_of_file(os.path.join(TOP, path))}  {path}\n".encode(errors="surrogateescape"))
            return total.hexdigest()

        return self.made("+".join(parts), [f"{path} {mark_of(said)}" for path, said in found], max(it.st_ctime for _, it in found), make)

    def of_program(self, path):
        """The checksum of a program; None if there is none that may be run."""
        try:
            said = os.stat(path)
        except OSError:
            return None
        if not os.access(path, os.X_OK) or not os.path.isfile(path):
            return None
        return self.made(path, [mark_of(said)], said.st_ctime, lambda: sum_of_file(path))
