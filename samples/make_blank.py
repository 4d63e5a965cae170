#!/usr/bin/env python3
"""Makes an image set of blank modules: no index blocks, no namespaces, contents of zeros.

All modules together are region 0, an interleave set with lines of 4,096 bytes. The firmware's table is written from the
fields of ACPI 6.5, section 5.2.25, without the program.
usage: make_blank.py DIRECTORY [--modules N] [--size BYTES] [--labels BYTES]

N is 1 to 64 (default 2). --size is the contents of each module: a multiple of 4,096, at most 16 TiB in all modules together
(default 1 MiB). --labels is the label area of each module: a multiple of 256 from 1,024 to 1 MiB (default 128 KiB). Sizes may end with K,
M, G or T, as 64K. The files are holes, so they take no room until something is written.
"""
import argparse
import os
import sys

sys.dont_write_bytecode = True
HERE = os.path.dirname(os.path.realpath(__file__))
sys.path.insert(0, os.path.join(os.path.dirname(HERE), "lib"))
from formats import LIMIT, PAGE as LINE, blank_table  # noqa: E402
from units import size_word  # noqa: E402



def main():
    words = argparse.ArgumentParser(description="Makes an image set of modules that nothing was written to yet.")
    words.add_argument("directory")
    words.add_argument("--modules", type=int, default=2, metavar="N")
    words.add_argument("--size", type=size_word, default=1 << 20, metavar="BYTES")
    words.add_argument("--labels", type=size_word, default=128 << 10, metavar="BYTES")
    asked = words.parse_args()
    if not 1 <= asked.modules <= 64:
        words.error(f"--modules {asked.modules}: a set has 1 to 64 modules")
    if asked.size <= 0 or asked.size % LINE or asked.modules * asked.size > LIMIT:
        words.error(f"--size {asked.size}: the contents of a module are a positive multiple of {LINE} bytes, and of all together at most {LIMIT}")
    if not 1024 <= asked.labels <= 1 << 20 or asked.labels % 256:
        words.error(f"--labels {asked.labels}: a label area is a multiple of 256 bytes from 1024 to {1 << 20}")
    try:
        os.mkdir(asked.directory)
    except FileExistsError:
        words.error(f"{asked.directory} is there already: name a directory that isn't, or remove it")
    except OSError as fault:
        words.error(f"{asked.directory} can't be made ({fault.strerror}): name another directory")
    with open(os.path.join(asked.directory, "nfit.bin"), "wb") as file:
        file.write(blank_table([asked.size] * asked.modules))
    sizes = {"complete": 0}
    for m in range(asked.modules):
        sizes |= {f"labels-{m}.bin": asked.labels, f"contents-{m}.bin": asked.size}
    for name, size in sorted(sizes.items(), reverse=True):
        path = os.path.join(asked.directory, name)
        try:
            with open(path, "wb") as file:
                file.truncate(size)
        except OSError as fault:
            words.error(f"{path} can't have {size} bytes ({fault.strerror}): take a smaller --size, or a directory on another file system")


if __name__ == "__main__":
    main()
