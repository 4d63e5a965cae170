#!/usr/bin/env python3
"""Makes the image set samples/small: one module of 64 KiB with a label area of 4,096 bytes and two labels.

The files are written from the formats' own fields (UEFI 2.10, section 13.19; ACPI 6.5, section 5.2.25),
without the program, so the program's output checks both.
usage: make_small.py [DIRECTORY]
"""
import os
import sys
import uuid

sys.dont_write_bytecode = True
HERE = os.path.dirname(os.path.realpath(__file__))
sys.path.insert(0, os.path.join(os.path.dirname(HERE), "lib"))
from formats import VENDOR, control, cookie_of, index_block, label, mapping, memory_range, table  # noqa: E402


def nfit(handle, size, serial):
    """One persistent-memory range of one module, without an interleave structure."""
    return table([memory_range(1, size), mapping(handle, 1, 1, size), control(1, serial)])


def main():
    target = sys.argv[1] if len(sys.argv) > 1 else os.path.join(HERE, "small")
    contents, area_size, block_size, slots = 65536, 4096, 256, 14
    cookie = cookie_of([(0, 1, VENDOR)])
    labels = [
        label(uuid.UUID("2d2b7f5c-6d5b-4c58-9f0a-6a1a0f0c1e01"), b"boot", 0, 16384, cookie=cookie),
        label(uuid.UUID("7a0d9a44-0f1e-4f43-8a52-1f2d3c4b5a02"), 'Größe "q" \\ x'.encode(), 1, 32768, dpa=16384, cookie=cookie),
    ]
    area = index_block(0, 1, block_size, slots, range(1, slots)) + index_block(1, 2, block_size, slots, range(2, slots))
    area += b"".join(labels)
    area += bytes(area_size - len(area))
    files = {"nfit.bin": nfit(1, contents, 1), "labels-0.bin": area, "contents-0.bin": bytes(contents), "complete": b""}
    os.makedirs(target, exist_ok=True)
    for name, data in files.items():
        with open(os.path.join(target, name), "wb") as file:
            file.write(data)


if __name__ == "__main__":
    main()
