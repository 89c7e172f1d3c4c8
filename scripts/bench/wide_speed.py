#!/usr/bin/env python3
"""Measures wide sets of 100,000 ids from C++, beside Roaring64Map of Debian's CRoaring, which is 1. Prints the table of docs/SPEED.md:

    scripts/bench/wide_speed.py [--core N]

Both take turns in one process, and their answers have to be the same. It needs g++, and of Debian libroaring-dev.
"""
import argparse
import os
import sys
import tempfile

sys.path.insert(1, f"{sys.path[0]}/..")
from common import Failed, called, left_out_without, report
import measured

COLUMNS = ["bits an id", "pack/unpack/contains", *(f"AND/OR/NOT/XOR {it}" for it in ("to ids", "to a set", "counted"))]


def main():
    parser = argparse.ArgumentParser(description=__doc__, formatter_class=argparse.RawDescriptionHelpFormatter)
    parser.add_argument("--core", type=int)
    core = parser.parse_args().core
    if core is not None:
        os.sched_setaffinity(0, {core})
    library = measured.library()
    with tempfile.TemporaryDirectory() as folder:
        measured.program(f"{folder}/wide", "wide_speed", library, "-O2", "-lroaring")
        print(measured.head(library))
        print(f"Roaring64Map = 1|{'|'.join(COLUMNS)}\n---{'|---' * len(COLUMNS)}")
        print(called(f"{folder}/wide"), end="")


if __name__ == "__main__":
    main()
