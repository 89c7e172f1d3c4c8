#!/usr/bin/env python3
"""Proves the libraries below a crate into out/proved/, and prints a line for each on standard error. A library there is not proved again if its
sources are the same and those below it state the same:

    prove.py CRATE ..    for `scripts/quick`, which then proves each function of the crate that changes

Of a program it proves and builds the crate too: the script `bitpack` calls it for bitpack_main. All that is below bitpacking_c takes six
minutes on four cores. The rest of what is printed goes to out/build.log. The status is 0, 1 if a proof failed, or 2 if it was called wrongly.
"""
import os
import re
import sys

sys.path.insert(1, f"{sys.path[0]}/..")
from common import ROOT, missing, words
import proving


def prove(crate, tell):
    if os.path.isfile(f"{ROOT}/crates/{crate}/src/main.rt"):
        proving.program(crate, tell)
    for below in proving.libraries(crate):
        proving.library(below, tell)


def main():
    crates = words()
    unknown = [f"crate {it}" for it in crates if it not in proving.crates()] + missing("rt")
    if unknown or not crates:
        print(f"prove.py: there is no {' and no '.join(unknown)}" if unknown else __doc__.split("\n\n")[1], file=sys.stderr)
        return 2
    os.makedirs(f"{ROOT}/out", exist_ok=True)
    with open(f"{ROOT}/out/build.log", "w", encoding="utf-8") as log:

        def tell(crate, line):
            log.write(line)
            log.flush()
            if proved := re.match(r"logic=proved functions=(\d+)", line):
                print(f"proved {crate}, functions: {proved[1]}", file=sys.stderr, flush=True)

        try:
            for crate in crates:
                prove(crate, tell)
        except (proving.Failed, KeyboardInterrupt) as why:
            # The script `bitpack` shows the end of the log, so what is not proved is there once more.
            print(f"{why.said}{why}" if isinstance(why, proving.Failed) else "interrupted", file=log)
            print(f"prove.py: {why or 'interrupted'}; the log is {log.name}", file=sys.stderr)
            return 1
    return 0


if __name__ == "__main__":
    sys.exit(main())
