#!/usr/bin/env python3
"""Counts the instructions of some calls of the Rust crate by valgrind, which is the same number on each machine: instructions.rs, a program over the
crate in a release for the default target. A call may run as many as were recorded here, times its limit. After a change that makes a call
faster, or with another compiler, write down what it prints.

It is left out without valgrind, or with another minor version of rustc, whose code is another one.
"""
import os
import re
import sys
import tempfile

sys.path.insert(1, f"{sys.path[0]}/..")
from common import ROOT, called, leave_out, missing, reported, run, source
import by_cargo
from files import bytes_of, failed, written

COMPILER = "1.95"
# By call, the instructions, and the limit: of the last two it is near enough to see indexes or slices that are tested again.
RECORDED = {
    "ranking": (684134, 1.3),
    "advancing": (7203697, 1.3),
    "seeking": (12000, 1.3),
    "querying": (22113922, 1.3),
    "getting": (4302723, 1.15),
    "unpacking": (110284, 1.08),
}

# The package of the program, with the profile of the crate.
MANIFEST = f"""\
[package]
name = "instructions"
edition = "2024"

[dependencies]
bitpacking = {{ path = "{ROOT}" }}

[profile.release]
codegen-units = 1
lto = "fat"
panic = "abort"

[workspace]
"""


def counted(program, name, folder):
    """How many instructions a call runs, or what is wrong."""
    options = ["--tool=callgrind", "--toggle-collect=counted", f"--callgrind-out-file={folder}/{name}"]
    wrong = failed(run("valgrind", *options, program, name))
    return wrong or int(re.search(rb"^totals: (\d+)$", bytes_of(f"{folder}/{name}"), re.M)[1])


def checks():
    """Each call as a name and what is wrong, or None."""
    version = re.match(r"rustc (\d+\.\d+)", called("rustc", "--version"))[1]
    if missing("valgrind") or version != COMPILER:
        leave_out("the instructions of calls", f"since there is no valgrind, or rustc {version} is not {COMPILER}")
        return
    package = f"{by_cargo.OUT}/instructions"
    written(package, {"Cargo.toml": MANIFEST, "src/main.rs": source("scripts/test/instructions.rs")})
    # Of the copy of the modules that each processor runs.
    env = dict(os.environ, RUSTFLAGS="--cfg bitpacking_one_copy")
    by_cargo.called("cargo", "build", "--quiet", "--release", "--offline", "--target-dir", f"{package}/target", folder=package, env=env)
    with tempfile.TemporaryDirectory(prefix="instructions-") as folder:
        for name, (recorded, limit) in RECORDED.items():
            found = counted(f"{package}/target/release/instructions", name, folder)
            is_right = isinstance(found, int) and recorded / 2 <= found <= recorded * limit
            yield f"instructions of {name}", None if is_right else f"{found}, and {recorded} were recorded, with the limit {limit}"


if __name__ == "__main__":
    sys.exit(reported("the instructions of calls", checks, "cargo", "rustc"))
