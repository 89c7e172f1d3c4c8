#!/usr/bin/env python3
"""Opens any bytes as sets, columns and bitmaps of the Rust crate for a minute, and reads and combines those that open: rust/fuzz/, with libFuzzer
and AddressSanitizer, since indexes are unchecked. It begins with the bytes of vectors/, alone and in pairs. It needs

    cargo and rustc of a nightly toolchain    rustup toolchain install nightly
    clang++ and libclang_rt.fuzzer            clang and libclang-rt-14-dev of Debian

It installs nothing, and is left out for want of one. `--seconds` and a number is another time. The last line is 'N passed, M failed'.
"""
import os
import re
import sys
import tempfile

sys.path.insert(1, f"{sys.path[0]}/..")
from common import ROOT, missing, reported, run, words
from files import bytes_of, failed, written
from rows import octets, table

OUT = f"{ROOT}/target/fuzz"
TARGET = "x86_64-unknown-linux-gnu"
# By file of vectors/, whose column is `bytes`: each row or each 16th, since all refused ones take longer than the minute.
SEEDS = {
    **{"id_sets": 1, "columns": 1, "bitmaps": 1, "wide_sets": 1},
    **{"refused_id_sets": 16, "refused_columns": 16, "refused_bitmaps": 4, "refused_wide_sets": 16},
}
# Longer bytes are no seeds, and none are made.
MOST = 4096
COVERAGE = ["level=4", "inline-8bit-counters", "pc-table", "trace-compares"]
FLAGS = ["-Z sanitizer=address", "-C passes=sancov-module", *(f"-C llvm-args=-sanitizer-coverage-{it}" for it in COVERAGE)]


def libraries():
    """By name the library of libFuzzer, and that of the sanitizer, which the nightly toolchain has; None for one that is not there."""
    clang = run("clang", "-print-resource-dir").stdout.strip()
    rust = run("rustc", "+nightly", "--print", "target-libdir").stdout.strip()
    paths = [f"{clang}/lib/linux/libclang_rt.fuzzer-x86_64.a", f"{rust}/librustc-nightly_rt.asan.a"]
    return {os.path.basename(it): it if os.path.isfile(it) else None for it in paths}


def build(folder, fuzzer, sanitizer):
    """Builds the program. Returns what is wrong, or None."""
    env = dict(os.environ, CARGO_TARGET_DIR=OUT, RUSTFLAGS=" ".join(FLAGS))
    command = ["cargo", "+nightly", "build", "--release", "--offline", "--locked", "--manifest-path", f"{ROOT}/rust/fuzz/Cargo.toml"]
    built = failed(run(*command, "--lib", "--target", TARGET, env=env))
    library = f"{OUT}/{TARGET}/release/libfuzz.a"
    parts = ["-Wl,--whole-archive", fuzzer, sanitizer, "-Wl,--no-whole-archive", library, "-lstdc++", "-lm", "-ldl", "-lpthread", "-lrt"]
    return built or failed(run("clang++", "-o", f"{folder}/fuzz", *parts))


def seeds():
    """The bytes of vectors/, and each two that are of neighbours, with the length of the first: rust/fuzz/lib.rs cuts them."""
    for name, step in SEEDS.items():
        found = [octets(row["bytes"]) for row in table(f"{name}.tsv")[::step]]
        short = [it for it in found if 0 < len(it) < MOST // 2]
        yield from short
        yield from (one + other + len(one).to_bytes(2, "little") for one, other in zip(short, short[1:]))


def checks(seconds, fuzzer, sanitizer):
    with tempfile.TemporaryDirectory(prefix="fuzz-") as folder:
        wrong = build(folder, fuzzer, sanitizer)
        yield "the build", wrong
        if wrong:
            return
        every = list(seeds())
        # All seeds once by each copy of the modules, however long that takes; and others made of some of them, for as long as was asked.
        first = dict(os.environ, BITPACKING_FIRST_COPY="1")
        times = [("all", every, "-runs=0", os.environ), ("first", every, "-runs=0", first)]
        for name, some, time, env in [*times, ("some", every[::10], f"-max_total_time={seconds}", os.environ)]:
            written(f"{folder}/{name}", {str(number): seed for number, seed in enumerate(some)})
            limits = [time, f"-max_len={MOST}", "-timeout=60", "-rss_limit_mb=4096", f"-artifact_prefix={folder}/found-"]
            done = run(f"{folder}/fuzz", *limits, f"{folder}/{name}", env=env)
            count = max(map(int, re.findall(r"^(?:Done |#)(\d+)\b", done.stdout, re.M)), default=0)
            bad = [bytes_of(f"{folder}/{it}").hex() for it in os.listdir(folder) if it.startswith("found-")]
            yield f"{name} seeds", failed(done) or (f"of the bytes {' '.join(bad)}" if bad else None)
            yield f"{name} seeds are run", None if count >= len(some) > 100 else f"{count} runs from {len(some)} seeds"


def main():
    given = words("--seconds")
    seconds = given[given.index("--seconds") + 1] if "--seconds" in given else 60
    tools = ["cargo", "rustc", "clang", "clang++"]
    found = {} if missing(*tools) else libraries()
    lacking = [name for name, path in found.items() if not path]
    return reported("any bytes as sets and columns", lambda: checks(seconds, *found.values()), *tools, others=lacking)


if __name__ == "__main__":
    sys.exit(main())
