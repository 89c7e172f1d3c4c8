#!/usr/bin/env python3
"""Tests the Rust crate, the package at the top of the repository, with warnings as errors:

- its tests, the examples of its comments, and the programs of rust/examples/; clippy and rustdoc; the crate without the standard library;
- that cargo can publish its package, and builds that alone;
- that both copies of the modules run, and what the second one calls;
- random calls, beside models of the standard library: rust/fuzz/random.rs, which runs as many rounds as it is asked for;
- how many instructions some calls run: scripts/test/instructions.py;
- that a build translates a source of a crate again after it changed, and that tests see wrong changes;
- programs outside the repository: one that takes the crate from a git repository, and is built of what `cargo vendor` wrote; one that gets it
  through another crate, which asks for 0.9 of crates.io, by `[patch.crates-io]`, also if its Cargo.lock has another 0.9.3. Nothing is fetched:
  the folder of cargo is empty.
"""
import functools
import glob
import os
import re
import subprocess
import sys
import tempfile

sys.path.insert(1, f"{sys.path[0]}/..")
from common import ROOT, leave_out, missing, reported, run, source, version
import archives
import by_cargo
import changes
from files import bytes_of, failed, other, printed, written
import instructions
import levels
import trying
import unproved

TARGET = f"{archives.OUT}/target"
# The programs of rust/examples/ and what they print, worked by hand.
EXAMPLES = {
    # Gaps of 3: two bits each, and so 2 * 16 bytes.
    "block": f"32 bytes for {[*range(0, 384, 3)]}\n",
    # Gaps of 2 and 4 in turn: one less are 1 and 3, two bits each, and so 2 * 16 bytes for each block of 128.
    "posting_list": "300 numbers: [2, 2] bits, 64 bytes, 44 numbers as they are\n",
    # The bytes that FORMAT works.
    "shared": "[7, 9, 10, 300]\n",
    # 300 is at position 3.
    "set": "from 100 on: Some((3, 300)), in both: [9, 300]\n",
    # 0 to 9 and 12, without 4; 20 came and went.
    "changing": "[3, 12]\n10 ids, 0 changes\n",
    # 2^40 is 1,099,511,627,776, at position 1.
    "wide": "from 8 on: Some((1, 1099511627776))\n",
    # 199 and 205 are below 210.
    "column": "row 2: Some(205)\nrows below 210: [1, 2]\n",
}
PROGRAM = "block"
FIRST_COPY = {"BITPACKING_FIRST_COPY": "1"}
# What both copies of the modules share, or the second one calls by a trait: none of it has vectors.
SHARED = ("bitpacking::growing::", "bitpacking::slices::operation::", "bitpacking::ranking::term::")
# The tests that run under valgrind, by parts of their names.
FILLING = [
    "column_reading",
    "column_searching",
    "column_appending",
    "set_combining::two_sets",
    "set_iter",
    "do_not_fit",
    "wide_sets::both",
    "wide_combining::calls",
]
# What no debugger reads.
UNNAMED = {"CARGO_PROFILE_DEV_DEBUG": "0"}
MANIFEST = '[package]\nname = "{}"\nversion = "0.0.0"\nedition = "2024"\n\n[dependencies]\n{}\n'


@functools.cache
def home():
    """The folder of cargo, which is empty at first."""
    return tempfile.TemporaryDirectory(prefix="cargo-")


def called(*words, folder=ROOT, **variables):
    """Calls cargo in a folder."""
    env = {**os.environ, **UNNAMED, "CARGO_HOME": home().name, **variables}
    return run("cargo", *words, folder=folder, stderr=subprocess.PIPE, env=env)


def cargo(word, *words, package=".", **variables):
    """Calls cargo for a package of the repository."""
    flags = {"CARGO_TARGET_DIR": TARGET, "RUSTFLAGS": "-D warnings", "RUSTDOCFLAGS": "-D warnings"}
    return called(word, "--offline", "--locked", "--manifest-path", f"{ROOT}/{package}/Cargo.toml", *words, **flags | variables)


def tests():
    """The tests and each example of the crate as a name and what is wrong, or None."""
    done = cargo("test", "--no-fail-fast")
    yield from ((name, other(result, "ok")) for name, result in re.findall(r"^test (.+) \.\.\. (.+)$", done.stdout, re.M))
    yield "cargo test", failed(done) or tested(done)
    for name, wanted in EXAMPLES.items():
        yield f"rust/examples/{name}.rs", printed(cargo("run", "--quiet", "--example", name), wanted)
    if missing("cargo-clippy"):
        leave_out("clippy", "since there is no cargo-clippy")
    else:
        packages = ["--package", "bitpacking", "--package", "bitpacking_c"]
        yield "cargo clippy", failed(cargo("clippy", "--all-targets", *packages, "--", "-D", "warnings"))
    yield "cargo doc", failed(cargo("doc", "--no-deps"))
    yield "the crate without the standard library", failed(cargo("check", "--no-default-features"))


def in_a_release():
    """Tests in a release, whose indexes and values are not tested: by both copies of the modules that have two, on a processor without AVX2, and
    under valgrind, which tests each access to memory, those that fill vectors and slices or pack values that do not fit."""
    done = cargo("test", "--profile", "quick", "--lib", "--no-run")
    named = re.search(r"Executable .* \((.+)\)", done.stderr)
    if not named:
        yield "tests in a release", failed(done) or f"no program is named: {done.stderr[-2000:]}"
        return
    program = os.path.join(ROOT, named[1])
    yield "tests in a release", tested(run(program))
    yield "tests in a release of the first copy", tested(run(program, env=os.environ | FIRST_COPY))
    yield "what the second copy calls", losses(program)
    if missing(levels.OTHERS):
        leave_out("tests on a processor without AVX2", f"since there is no {levels.OTHERS}")
    else:
        # It ends at an instruction that the processor lacks.
        old = [levels.OTHERS, "-cpu", "Nehalem", program, "--skip", "simd::v3"]
        yield "tests on a processor without AVX2", tested(run(*old, "level", "packers::each_block", "set_combining::two_sets"))
    if missing("valgrind"):
        leave_out("tests under valgrind", "since there is no valgrind")
    else:
        yield "tests under valgrind", tested(run("valgrind", "--quiet", "--error-exitcode=9", program, *FILLING))


def losses(program):
    """The functions without features that the second copy of the modules calls in a program, other than those of Rust's library, or None. There an
    operation on a vector is a call, if it was not compiled into a function with its features."""
    caller, found, inside = "", set(), 0
    for line in run("objdump", "-d", "-C", "--no-show-raw-insn", program).stdout.splitlines():
        caller = line if line.endswith(">:") else caller
        if "bitpacking::v3::" in caller:
            inside += "%ymm" in line
            found.update(
                it for it in re.findall(r"\b(?:call|jmp) +[0-9a-f]+ <(.+)>$", line) if "::core_arch::" in it or "bitpacking::" in it
            )
    lost = sorted(it for it in found if "bitpacking::v3::" not in it and not it.lstrip("<").startswith(SHARED))
    return "\n".join(lost[:20]) or (None if inside > 1000 else f"{inside} of its instructions have registers of 256 bits")


def tested(done):
    """What is wrong with a program of tests, or None."""
    passed = re.search(r"test result: ok\. [1-9]\d* passed", done.stdout)
    return None if done.returncode == 0 and passed else done.stdout[-3000:]


def packed(folder):
    """What is wrong with the package that cargo would publish, as a name and why, or None."""
    # What cargo builds of the package it would take for what it builds here.
    flags = {"CARGO_TARGET_DIR": f"{folder}/target", "RUSTFLAGS": "-D warnings"}
    done = called("package", "--allow-dirty", "--locked", "--offline", **flags)
    built = re.search(r"Verifying .*\n.*Compiling bitpacking .*\n.*Finished", done.stderr)
    yield "cargo package", failed(done) or (None if built else f"it did not build the package: {done.stderr}")
    listed = called("package", "--allow-dirty", "--locked", "--offline", "--list", **flags)
    yield "links of the package", failed(listed) or lost(set(listed.stdout.splitlines()))


def lost(names):
    """What the page of the package, or the manifest, links and is neither one of these files of the package nor a file of the repository by its
    URL, or None."""
    fields = dict(re.findall(r'(?m)^(repository|documentation|readme) = "(.+)"$', source("Cargo.toml")))
    page, url = fields["readme"], fields["repository"] + "/"
    links = [fields["documentation"], *re.findall(r"\]\(([^)#]+)", source(page))]
    files = [os.path.normpath(f"{os.path.dirname(page)}/{it}") for it in links if not it.startswith(url)]
    wrong = [it for it in links if it.startswith(url) and not os.path.exists(f"{ROOT}/{it[len(url):]}")]
    wrong += [it for it in [page, *files] if it not in names]
    return f"there is no {', '.join(wrong)}" if wrong else None


def committed(folder):
    """Makes a folder a git repository with one commit of all files."""
    named = ["-c", "user.name=it", "-c", "user.email=it@nowhere"]
    for words in ["init", "-q", "."], ["add", "--all"], [*named, "commit", "-q", "--no-gpg-sign", "-m", "All of it"]:
        by_cargo.called("git", *words, folder=folder)


def ran(folder, wanted, *words, **variables):
    """What is wrong with a program in a folder that gets these words, or None."""
    more = {"CARGO_TARGET_DIR": f"{folder}/target", **variables}
    return printed(called("run", "--quiet", "--offline", "--", *words, folder=folder, **more), wanted)


def program(folder, dependency):
    """Writes a package with PROGRAM over this crate."""
    manifest = MANIFEST.format("it", f"bitpacking = {dependency}")
    written(folder, {"Cargo.toml": manifest, "src/main.rs": source(f"rust/examples/{PROGRAM}.rs")})


def through_another(folder, top):
    """What is wrong with PROGRAM over the crate in a folder if it gets that through another one, or None."""
    asked = 'bitpacking = { version = "0.9", default-features = false, features = ["bitpacker4x"] }'
    manifest = MANIFEST.format("it", 'another = { path = "another" }') + f'[patch.crates-io]\nbitpacking = {{ path = "{top}" }}\n'
    main = source(f"rust/examples/{PROGRAM}.rs").replace("bitpacking", "another")
    written(folder, {"Cargo.toml": manifest, "src/main.rs": main})
    written(f"{folder}/another", {"Cargo.toml": MANIFEST.format("another", asked), "src/lib.rs": "pub use bitpacking::*;\n"})
    return ran(folder, EXAMPLES[PROGRAM])


def locked(folder):
    """A package whose Cargo.lock has 0.9.3 of crates.io, for which a crate in a folder stands in, and what cargo takes after the commands of
    docs/RUST.md: each as a name and what is wrong, or None."""
    asked = MANIFEST.format("it", 'bitpacking = "0.9"')
    config = '[source.crates-io]\nreplace-with = "other"\n[source.other]\ndirectory = "other"\n'
    written(folder, {"Cargo.toml": asked, "src/main.rs": "fn main() {}\n", ".cargo/config.toml": config})
    manifest = MANIFEST.format("bitpacking", "").replace("0.0.0", "0.9.3")
    checksum = f'{{"files": {{}}, "package": "{"0" * 64}"}}'
    written(f"{folder}/other/bitpacking", {"Cargo.toml": manifest, "src/lib.rs": "", ".cargo-checksum.json": checksum})
    yield "a Cargo.lock with 0.9.3", failed(called("generate-lockfile", "--offline", folder=folder))
    first = lambda done: failed(done) or done.stdout.split("\n")[0]
    found = first(called("tree", "--offline", "-i", "bitpacking", folder=folder))
    yield "the 0.9.3 of the lock", other(found, "bitpacking v0.9.3")
    written(folder, {"Cargo.toml": f'{asked}[patch.crates-io]\nbitpacking = {{ path = "{ROOT}" }}\n'})
    commands = re.findall(r"^    cargo ((?:update|tree) .*)$", source("docs/RUST.md"), re.M)
    done = [called(*command.split(), folder=folder, CARGO_NET_OFFLINE="true") for command in commands]
    wrong = other(first(done[-1]), f"bitpacking v0.9.3+{version()} ({ROOT})") if len(done) == 2 else f"docs/RUST.md has {commands}"
    yield "the crate in place of that of the lock", wrong


def vendored(folder):
    """A program over a git repository of what git tracks here, as a name and what is wrong, or None."""
    unproved.copied(f"{folder}/tracked")
    committed(f"{folder}/tracked")
    program(f"{folder}/it", f'{{ git = "file://{folder}/tracked" }}')
    done = called("vendor", folder=f"{folder}/it")
    written(f"{folder}/it", {".cargo/config.toml": done.stdout})
    os.makedirs(f"{folder}/home")
    yield "cargo vendor", failed(done) or ran(f"{folder}/it", EXAMPLES[PROGRAM], CARGO_HOME=f"{folder}/home")


def random():
    """Random calls, by both copies of the modules, each as a name and what is wrong, or None. Both damaged bytes that open and those that do not have
    to be among them."""
    for name, variables in ("random calls", {}), ("random calls of the first copy", FIRST_COPY):
        unlinked = {"CARGO_PROFILE_RELEASE_LTO": "off", **variables}
        done = cargo("run", "--quiet", "--release", "--bin", "random", "--", "400", "0", package="rust/fuzz", **unlinked)
        counted = re.search(r"^damaged bytes: [1-9]\d+ opened, [1-9]\d+ did not$", done.stdout, re.M)
        yield name, None if done.returncode == 0 and counted else f"{done.stdout[-300:]}{done.stderr[-3000:]}"


def changed_sources(folder):
    """Changes in a copy, each as a name and what is wrong, or None. A build has the last line of a source that changed after the build before it;
    and tests see wrong changes."""
    unproved.copied(folder)

    def built(word, *words):
        return called(word, "--offline", "--locked", *words, folder=folder, CARGO_TARGET_DIR=f"{folder}/target")

    line = "// It changed."
    yield "cargo check", failed(built("check"))
    with open(f"{folder}/crates/bitpack_queries/src/pairing.rt", "a", encoding="utf-8") as file:
        file.write(f"{line}\n")
    done, made = built("check"), glob.glob(f"{folder}/target/debug/build/bitpacking-*/out/queries/pairing.rs")
    yield "a source that changed is translated again", failed(done) or other([bytes_of(it).decode().count(line) for it in made], [1])

    def failing(_, tests):
        done = built("test", "--lib", "--", *(f"tests::{it}" for it in tests))
        return re.findall(r"^test tests::(\S+) \.\.\. FAILED$", done.stdout, re.M)

    yield from trying.together(folder, changes.edits_in("rust"), lambda _: failed(built("test", "--lib", "--no-run")), failing)


def checks():
    yield from tests()
    yield from in_a_release()
    yield from random()
    yield from instructions.checks()
    with tempfile.TemporaryDirectory(prefix="rust-") as folder:
        yield from packed(f"{folder}/packed")
        yield from vendored(f"{folder}/vendored")
        yield from changed_sources(f"{folder}/changed")
        yield "a crate that asks for 0.9 of crates.io", through_another(f"{folder}/through", ROOT)
        yield from locked(f"{folder}/locked")


if __name__ == "__main__":
    sys.exit(reported("the Rust crate", checks, "cargo", "cc", "git"))
