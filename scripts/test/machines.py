#!/usr/bin/env python3
"""Runs the Rust crate for other machines: the tests of its vectors of words (rust/src/simd/), and all of vectors/, on

    x86-64, x86-64-v2, x86-64-v3      SSE2, SSE4.1 and AVX2, on this machine
    i686                              SSE2 and 32 bits, on this machine
    aarch64                           NEON, in qemu
    s390x                             arrays and big-endian, in qemu
    wasm32, wasm32-simd128            arrays and SIMD128, 32 bits, in node

with packages of scripts/packages.txt. For other targets it checks that the crate compiles without `std`. `machines.py NAME ..` runs these alone.

A target needs the library of Rust: `rustup target add TARGET` brings it. Without it, the script builds one of source with Debian's packages
rustc-web, cargo-web, libstd-rust-web-dev and rust-web-src, of bookworm-security. They may be installed, but not beside Debian's rustc or
rustup. Or they are unpacked in a folder that BITPACKING_RUSTC_WEB names, and nothing is installed:

    apt-get download rustc-web cargo-web libstd-rust-web-dev libstd-rust-web-1.96 rust-web-src libllvm22 \\
        libgit2-1.5 libhttp-parser2.9 libmbedcrypto7 libmbedtls14 libmbedx509-1 libssh2-1
    for it in *.deb; do dpkg -x "$it" FOLDER; done

That is 146 MB, and 870 MB unpacked. wasi-libc may be unpacked there too. A library takes about two minutes of a processor, and is built once, in
out/machines/. With it scripts/test/c.py also runs C programs over the crate on aarch64.
"""
import concurrent.futures
import glob
import os
import platform
import re
import shutil
import sys
import threading
import time
from typing import NamedTuple

sys.path.insert(1, f"{sys.path[0]}/..")
from common import ROOT, leave_out, left_out_without, missing, report, run, words
import choosing
import by_cargo

OUT = f"{ROOT}/out/machines"
PACKAGES = "rustc-web cargo-web libstd-rust-web-dev rust-web-src"
NATIVE = "x86_64-unknown-linux-gnu"
QUICK = {"LTO": "off", "CODEGEN_UNITS": "16"}


class Machine(NamedTuple):
    """A target, flags of its compiler, what links and what runs a program, features that this processor needs to run it, and the level of
    optimization of its tests."""

    target: str
    flags: tuple = ()
    linker: str = "cc"
    runner: tuple = ()
    features: tuple = ()
    level: str = "1"

    @property
    def is_wasm(self):
        return self.target.startswith("wasm32")

    @property
    def is_wasi(self):
        return self.target.endswith("wasip1")


STATIC = ("-Ctarget-feature=+crt-static",)
NODE = ("node", "--no-warnings", f"{ROOT}/scripts/test/wasi.mjs")
MACHINES = {
    "x86-64": Machine(NATIVE, features=("sse2",)),
    "x86-64-v2": Machine(NATIVE, ("-Ctarget-cpu=x86-64-v2",), features=("sse4_2",)),
    "x86-64-v3": Machine(NATIVE, ("-Ctarget-cpu=x86-64-v3",), features=("avx2", "bmi2")),
    "i686": Machine("i686-unknown-linux-gnu", STATIC, "i686-linux-gnu-gcc", features=("sse2",)),
    "aarch64": Machine("aarch64-unknown-linux-gnu", STATIC, "aarch64-linux-gnu-gcc", ("qemu-aarch64-static",)),
    "s390x": Machine("s390x-unknown-linux-gnu", STATIC, "s390x-linux-gnu-gcc", ("qemu-s390x-static",)),
    "wasm32": Machine("wasm32-wasip1", (), "wasm-ld", NODE),
    # At the level of users, since there LLVM 22 failed.
    "wasm32-simd128": Machine("wasm32-wasip1", ("-Ctarget-feature=+simd128",), "wasm-ld", NODE, level="3"),
}
CHECKED = """x86_64-pc-windows-msvc x86_64-apple-darwin aarch64-apple-darwin x86_64-unknown-linux-musl riscv64gc-unknown-linux-gnu
wasm32-unknown-unknown thumbv7em-none-eabihf""".split()


class Rust(NamedTuple):
    """The programs of Rust, their flags for a target, and the environment that they run in."""

    cargo: str
    rustc: str
    env: dict
    flags: tuple = ()


# One library is built at a time.
BUILDING = threading.Lock()
# The library for WASI names functions of threads that wasi-libc does not have. Without threads nothing calls them, and a call would trap.
WASI = ("-Clink-arg=--unresolved-symbols=ignore-all",)


def has_library(target):
    """Whether the compiler on this machine has the library of a target."""
    found = run("rustc", "--print", "target-libdir", "--target", target).stdout.strip()
    return bool(glob.glob(f"{found}/libstd-*"))


def web():
    """The folder of Debian's packages, or None."""
    folder = os.environ.get("BITPACKING_RUSTC_WEB", "/")
    names = ["usr/bin/rustc", "usr/bin/cargo", "usr/lib/rustlib/src/rust/library/vendor"]
    return folder if all(os.path.exists(f"{folder}/{name}") for name in names) else None


def of_web(*flags):
    """The programs of Debian's packages."""
    rustc = f"{web()}/usr/bin/rustc"
    env = dict(os.environ, RUSTC_BOOTSTRAP="1", RUSTC=rustc, LD_LIBRARY_PATH=f"{web()}/usr/lib/x86_64-linux-gnu")
    return Rust(f"{web()}/usr/bin/cargo", rustc, env, flags)


def from_source(word, crates, target, folder, built, *more, **variables):
    """Calls cargo in a folder, with these crates of Rust's library built from source for a target. Returns how it ended."""
    rust, vendored = of_web(), f"{web()}/usr/lib/rustlib/src/rust/library/vendor"
    sources = ["source.crates-io.replace-with='vendored'", f"source.vendored.directory='{vendored}'"]
    words = [it for source in sources for it in ("--config", source)]
    env = dict(rust.env, CARGO_TARGET_DIR=built, **variables)
    return run(rust.cargo, word, "--quiet", "--offline", *words, f"-Zbuild-std={crates}", "--target", target, *more, folder=folder, env=env)


def rust_for(machine):
    """The compiler that has the library of a machine."""
    if has_library(machine.target):
        return Rust("cargo", "rustc", dict(os.environ))
    with BUILDING:
        return of_web(f"--sysroot={library(machine)}", *(WASI if machine.is_wasi else ()))


def wasi_libc():
    """The folder of wasi-libc, or None."""
    folders = [f"{os.environ.get('BITPACKING_RUSTC_WEB', '/')}/usr/lib/wasm32-wasi", "/usr/lib/wasm32-wasi"]
    return next((it for it in folders if os.path.exists(f"{it}/libc.a")), None)


def library(machine):
    """The folder of the library of a machine, which is built once by each version of the compiler."""
    target = machine.target
    version = run(of_web().rustc, "--version", env=of_web().env).stdout.split()[1]
    folder, build = f"{OUT}/std-{version}/{target}", f"{OUT}/build-{target}"
    if os.path.exists(f"{folder}/built"):
        return folder
    print(f"builds the library of Rust for {target}", flush=True)
    os.makedirs(build, exist_ok=True)
    choosing.written(f"{build}/Cargo.toml", '[package]\nname = "nothing"\nedition = "2024"\n[lib]\npath = "nothing.rs"\n[workspace]\n')
    choosing.written(f"{build}/nothing.rs", "#![no_std]\n")
    more = ["--release", "-Zbuild-std-features=panic-unwind"]
    crates = "core,alloc,std,panic_abort,test"
    done = from_source("build", crates, target, build, f"{build}/target", *more, CARGO_PROFILE_RELEASE_OPT_LEVEL="1")
    if done.returncode != 0:
        raise by_cargo.Failed(done.stdout[-3000:])
    libraries = f"{folder}/lib/rustlib/{target}/lib"
    os.makedirs(f"{libraries}/self-contained", exist_ok=True)
    for path in glob.glob(f"{build}/target/{target}/release/deps/*.rlib"):
        shutil.copy(path, libraries)
    for name in ["crt1-command.o", "libc.a"] if machine.is_wasi else []:
        shutil.copy(f"{wasi_libc()}/{name}", f"{libraries}/self-contained")
    shutil.rmtree(build)
    choosing.written(f"{folder}/built", "")
    return folder


def lack(machine):
    """Why a machine cannot run, or None."""
    lacking = missing(*{machine.linker, *machine.runner[:1]})
    if lacking:
        return f"since there is no {' and no '.join(lacking)}"
    if machine.features:
        with open("/proc/cpuinfo", encoding="utf-8") as file:
            given = file.read().split()
        without = [it for it in machine.features if it not in given]
        if without or platform.machine() != "x86_64":
            return f"since this processor has no {' and no '.join(without or ['x86-64'])}"
    if has_library(machine.target):
        return None
    if not web():
        return f"since there is no library of Rust: rustup target add {machine.target}, or unpack {PACKAGES}"
    return "since there is no wasi-libc" if machine.is_wasi and not wasi_libc() else None


def built(machine, folder, to, *more, **profile):
    """Compiles a package in a folder for a machine, by these changes of cargo's profile. Returns the folder of what it made."""
    rust, named = rust_for(machine), machine.target.upper().replace("-", "_")
    # A panic does what it does in the library that cargo builds from source.
    profile = {"PANIC": "abort" if machine.is_wasm else "unwind"} | profile
    env = rust.env | {f"CARGO_PROFILE_RELEASE_{it}": value for it, value in profile.items()}
    env |= {"CARGO_TARGET_DIR": to, f"CARGO_TARGET_{named}_LINKER": machine.linker}
    env |= {"RUSTFLAGS": " ".join(["-Dwarnings", *rust.flags, *machine.flags])}
    words = ["--quiet", "--release", "--offline", "--locked", "--target", machine.target]
    by_cargo.called(rust.cargo, "build", *words, *more, folder=folder, env=env)
    return f"{to}/{machine.target}/release"


def example(name, called, **profile):
    """Compiles an example of the crate for a machine, by these changes of cargo's profile. Returns the command that runs it."""
    machine = MACHINES[name]
    folder = built(machine, ROOT, f"{OUT}/{name}", "--features", "__source", "--example", called, **profile)
    return [*machine.runner, f"{folder}/examples/{called}{'.wasm' * machine.is_wasm}"]


def tests_of_simd(name):
    """Compiles the tests of the vectors of words for a machine. Returns the command that runs them."""
    machine, rust = MACHINES[name], rust_for(MACHINES[name])
    source, program = f"{OUT}/{name}/simd.rs", f"{OUT}/{name}/simd"
    choosing.written(source, f'#![no_std]\nextern crate alloc;\n#[path = "{ROOT}/rust/src"]\nmod of_crate {{\n    mod simd;\n}}\n')
    flags = [*rust.flags, *machine.flags, f"-Clinker={machine.linker}", "--target", machine.target, "-Aunused"]
    by_cargo.called(rust.rustc, "--edition=2024", "--test", *flags, source, "-o", program, env=rust.env)
    return [*machine.runner, program]


def passed(command, pattern):
    """How many tests a program passed, which is in its output as the pattern says if none failed."""
    found = re.search(pattern, text := by_cargo.called(*command), re.M)
    if not found:
        raise by_cargo.Failed(text[-3000:])
    return int(found[1])


def on_machine(name):
    """How many tests of the vectors of words and checks of vectors/ a machine passed, or why one failed."""
    start = time.time()
    os.makedirs(f"{OUT}/{name}", exist_ok=True)
    try:
        tests = passed(tests_of_simd(name), r"^test result: ok\. ([1-9]\d*) passed; 0 failed")
        command = [*example(name, "vectors", OPT_LEVEL=MACHINES[name].level, **QUICK), f"{ROOT}/vectors"]
        rows = passed(command, r"^([1-9]\d*) passed, 0 failed$")
    except by_cargo.Failed as why:
        return str(why)
    print(f"{name}: {tests} tests of simd and {rows} checks of vectors passed, {time.time() - start:.0f} s", flush=True)
    return tests, rows


def compiles(target):
    """Why the crate does not compile for a target without `std`, or None."""
    more = ["--no-default-features", "--lib"]
    done = from_source("check", "core,alloc", target, ROOT, f"{OUT}/check", *more, RUSTFLAGS="-Dwarnings")
    return done.stdout[-3000:] if done.returncode else None


def able(names):
    """The machines that can run. It says which cannot."""
    lacks = {name: lack(MACHINES[name]) for name in names}
    for name in [it for it in lacks if lacks[it]]:
        leave_out(name, lacks[name])
    return [name for name in names if not lacks[name]]


def checks(wanted):
    names, targets = able([it for it in wanted if it in MACHINES]), [it for it in wanted if it in CHECKED]
    with concurrent.futures.ThreadPoolExecutor(max(1, (os.cpu_count() or 1) // 2)) as pool:
        results = dict(zip(names, pool.map(on_machine, names)))
    yield from ((name, found if isinstance(found, str) else None) for name, found in results.items())
    counts = {found for found in results.values() if not isinstance(found, str)}
    yield "machines pass as many checks as each other", None if len(counts) < 2 else f"they passed {sorted(counts)}"
    if targets and not web():
        leave_out(", ".join(targets), f"since there is no source of Rust's library: unpack {PACKAGES}")
    else:
        yield from ((target, compiles(target)) for target in targets)


def main():
    wanted = words() or [*MACHINES, *CHECKED]
    unknown = [it for it in wanted if it not in MACHINES and it not in CHECKED]
    if unknown:
        sys.exit(f"machines.py: no machine {unknown[0]}")
    return 0 if left_out_without("all machines", "cargo", "rustc") else report(checks(wanted))


if __name__ == "__main__":
    sys.exit(main())
