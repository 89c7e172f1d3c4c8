"""The library for C that cargo compiles from the proved sources, rust/c/, as one object in an archive: for who has no prover, and, by the profile
that is quick to build again, for tests and timings before a proof."""

import concurrent.futures
import os

from common import ROOT, Failed, called  # which scripts also name as those of this file
import choosing

# What cargo and this file need.
TOOLS = ["cargo", "cc", "ld", "ar", "nm", "objcopy"]
OUT = f"{ROOT}/out/cargo"
# What only code that unwinds calls.
UNWINDS = "rust_eh_personality"


def cargo(word, target, *words, flags="", folder=ROOT):
    """Calls cargo for the packages of the repository, or of its copy in `folder`. What it builds is in the folder `target`, and does not name the
    folder of the repository."""
    encoded = "\x1f".join([*flags.split(), f"--remap-path-prefix={ROOT}=bitpacking"])
    env = dict(os.environ, CARGO_TARGET_DIR=target, CARGO_ENCODED_RUSTFLAGS=encoded)
    return called("cargo", word, "--quiet", "--offline", "--locked", *words, folder=folder, env=env)


def archive(level, profile="release", top=OUT):
    """Builds the archive for a level of x86-64, in the folder of its name: what the functions of the header need of cargo's static library
    as one object, which shows their names alone. Returns its path."""
    folder, target = f"{top}/{level}", f"{OUT}/{level}/target"
    whole, names = f"{target}/whole", sorted(choosing.prototypes())
    os.makedirs(folder, exist_ok=True)
    # The archive of all levels chooses one, so that its parts need no choice of their own.
    flags = f"-C target-cpu={level} --cfg bitpacking_one_copy"
    cargo("build", target, "--profile", profile, "--package", "bitpacking_c", flags=flags)
    choosing.written(f"{target}/names", "".join(f"{name}\n" for name in names))
    called("ld", "-r", *(word for name in names for word in ("-u", name)), f"{target}/{profile}/libbitpacking.a", "-o", f"{whole}.o")
    # A panic ends the program, so nothing unwinds.
    unwinds = (".llvm*", ".eh_frame", ".gcc_except_table*", f".data.DW.ref.{UNWINDS}")
    called("objcopy", "--strip-debug", *(f"--remove-section={name}" for name in unwinds), f"{whole}.o")
    called("objcopy", f"--keep-global-symbols={target}/names", f"--strip-symbol={UNWINDS}", f"{whole}.o")
    called("ar", "rcsD", f"{whole}.a", f"{whole}.o")
    os.replace(f"{whole}.a", f"{folder}/libbitpacking.a")
    return f"{folder}/libbitpacking.a"


def for_all(profile="release", top=OUT):
    """Builds the archives of the levels and the one for all levels of x86-64. Returns the path of that."""
    with concurrent.futures.ThreadPoolExecutor(len(choosing.LEVELS)) as pool:
        paths = dict(zip(choosing.LEVELS, pool.map(lambda level: archive(level, profile, top), choosing.LEVELS.values())))
    return choosing.joined(paths, f"{top}/libbitpacking.a")
