#!/usr/bin/env python3
"""Compares the scripts with what `black` of this version makes of them, in lines of 140 columns, and the packages of Rust with what `cargo fmt`
makes of them; `--write` formats them. And `codespell` reads all that people wrote. What has no tool is left out."""
import sys

sys.path.insert(1, f"{sys.path[0]}/..")
from common import ROOT, ended, leave_out, missing, report, run, words

VERSION = "23.1.0"
# The folders of the packages. That of rust/bench/ has tables in long lines.
PACKAGES = [".", "rust/c", "rust/fuzz", "scripts/test/translator", "examples/numbers", "examples/search/rust", "examples/web"]
# What is not read for spelling, and words that are no mistakes.
UNREAD = [f":!:{it}" for it in ("vectors", "Cargo.lock", "**/Cargo.lock", "crates/*/proofs/*", "scripts/mutate/edits", "*.tsv")]
WORDS = "crate,crates,upto,nin,whats"


def commands(write):
    """Each tool that is there, with its commands by name."""
    tracked = run("git", "ls-files", "scripts/check", "scripts/quick", "*.py").stdout.split()
    check = [] if write else ["--check"]
    if f"black, {VERSION}" in ("" if missing("black") else run("black", "--version").stdout):
        yield "black", ["black", "--line-length", "140", *check, *tracked]
    if not missing("cargo", "cargo-fmt"):
        yield from ((f"cargo fmt in {it}", ["cargo", "fmt", *check, "--manifest-path", f"{ROOT}/{it}/Cargo.toml"]) for it in PACKAGES)
    if not missing("codespell"):
        yield "codespell", ["codespell", "--quiet-level", "3", "-L", WORDS, *run("git", "ls-files", "--", ".", *UNREAD).stdout.split()]


def main():
    found = dict(commands("--write" in words("--write")))
    for tool in {"black", "cargo fmt in .", "codespell"} - found.keys():
        leave_out(tool, f"since there is none, or of another version than {VERSION}")
    done = {name: run(*command) for name, command in found.items()}
    return report((name, it.stdout[:2000] if it.returncode else None) for name, it in done.items()) if done else ended(0, 0)


if __name__ == "__main__":
    sys.exit(main())
