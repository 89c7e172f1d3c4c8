#!/usr/bin/env python3
"""Tests that no safe code of Rust can break what a proved function requires: such a function tests nothing, and may index without a test.

- Above each call of a function with a `requires`, or above its statement, rust/src says after `// REQUIRES:` the clause and why it holds; so it
  says above each implementation of a trait of the proved crates why its law holds. The functions are those of the crates that a module names.
- Modules of the proved source are public only with the feature `__source`; nothing public has a `requires`, or is a trait, whose law other code
  could break. None names a module that a crate shows to the crates above it alone. An `unsafe` function has a section `# Safety`, and the header says what a function for C requires.
"""
import functools
import re
import sys

sys.path.insert(1, f"{sys.path[0]}/..")
from texts import at, end_of_braces, for_crates_above, for_users, paths, results, text_of

FACE, HEADER, FILES = "rust/src", "include/bitpacking.h", "rust/translate/src/files.rs"
FOR_C = f"{FACE}/c_functions.rs"  # public with the feature `c`, for the package in rust/c/
SEALS = {"Code": "packers", "ClonedBytes": "stable_bytes"}  # traits that no user can name, with their modules
SAID = {
    "tested": "accepted before",
    "bounded": "for the same classes",
}  # what the header says of a function for C, by the name of its clause
FN = re.compile(r"(?m)^( *)((?:pub(?:\(crate\))? )?)((?:extern \"C\" )?)fn (\w+)")
without_comments = functools.cache(functools.partial(re.sub, r"//.*", ""))


def crates():
    """The crates of the proved source, by their modules."""
    return {name: of for of, name in re.findall(r'module!\("(\w+)", "(\w+)"', text_of("rust/translate/src/paths.rs"))}


def functions(text):
    """The functions of a source that others can call: where each is, its name, whether it is for C, and its clauses `requires`."""
    traits = [(it.start(), end_of_braces(text, text.index("{", it.end()))) for it in re.finditer(r"(?m)^pub trait \w+", text)]
    heads = list(FN.finditer(text))
    for head, after in zip(heads, [*heads[1:], None]):
        rest = re.split(rf"(?m)^{head[1]}\{{", text[head.end() : after.start() if after else len(text)])[0]
        if head[2] == "pub " or any(start < head.start() < end for start, end in traits):
            yield head.start(), head[4], bool(head[3]), re.findall(r"(?m)^\s*requires\b\*? ?(\w*)", rest)


@functools.cache
def required(texts):
    """The functions with a `requires` of some sources, the types with such a method, and the public traits."""
    names, types, traits = set(), set(), set()
    for text in map(without_comments, texts):
        found = [(start, name) for start, name, _, clauses in functions(text) if clauses]
        names.update(name for _, name in found)
        traits.update(re.findall(r"(?m)^pub trait (\w+)", text))
        for impl in re.finditer(r"(?m)^impl(?:<[^>]*>)? (?:[^{]* for )?(\w+)[^{]*(?=\{)", text):
            if any(impl.end() < start < end_of_braces(text, impl.end()) for start, _ in found):
                types.add(impl[1])
    return names, types, traits


def requiring(crate):
    return required(tuple(for_users(it, text_of(it)) for it in paths(f"crates/{crate}/src/**/*.rt")))


def face():
    """The files of rust/src without comments, but the tests and the vectors of the processor."""
    return {it: without_comments(text_of(it)) for it in paths(f"{FACE}/**/*.rs") if not re.match(rf"{FACE}/(tests|simd)\b", it)}


def modules_of(path, files):
    """The module of rust/src that a file is of, and those above it, by their paths. The files of a folder are of one module."""
    names = path.removeprefix(f"{FACE}/").removesuffix(".rs").split("/")
    if len(names) > 1 and not any(it.startswith(path.removesuffix(".rs") + "/") for it in files):
        names.pop()
    return ["/".join(names[: end + 1]) for end in range(len(names))]


def crates_of(path):
    """The crates that the module of a file of rust/src names, or a module above it, or else all files."""
    files = face()
    own = modules_of(path, files)
    return named("\n".join(it for other, it in files.items() if modules_of(other, files)[-1] in own)) or named("\n".join(files.values()))


def named(text):
    """The crates that a text names."""
    used = " ".join(re.findall(r"\buse crate::\{([^;]*)\};", text))
    return [of for name, of in crates().items() if re.search(rf"\bcrate::{name}\b", text) or re.search(rf"\b{name}\b", used)]


def is_said(lines, number):
    """Whether `// REQUIRES:` is in the comment above a line, or above the first line of its statement."""
    while not re.search(r"(^\s*|[;{},])$", lines[number - 1]) and not lines[number - 1].strip().startswith("//"):
        number -= 1
    while number and lines[number - 1].strip().startswith("//"):
        number -= 1
        if lines[number].strip().startswith("// REQUIRES: "):
            return True
    return False


# claim: read/7 each call of a proved function in Rust says why its preconditions hold
def calls():
    for path, text in face().items():
        names, _, traits = map(set().union, *map(requiring, crates_of(path)))
        lines, local = text_of(path).split("\n"), set(re.findall(r"(?m)^fn (\w+)", text))
        called = re.finditer(r"(?<!fn )(?<!\w)((?:\.|::)\s*)?(\w+)(?:::<[^()]*?>)?\(", text)
        found = [(it.start(2), f"call of {it[2]}") for it in called if it[2] in names and (it[1] or it[2] not in local)]
        impls = re.finditer(r"(?m)^impl\b[^{;]*?\b(\w+) for ", text)
        found += [(it.start(), f"implementation of {it[1]}") for it in impls if it[1] in traits]
        for start, what in found:
            if not is_said(lines, text.count("\n", 0, start)):
                yield f"{at(path, text, start)}: no comment REQUIRES above the {what}"


def modules():
    for source, visible in re.findall(r'\("((?:\\.|[^"\\])*)", "((?:\\.|[^"\\])*)"\)', text_of(FILES)):
        if "pub" in visible and source != r"feature = \"__source\"":
            yield f"{FILES}: a module is public with {source}"
    for path, text in face().items():
        # Only lib.rs has the proved modules.
        words = "mod|use" if path == f"{FACE}/lib.rs" else "use"
        for found in re.finditer(rf"\bpub (?:{words}) (?:crate::)?({'|'.join(crates())})\b([^;]*);", text):
            risky = {found[1], "*"}.union(*requiring(crates()[found[1]]))
            for item in re.findall(r"\w+|\*", re.sub(r"\bas \w+", "", found[2])) or [found[1]]:
                if item in risky and path != FOR_C:
                    yield f"{at(path, text, found.start())}: {item} of {found[1]} is public"
        for found in re.finditer(r"\b(\w+)::(?:\{([^}]*)\}|(\w+))", text):
            above = for_crates_above(crates()[found[1]]) if found[1] in crates() else set()
            for item in above.intersection(re.findall(r"\w+", found[2] or found[3])):
                yield f"{at(path, text, found.start())}: {item} of {found[1]} is for the crates above alone"
    lib = face()[f"{FACE}/lib.rs"]
    for name, module in SEALS.items():
        if re.search(rf"\bpub mod {module}\b|\bpub use [^;]*\b{name}\b", lib) or f"pub trait {name}" not in text_of(f"{FACE}/{module}.rs"):
            yield f"{FACE}/lib.rs: the trait {name} is public, or not in {module}"


def safety():
    for path in face():
        for found in re.finditer(r"(?m)((?:^ *(?:///|#\[).*\n)*)^ *pub unsafe (?:fn|trait)\b", text_of(path)):
            if "/// # Safety" not in found[1]:
                yield f"{at(path, text_of(path), found.end())}: it is unsafe, and its comment has no '# Safety'"


def header():
    for path in paths("crates/bitpacking_c/src/*.rt"):
        for _, name, is_for_c, clauses in functions(without_comments(text_of(path))):
            comment = re.search(rf"/\*((?:(?!\*/)[\s\S])*)\*/\n[^/]*?\b{name}\(", text_of(HEADER)) if is_for_c and clauses else None
            said = " ".join(re.sub(r"\n \*", " ", comment[1]).split()) if comment else ""
            for clause in clauses if is_for_c else []:
                if SAID.get(clause, "\n") not in said:
                    yield f"{HEADER}: the comment of {name} does not say that it requires '{clause}'"


if __name__ == "__main__":
    sys.exit(results([calls, modules, safety, header], "doors"))
