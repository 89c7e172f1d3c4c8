#!/usr/bin/env python3
"""Compares what include/bitpacking.h declares with the sources: the types and names of each function of crates/bitpacking_c, in prototypes that
no macro makes, with a pointer `x` and a length `x_len` for a slice `x`; the fields of views and builders; the limits of blocks. And header,
archive, Rust crate, library by cargo and Python package with the version of CHANGELOG.md.
"""
import re
import sys

sys.path.insert(1, f"{sys.path[0]}/..")
from common import version
from texts import code, paths, results, text_of

C_TYPES = {"usize": "size_t", "isize": "ptrdiff_t", "QueryStep": "uint32_t"}
C_TYPES |= {"u8": "uint8_t", "u32": "uint32_t", "i32": "int32_t", "u64": "uint64_t", "i64": "int64_t"}
CRATE, RANKED = "crates/bitpacking_c/src", "crates/bitpack_ranked/src"
STRUCTS = {"Walk": f"{RANKED}/walk.rt", "Scored": f"{RANKED}/found.rt", "BlockBounds": f"{RANKED}/block_bounds.rt"}
STRUCTS |= {f"{it}{what}": f"{CRATE}/{it.lower()}_{what.lower()}.rt" for it in ("Set", "Column") for what in ("View", "Builder")}
STRUCTS |= {"TermView": f"{CRATE}/term_view.rt", "SetCursor": f"{CRATE}/set_cursor.rt", "WideSetView": f"{CRATE}/wide_set_view.rt"}
STRUCTS["Description"] = "crates/bitpack_sets/src/describing.rt"
# Structs whose fields stand in place of a field of this type.
INNER = {"Window": "crates/bitpack_sets/src/window.rt", "ChunkPlace": "crates/bitpack_sets/src/place.rt"}
INNER |= {"Place": "crates/bitpack_slices/src/chunk/place.rt"}
C_TYPES.update({name: "bitpacking" + re.sub("[A-Z]", r"_\g<0>", name.removesuffix("View")).lower() for name in STRUCTS})
C_TYPES["Description"] = "bitpacking_set_description"
HEADER, LIMITS = "include/bitpacking.h", "crates/bitpacking/src/limits.rt"
# Where the version is, beside CHANGELOG.md: as a number, a million times the major one, a thousand times the minor one, and the patch; as text.
NUMBERS = [(HEADER, r"^#define BITPACKING_VERSION (.*)$")]
NUMBERS += [(f"{CRATE}/version.rt", it) for it in (r"result ≡ (\S+)", r"^\{\n    (.*)\n\}$")]
VERSIONS = [("Cargo.toml", r'^version = "0\.9\.3\+(.*)"$')]
VERSIONS += [(it, r'^version = "(.*)"$') for it in ("rust/c/Cargo.toml", "python/pyproject.toml")]


def in_c(written, name=""):
    """A parameter in C, as Rattle writes its type; of no name, what a function returns. The struct of a slice alone is that slice."""
    written = re.sub(r"<'\w+>|'\w+ ", "", written).replace("ColumnBytes", "&[u8]")
    if array := re.fullmatch(r"\[(\w+); (\w+)\]", written):
        return [f"{C_TYPES[array[1]]} {name}[{array[2] if array[2].isdigit() else f'BITPACKING_{array[2]}'}]"]
    if items := re.fullmatch(r"&(mut )?\[(\w+)\]", written):
        return [f"{'' if items[1] else 'const '}{C_TYPES[items[2]]} *{name}", f"size_t {name}_len"]
    if pointer := re.fullmatch(r"(&|&mut |\*const |\*mut )(\w+)", written):
        return [f"{'' if 'mut' in pointer[1] else 'const '}{C_TYPES[pointer[2]]} *{name}"]
    return [f"{C_TYPES[written]} {name}".strip()]


def parameters(text):
    """The parameters `name: type` in C."""
    return [it for name, written in re.findall(r"(\w+): ([^,]+)", " ".join(text.split())) for it in in_c(written.strip(), name)]


def fields(name, file):
    """The fields of a struct, with numbers for constants."""
    text = code(file)
    found = re.search(rf"\bstruct {name}(?:<'a>)? \{{(.*?)(?:\bghost\b|\}})", text, re.S)[1].removesuffix("pub ")
    found = re.sub(r"(?<=; )[A-Z_]+(?=\])", lambda it: re.search(rf"\bconst {it[0]}: usize = (\d+);", text)[1], found)
    return re.sub(rf"\w+: ({'|'.join(INNER)}),", lambda it: fields(it[1], INNER[it[1]]), found)


def exported():
    """Of each function of the crate what it returns and its parameters, in C; and the fields of a struct."""
    found = {}
    for name, file in STRUCTS.items():
        found[C_TYPES[name]] = parameters(fields(name, file))
    for path in paths(f"{CRATE}/*.rt"):
        functions = re.findall(r'extern "C" fn (\w+)(?:<[^>]*>)?\(([^)]*)\)(?: -> (\w+))?', text_of(path))
        found.update({name: (in_c(returned) if returned else ["void"]) + parameters(given) for name, given, returned in functions})
    return found


def declared():
    """The same of the header, without its comments and macros."""
    text = re.sub(r"(?ms)/\*.*?\*/|^#(?-s:.*\\\n)*(?-s:.*)", "", text_of(HEADER))
    found = {name: fields.split(";")[:-1] for fields, name in re.findall(r"typedef struct \w+ \{([^}]*)\} (bitpacking_\w+);", text)}
    for returned, name, given in re.findall(r"^(\w+) (bitpacking_\w+)\(([^)]*)\);", text, re.M):
        found[name] = [returned] + (given.split(",") if given != "void" else [])
    return {name: [" ".join(it.split()) for it in types] for name, types in found.items()}


# claim: read/10 the header is as the sources; all parts have one version
def header():
    limits = {f"#define {name}": it for name, it in re.findall(r"^#define BITPACKING_(LANE_LEN|MAX_\w+) (\d+)\b", text_of(HEADER), re.M)}
    right = {f"#define {name}": it for name, it in re.findall(r"^pub const (\w+): \w+ = (\d+);", text_of(LIMITS), re.M)}
    others, functions = declared() | limits, exported() | right
    for name in sorted(others.keys() | functions.keys()):
        if others.get(name) != functions.get(name):
            yield f"{HEADER}: {name} has {others.get(name)}, and the crate {functions.get(name)}"


def versions():
    text = version(text_of("CHANGELOG.md"))
    major, minor, patch = map(int, text.split("."))
    for wanted, files in [(str(1000000 * major + 1000 * minor + patch), NUMBERS), (text, VERSIONS)]:
        for path, pattern in files:
            found = re.findall(pattern, text_of(path), re.M)
            if found != [wanted]:
                yield f"{path}: the version is {' and '.join(found)}, and by CHANGELOG.md {wanted}"


if __name__ == "__main__":
    sys.exit(results([header, versions], "signatures"))
