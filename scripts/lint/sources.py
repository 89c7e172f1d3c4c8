#!/usr/bin/env python3
"""Checks in the sources what docs/PROOFS.md says of the code that no contract says: a part for each of its rows, and its names there.
"""
import re
import sys

sys.path.insert(1, f"{sys.path[0]}/..")
from texts import at, code, end_of_braces, paths, results

PACKERS, LISTS, COLUMNS = (f"crates/{name}/src" for name in ("bitpacking", "bitpack_lists", "bitpack_columns"))
MEMORY = f"{PACKERS}/memory.rt"
COUNTS = ["bitpacking/proofs/memory/Steps", "bitpack_lists/proofs/blocks/reads/Reads", "bitpack_columns/proofs/reads/Reads"]
BY_HAND = {f"crates/{count}/{name}/Proof.antt" for count in COUNTS for name in ["new", "record"]}
# The three calls by kind with the counted call of each, and the nine others.
BY_KIND = {"compress_kind": "pack_counted", "decompress_kind": "unpack_counted", "num_bits_kind": "width_counted"}
NINE = [call.replace("_kind", kind) for call in BY_KIND for kind in ["", "_sorted", "_strictly_sorted"]]
# Of what counts, and of the packers' calls, which of the functions named here each calls, in the order of the text, by file. Of the file that
# has the bytes of lists, each function, and all that it calls.
CALLS = {
    f"{LISTS}/blocks/reads.rt": "body; read read_one read_one; bytes to_le_bytes to_le_bytes; write append bytes; of_encoding len; "
    "skip_key record read_one; unpack_block_as read unpack_body; value_in_tail read_one; read_tail read_words; new; record; "
    "read_entry record read; unpack_body record body decompress_kind",
    f"{LISTS}/opened.rt": "get value_in_block value_in_tail",
    f"{PACKERS}/bit_packer.rt": "; ".join(f"{call} {re.match('[a-z]+(_bits)?', call)[0]}_kind" for call in NINE),
    **{
        f"{PACKERS}/bitpacker{lanes}x.rt": "; ".join(
            f"{kind} {call}" for kind, call in [*BY_KIND.items(), ("pack_counted", "pack_unmeasured")]
        )
        for lanes in (1, 4, 8)
    },
}
# By crate the file of `Reads`, and by file the functions that lend a new one to a call.
DOORS = {LISTS: f"{LISTS}/blocks/reads.rt", COLUMNS: f"{COLUMNS}/reads.rt"}
MAKERS = {
    f"{LISTS}/opened.rt": ["get", "open"],
    f"{LISTS}/opened/copying.rt": ["append_to"],
    f"{LISTS}/v2/writing.rt": ["encode"],
    f"{COLUMNS}/appending.rt": ["append", "append", "append_to", "append_to"],
    f"{COLUMNS}/column/copying.rt": ["copy_range", "copy_to"],
    f"{COLUMNS}/column/getting.rt": ["gather", "get"],
    f"{COLUMNS}/column/search.rt": ["seek"],
    f"{COLUMNS}/column/ranges.rt": ["count_between", "positions_between"],
    f"{COLUMNS}/column/bounds.rt": ["bounds"],
}
# What the file of `Reads` may say of it.
OWN_READS = r"\bstruct Reads \{|\bimpl (Model for )?Reads \{|\bsize_of::<Reads>\(\)|\bfn new\(\) -> Reads\s*\{\s*Reads \{"
OWN_READS += r"|\breads: &mut Reads\b"
# The calls of lists that lend a new one, and so count for no caller.
UNCOUNTED = rf"(?<!fn )\b({'|'.join(sorted({name for path in MAKERS if path.startswith(LISTS) for name in MAKERS[path]}))})\b"
# The cursor of columns has a `Reads` of its own. And by file of columns the functions that lend none, but call one that does.
OWNS_READS = (f"{COLUMNS}/column_cursor.rt", r"\breads: Reads,|\blet mut reads = Reads::new\(\);")
CALL_MAKERS = {
    f"{COLUMNS}/column/copying.rt": ["append_to"],
    f"{COLUMNS}/column_cursor.rt": ["cursor"],
    f"{COLUMNS}/appending/joining.rt": ["join", "join_to"],
}


def codes(folder, *without):
    """The files of a folder with what runs in them."""
    return {path: code(path) for path in paths(f"{folder}/**/*.rt") if path not in without}


def bare(pattern, text):
    """A text with spaces for what is of this pattern."""
    return re.sub(pattern, lambda it: re.sub(r"[^\n]", " ", it[0]), text)


def inside(text, index):
    """The function that an index of a text is in, or that is before it."""
    return (re.findall(r"\bfn (\w+)", text[:index]) or [None])[-1]


def each(path, text, pattern, why="{fn} names {what}", unless=lambda _: False):
    """A fault for each match of a pattern in a file, or in this much of it, unless its function may have it. `why` says what is wrong."""
    for found in re.finditer(pattern, text):
        fn = inside(code(path), found.start())
        if not unless(fn):
            what = next((it for it in found.groups() if it), found[0])
            yield f"{at(path, text, found.start())}: {why.format(fn=fn, what=what)}"


def callee(text, index):
    """The last name of the function in whose arguments an index is, or None."""
    depth = 0
    for before in range(index - 1, -1, -1):
        depth += {")": 1, "(": -1}.get(text[before], 0)
        if depth < 0:
            found = re.search(r"(\w+)(?:::<[^()]*>)?$", text[:before])
            return found and found[1]
    return None


def calls_in(text, name, functions):
    """The loops of the first function of this name, and its calls of these functions, or all its calls, in the order of the text."""
    found = re.search(rf"\bfn {name}\b(?:\[[^\]]*\]|[^;{{])*(?={{)", text)
    body = text[found.end() : end_of_braces(text, found.end())] if found else ""
    its = re.findall(r"\b(for|while|loop)\b|\b(\w+)(?:::<[^()]*>)?\(", body)
    return " ".join(loop or call for loop, call in its if loop or functions is None or call in functions)


# claim: read/1 only `new`, `record` of `Steps`, `Reads` have proofs by hand
def proofs_by_hand():
    found = set(paths("crates/*/proofs/**/Proof.antt"))
    yield from (f"{path}: {'a proof by hand' if path in found else 'there is none'}" for path in sorted(found ^ BY_HAND))


# claim: read/2 of `bitpacking` only `memory.rt` touches elements of slices
def slices():
    files = codes(PACKERS, MEMORY)
    functions = {name for text in [*files.values(), code(MEMORY)] for name in re.findall(r"\bfn (\w+)", text)}
    for path, text in files.items():
        yield from each(path, text, r"\b(from_words|to_words|from_bytes|to_bytes|from_slice|copy_to_slice)\b")
        yield from each(path, text, r"[\w)\]?]\[", "reads or writes an element")
        yield from each(path, text, r"->[^{;]*&[^{;]*\[|\btype\b[^;]*\[|\blet\b[^=;]*\[", "names a slice or an array beside a parameter")
        for name in set(re.findall(r"\b(\w+): &(?:'\w+ )?(?:mut )?\[", text)):
            for found in re.finditer(rf"\b{name}\b(?!: &)", text):
                whole = re.search(r"[(,]\s*$", text[: found.start()]) and re.match(r"\s*[,)]", text[found.end() :])
                if not whole or callee(text, found.start()) not in functions:
                    yield f"{at(path, text, found.start())}: the slice {name} is not passed on whole to a function of the crate"


def lent(path, text, name, parameter, made):
    """What names a count, `Steps` or `Reads`, as neither a parameter nor a new one that a call is lent. The functions that lend one are added."""
    for found in re.finditer(rf"\b{name}\b", text):
        before, after = text[: found.start()], text[found.end() :]
        line = before[before.rfind("\n") + 1 :]
        if re.match(r"::new\(\)\s*,?\s*\)", after) and re.search(r"[(\s]&mut $", before):
            made.append(inside(text, found.start()))
        elif re.match(r"\s*(pub )?use\b", line) and not re.match(r"\s+as\b", after):
            continue
        elif not (re.search(rf"\b{parameter}: &mut $", before) and re.match(r"\s*[,)]", after)):
            yield f"{at(path, text, found.start())}: {inside(text, found.start())} names {name} as neither a parameter nor a new one"


# claim: read/3 only packers' calls by kind make a `Steps`, one each
def steps():
    for path, text in codes(PACKERS, MEMORY).items():
        made, packer = [], re.search(r"/bitpacker\dx\.rt$", path)
        yield from lent(path, text, "Steps", "steps", made)
        wanted = sorted(BY_KIND) if packer else []
        if sorted(made) != wanted:
            yield f"{path}: {', '.join(made)} makes a Steps, and not {', '.join(wanted) or 'nothing'}"
        if packer:
            yield from (f"{path}: {name} has a body of its own" for name in NINE if re.search(rf"\bfn {name}\b", text))
    yield from each(MEMORY, code(MEMORY), r"\b(Steps|Self)::new\b", "makes a Steps")


# claim: read/15 `new` has kernels for vectors, `scalar` and the program's scalar packers for arrays
def registers():
    """`new` has vectors and `scalar` arrays, each with its kernels, and so have the packers of the program."""
    program = code("crates/bitpack/src/answer.rt")
    for lanes, name in {4: "Four", 8: "Eight"}.items():
        path = f"{PACKERS}/bitpacker{lanes}x.rt"
        found = " ".join(re.findall(r"\bfn (?:new|scalar)\b|(?<=InstructionSet::)\w+|\b\w+_kind::<.*?>", code(path)))
        arms = [f"Lanes {it}_kind::<ByWidth, u32x{lanes}> Scalar {it}_kind::<Rolled, [u32; {lanes}]>" for it in ("pack", "unpack", "width")]
        if found != f"fn scalar Scalar fn new Lanes {' '.join(arms)}":
            yield f"{path}: new and scalar are not those of vectors and arrays: {found}"
        if f"PackerName::{name}Scalar => reply_by(alloc, &BitPacker{lanes}x::scalar(), &line.command)," not in program:
            yield f"crates/bitpack/src/answer.rt: {lanes}s is not the packer scalar of {lanes}x"


def makers(path, text):
    """What names `Reads` in another way than it may, and the functions that lend another one than they may, or in a loop or a closure."""
    made = []
    yield from lent(path, text, "Reads", r"\w*reads\w*", made)
    for found in re.finditer(r"\bReads::new\b", text):
        start = text.rfind("fn ", 0, found.start())
        loops = re.finditer(r"\b(?:for|while|loop)\b[^{;]*\{", text[start : found.start()])
        ends = [end_of_braces(text, start + it.end() - 1) for it in loops]
        if any(found.start() < end for end in ends) or "|" in text[start : found.start()].replace("||", ""):
            yield f"{at(path, text, found.start())}: {inside(text, found.start())} makes a Reads in a loop"
    if sorted(made) != MAKERS.get(path, []):
        yield f"{path}: {', '.join(made) or 'nothing'} makes a Reads, and not {', '.join(MAKERS.get(path, [])) or 'nothing'}"


def uncounted():
    """What lends a `Reads` in columns, or calls what does, and may not: it counts for no caller. A method is called by a dot or its type."""
    bodies = {}
    for path, text in codes(COLUMNS, DOORS[COLUMNS]).items():
        for found in re.finditer(r"\bfn (\w+)([^{;]*)\{", text):
            name = rf"[.:]{found[1]}" if re.search(r"\(\s*&(mut )?self\b", found[2]) else rf"(?<![.\w]){found[1]}"
            bodies[path, found[1], name] = text[found.end() : end_of_braces(text, found.end() - 1)]
    found, names = set(), {r"\bReads::new"}
    while names:
        new = {key for key, body in bodies.items() if key not in found and re.search(rf"(?:{'|'.join(names)})\b", body)}
        found, names = found | new, {name for _, _, name in new}
    for path, name, _ in sorted(found):
        if name not in MAKERS.get(path, []) + CALL_MAKERS.get(path, []):
            yield f"{path}: {name} lends a Reads, or calls what does, and may not"


# claim: read/5 read/8 only the file of `Reads` reads, by types; other functions take a `Reads`, or lend one to one call
def reads():
    for crate, door in DOORS.items():
        yield from each(door, bare(OWN_READS, code(door)), r"\b(Reads|Self)\b")
        for path, text in codes(crate, door).items():
            yield from makers(path, bare(OWNS_READS[1], text) if path == OWNS_READS[0] else text)
    yield from each(DOORS[LISTS], code(DOORS[LISTS]), r"\bpub(?:\(\w+\))? (\w+): &", "{what} shows bytes to other files")
    yield from uncounted()
    for path, text in codes(LISTS).items():
        exported = r"(?m)^pub use [\w:]*(\w|\{[^}]*\});"
        yield from each(path, bare(exported, text), UNCOUNTED, "{fn} names {what}, which counts for no caller")


# claim: read/4 a function that counts reads or packs once for each count
def calls():
    door = DOORS[LISTS]
    wanted = [(path, *its.partition(" ")[::2]) for path, text in CALLS.items() for its in text.split("; ")]
    names = {name for path, _, right in wanted if path != door for name in right.split()} | {*NINE}
    for path, name, right in wanted:
        found = calls_in(code(path), name, None if path == door else names)
        if found != right:
            yield f"{path}: {name} calls {found or 'none'}, and not {right or 'none'}"
    listed = [name for path, name, _ in wanted if path == door]
    if re.findall(r"\bfn (\w+)", code(door)) != listed:
        yield f"{door}: its functions are not {', '.join(listed)}"


if __name__ == "__main__":
    sys.exit(results([proofs_by_hand, slices, steps, registers, reads, calls], "sources"))
