#!/usr/bin/env python3
"""Counts the definitions that a reader has to believe: those that public contracts name, and those that these name in turn.
A public contract is the clauses of a `pub` function, what a `pub` trait says, and the ghost members of a `pub` type that are public or of a
trait. Left out are lemmas and the functions of laws.rt, since they are proved, and what a crate shows to the crates above it alone. Each line
counts, without comments. None is in specs/inner.
`MOST` says how many lines there may be. docs/PROOFS.md has this number, and two for each crate that a reader uses: the lines that its public
contracts need, and those left if the reader takes what is in `BY_LAWS` through its laws. A wrong row is printed as it has to be."""
import functools
import re
import sys

sys.path.insert(1, f"{sys.path[0]}/..")
from texts import blank, end_of_braces, for_users, paths, results, text_of

BELIEVED = [it for it in re.findall(r"(?m)^(\w+)[^:\n]*:", text_of("crates.txt")) if it not in ("bitpack_main", "bitpack_limits")]
# The crates that a reader uses. The contracts of the others serve these, or are examples.
USED = [it for it in BELIEVED if it not in ("bitpacking_register", "bitpack_groups", "bitpack_slices", "bitpack_uses")]
# The most lines of definitions to believe. If there are fewer, it is lowered.
MOST = 2341
# What laws and clauses determine but for which fault is first: the faults and the readers. And what only `from_parts` requires. By crate and file.
BY_LAWS = {
    "bitpack_lists.Version1": ["fault1"],
    "bitpack_lists.Version2": ["fault2"],
    "bitpack_lists.Older": ["older_fault"],
    "bitpack_lists.Opened": ["value_of", "values"],
    "bitpack_sets.Faults": ["fault"],
    "bitpack_sets.Reads": ["ids_in"],
    "bitpack_sets.Stated": ["States"],
    "bitpack_columns.Faults": ["fault"],
    "bitpack_columns.Stated": ["kind_in", "values_in"],
    "bitpack_columns.Sound": ["States"],
    "bitpack_wide.Faults": ["fault"],
    "bitpack_wide.Reads": ["ids_in"],
    "bitpack_wide.Stated": ["States"],
}
PAGE = "docs/PROOFS.md"


@functools.cache
def imported(text):
    """What a source imports from the definitions of the crates, by its name, and what it names by a whole path, by that."""
    found = re.findall(r"\buse Rattle\.(\w+)\.specs\.([\w.]+)\.\{([^}]*)\}", text)
    names = {name: (crate, file, name) for crate, file, names in found for name in re.findall(r"[^\s,]+", names)}
    whole = re.findall(r"\b(Rattle\.(\w+)\.specs\.([\w.]+)\.([^\s(){}.,;]+))", text)
    names.update({path: (crate, file, name) for path, crate, file, name in whole})
    for crate, file in re.findall(r"\buse Rattle\.(\w+)\.specs\.([\w.]+);", text):
        part = file.split(".")[-1]
        names.update({f"{part}.{name}": (crate, file, name) for name in re.findall(rf"(?<![\w.]){part}\.([^\s(){{}}.,;]+)", text)})
    return names


def words(text):
    """The words of a text; of a name with a path also the whole path."""
    return set(re.findall(r"[^\s(){}.,;]+", text)) | set(re.findall(r"[^\s(){},;]+", text))


def blocks_of(text):
    """The definitions of a text without comments and imports, and for each its lines. One is at the first column, or first in the lines of
    a `module _ (..) where`, whose own lines are of no definition. Neither are those of a lemma, which nobody has to believe."""
    found, margins = [], [""]
    for line in filter(str.strip, text.split("\n")):
        margin = re.match(r" *", line)[0]
        if margins[-1] is None:
            margins[-1] = margin
        while len(margin) < len(margins[-1]):
            margins.pop()
        begins = re.match(r"(?:pub )?(?:abbrev|unfoldable|record|data) (?:pub )?([^\s:]+)", line.strip())
        is_module = re.match(r"module _\b", line.strip())
        if margin == margins[-1] and (begins or is_module or re.match(r"(?:pub )?\S+ : ", line.strip())):
            found.append((begins and begins[1], []))
            margins += [None] if is_module else []
        if found:
            found[-1][1].append(line)
    return found


@functools.cache
def definitions_of(path, text):
    """The definitions of a file of specs/ with this text, by crate, file and name: the lines of each, and what it names."""
    crate, file = re.fullmatch(r"crates/(\w+)/specs/(.*)\.antt", path).groups()
    file = file.replace("/", ".")
    text = re.sub(r"(?m)(^|\s)--(\s.*)?$", "", text)
    names = dict(imported(text))
    found = blocks_of(re.sub(r"(?m)^(?:pub )?use [^}\n]*(?:\{[^}]*\})?", lambda it: blank(it[0]), text))
    names.update({name: (crate, file, name) for name, _ in found})
    passed_on = {name: ([], {it}) for name, it in imported("\n".join(re.findall(r"(?m)^pub (use [^}]*\})", text))).items()}
    for name, lines in found:
        if re.match(r"\s*(pub )?data ", "\n".join(lines)):
            passed_on.update({it: ([], {names[name]}) for it in re.findall(r"(?m)^ +(\S+) : ", "\n".join(lines))})
    cited = {name: {names[it] for it in words("\n".join(lines)) & names.keys()} for name, lines in found}
    found = passed_on | {name: (lines, cited[name]) for name, lines in found if name}
    return {(crate, file, name): it for name, it in found.items()}


@functools.cache
def public_words(text, types):
    """The words of the clauses and ghost members of a source without comments that are public."""
    inside = [r"^pub trait\b[^{]*(?=\{)", rf"^impl\b[^{{]*\bfor ({'|'.join(types)})\b[^{{]*(?=\{{)"]
    ranges = [(it.end(), end_of_braces(text, it.end())) for begins in inside for it in re.finditer(begins, text, re.M)]
    functions = [(it.start(), it[1]) for it in re.finditer(r"^ *(.*\bfn) \w", text, re.M)]
    found = set()
    for clause in re.finditer(r"\b(?:requires|ensures)\b[^{};]*(?=\{)|(\bpub )?\bghost (?!use\b)[^{};]*(?=\{)", text):
        function = ([head for at, head in functions if at < clause.start()] or [""])[-1]
        is_clause = not re.match(r"(pub )?ghost", clause[0])
        if clause[1] or is_clause and function.startswith("pub ") or any(a < clause.start() < b for a, b in ranges):
            found |= words(text[clause.end() : end_of_braces(text, clause.end())])
    return found


def definitions():
    """All definitions of the crates, as `definitions_of` has them."""
    found = {}
    for path in [it for crate in BELIEVED for it in paths(f"crates/{crate}/specs/**/*.antt")]:
        found.update(definitions_of(path, text_of(path)))
    return found


def closed(left, taken=frozenset()):
    """These definitions and those that they name in turn: the lines of each. One that is taken has none, and names none."""
    known, found = definitions(), {}
    while left := (left & known.keys()) - found.keys():
        found |= {it: [] if it in taken else known[it][0] for it in left}
        left = {it for name in left - taken for it in known[name][1]}
    return found


def cited(crates):
    """The definitions that the public contracts of crates name."""
    files = [path for crate in BELIEVED for path in paths(f"crates/{crate}/src/**/*.rt") if not path.endswith("/laws.rt")]
    texts = {path: re.sub(r"//.*", "", for_users(path, text_of(path))) for path in files}
    types = frozenset(name for text in texts.values() for name in re.findall(r"^pub (?:struct|enum) (\w+)", text, re.M))
    own = [text for path, text in texts.items() if path.split("/")[1] in crates]
    return {imported(text).get(word) for text in own for word in public_words(text, types)}


# claim: read/12 how many lines a reader of each crate has to believe
def lines_to_believe():
    found, text = closed(cited(BELIEVED)), text_of(PAGE)
    taken = {(*file.split("."), name) for file, names in BY_LAWS.items() for name in names}
    yield from (f"specs/ of {crate} has no {name} in {file}" for crate, file, name in sorted(taken - definitions().keys()))
    for crate in USED:
        counts = [sum(map(len, closed(cited([crate]), it).values())) for it in (frozenset(), taken)]
        if not re.search(row := rf"`{crate}`\| {counts[0]:,}\| {counts[1]:,}$", text, re.M):
            yield f"{PAGE} lacks the row {row[:-1]}".replace("\\", "")
    if not re.search(rf"\b{MOST:,}\s+lines", text):
        yield f"{PAGE} does not say that there are {MOST:,} lines of definitions to believe"
    yield from (f"{crate}: a public contract cites {name} of specs/inner" for crate, file, name in found if file.startswith("inner."))
    if (count := sum(map(len, found.values()))) > MOST:
        yield f"there are {count} lines of definitions to believe, more than {MOST}: {PAGE}"


if __name__ == "__main__":
    sys.exit(results([lines_to_believe], "clauses"))
