#!/usr/bin/env python3
"""Compares docs/PROOFS.md with tags in the sources, of which `--write` writes its tables of claims; the claims with edits; and the
functions that users can call with both.

- A tag is a comment `claim: SECTION/NUMBER .. TEXT` above a clause, a function or a type: the contract of these claims. Each claim has
  its text in one tag, and its other tags have none. A section has each number from 1 on once.
- A name in a text is in a file with a tag of the claim; a number is in a contract with a tag, or in a definition that this names.
- A claim has an edit in scripts/mutate/edits/, unless its text is on a law. An edit names claims, and says in one sentence what it breaks.
  No other edit of its crate has its name, and its folder is that of a module of the crate. A wrong change for a script has no module, and
  one for tests no claim.
- A function that users can call is a law in a file that the page links, or has no contract, or an edit is refused at goals of its own,
  whose claims are those of the function. docs/NAMES.md has the functions for C, but those on blocks and those without an argument.
"""
import functools
import re
import sys

sys.path.insert(1, f"{sys.path[0]}/..")
from common import ROOT, words
from texts import for_users, paths, results, text_of
import changes
import clauses
import doors

PAGE, NAMES = "docs/PROOFS.md", "docs/NAMES.md"
TABLE = re.compile(r"(?m)^<!--claims:([\w,]+)-->\n(?:.+\n)*")
HEAD = "#| Claim| Contract| Edit\n---|---|---|---\n"
MARK = r" *(?://|#)"
TAG = re.compile(rf"(?m)^{MARK} claim: ((?:\w+/\d[\d-]* ?)+)(.*(?:\n{MARK} {{2,}}.*)*)(?=\n(?:{MARK}.*\n)*(.*))")
ITEM = re.compile(r'(?m)^ *(?:pub(?:\([^)]*\))? )?(?:extern "C" )?(fn|def|trait|struct|enum) (\w+)')
CLAUSE = re.compile(r" *(?:requires|ensures) (?:(\w+) )?\{\s*(?:\w+ result\s+\()?([A-Z]\w*)?")
OWNER = re.compile(r"(?m)^(?:pub trait|impl(?:<[^{]*?>)?(?: [^{]* for)?) (\w+)")
SPAN = re.compile(r"`([^`\n]+)`")


class Tag:
    """A tag of a source: its claims, its text, the name and contract of its function or type, and its clause or definition."""

    def __init__(self, path, text, found):
        self.path, self.numbers, self.text = path, found[1].split(), re.sub(rf"\n{MARK} +", " ", found[2]).strip()
        spans = [(section, [*map(int, numbers.split("-"))]) for section, numbers in (it.split("/") for it in self.numbers)]
        self.claims = [f"{section}/{number}" for section, ends in spans for number in range(ends[0], ends[-1] + 1)]
        self.section, self.first = spans[0][0], spans[0][1][0]
        item, clause = [*ITEM.finditer(text, 0, found.end(3))][-1], CLAUSE.match(text, found.start(3))
        self.name, self.clause = item[2], clause and (clause[1] or clause[2])
        self.contract = contract(text[item.start() :]) if item[1] == "fn" else text


def contract(text):
    """The contract of a function whose text this is, without comments."""
    return re.split(r"(?m)^ *\{|;$|^(?! *(?:requires|ensures)\b).* \{$", re.sub(r"//.*", "", text))[0]


@functools.cache
def tags_of(path, text):
    return [Tag(path, text, it) for it in TAG.finditer(text)]


def rows():
    """The rows of the page in order: for each the tag with its text, and all its tags, this one first."""
    found = [tag for it in ("crates/*/src/**/*.rt", "scripts/lint/*.py") for path in paths(it) for tag in tags_of(path, text_of(path))]
    firsts = sorted((it for it in found if it.text), key=lambda it: (it.section, it.first))
    return [(first, [first, *(it for it in found if not it.text and {*it.claims} & {*first.claims})]) for first in firsts]


def edits():
    """All edits, those of a wrong change too."""
    for path in paths(f"{changes.FOLDER}/**/*.edit"):
        yield changes.read_edit(path.removeprefix(f"{changes.FOLDER}/")[:-5], text_of(path))


def edits_of_crates():
    """The edits that are not those of a script."""
    return [it for it in edits() if it.crate not in changes.OF_SCRIPTS]


def line(row, its, listed, chosen):
    """The line of a row. Its edit is the one that the page has, or else the first by name."""
    links = {}
    for it in its:
        links.setdefault(f"[{it.name}](../{it.path})", {}).update({f" `{it.clause}`": None} if it.clause else {})
    edit = min(((it.name != chosen.get(row.numbers[0]), it.name) for it in listed if {*row.claims} & {*it.claims}), default=None)
    contracts = ", ".join(link + "".join(clauses) for link, clauses in links.items())
    return f"{' '.join(f'`{it}`' for it in row.numbers)}| {row.text}| {contracts}| {f'`{edit[1]}`' if edit else 'none'}\n"


def written():
    """The page with the tables as they have to be."""
    listed, found, chosen = [*edits()], rows(), dict(re.findall(r"(?m)^`(\w+/[\d-]+)`.*\| `(\w+)`$", text_of(PAGE)))
    lines = lambda section: "".join(line(row, its, listed, chosen) for row, its in found if row.section == section)
    return TABLE.sub(lambda it: f"<!--claims:{it[1]}-->\n{HEAD}{''.join(map(lines, it[1].split(',')))}", text_of(PAGE))


def tables():
    old, new = text_of(PAGE).split("\n"), written().split("\n")
    differ = [it for it in new if it not in old] or [it for it in old if it not in new]
    yield from (f"{PAGE}: `scripts/lint/claims.py --write` changes the line: {it}" for it in differ)


def numbers():
    found = {}
    for section, number in [it.split("/") for row, _ in rows() for it in row.claims]:
        found.setdefault(section, []).append(int(number))
    for section, its in found.items():
        if sorted(its) != [*range(1, len(its) + 1)]:
            yield f"{section} has the numbers {sorted(its)}, and not each from 1 on once"


def numbers_in(text):
    """The numbers of a text, and what its powers are."""
    found = re.findall(r"(?<![\w/.])(\d[\d,_]*)(?: ?\^ ?(\d+))?", text)
    return {int(re.sub(r"\D", "", number)) ** int(power or 1) for number, power in found}


def stated(tag):
    """The contract of a tag, and the definitions that it names, with their names."""
    names = clauses.imported(text_of(tag.path))
    cited = clauses.closed({names.get(word) for word in clauses.words(tag.contract)})
    return "\n".join([tag.contract, *(it[2] for it in cited), *("\n".join(lines) for lines in cited.values())])


# claim: read/11 the names and numbers of a claim are in its contract
def said():
    known = {claim for row, _ in rows() for claim in row.claims}
    for row, its in rows():
        own = "\n".join(map(stated, its))
        sources = "\n".join([own, *(re.sub(r"(//|#) claim: .*", "", text_of(it.path)) for it in its)])
        for name in SPAN.findall(row.text):
            if span := re.fullmatch(r"(\w+/)(\d+)(?:-(\d+))?", name):
                yield from (f"{row.numbers[0]}: there is no claim `{name}`" for it in span.groups()[1:] if it and span[1] + it not in known)
            elif not re.search(rf"(?<![^\W_]){re.escape(name)}(?!\w)", sources):
                yield f"{row.numbers[0]}: no file with its tag has `{name}`"
        strange = numbers_in(SPAN.sub("", row.text)) - numbers_in(own) if row.path.endswith(".rt") else []
        yield from (f"{row.numbers[0]}: no contract has the number {it}" for it in strange)


# claim: read/13 each claim has an edit or is a law
def claims():
    known, found = {claim: row.path for row, _ in rows() for claim in row.claims}, {claim for edit in edits() for claim in edit.claims}
    yield from (f"{claim} has no edit" for claim, path in known.items() if claim not in found and "law" not in path)
    yield from (f"no tag has the text of {claim}" for claim in sorted(found - known.keys()))


def headers():
    found = {}
    for edit in edits():
        module = f"crates/{edit.crate}/src/{edit.module}.rt"
        why = [] if edit.claims or edit.crate in changes.OF_TESTS else ["it names no claim"]
        if not re.fullmatch(r"[A-Z`].*\.", edit.breaks):
            why.append("no sentence says what it breaks")
        if edit.module if edit.crate in changes.OF_SCRIPTS else module not in paths(module):
            why.append(f"there is no module {module}")
        if found.setdefault((edit.crate, edit.name), edit.path) != edit.path:
            why.append(f"it has the name of {found[edit.crate, edit.name]}")
        yield from (f"{edit.path}: {it}" for it in why)


def public():
    """The functions that users can call: the file of each, its line, its type or module, its name and its contract."""
    for path in [it for crate in clauses.USED for it in paths(f"crates/{crate}/src/**/*.rt") if "/tests" not in it]:
        text = re.sub(r"//.*", "", for_users(path, text_of(path)))
        for start, name, _, _ in doors.functions(text):
            owners = OWNER.findall(text, 0, start) if text[start] == " " else [path.split("/")[-1][:-3]]
            yield path, text.count("\n", 0, start) + 1, owners[-1], name, contract(text[start:])


def functions():
    own, known = {}, {*re.findall(r"\w+", text_of(NAMES))}
    for edit in edits_of_crates():
        for *_, owner, name in [function.split("::") for function, goals in edit.unproved.items() if goals and "::" in function]:
            own.setdefault((edit.crate, name), set()).add(owner)
    for path, at, owner, name, clauses in public():
        crate = path.split("/")[1]
        if path.endswith("/laws.rt"):
            yield from [] if f"../{path})" in text_of(PAGE) else [f"{path}:{at}: {PAGE} does not link the law {name}"]
        elif re.search(r"\b(?:requires|ensures)\b", clauses) and not any(it.endswith(owner) for it in own.get((crate, name), [])):
            yield f"{path}:{at}: no edit is refused at a goal of {name}"
        in_c = crate == "bitpacking_c" and "x_" not in name and f"{name}()" not in clauses
        if in_c and not known & {re.sub(it, "", name) for it in ("bitpacking_", "bitpacking_(set_|column_)?")}:
            yield f"{path}:{at}: {NAMES} does not have {name}"


def main():
    if "--write" not in words("--write"):
        return results([tables, numbers, said, claims, headers, functions], "claims")
    page = written()
    with open(f"{ROOT}/{PAGE}", "w", encoding="utf-8") as file:
        file.write(page)


if __name__ == "__main__":
    sys.exit(main())
