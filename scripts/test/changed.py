"""The functions of the crates whose source changed since HEAD, or that name a constant or a type that changed, and what the prover says of them
over the libraries in out/proved/. Each crate has a line that names them and tells about how many seconds that takes."""

import re

from common import ROOT, leave_out, missing, run
from texts import code, end_of_braces, paths, text_of
import proving

# A constant or a type, also of a trait or an impl.
ITEM = re.compile(r"^[ \t]*(?:pub(?:\(\w+\))? )?(?:const|static|type|struct|enum) (?!_\b|fn\b)(\w+)", re.M)
# The most of what the prover prints that is shown.
SHOWN = 4000


def crates():
    """The crates of which a file is another one than in HEAD."""
    return set(re.findall(r"^.. .*?\bcrates/(\w+)/", run("git", "status", "--porcelain", "-uall", "--", "crates").stdout, re.M))


def lines():
    """By source of a crate, the lines that changed since HEAD, as ranges: a new file has all of its own."""
    found = {}
    for line in run("git", "diff", "HEAD", "-U0", "--", "crates/*/src/*.rt").stdout.splitlines():
        path, hunk = re.match(r"\+\+\+ b/(.*)", line), re.match(r"@@ -\S+ \+(\d+)(?:,(\d+))? @@", line)
        if path:
            changed = found.setdefault(path[1], [])
        elif hunk:
            first = int(hunk[1])
            changed.append(range(first, first + int(hunk[2] or 1) + (hunk[2] == "0")))
    new = run("git", "ls-files", "--others", "--exclude-standard", "--", "crates/*/src/*.rt").stdout.split()
    return found | {path: [range(1, 1 << 20)] for path in new}


def owners_in(text):
    """The impls and traits of a text: where each begins and ends, its type, and whether it is an impl of a trait."""
    for found in re.finditer(r"^(?:pub(?:\(\w+\))? )?(impl|trait)\b([^{;]*)\{", text, re.M):
        head = re.sub(r"^<[^{]*?>(?= )", "", found[2].strip()).strip()
        of = re.search(r"\bfor (\w+)", head)
        yield found.start(), end_of_braces(text, found.end() - 1), of[1] if of else re.match(r"\w*", head)[0], of is not None


def lines_of(text, start, end):
    """The first and the last line between two indexes of a text."""
    return text.count("\n", 0, start) + 1, text.count("\n", 0, end) + 1


def functions_of(path):
    """Each function of a source as `rattle check --only` names it, an implementation of a trait by its module; the type that it belongs to, or ""; and
    its first and its last line."""
    text, parts = code(path), path.split("/", 3)[3][:-3].split("/")
    module, owners = [] if parts == ["lib"] else parts, list(owners_in(text))
    for it in re.finditer(r"\bfn (\w+)([^{;]*)\{", text):
        owner, of_trait = next(((name, of_trait) for start, end, name, of_trait in owners if start < it.start() < end), ("", False))
        name = "::".join(module if of_trait else [*module, *([owner] if owner else []), it[1]])
        yield name, owner, *lines_of(text, it.start(), end_of_braces(text, it.end() - 1))


def items_of(path):
    """Each constant and type of a source: its name, and its first and its last line."""
    text = code(path)
    for it in ITEM.finditer(text):
        depth, end = 0, it.end()
        while end < len(text) and (depth or text[end] != ";"):
            depth += (text[end] in "([{") - (text[end] in ")]}")
            end += 1
            if depth == 0 and text[end - 1] == "}":
                break
        yield it[1], *lines_of(text, it.start(), end)


def naming(crate, names):
    """The functions of a crate that name one of these constants and types, in their bodies or contracts, or name another one that does."""
    sources = [it for it in paths(f"crates/{crate}/src/**/*.rt") if is_proved_source(it)]
    rows = {path: re.sub(r"//.*", "", text_of(path)).split("\n") for path in sources}
    has = lambda path, first, last: re.search(rf"\b(?:{'|'.join(names)})\b", "\n".join(rows[path][first - 1 : last]))
    more = names
    while more:
        more = {name for path in sources for name, *at in items_of(path) if name not in names and has(path, *at)}
        names = names | more
    found = ((path, it) for path in sources for it in functions_of(path)) if names else ()
    return {name for path, (name, owner, *at) in found if owner in names or has(path, *at)}


def is_proved_source(path):
    """Whether a path is that of a source, and not of tests."""
    return paths(path) and not re.search(r"/src/tests\b", path)


def by_crate():
    """By crate, the functions whose source changed, and those that name a constant or a type that changed. Tests are none."""
    found = {}
    for path, ranges in lines().items():
        if is_proved_source(path):
            is_changed = lambda first, last: any(it.start <= last and first < it.stop for it in ranges)
            names, items = found.setdefault(path.split("/")[1], (set(), set()))
            names.update(name for name, _, *at in functions_of(path) if is_changed(*at))
            items.update(name for name, *at in items_of(path) if is_changed(*at))
    every = {crate: names | naming(crate, items) for crate, (names, items) in found.items()}
    return {crate: names for crate, names in every.items() if names}


def by_last_proofs(seconds):
    """What is said of the seconds that proofs take, if all are known."""
    every = [*seconds]
    return "" if None in every else f", in about {sum(every)} s"


def functions():
    """What is not proved of the functions that changed, by crate, each as a name and why, or None."""
    found = by_crate()
    if found and missing("rt"):
        leave_out("the proofs of functions that changed", "since there is no rt")
        return
    for crate, names in found.items():
        below = proving.libraries(crate)
        lacking = [it for it in below if not proving.is_proved(it)]
        if lacking:
            why = f"since out/proved/ has not these sources of {', '.join(lacking)}: scripts/build/prove.py {crate} proves what is below it"
            leave_out(f"the proofs of functions of {crate}", why + by_last_proofs(map(proving.seconds, lacking)))
            continue
        seconds = proving.expected(len(names), [*below, crate])
        print(f"proofs: of {crate}{by_last_proofs([seconds])}: {', '.join(sorted(names))}", flush=True)
        only = [word for name in sorted(names) for word in ("--only", name)]
        done = run(f"{proving.kit()}/bin/rattle", "check", *proving.words_of(crate), *proving.proof(*only), folder=f"{ROOT}/crates/{crate}")
        # The first goal that failed says most: what comes after it may follow from it.
        why = "".join(f"{line}\n" for line in done.stdout.splitlines() if not proving.SAYS_PROVED.search(line))
        yield f"the proofs of {', '.join(sorted(names))} in {crate}", None if done.returncode == 0 else why[:SHOWN]
