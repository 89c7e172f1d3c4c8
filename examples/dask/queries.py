"""Queries as text: `a b` has the documents with both words, `a -b` those without `b`, `a | b` those with either; brackets are as in arithmetic.

What stands between spaces and brackets is split into words as documents are: `well-known` is `well known`, and `don't` is `don t`. A minus counts
only at the start of it."""
import re

from shards import WORD

TOKEN = re.compile(r"-?\(|[)|]|[^\s()|]+")
DEEPEST = 100


def parsed(text):
    """The query of a text: a word, or ("and" | "or" | "not", query, ..), where "not" has the first without the others. ValueError."""
    tokens = TOKEN.findall(text.lower())
    try:
        query = any_of(tokens, 0)
        if tokens:
            raise ValueError(f"there is a {tokens[0]!r} too many")
    except ValueError as why:
        raise ValueError(f"the query {text if len(text) < 80 else text[:80] + '..'!r}: {why}") from None
    return query


def joined(name, parts):
    return parts[0] if len(parts) == 1 else (name, *parts)


def any_of(tokens, depth):
    parts = [all_of(tokens, depth)]
    while tokens[:1] == ["|"]:
        del tokens[0]
        parts.append(all_of(tokens, depth))
    return joined("or", parts)


def all_of(tokens, depth):
    wanted, unwanted = [], []
    while tokens and tokens[0] not in "|)":
        token = tokens.pop(0)
        side = unwanted if token.startswith("-") else wanted
        side.append(one(token.removeprefix("-"), tokens, depth))
    if not wanted:
        raise ValueError("each side of a | and each bracket needs a word without a minus")
    return joined("not", [joined("and", wanted), *unwanted])


def one(token, tokens, depth):
    """The query of a bracket, or of what is split into words."""
    if token == "(":
        if depth == DEEPEST:
            raise ValueError(f"there are more than {DEEPEST} brackets in brackets")
        query = any_of(tokens, depth + 1)
        if not tokens or tokens.pop(0) != ")":
            raise ValueError("a bracket is not closed")
        return query
    words = WORD.findall(token)
    if not token or token.startswith("-"):
        raise ValueError("a minus needs a word or a bracket right after it")
    if not words:
        raise ValueError(f"there is no word in {token!r}")
    return joined("and", words)
