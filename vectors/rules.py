"""The rule of docs/FORMAT.md that refuses a text with a known fault. Most faults have one rule; for others the bytes tell which."""

RULES = {
    1: {"BadVersion": "2", "BadKind": "3", "WrongLanes": "4", "TooLong": "5", "BadWidth": "7b", "LooseWidth": "7d", "Trailing": "9"},
    2: {"BadVersion": "2", "BadKind": "3", "WrongLanes": "4", "TooLong": "5", "BadWidth": "7a", "BadOffset": "7b", "LooseWidth": "9a"},
}
RULES[2] |= {"BadLast": "9b", "NotSorted": "10", "Trailing": "11"}


def missing_in_blocks(lanes, text):
    """The rule of version 1 by which bytes are missing after the header."""
    blocks, tail = divmod(int.from_bytes(text[3:7], "little"), 32 * lanes)
    if len(text) - 7 < blocks + 4 * tail:
        return "6"
    at = 7
    for _ in range(blocks):
        if at == len(text):
            return "7a"
        at += 1 + 4 * lanes * text[at]
        if at > len(text):
            return "7c"
    return "8"


def missing(version, lanes, text):
    if len(text) < 7:
        return "1"
    if version == 1:
        return missing_in_blocks(lanes, text)
    blocks, tail = divmod(int.from_bytes(text[3:7], "little"), 32 * lanes)
    return "6" if len(text) - 7 < 9 * blocks + 4 * tail else "8"


def rule_of(version, lanes, fault, text):
    return missing(version, lanes, text) if fault == "Short" else RULES[version][fault.split("(")[0]]
