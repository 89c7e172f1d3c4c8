"""Searches in lists of version 2, what two lists share, and values that an encoder refuses."""

from bisect import bisect_left

from lists import changed, long_lists, values_in_order
from parts import KINDS, LANES, first_out, list_text

MOST = 2**32 - 1


def search_lists(blocks):
    """Lists in order: lanes, kind, values."""
    for lanes in LANES:
        for kind in [1, 2]:
            yield lanes, kind, []
            yield lanes, kind, [4, 9, 10]
            for values in values_in_order(kind, lanes):
                yield lanes, kind, values
            yield lanes, kind, [5 * k + 3 for k in range(64 * lanes + 2)]
    yield 1, 1, [k // 40 * 10 for k in range(3 * 32 + 5)]  # values that are equal across the edges
    yield 4, 1, [k // 150 * 1000 + 1 for k in range(3 * 128 + 5)]
    for name, lanes, values, _ in long_lists(blocks):
        if name != "plain" and lanes == 1:
            yield lanes, KINDS.index(name), values


def search(lanes, kind, values, sought):
    """A row of searches: lanes, text, the values sought, and the first position that reaches each, with its value."""
    found = [bisect_left(values, value) for value in sought]
    answers = [f"{place}:{values[place]}" if place < len(values) else "none" for place in found]
    return lanes, list_text(2, lanes, kind, values), sought, answers


def searches(blocks):
    """Searches beside the edges of the blocks of each list."""
    for lanes, kind, values in search_lists(blocks):
        block, sought = 32 * lanes, {0, 1, 2**31, MOST}
        edges = [place for edge in range(0, len(values), block) for place in [edge, edge + 7, edge + block - 1]]
        for place in [*edges, len(values) - 1]:
            if 0 <= place < len(values):
                sought |= {values[place] - 1, values[place], values[place] + 1}
        yield search(lanes, kind, values, sorted(value for value in sought if 0 <= value <= MOST))
    # 257 blocks and a tail: positions above 65,535
    yield search(8, 2, range(65795), [0, 255, 256, 65535, 65536, *range(65791, 65796)])


def longer_lists():
    """Lists in order, most of them of several blocks: lanes, kind, values."""
    some = [(1, 2, [5, 9]), (1, 1, [5, 5, 5, 9, 9, 10]), (1, 1, []), (4, 2, [0, 7, MOST])]
    some += [(1, 1, [k // 3 * 7 for k in range(100)]), (1, 2, [7 * k for k in range(34)])]
    some += [(1, 2, [14 * k + 7 for k in range(96)])]
    some += [(4, 1, [k // 2 * 21 for k in range(2 * 128 + 3)]), (8, 2, [3 * k for k in range(2 * 256 + 9)])]
    some += [(1, 2, [*range(40), *range(600, 633), *range(1400, 1500)]), (1, 2, [0, *range(2**32 - 40, 2**32)])]
    some += [(1, 1, [6] * 64 + [2**31] * 40 + [MOST] * 3)]
    return some


def intersections():
    """Pairs of lists: of each lanes and text, and the values that both have. In the last a jump leads to a tail of one value."""
    some = longer_lists()
    pairs = [(some[place], some[other]) for place in range(len(some)) for other in range(place + 1)]
    for one, other in [*pairs, ((1, 2, [35, 40]), (1, 2, [*range(32), 40]))]:
        yield one[0], list_text(2, *one), other[0], list_text(2, *other), sorted({*one[2]} & {*other[2]})


def refused_values():
    """Values that an encoder refuses: kind, lanes, values, and the first position that is out of order."""
    for lanes in LANES:
        block = 32 * lanes
        rising = [3 * k + 4 for k in range(block + 40)]
        for kind in [1, 2]:
            some = [[MOST, [5, MOST][kind - 1]]]
            for position in sorted({1, 31, block - 1, block, block + 1, block + 33, block + 39}):
                some += [changed(rising, position, rising[position - 1] + kind - 2)]
            some += [changed(some[-1], block, 0)]  # two falls: the first one counts
            for values in some:
                yield KINDS[kind], lanes, values, first_out(kind, values)
