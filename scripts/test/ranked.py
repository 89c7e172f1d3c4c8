"""What search.py asks of the ranking of examples/search/: thousands of random queries over paragraphs with many ties have to get the best
documents that this model finds, which reads no index, with the same scores.
"""
import collections
import concurrent.futures
import heapq
import math
import random
import re

from files import written

QUERIES = 2400
# One of so many queries is asked of the program with the sanitizer.
ONE_OF = 6
# More words than this are ranked by a scan.
MOST_TERMS = 32
# The unit of scores.
UNIT = 10**7
DOCUMENTS = 4000
# Words, and in one of how many paragraphs each is at random, with counts up to a number. One word is in fewer than a block of paragraphs.
WORDS = {"the": (2, 9), "of": (3, 3), "sea": (9, 4), "ship": (20, 60), "moon": (20, 2), "oak": (70, 5), "elm": (300, 3)}
# Words of equally many paragraphs, with a count of one: the later word is in the earlier paragraphs. Some of these have nothing else, so
# that their scores are equal.
TIED = {"ant": range(2001, 3000, 3), "bee": range(1, 1000, 3)}
ALONE = 40


def corpus(chance):
    """The words of each paragraph."""
    documents = []
    for number in range(DOCUMENTS):
        words = [word for word, (one_of, most) in WORDS.items() if chance.random() * one_of < 1 for _ in range(chance.randint(1, most))]
        tied = [word for word, numbers in TIED.items() if number in numbers]
        if tied and number % 1000 < 3 * ALONE:
            words = []
        words += tied + ["x"] * (chance.choice([0, 0, 1, 5, 20, 200]) if not tied or words else 0)
        documents.append(words or ["x"])
    return documents


def least_of(number):
    """The least number of the same class: with the four highest binary digits."""
    shift = max(0, number.bit_length() - 4)
    return number >> shift << shift


class Model:
    """What each word adds to the scores of its documents, by BM25."""

    def __init__(self, documents):
        self.counts = [collections.Counter(words) for words in documents]
        lengths = [float(least_of(len(words))) for words in documents]
        mean = sum(lengths) / len(lengths)
        self.parts = {word: {} for words in documents for word in words}
        for word, parts in self.parts.items():
            have = float(sum(word in counts for counts in self.counts))
            weight = UNIT * 2.2 * math.log(1 + (len(documents) - have + 0.5) / (have + 0.5))
            for k, counts in enumerate(self.counts):
                if word in counts:
                    parts[k] = int(weight / (1 + 1.2 * (0.25 + 0.75 * lengths[k] / mean) / least_of(counts[word])))

    def best(self, words, answers, room):
        """The best documents that answer, with their scores. The words are those of the query that count, in its order."""
        scores = {}
        for word in words:
            for k, part in self.parts[word].items():
                scores[k] = scores.get(k, 0) + part
        found = [(-score, k) for k, score in scores.items() if answers(self.counts[k])]
        return [(document, -score) for score, document in heapq.nsmallest(room, found)]


def query(chance, words):
    """A random query: its text, the words that count, and whether the counts of a document answer it."""
    few = [chance.choice(words) for _ in range(chance.randint(1, 5))]
    one, other = chance.sample(words, 2)
    many = few * (MOST_TERMS // len(few) + 1)
    forms = [
        (" | ".join(many), many, lambda counts: any(it in counts for it in few)),
        (" | ".join(few), few, lambda counts: any(it in counts for it in few)),
        (" ".join(few), few, lambda counts: all(it in counts for it in few)),
        (f"{few[0]} -{one}", few[:1], lambda counts: few[0] in counts and one not in counts),
        (f"({one} | {other}) {few[0]}", [one, other, few[0]], lambda counts: (one in counts or other in counts) and few[0] in counts),
        (f"o* | {one}", [*(it for it in words if it[0] == "o"), one], lambda counts: one in counts or any(it[0] == "o" for it in counts)),
        (f"{one} {other} | {few[0]} -{one}", [one, other, few[0]], lambda counts: other in counts if one in counts else few[0] in counts),
        (f"{one} none", [], lambda counts: False),
        (f"{one} | none", [one], lambda counts: one in counts),
    ]
    return chance.choice(forms)


def said(answer):
    """The documents and their scores that a program explained, or all that it said if it did not end well."""
    status, text, messages = answer
    found = [(int(document), int(score)) for document, score in re.findall(r"^document (\d+): (\d+)$", messages, re.M)]
    shown = re.findall(r"^ *([\d.]+)  ", text, re.M)
    right = status == (0 if found else 1) and shown == [f"{score / UNIT:.3f}" for _, score in found]
    return found if right else answer


def queries(model):
    """Random queries, each as its text, how many documents are wanted, and the best of them."""
    chance = random.Random(2)
    words = sorted({*WORDS, *TIED, "x"})
    made = [(query(chance, words), chance.choice([1, 2, 10, 10, 10, 25, 999])) for _ in range(QUERIES)]
    tied = [(f"{one} | {other}", [one, other]) for one, other in (["ant", "bee"], ["bee", "ant"]) for _ in range(3)]
    made += [((text, both, lambda counts: "ant" in counts or "bee" in counts), room) for (text, both), room in zip(tied, [1, 10, 25] * 2)]
    many = [[word for word in words if word != "elm"] * 4 + ["elm"] * extra for extra in (0, 1)]
    many += [words[:8] * (MOST_TERMS // 8) + ["sea"] * extra for extra in (0, 1)]  # the most terms without a scan, and one more
    made += [((" | ".join(terms), terms, lambda counts, terms=terms: any(it in counts for it in terms)), 10) for terms in many]
    return [(text, room, model.best(counted, answers, room)) for (text, counted, answers), room in made]


def fault(programs, name, asked):
    """What is wrong with the answer of a program to a query, or None."""
    text, room, wanted = asked
    found = said(programs.run(name, "find", "--explain", "--best", str(room), "index.c", text))
    return None if found == wanted else f"{room} of {text} by {name}: {found}, and not {wanted}"


def checks(programs):
    documents = corpus(random.Random(1))
    model = Model(documents)
    written(programs.folder, {"ranked/paragraphs": "\n\n".join(" ".join(words) for words in documents) + "\n"})
    _, wrong = programs.index("--paragraphs", "ranked")
    yield "an index of paragraphs with ties", wrong
    made = queries(model)
    asked = [(name, one) for number, one in enumerate(made) for name in programs.paths if name != "sanitized" or number % ONE_OF == 0]
    with concurrent.futures.ThreadPoolExecutor(2) as pool:
        faults = [why for why in pool.map(lambda it: fault(programs, *it), asked) if why]
    yield f"the best documents of {len(made)} queries", f"{len(faults)} are wrong: {faults[0][:2000]}" if faults else None
