// The ten best documents by BM25 with 1.2 and 0.75: by sets and columns, and by a scan of plain arrays with a score for each document.
#include "bitpacking.h"
#include "ways.hpp"

constexpr size_t BEST = 10, ROWS = 17; // as many counts have a row of their own in the table of a word

// By word its table: what a count is worth in documents of each class, in units of a ten-thousandth.
struct Tables {
    const Corpus &corpus;
    double mean = 0;
    std::map<size_t, std::vector<uint32_t>> of_words;

    explicit Tables(const Corpus &its) : corpus(its)
    {
        for (uint8_t it : its.classes)
            mean += std::exp2(it / 8.0) / its.documents();
    }

    const std::vector<uint32_t> &of(size_t word)
    {
        std::vector<uint32_t> &table = of_words[word];
        double have = corpus.len(word), others = corpus.documents() - have;
        double weight = table.empty() ? std::log(1 + (others + 0.5) / (have + 0.5)) * 2.2 * 10000 : 0;
        for (size_t i = table.size(); i < ROWS * BITPACKING_CLASSES; i++) {
            double count = i / BITPACKING_CLASSES, length = std::exp2(i % BITPACKING_CLASSES / 8.0) / mean;
            table.push_back(count / (count + 1.2 * (0.25 + 0.75 * length)) * weight);
        }
        return table;
    }
};

size_t at_least(const Query &query)
{
    return query.operation == '&' ? query.words.size() : 1;
}

struct Ranked : Way {
    const Corpus &corpus;
    const Packed &sets;
    Tables &tables;
    struct Started {
        bitpacking_term term = BITPACKING_TERM_EMPTY;
        std::vector<uint8_t> counts;
        std::vector<uint32_t> parts;
    };
    std::map<size_t, Started> started;
    std::vector<const Started *> words;
    std::vector<bitpacking_term> terms;
    std::vector<bitpacking_block_bounds> bounds;
    std::vector<bitpacking_walk> walks;

    Ranked(const Corpus &its, const Packed &packed, Tables &all) : Way("sets and columns"), corpus(its), sets(packed), tables(all) {}

    // A term is started at the first query with its word, and has its bounds from then on.
    const Started &start(size_t word)
    {
        auto [found, is_new] = started.try_emplace(word);
        auto &[term, counts, parts] = found->second;
        if (is_new) {
            bitpacking_column column = BITPACKING_COLUMN_EMPTY;
            const std::vector<uint32_t> &table = tables.of(word);
            counts.resize(BITPACKING_COLUMN_ROOM(corpus.len(word)));
            ptrdiff_t size = bitpacking_column_pack(BITPACKING_PLAIN, corpus.counts_of(word), corpus.len(word), counts.data(), counts.size(), nullptr);
            if (size < 0 || bitpacking_column_open(counts.data(), size, &column) != 0 ||
                bitpacking_term_start(&term, &sets.views[word], &column, table.data(), table.size()) != 0)
                fail("a term is not started");
            parts.resize((corpus.len(word) + 127) / 128);
            bitpacking_term_bound(&term, corpus.classes.data(), corpus.documents(), parts.data(), parts.size());
        }
        return found->second;
    }

    size_t answer(const Query &query, uint32_t *out) override
    {
        bitpacking_scored found[BEST];
        words.clear(), terms.clear(), bounds.clear();
        for (size_t word : query.words)
            words.push_back(&start(word));
        std::sort(words.begin(), words.end(), [](const auto *one, const auto *other) {
            return bitpacking_set_len(&one->term.set) < bitpacking_set_len(&other->term.set);
        });
        for (const Started *word : words) {
            terms.push_back(word->term);
            bounds.push_back({word->parts.data(), word->parts.size()});
        }
        walks.resize(std::max(walks.size(), terms.size()));
        ptrdiff_t count = bitpacking_best_bounded(terms.data(), terms.size(), bounds.data(), bounds.size(), corpus.classes.data(),
                                                  corpus.documents(), at_least(query), walks.data(), walks.size(), found, BEST);
        if (count < 0)
            fail(bitpacking_error_text(count));
        for (ptrdiff_t i = 0; i < count; i++)
            out[i] = found[i].id;
        return count;
    }
};

struct Scan : Way {
    const Corpus &corpus;
    Tables &tables;
    std::vector<std::pair<size_t, uint64_t>> scores; // how many of the words a document has, and its score: 0 before and after

    Scan(const Corpus &its, Tables &all) : Way("a scan of arrays"), corpus(its), tables(all), scores(its.documents()) {}

    size_t answer(const Query &query, uint32_t *out) override
    {
        for (size_t word : query.words) {
            const uint32_t *table = tables.of(word).data(), *counts = corpus.counts_of(word);
            Ids ids = corpus.of(word);
            for (size_t i = 0; i < ids.len; i++) {
                auto &[have, score] = scores[ids.items[i]];
                have++;
                score += table[BITPACKING_CLASSES * std::min<size_t>(counts[i], ROWS - 1) + corpus.classes[ids.items[i]]];
            }
        }
        std::vector<std::pair<uint64_t, uint32_t>> best; // scores, and ids from the greatest on
        for (size_t word : query.words)
            for (size_t i = corpus.starts[word]; i < corpus.starts[word + 1]; i++) {
                auto [have, score] = std::exchange(scores[corpus.ids[i]], std::pair<size_t, uint64_t>());
                std::pair<uint64_t, uint32_t> it(score, ~corpus.ids[i]);
                if (have < at_least(query) || (best.size() == BEST && it < best.back()))
                    continue;
                best.insert(std::upper_bound(best.begin(), best.end(), it, std::greater<>()), it);
                best.resize(std::min(best.size(), BEST));
            }
        std::transform(best.begin(), best.end(), out, [](const auto &it) { return ~it.second; });
        return best.size();
    }
};
