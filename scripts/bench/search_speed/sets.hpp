// Id sets, by the functions of include/bitpacking.h. They are opened before, or at each query.
#include "../calls.hpp"
#include "ways.hpp"

// The sets of all words, packed, and the views of these.
struct Packed {
    std::vector<uint8_t> bytes;
    std::vector<size_t> starts{0};
    std::vector<bitpacking_set> views;

    explicit Packed(const Corpus &corpus)
    {
        std::vector<uint8_t> room;
        for (size_t word = 0; word < corpus.words(); word++) {
            size_t size = pack(corpus.of(word).items, corpus.len(word), room);
            bytes.insert(bytes.end(), room.begin(), room.begin() + size);
            starts.push_back(bytes.size());
        }
        for (size_t word = 0; word < corpus.words(); word++)
            views.push_back(open(word));
    }

    bitpacking_set open(size_t word) const { return opened(&bytes[starts[word]], starts[word + 1] - starts[word]); }
};

struct Sets : Way {
    const Packed &all;
    std::vector<bitpacking_set> these;
    size_t documents;
    bool is_opening;

    Sets(const Packed &its, size_t count, bool opens)
        : Way(opens ? "sets, opened at each query" : "sets"), all(its), documents(count), is_opening(opens)
    {
        bytes = its.bytes.size();
    }

    void choose(const Query &query)
    {
        these.clear();
        for (size_t word : query.words)
            these.push_back(is_opening ? all.open(word) : all.views[word]);
        if (query.operation == '&')
            std::sort(these.begin(), these.end(),
                      [](const auto &one, const auto &other) { return bitpacking_set_len(&one) < bitpacking_set_len(&other); });
    }

    size_t answer(const Query &query, uint32_t *out) override
    {
        choose(query);
        auto call = query.operation == '&'   ? bitpacking_set_intersect
                    : query.operation == '|' ? bitpacking_set_unite
                                             : bitpacking_set_subtract;
        return tested(call(these.data(), these.size(), out, documents));
    }
};

// Id sets whose answers are bytes of a set.
struct Closed : Sets {
    std::vector<uint32_t> room;
    std::vector<uint8_t> answered;

    Closed(const Packed &its, size_t count) : Sets(its, count, false)
    {
        name = "sets, to a set";
        gives_sets = true;
    }

    size_t answer(const Query &query, uint32_t *out) override
    {
        choose(query);
        uint32_t operation = query.operation == '&' ? BITPACKING_AND : query.operation == '|' ? BITPACKING_OR : BITPACKING_AND_NOT;
        size_t size = combine(operation, these.data(), these.size(), room, answered);
        if (!out)
            return size;
        bitpacking_set set = opened(answered.data(), size);
        return tested(bitpacking_set_unpack(&set, out, documents));
    }
};
