// The words of a corpus, queries over them, and what a way to keep them implements.
#pragma once
#include "../measured.hpp"

#include <algorithm>
#include <cmath>
#include <cstring>
#include <map>
#include <memory>
#include <sstream>
#include <utility>

// '&' asks for the documents with all words, '|' for those with any, and '-' for those with the first word and no other.
struct Query {
    std::string set;
    char operation;
    std::vector<size_t> words;
};

struct Ids {
    const uint32_t *items;
    size_t len;
};

// What search_speed.py writes to a folder: how many documents each word has; these, and how often each has it, word after word; and of each
// document the class of its length, which is eight times the logarithm of base 2.
struct Corpus {
    std::string folder;
    std::vector<uint32_t> ids = numbers<uint32_t>(folder + "/ids"), counts = numbers<uint32_t>(folder + "/counts");
    std::vector<uint8_t> classes = numbers<uint8_t>(folder + "/classes");
    std::vector<size_t> starts{0};

    explicit Corpus(const std::string &from) : folder(from)
    {
        for (uint32_t len : numbers<uint32_t>(folder + "/lens"))
            starts.push_back(starts.back() + len);
    }

    size_t documents() const { return classes.size(); }
    size_t words() const { return starts.size() - 1; }
    size_t len(size_t word) const { return starts[word + 1] - starts[word]; }
    Ids of(size_t word) const { return {&ids[starts[word]], len(word)}; }
    const uint32_t *counts_of(size_t word) const { return &counts[starts[word]]; }

    std::vector<Query> queries(const std::string &name) const
    {
        std::vector<Query> found;
        std::ifstream file(folder + '/' + name);
        for (std::string line; std::getline(file, line);) {
            std::istringstream parts(line);
            Query query;
            parts >> query.set >> query.operation;
            for (size_t word; parts >> word;)
                query.words.push_back(word);
            found.push_back(query);
        }
        return found;
    }
};

struct Way {
    const char *name;
    size_t bytes = 0;
    // How many rounds count, and of how many queries it takes one.
    int rounds = 99;
    size_t one_of = 1;
    // Whether it has to give the ids of the first way.
    bool is_compared = true;
    // Whether its answers are timed as sets of its own.
    bool gives_sets = false;

    explicit Way(const char *its) : name(its) {}
    virtual ~Way() = default;
    // Writes the ids that answer to `out`, which has room for all documents: in order, or the best first. Returns how many they are. If `out` is null,
    // the answer stays a set.
    virtual size_t answer(const Query &query, uint32_t *out) = 0;
};

using Ways = std::vector<std::unique_ptr<Way>>;
