// Answers queries in each way, in turns: `search FOLDER ROUNDS`. All ways have to give the same ids. Prints lines with tabs: the bytes of each way,
// and for each set of queries the least processor time of a round for a query, with ids and with a set as its answer.
#include "arrays.hpp"
#include "sets.hpp"
#include "ranking.hpp"
#ifdef ROARING
#include "roaring.hpp"
#endif
#ifdef XAPIAN
#include "xapian.hpp"
#endif

// The seconds of a query in a round.
double timed(Way &way, const std::vector<Query> &queries, uint32_t *out)
{
    size_t count = 0;
    double start = now();
    for (size_t i = 0; i < queries.size(); i += way.one_of, count++)
        way.answer(queries[i], out);
    return (now() - start) / count;
}

void compare(Way &right, Way &way, const std::vector<Query> &queries, size_t documents)
{
    std::vector<uint32_t> one(documents), other(documents);
    for (size_t i = 0; i < queries.size(); i += way.one_of) {
        size_t count = right.answer(queries[i], one.data());
        if (way.answer(queries[i], other.data()) != count || memcmp(one.data(), other.data(), 4 * count) != 0)
            fail(std::string(way.name) + " has other answers than " + right.name + " to " + queries[i].set);
    }
}

void measure(const Corpus &corpus, const char *file, Ways &ways, int rounds)
{
    std::map<std::string, std::vector<Query>> sets;
    for (const Query &query : corpus.queries(file))
        sets[query.set].push_back(query);
    std::vector<uint32_t> room(corpus.documents());
    for (const auto &[set, queries] : sets) {
        std::vector<double> best(ways.size(), 1e9);
        for (auto &way : ways)
            if (way->is_compared)
                compare(*ways[0], *way, queries, corpus.documents());
        for (int round = 0; round < rounds; round++)
            for (size_t i = 0; i < ways.size(); i++)
                if (round < ways[i]->rounds)
                    best[i] = std::min(best[i], timed(*ways[i], queries, ways[i]->gives_sets ? nullptr : room.data()));
        for (size_t i = 0; i < ways.size(); i++)
            printf("%s\t%s\t%s\t%.9f\n", file, set.c_str(), ways[i]->name, best[i]);
    }
}

int main(int, char **arguments)
{
    Corpus corpus(arguments[1]);
    Packed sets(corpus);
    Tables tables(corpus);
    Ways ways, ranking;
    ways.push_back(std::make_unique<Sets>(sets, corpus.documents(), false));
    ways.push_back(std::make_unique<Sets>(sets, corpus.documents(), true));
    ways.push_back(std::make_unique<Closed>(sets, corpus.documents()));
    ways.push_back(std::make_unique<Arrays>(corpus));
    ranking.push_back(std::make_unique<Ranked>(corpus, sets, tables));
    ranking.push_back(std::make_unique<Scan>(corpus, tables));
#ifdef ROARING
    auto roaring = std::make_unique<Roaring>(corpus), closed = std::make_unique<Roaring>(*roaring);
    closed->name = "CRoaring, to a set";
    closed->gives_sets = true;
    ways.push_back(std::move(roaring));
    ways.push_back(std::move(closed));
#endif
#ifdef XAPIAN
    ways.push_back(std::make_unique<ByXapian>(corpus, false));
    ranking.push_back(std::make_unique<ByXapian>(corpus, true));
#endif
    for (auto &way : ways)
        if (!way->gives_sets)
            printf("bytes\t\t%s\t%zu\n", way->name, way->bytes);
    measure(corpus, "queries", ways, atoi(arguments[2]));
    measure(corpus, "ranked", ranking, atoi(arguments[2]));
}
