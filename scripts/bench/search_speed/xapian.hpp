// The library of Xapian: boolean queries without weights, and the best ten by BM25. Its database has no list of words for each document, no positions
// and no names. A word is its number.
#include "ways.hpp"

#include <filesystem>
#include <xapian.h>

// Writes the database, unless it is there.
std::string database_of(const Corpus &corpus)
{
    std::string path = corpus.folder + "/xapian", first = path + ".first";
    if (std::filesystem::exists(path))
        return path;
    std::vector<std::vector<std::pair<size_t, uint32_t>>> words(corpus.documents());
    for (size_t word = 0; word < corpus.words(); word++)
        for (size_t i = corpus.starts[word]; i < corpus.starts[word + 1]; i++)
            words[corpus.ids[i]].push_back({word, corpus.counts[i]});
    {
        Xapian::WritableDatabase database(first, Xapian::DB_CREATE_OR_OVERWRITE | Xapian::DB_NO_TERMLIST);
        for (const auto &its : words) {
            Xapian::Document document;
            for (auto [word, count] : its)
                document.add_term(std::to_string(word), count);
            database.add_document(document);
        }
    }
    Xapian::Database(first).compact(path);
    std::filesystem::remove_all(first);
    return path;
}

struct ByXapian : Way {
    Xapian::Database database;
    Xapian::Enquire enquire;
    bool best;

    ByXapian(const Corpus &corpus, bool ranks) : Way("Xapian"), database(database_of(corpus)), enquire(database), best(ranks)
    {
        bytes = std::filesystem::file_size(corpus.folder + "/xapian/postlist.glass");
        rounds = 1;
        one_of = ranks ? 1 : 4;
        is_compared = !ranks;
        if (ranks)
            enquire.set_weighting_scheme(Xapian::BM25Weight(1.2, 0, 1, 0.75, 0)); /* k1, k2, k3, b, and the least length */
        else
            enquire.set_weighting_scheme(Xapian::BoolWeight());
        enquire.set_docid_order(Xapian::Enquire::ASCENDING);
    }

    size_t answer(const Query &query, uint32_t *out) override
    {
        std::vector<std::string> words;
        for (size_t word : query.words)
            words.push_back(std::to_string(word));
        Xapian::Query::op operation = query.operation == '&'   ? Xapian::Query::OP_AND
                                      : query.operation == '|' ? Xapian::Query::OP_OR
                                                               : Xapian::Query::OP_AND_NOT;
        enquire.set_query(Xapian::Query(operation, words.begin(), words.end()));
        Xapian::MSet found = enquire.get_mset(0, best ? 10 : database.get_doccount());
        size_t count = 0;
        for (Xapian::MSetIterator it = found.begin(); it != found.end(); ++it)
            out[count++] = *it - 1;
        return count;
    }
};
