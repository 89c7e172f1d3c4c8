// Bitmaps of CRoaring, run containers where they are smaller.
#include "ways.hpp"

#include <roaring/roaring.h>

struct Roaring : Way {
    std::vector<roaring_bitmap_t *> bitmaps;
    std::vector<const roaring_bitmap_t *> these;

    explicit Roaring(const Corpus &corpus) : Way("CRoaring")
    {
        for (size_t word = 0; word < corpus.words(); word++) {
            bitmaps.push_back(roaring_bitmap_of_ptr(corpus.of(word).len, corpus.of(word).items));
            roaring_bitmap_run_optimize(bitmaps.back());
            bytes += roaring_bitmap_portable_size_in_bytes(bitmaps.back());
        }
    }

    size_t answer(const Query &query, uint32_t *out) override
    {
        these.clear();
        for (size_t word : query.words)
            these.push_back(bitmaps[word]);
        if (query.operation == '&')
            std::sort(these.begin(), these.end(), [](const auto *one, const auto *other) {
                return roaring_bitmap_get_cardinality(one) < roaring_bitmap_get_cardinality(other);
            });
        roaring_bitmap_t *all = combined(query.operation);
        size_t count = roaring_bitmap_get_cardinality(all);
        if (out)
            roaring_bitmap_to_uint32_array(all, out);
        roaring_bitmap_free(all);
        return count;
    }

    roaring_bitmap_t *combined(char operation)
    {
        if (operation == '|')
            return these.size() > 2 ? roaring_bitmap_or_many(these.size(), these.data()) : roaring_bitmap_or(these[0], these[1]);
        roaring_bitmap_t *all = operation == '&' ? roaring_bitmap_and(these[0], these[1]) : roaring_bitmap_andnot(these[0], these[1]);
        for (size_t i = 2; i < these.size(); i++)
            operation == '&' ? roaring_bitmap_and_inplace(all, these[i]) : roaring_bitmap_andnot_inplace(all, these[i]);
        return all;
    }
};
