// Plain arrays of 32-bit numbers. Lists of like lengths are merged without a branch on which number is less; else the shorter one searches the longer
// one in growing steps from the last index. The numbers of many lists together are sorted.
#include "ways.hpp"

// From this many times the length on a list is searched. From this many lists on OR sorts.
constexpr size_t MUCH_LONGER = 32, MANY = 16;

// The first index from this one on whose number is not below another.
size_t gallop(Ids array, size_t at, uint32_t number)
{
    size_t step = 1;
    while (at + step < array.len && array.items[at + step] < number) {
        at += step;
        step *= 2;
    }
    return std::lower_bound(array.items + at, array.items + std::min(at + step + 1, array.len), number) - array.items;
}

// The numbers of `one` that `other` has, or if it is not `wanted` there, those that it lacks.
size_t kept(Ids one, Ids other, bool wanted, uint32_t *out)
{
    size_t count = 0, i = 0, j = 0;
    if (other.len / MUCH_LONGER >= one.len) {
        for (; i < one.len; i++) {
            j = gallop(other, j, one.items[i]);
            out[count] = one.items[i];
            count += (j < other.len && other.items[j] == one.items[i]) == wanted;
        }
        return count;
    }
    for (; !wanted && j < other.len && one.len / MUCH_LONGER >= other.len; j++) {
        size_t next = gallop(one, i, other.items[j]);
        memcpy(out + count, one.items + i, 4 * (next - i));
        count += next - i;
        i = next + (next < one.len && one.items[next] == other.items[j]);
    }
    while (i < one.len && j < other.len) {
        uint32_t x = one.items[i], y = other.items[j];
        out[count] = x;
        count += wanted ? x == y : x < y;
        i += x <= y;
        j += y <= x;
    }
    size_t left = wanted ? 0 : one.len - i;
    memmove(out + count, one.items + i, 4 * left);
    return count + left;
}

size_t unite(Ids one, Ids other, uint32_t *out)
{
    size_t count = 0, i = 0, j = 0;
    while (i < one.len && j < other.len) {
        uint32_t x = one.items[i], y = other.items[j];
        out[count++] = std::min(x, y);
        i += x <= y;
        j += y <= x;
    }
    memcpy(out + count, one.items + i, 4 * (one.len - i));
    count += one.len - i;
    memcpy(out + count, other.items + j, 4 * (other.len - j));
    return count + other.len - j;
}

struct Arrays : Way {
    const Corpus &corpus;
    std::vector<Ids> these;
    std::vector<uint32_t> room[2];

    explicit Arrays(const Corpus &its) : Way("arrays"), corpus(its) { bytes = 4 * its.ids.size(); }

    size_t answer(const Query &query, uint32_t *out) override
    {
        size_t sum = 0;
        these.clear();
        for (size_t word : query.words) {
            these.push_back(corpus.of(word));
            sum += these.back().len;
        }
        for (auto &its : room)
            its.resize(std::max(its.size(), sum));
        if (query.operation == '|' && these.size() >= MANY) {
            uint32_t *begin = room[0].data(), *end = begin;
            for (Ids its : these)
                end = std::copy_n(its.items, its.len, end);
            std::sort(begin, end);
            return std::unique_copy(begin, end, out) - out;
        }
        if (query.operation != '-')
            std::sort(these.begin(), these.end(), [](Ids one, Ids other) { return one.len < other.len; });
        Ids all = these[0];
        for (size_t i = 1; i < these.size(); i++) {
            uint32_t *to = i + 1 == these.size() ? out : room[i % 2].data();
            all.len = query.operation == '|' ? unite(all, these[i], to) : kept(all, these[i], query.operation == '&', to);
            all.items = to;
        }
        return all.len;
    }
};
