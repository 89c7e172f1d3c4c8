// Wide sets beside Roaring64Map: prints a row for each kind of ids.
#include "../measured.hpp"
#include "bitpacking.hpp"

#include <algorithm>
#include <random>
#include <roaring/roaring64map.hh>

using Ids = std::vector<uint64_t>;
using Map = Roaring64Map;
using bitpacking::wide_set;

static const uint32_t OPERATIONS[] = {BITPACKING_AND, BITPACKING_OR, BITPACKING_AND_NOT, BITPACKING_XOR};
static const uint64_t COUNT = 100000, MILLISECOND = 1000000, SECOND = 1000 * MILLISECOND, NOW = 1700000000 * SECOND;

static Ids increasing(Ids ids)
{
    std::sort(ids.begin(), ids.end());
    ids.erase(std::unique(ids.begin(), ids.end()), ids.end());
    return ids;
}

static Map map_of(const Ids &ids)
{
    Map map;
    map.addMany(ids.size(), ids.data());
    map.runOptimize();
    return map;
}

static Map combined(uint32_t operation, const Map &a, const Map &b)
{
    return operation == BITPACKING_AND ? a & b : operation == BITPACKING_OR ? a | b : operation == BITPACKING_AND_NOT ? a - b : a ^ b;
}

// The least time of a few calls. The first takes more if what the others freed is sorted.
template <typename Way> static double least(Way way)
{
    double least = 1e9;
    for (int call = 0; call < 3; call++) {
        double start = now();
        way();
        least = std::min(least, now() - start);
    }
    return least;
}

// The speed of one way beside another: both take turns.
template <typename One, typename Other> static std::string speed(One one, Other other)
{
    double ours = least(one), theirs = least(other);
    ours = std::min(ours, least(one)), theirs = std::min(theirs, least(other));
    char text[32];
    snprintf(text, sizeof text, theirs < 10 * ours ? "%.2g" : "%.0f", theirs / ours);
    return text;
}

static void row(const char *name, const Ids &a, const Ids &b)
{
    std::mt19937_64 dice(11);
    Ids room(a.size() + b.size()), their_room(room.size()), looked_up;
    std::vector<uint32_t> space(room.size());
    for (int i = 0; i < 1000; i++)
        looked_up.push_back(a[dice() % a.size()] + dice() % 2);
    const wide_set x = wide_set::pack(a), y = wide_set::pack(b);
    const Map p = map_of(a), q = map_of(b);
    volatile size_t found = 0;
    std::string text = std::string(name) + "|" + std::to_string(8 * x.view().bytes_len / a.size()) + "/" + std::to_string(8 * p.getSizeInBytes() / a.size());
    text += "|" + speed([&] { wide_set::pack(a); }, [&] { map_of(a); });
    text += "/" + speed([&] { x.unpack(); }, [&] { p.toUint64Array(their_room.data()); });
    text += "/" + speed([&] { for (uint64_t id : looked_up) found = found + x.contains(id); }, [&] { for (uint64_t id : looked_up) found = found + p.contains(id); });
    std::string ids = "|", sets = "|", counts = "|";
    for (uint32_t it : OPERATIONS) {
        const Map right = combined(it, p, q);
        const size_t count = right.cardinality();
        auto list = [&] { return size_t(bitpacking_wide_set_combine_ids(it, &x.view(), &y.view(), room.data(), room.size(), space.data(), space.size())); };
        right.toUint64Array(their_room.data());
        if (list() != count || !std::equal(&room[0], &room[count], &their_room[0]) || wide_set::combine(it, x, y).size() != count)
            fail(std::string(name) + " differs");
        const char *bar = it == BITPACKING_XOR ? "" : "/";
        ids += speed(list, [&] { combined(it, p, q).toUint64Array(their_room.data()); }) + bar;
        sets += speed([&] { wide_set::combine(it, x, y); }, [&] { combined(it, p, q); }) + bar;
        counts += speed([&] { found = bitpacking_wide_set_combine_count(it, &x.view(), &y.view()); }, [&] { found = combined(it, p, q).cardinality(); }) + bar;
    }
    printf("%s\n", (text + ids + sets + counts).c_str());
    fflush(stdout);
}

int main()
{
    std::mt19937_64 dice(7);
    Ids a, b;
    for (uint64_t k = 0; k < COUNT; k++) {
        a.push_back(dice());
        b.push_back(k % 10 ? dice() : a[k]);
    }
    row("hashes", increasing(a), increasing(b));
    for (uint64_t step : {10 * SECOND, MILLISECOND}) {
        for (uint64_t k = 0; k < COUNT; k++) {
            a[k] = NOW + k * step + dice() % MILLISECOND;
            b[k] = k % 10 ? NOW + k * step + dice() % MILLISECOND : a[k];
        }
        row(step == MILLISECOND ? "times in ns, one a ms" : "times in ns, one in 10 s", increasing(a), increasing(b));
    }
    a.clear(), b.clear();
    for (uint64_t k = 0; k < 3 * COUNT; k++) {
        if (dice() % 3 == 0)
            a.push_back((uint64_t(1) << 33) + k);
        if (dice() % 3 == 0)
            b.push_back((uint64_t(1) << 33) + k);
    }
    row("keys, a third of a table", a, b);
}
