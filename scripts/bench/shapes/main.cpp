// Each call on id sets of each shape, by include/bitpacking.h and by CRoaring, in turns: `shapes FOLDER ROUNDS`. In the folder shapes.py left the
// ids of two sets for each shape. Prints lines with tabs: the number of the shape, the call, and for both libraries the bytes, or the least processor
// time of a call.
#include "bench.hpp"

#include <iterator>
#include <numeric>
#include <random>

// How many searches are timed together, and how many ids a part of an iteration has.
constexpr size_t POINTS = 1000, PART = 256;

// Containers become runs if these are smaller.
size_t save(Bitmap bitmap, Bytes &out)
{
    roaring_bitmap_run_optimize(bitmap.get());
    return roaring_bitmap_portable_serialize(bitmap.get(), reinterpret_cast<char *>(out.data()));
}

struct Set {
    Ids ids;
    Bytes bytes, portable;
    bitpacking_set view;
    Bitmap bitmap;

    explicit Set(const Ids &its) : ids(its), portable(room())
    {
        bytes.resize(pack(ids.data(), ids.size(), bytes));
        portable.resize(save(made(), portable));
        view = opened(bytes.data(), bytes.size());
        bitmap = read(portable, portable.size());
    }

    // Enough bytes for CRoaring's format.
    size_t room() const { return 16 * ids.size() + 10000; }
    Bitmap made() const { return Bitmap(roaring_bitmap_of_ptr(ids.size(), ids.data())); }
};

// An operation on two sets, with its functions in both libraries.
struct Operation {
    std::string name;
    uint32_t number;
    ptrdiff_t (*ids)(Sets, size_t, uint32_t *, size_t);
    size_t (*count)(Sets);
    roaring_bitmap_t *(*bitmap)(Bits, Bits);
    uint64_t (*cardinality)(Bits, Bits);
};

size_t common(Sets sets) { return bitpacking_set_count_common(sets, 2); }
size_t any(Sets sets) { return bitpacking_set_count_any(sets, 2); }
size_t rest(Sets sets) { return bitpacking_set_len(sets) - common(sets); }
size_t either(Sets sets) { return bitpacking_set_len(sets) + bitpacking_set_len(sets + 1) - 2 * common(sets); }
ptrdiff_t ids_of_either(Sets sets, size_t, uint32_t *ids, size_t len) { return bitpacking_set_symmetric_difference(sets, sets + 1, ids, len); }

const Operation OPERATIONS[] = {
    {"AND", BITPACKING_AND, bitpacking_set_intersect, common, roaring_bitmap_and, roaring_bitmap_and_cardinality},
    {"OR", BITPACKING_OR, bitpacking_set_unite, any, roaring_bitmap_or, roaring_bitmap_or_cardinality},
    {"NOT", BITPACKING_AND_NOT, bitpacking_set_subtract, rest, roaring_bitmap_andnot, roaring_bitmap_andnot_cardinality},
    {"XOR", BITPACKING_XOR, ids_of_either, either, roaring_bitmap_xor, roaring_bitmap_xor_cardinality},
};

// The sum of all ids, which come in parts.
template <typename Next> size_t iterate(Next next)
{
    uint32_t part[PART];
    size_t sum = 0;
    while (size_t count = next(part))
        sum = std::accumulate(part, part + count, sum);
    return sum;
}

void whole(Bench &bench, const Set &set)
{
    auto fills = [&](Room &) {
        bitpacking_set_cursor at = BITPACKING_SET_CURSOR_EMPTY;
        bitpacking_set_cursor_start(&at, &set.view);
        return iterate([&](uint32_t *part) { return bitpacking_set_cursor_fill(&at, part, PART); });
    };
    auto parts = [&](Room &) {
        roaring_uint32_iterator_t at;
        roaring_init_iterator(set.bitmap.get(), &at);
        return iterate([&](uint32_t *part) { return roaring_read_uint32_iterator(&at, part, PART); });
    };
    auto packed = [&](Room &out) { return pack(set.ids.data(), set.ids.size(), out.bytes); };
    auto open = [&](Room &) { return opened(set.bytes.data(), set.bytes.size()).count > 0; };
    printf("%zu\tbytes\t%zu\t%zu\n", bench.shape, set.bytes.size(), set.portable.size());
    bench.call("pack", As::set, packed, [&](Room &out) { return save(set.made(), out.bytes); });
    bench.call("open", As::number, open, [&](Room &) { return read(set.portable, set.portable.size()) != nullptr; });
    bench.call("unpack", As::ids, [&](Room &out) { return unpack(set.view, out.ids); }, [&](Room &out) { return unpack(set.bitmap, out.ids); });
    bench.call("iterate", As::number, fills, parts);
}

// The sum of what a call returns for each of the points.
template <typename Call> auto at_all(const Ids &points, Call call)
{
    return [&points, call](Room &) {
        size_t sum = 0;
        for (uint32_t it : points)
            sum += call(it);
        return sum;
    };
}

// Moves a cursor to increasing points.
void moves(Bench &bench, const Set &set, Ids points)
{
    std::sort(points.begin(), points.end());
    auto cursor = [&](Room &) {
        bitpacking_set_cursor at = BITPACKING_SET_CURSOR_EMPTY;
        bitpacking_set_cursor_start(&at, &set.view);
        uint32_t id;
        size_t sum = 0;
        for (uint32_t it : points)
            sum += bitpacking_set_cursor_seek(&at, it, &id) ? id : 0;
        return sum;
    };
    auto iterator = [&](Room &) {
        roaring_uint32_iterator_t at;
        roaring_init_iterator(set.bitmap.get(), &at);
        size_t sum = 0;
        for (uint32_t it : points)
            sum += roaring_move_uint32_iterator_equalorlarger(&at, it) ? at.current_value : 0;
        return sum;
    };
    bench.call("move", As::number, cursor, iterator);
}

// Half of the points are ids of the set.
void searches(Bench &bench, const Set &set)
{
    std::mt19937 dice(1);
    Sets view = &set.view;
    Bits bitmap = set.bitmap.get();
    Ids points, positions;
    for (size_t i = 0; i < POINTS; i++) {
        points.push_back(i % 2 ? set.ids[dice() % set.ids.size()] : dice() % (set.ids.back() + size_t(2)));
        positions.push_back(dice() % set.ids.size());
    }
    uint32_t id;
    size_t position;
    roaring_uint32_iterator_t at;
    roaring_init_iterator(bitmap, &at);
    auto search = [&](const char *name, const Ids &its, auto one, auto other) { bench.call(name, As::number, at_all(its, one), at_all(its, other)); };
    auto contains = [=](uint32_t it) { return bitpacking_set_contains(view, it); };
    search("contains", points, contains, [=](uint32_t it) { return roaring_bitmap_contains(bitmap, it); });
    // The rank of CRoaring counts the id too.
    auto rank = [=](uint32_t it) { return bitpacking_set_rank(view, it); };
    search("rank", points, rank, [=](uint32_t it) { return it > 0 ? roaring_bitmap_rank(bitmap, it - 1) : 0; });
    auto select = [&](uint32_t it) { return bitpacking_set_get(view, it, &id) ? id : 0; };
    search("select", positions, select, [&](uint32_t it) { return roaring_bitmap_select(bitmap, it, &id) ? id : 0; });
    auto seek = [&](uint32_t it) { return bitpacking_set_seek(view, it, &position, &id) ? id : 0; };
    search("seek", points, seek, [&](uint32_t it) { return roaring_move_uint32_iterator_equalorlarger(&at, it) ? at.current_value : 0; });
    moves(bench, set, points);
}

// Each set of ours is bytes. CRoaring first leaves a bitmap, and then also saves it.
void combined(Bench &bench, Sets sets, Bits one, Bits other, const Operation &by)
{
    auto ids = [&](Room &out) { return tested(by.ids(sets, 2, out.ids.data(), out.ids.size())); };
    auto set = [&](Room &out) { return combine(by.number, sets, 2, out.work, out.bytes); };
    auto bitmap = [&] { return Bitmap(by.bitmap(one, other)); };
    bench.call(by.name + " to ids", As::ids, ids, [&](Room &out) { return unpack(bitmap(), out.ids); });
    bench.call(by.name + " to a set", As::nothing, set, [&](Room &) { return bitmap() != nullptr; });
    bench.call(by.name + " to bytes", As::set, set, [&](Room &out) { return save(bitmap(), out.bytes); });
    bench.call(by.name + " counted", As::number, [&](Room &) { return by.count(sets); }, [&](Room &) { return by.cardinality(one, other); });
}

// Timed if it is true: only then all ids are looked at.
void related(Bench &bench, const Set &one, const Set &other)
{
    auto in = [](const Set &a, const Set &b) { return [&](Room &) { return bitpacking_set_is_subset(&a.view, &b.view) > 0; }; };
    auto bitmap_in = [](const Set &a, const Set &b) { return [&](Room &) { return roaring_bitmap_is_subset(a.bitmap.get(), b.bitmap.get()); }; };
    auto apart = [](const Set &a, const Set &b) { return [&](Room &) { return bitpacking_set_is_disjoint(&a.view, &b.view) > 0; }; };
    auto bitmap_apart = [](const Set &a, const Set &b) { return [&](Room &) { return !roaring_bitmap_intersect(a.bitmap.get(), b.bitmap.get()); }; };
    Ids any, less;
    std::set_union(one.ids.begin(), one.ids.end(), other.ids.begin(), other.ids.end(), std::back_inserter(any));
    std::set_difference(one.ids.begin(), one.ids.end(), other.ids.begin(), other.ids.end(), std::back_inserter(less));
    Set all(any), rest(less);
    bench.compare("subset", As::number, in(one, other), bitmap_in(one, other));
    bench.compare("disjoint", As::number, apart(one, other), bitmap_apart(one, other));
    bench.call("subset", As::number, in(other, all), bitmap_in(other, all));
    bench.call("disjoint", As::number, apart(rest, other), bitmap_apart(rest, other));
}

int main(int, char **arguments)
{
    std::string folder = arguments[1];
    Ids ids = numbers<uint32_t>(folder + "/ids"), lens = numbers<uint32_t>(folder + "/lens");
    auto start = ids.begin();
    for (size_t i = 0; i < lens.size(); i += 2) {
        auto middle = start + lens[i], end = middle + lens[i + 1];
        Set one(Ids(start, middle)), other(Ids(middle, end));
        Room room{Ids(end - start + 1), {}, Bytes(one.room() + other.room())};
        Bench bench{i / 2, atoi(arguments[2]), room, room};
        const bitpacking_set sets[] = {one.view, other.view};
        whole(bench, other);
        searches(bench, other);
        for (const Operation &by : OPERATIONS)
            combined(bench, sets, one.bitmap.get(), other.bitmap.get(), by);
        related(bench, one, other);
        start = end;
    }
}
