// How a call is compared and timed by both libraries.
#pragma once
#include "../calls.hpp"

#include <memory>
#include <roaring/roaring.h>

using Ids = std::vector<uint32_t>;
using Bytes = std::vector<uint8_t>;
using Sets = const bitpacking_set *;
using Bits = const roaring_bitmap_t *;

struct Free {
    void operator()(roaring_bitmap_t *it) const { roaring_bitmap_free(it); }
};
using Bitmap = std::unique_ptr<roaring_bitmap_t, Free>;

// What a call writes to.
struct Room {
    Ids ids, work;
    Bytes bytes;
};

inline Bitmap read(const Bytes &bytes, size_t size)
{
    return Bitmap(roaring_bitmap_portable_deserialize_safe(reinterpret_cast<const char *>(bytes.data()), size));
}

inline size_t unpack(const bitpacking_set &view, Ids &out)
{
    return tested(bitpacking_set_unpack(&view, out.data(), out.size()));
}

inline size_t unpack(const Bitmap &bitmap, Ids &out)
{
    roaring_bitmap_to_uint32_array(bitmap.get(), out.data());
    return roaring_bitmap_get_cardinality(bitmap.get());
}

// How answers are compared: by the numbers that the calls return, by the ids or the sets that they write, or not.
enum class As { number, ids, set, nothing };

struct Bench {
    size_t shape;
    int rounds;
    Room ours, theirs;

    template <typename One, typename Other> void compare(const std::string &name, As as, One one, Other other)
    {
        size_t count = one(ours), same = other(theirs);
        if (as == As::set) {
            count = unpack(opened(ours.bytes.data(), count), ours.ids);
            same = unpack(read(theirs.bytes, same), theirs.ids);
        }
        bool has_ids = as == As::ids || as == As::set;
        if (as != As::nothing && (count != same || (has_ids && !std::equal(&ours.ids[0], &ours.ids[count], &theirs.ids[0]))))
            fail(name + " differs in shape " + std::to_string(shape));
    }

    template <typename Way> static double timed(Way &way, Room &room, size_t times)
    {
        double start = now();
        for (size_t i = 0; i < times; i++)
            asm volatile("" : : "r"(size_t(way(room))) : "memory"); // no call is left out
        return (now() - start) / times;
    }

    // As many calls as take a thousandth of a second are timed together.
    template <typename One, typename Other> void call(const std::string &name, As as, One one, Other other)
    {
        compare(name, as, one, other);
        auto times = [](auto &way, Room &room) { return std::clamp(1e-3 / timed(way, room, 1), 1.0, 20000.0); };
        double count = times(one, ours), their_count = times(other, theirs), least = 1e9, their_least = 1e9;
        for (int round = 0; round < rounds; round++) {
            least = std::min(least, timed(one, ours, count));
            their_least = std::min(their_least, timed(other, theirs, their_count));
        }
        printf("%zu\t%s\t%.12f\t%.12f\n", shape, name.c_str(), least, their_least);
    }
};
