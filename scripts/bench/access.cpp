/* Sets that change each day, as a base and what came and went since, beside bitmaps of CRoaring, which change in place. 40 roles may read up to half of
   a million documents. Each day each role gets 1,000 and loses 1,000, and 20 times three roles and a search of 5,000 are asked for. After each
   seventh day sets are compacted, and bitmaps optimized and serialized. Answers have to be equal. Prints times of the processor, and bytes.

       c++ -O2 -std=c++17 -Iinclude scripts/bench/access.cpp rust/out/libbitpacking.a -lroaring -o out/access && out/access
*/
#include "bitpacking.hpp"

#include <cstdio>
#include <ctime>
#include <random>
#include <roaring/roaring.h>

using bitpacking::id_set;
using ids = std::vector<std::uint32_t>;

enum { DOCUMENTS = 1000000, ROLES = 40, DAYS = 14, A_DAY = 1000, SEARCHES = 20, FOUND = 5000 };

struct role {
    id_set base, added, removed;
    roaring_bitmap_t *bitmap;
};

static std::mt19937 random_bits(20261201);
static role roles[ROLES];

// The time that a call takes is added to a sum, in microseconds.
template <class Call> static void timed(double &sum, Call call)
{
    const std::clock_t start = std::clock();
    call();
    sum += 1e6 * static_cast<double>(std::clock() - start) / CLOCKS_PER_SEC;
}

static ids some(std::uint32_t count)
{
    ids documents(count);
    for (std::uint32_t &document : documents)
        document = random_bits() % DOCUMENTS;
    return documents;
}

static void day(double &sets, double &bitmaps)
{
    for (role &it : roles) {
        const ids granted = some(A_DAY), revoked = some(A_DAY);
        timed(sets, [&] {
            const id_set in(granted.begin(), granted.end()), out(revoked.begin(), revoked.end());
            it.added = (it.added | in) - out;
            it.removed = (it.removed - in) | out;
        });
        timed(bitmaps, [&] {
            roaring_bitmap_add_many(it.bitmap, A_DAY, granted.data());
            roaring_bitmap_remove_many(it.bitmap, A_DAY, revoked.data());
        });
    }
}

static ids asked_of_sets(const role *const (&three)[3], const id_set &search)
{
    const bitpacking_set views[] = {three[0]->base.view(), three[0]->added.view(), three[0]->removed.view(), three[1]->base.view(),
                                    three[1]->added.view(), three[1]->removed.view(), three[2]->base.view(), three[2]->added.view(),
                                    three[2]->removed.view(), search.view()};
    constexpr std::uint32_t OR = BITPACKING_OR, NOT = BITPACKING_AND_NOT;
    const std::uint32_t steps[] = {0, 1, OR, 2, NOT, 3, 4, OR, 5, NOT, OR, 6, 7, OR, 8, NOT, OR, 9, BITPACKING_AND};
    std::uint64_t space[BITPACKING_QUERY_SPACE(3)], next = 0;
    std::size_t position;
    ids found(FOUND);
    found.resize(bitpacking::detail::checked(bitpacking_set_query(views, 10, steps, 19, space, BITPACKING_QUERY_SPACE(3), &next,
                                                                  found.data(), found.size(), &position)));
    return found;
}

static ids asked_of_bitmaps(const role *const (&three)[3], const roaring_bitmap_t *search)
{
    const roaring_bitmap_t *bitmaps[] = {three[0]->bitmap, three[1]->bitmap, three[2]->bitmap};
    roaring_bitmap_t *all = roaring_bitmap_or_many(3, bitmaps);
    roaring_bitmap_and_inplace(all, search);
    ids found(roaring_bitmap_get_cardinality(all));
    roaring_bitmap_to_uint32_array(all, found.data());
    roaring_bitmap_free(all);
    return found;
}

static bool searches(double &sets, double &bitmaps)
{
    for (int turn = 0; turn < SEARCHES; turn++) {
        const role *const three[] = {&roles[random_bits() % ROLES], &roles[random_bits() % ROLES], &roles[random_bits() % ROLES]};
        const ids documents = some(FOUND);
        const id_set search(documents.begin(), documents.end());
        roaring_bitmap_t *other = roaring_bitmap_of_ptr(FOUND, documents.data());
        ids one, two;
        timed(sets, [&] { one = asked_of_sets(three, search); });
        timed(bitmaps, [&] { two = asked_of_bitmaps(three, other); });
        roaring_bitmap_free(other);
        if (one != two)
            return false;
    }
    return true;
}

static void store(double &sets, double &bitmaps, std::size_t (&bytes)[2])
{
    bytes[0] = bytes[1] = 0;
    for (role &it : roles) {
        timed(sets, [&] { it = role{(it.base | it.added) - it.removed, {}, {}, it.bitmap}; });
        bytes[0] += it.base.bytes_len();
        timed(bitmaps, [&] {
            roaring_bitmap_run_optimize(it.bitmap);
            std::vector<char> stored(roaring_bitmap_portable_size_in_bytes(it.bitmap));
            bytes[1] += roaring_bitmap_portable_serialize(it.bitmap, stored.data());
        });
    }
}

int main()
{
    double changes[2] = {}, queries[2] = {}, stores[2] = {};
    std::size_t bytes[2] = {};
    for (std::uint32_t r = 0; r < ROLES; r++) {
        ids may;
        for (std::uint32_t document = 0; document < DOCUMENTS; document++)
            if (random_bits() % (2 + r * r) == 0)
                may.push_back(document);
        roles[r] = {id_set::pack(may), {}, {}, roaring_bitmap_of_ptr(may.size(), may.data())};
    }
    for (int number = 1; number <= DAYS; number++) {
        day(changes[0], changes[1]);
        if (!searches(queries[0], queries[1])) {
            std::puts("the answers differ");
            return 1;
        }
        if (number % 7 == 0)
            store(stores[0], stores[1], bytes);
    }
    std::puts("microseconds: a day of a role, a query, to store a role each week; bytes");
    for (int side = 0; side < 2; side++)
        std::printf("%s %.0f, %.0f, %.0f; %zu\n", side == 0 ? "sets:    " : "CRoaring:", changes[side] / (DAYS * ROLES),
                    queries[side] / (DAYS * SEARCHES), stores[side] / (DAYS / 7 * ROLES), bytes[side]);
    return 0;
}
