/* Tests include/bitpacking.hpp beside std::set and std::vector, over random sets, wide sets and columns: scripts/test/c.py runs it. Prints what is
   wrong, and last that it made all calls. */
#include "bitpacking.hpp"

#include <cstdio>
#include <random>
#include <set>
#include <type_traits>

using bitpacking::column, bitpacking::column_view, bitpacking::id_set, bitpacking::id_set_view, bitpacking::readable_set;
using bitpacking::readable_wide_set, bitpacking::wide_set, bitpacking::wide_set_view;
using ids = std::set<std::uint32_t>;
using wide_ids = std::set<std::uint64_t>;

// The classes of sets of such ids.
template <class Id, class Set, class Wide> using either = std::conditional_t<std::is_same_v<Id, std::uint32_t>, Set, Wide>;
template <class Id> using readable = either<Id, readable_set, readable_wide_set>;
template <class Id> using owner = either<Id, id_set, wide_set>;
template <class Id> using view = either<Id, id_set_view, wide_set_view>;

// A view of a set that is gone after the line does not compile.
static_assert(!std::is_constructible_v<id_set_view, id_set> && std::is_constructible_v<id_set_view, const id_set &>);
static_assert(!std::is_constructible_v<column_view, column> && !std::is_convertible_v<id_set, column>);
static_assert(!std::is_constructible_v<wide_set_view, wide_set> && !std::is_convertible_v<id_set, wide_set>);
static_assert(std::is_nothrow_move_constructible_v<id_set> && std::is_nothrow_move_assignable_v<column>);

static int failed;
static std::mt19937 random_bits(20261201);

#define EXPECT(...) expect(__VA_ARGS__, __LINE__)

static void expect(bool is, int line)
{
    if (!is) {
        std::printf("line %d is wrong\n", line);
        failed = 1;
    }
}

// The number of what a call throws, or 0.
template <class Call> static std::ptrdiff_t thrown(Call call)
{
    try {
        call();
        return 0;
    } catch (const bitpacking::error &error) {
        EXPECT(std::string(error.what()) == bitpacking_error_text(error.number()));
        return error.number();
    }
}

static std::uint32_t below(std::uint32_t end)
{
    return std::uniform_int_distribution<std::uint32_t>(0, end - 1)(random_bits);
}

// Random ids below one of some ends, and a run.
static ids any()
{
    static const std::uint32_t ends[] = {1, 40, 3000, 200000, 4000000, UINT32_MAX};
    const std::uint32_t end = ends[below(6)], most = below(3) == 0 ? 20 : 3000, first = below(end);
    ids found;
    for (std::uint32_t count = below(most); count > 0; count--)
        found.insert(below(end));
    for (std::uint32_t count = below(2) * below(2000); count > 0; count--)
        found.insert(first + count);
    return found;
}

// Ids that are close together or far apart, of sets with many ids for each high word or few.
static wide_ids any_wide()
{
    const std::uint64_t step = 1 + std::uint64_t{below(2)} * below(UINT32_MAX), first = std::uint64_t{below(3)} << 40;
    wide_ids found;
    for (std::uint32_t id : any())
        found.insert(first + step * id);
    if (below(3) == 0)
        found.insert(UINT64_MAX);
    return found;
}

template <class Id> static void has(const readable<Id> &set, const std::set<Id> &right)
{
    EXPECT(set.size() == right.size() && set.empty() == right.empty());
    EXPECT(std::equal(set.begin(), set.end(), right.begin(), right.end()));
    EXPECT(set.unpack() == std::vector<Id>(right.begin(), right.end()));
    EXPECT(set == owner<Id>(right.begin(), right.end()));
    EXPECT(right.empty() ? !set.min() && !set.max() : set.min() == *right.begin() && set.max() == *right.rbegin());
}

static void is(const readable_set &set, const ids &right)
{
    has(set, right);
    EXPECT(set.describe().ids == right.size());
}

static void is(const readable_wide_set &set, const wide_ids &right) { has(set, right); }

template <class Id> static void reads(const readable<Id> &set, const std::set<Id> &right)
{
    for (int turn = 0; turn < 20; turn++) {
        const bool own = turn % 2 != 0 && !right.empty();
        const Id target = own ? *std::next(right.begin(), below(static_cast<std::uint32_t>(right.size()))) : static_cast<Id>(random_bits());
        const auto at = right.lower_bound(target);
        const auto rank = static_cast<std::size_t>(std::distance(right.begin(), at));
        EXPECT(set.contains(target) == (right.count(target) == 1));
        EXPECT(set.rank(target) == rank && set.lower_bound(target).position() == rank);
        EXPECT(std::equal(set.lower_bound(target), set.end(), at, right.end()));
        EXPECT(at == right.end() ? !set.seek(target) : set.seek(target) == std::pair(rank, *at));
        EXPECT(at == right.end() ? !set.get(rank) : set.get(rank) == *at);
        const std::size_t most = below(600);
        auto slice = set.slice(rank, most);
        EXPECT(slice.size() == std::min(most, right.size() - rank) && std::equal(slice.begin(), slice.end(), at));
    }
}

template <class Id> static std::set<Id> combined(std::uint32_t operation, const std::set<Id> &one, const std::set<Id> &other)
{
    std::set<Id> found;
    const auto end = std::inserter(found, found.end());
    if (operation == BITPACKING_AND)
        std::set_intersection(one.begin(), one.end(), other.begin(), other.end(), end);
    else if (operation == BITPACKING_OR)
        std::set_union(one.begin(), one.end(), other.begin(), other.end(), end);
    else if (operation == BITPACKING_AND_NOT)
        std::set_difference(one.begin(), one.end(), other.begin(), other.end(), end);
    else
        std::set_symmetric_difference(one.begin(), one.end(), other.begin(), other.end(), end);
    return found;
}

template <class Id> static void two(const std::set<Id> &first, const std::set<Id> &second)
{
    using set = owner<Id>;
    const set one(first.begin(), first.end()), other(second.begin(), second.end());
    const auto both = combined(BITPACKING_AND, first, second), all = combined(BITPACKING_OR, first, second);
    const auto left = combined(BITPACKING_AND_NOT, first, second), odd = combined(BITPACKING_XOR, first, second);
    const set sets[] = {one & other, one | view<Id>(other), view<Id>(one) - other, one ^ other};
    set changed[] = {one, one, one, one};

    changed[0] &= other;
    changed[1] |= other;
    changed[2] -= other;
    changed[3] ^= other;
    for (int i = 0; i < 4; i++) {
        is(sets[i], i == 0 ? both : i == 1 ? all : i == 2 ? left : odd);
        EXPECT(sets[i] == changed[i]);
    }
    EXPECT(one.intersect_len(other) == both.size() && one.unite_len(other) == all.size());
    EXPECT(one.is_subset(other) == left.empty() && other.is_superset(one) == left.empty() && one.is_disjoint(other) == both.empty());
    EXPECT((one == other) == (first == second) && (one != other) == (first != second));
}

static void three(const ids &first, const ids &second)
{
    const id_set one(first.begin(), first.end()), other(second.begin(), second.end());
    const std::vector<id_set> sets{one, other, one ^ other};
    is(id_set::combine(BITPACKING_XOR, sets), {});
    is(id_set::combine(BITPACKING_OR, std::vector<id_set_view>{one, other, sets[2]}), combined(BITPACKING_OR, first, second));
}

// A set outlives the one that it was copied or moved from.
template <class Id> static void owns(const std::set<Id> &right)
{
    std::vector<owner<Id>> sets(3);
    {
        owner<Id> made(right.begin(), right.end());
        sets[0] = made;
        sets[1] = owner<Id>(view<Id>(made));
        sets[2] = std::move(made);
        is(made, {});
        made = sets[0];
        is(made, right);
    }
    sets.reserve(sets.capacity() + 1);
    for (const auto &set : sets)
        is(set, right);
    const auto &same = sets[0];
    std::swap(sets[0], sets[1]);
    sets[0] = same;
    is(sets[0], right);
    is(sets[1] &= sets[1], right);
}

template <class Id> static void fails(const std::set<Id> &right)
{
    const owner<Id> set(right.begin(), right.end());
    const std::vector<std::uint8_t> bytes(set.bytes(), set.bytes() + set.bytes_len());
    const std::vector<std::uint8_t> cut(bytes.begin(), bytes.end() - 1);
    const std::vector<Id> twice{7, 7};
    std::ptrdiff_t number = 1;
    const auto opened = [&](const std::vector<std::uint8_t> &it) { return view<Id>::open(it.data(), it.size(), &number); };

    is(owner<Id>::open(bytes), right);
    is(opened(bytes), right);
    is(view<Id>::open_tested(bytes.data(), bytes.size()), right);
    EXPECT(number == 0);
    is(opened(cut), {});
    EXPECT(number == thrown([&] { owner<Id>::open(cut); }) && thrown([&] { view<Id>::open(cut.data(), cut.size()); }) == number);
    EXPECT(number < 0 && (number == BITPACKING_TRUNCATED || std::is_same_v<Id, std::uint64_t>));
    is(owner<Id>::open(cut, &number), {});
    is(owner<Id>::pack(twice, &number), {});
    EXPECT(number == BITPACKING_NOT_SORTED && thrown([&] { owner<Id>::pack(twice); }) == number);
}

static void appends(const ids &right)
{
    const id_set set(right.begin(), right.end());
    std::ptrdiff_t number = 1;

    is(set.append(std::vector<std::uint32_t>{7, 7}, &number), {});
    EXPECT(number == BITPACKING_NOT_SORTED && thrown([&] { set.append(std::vector<std::uint32_t>{7, 7}); }) == number);
    is(set.append(std::vector<std::uint32_t>{}, &number), right);
    EXPECT(number == static_cast<std::ptrdiff_t>(set.bytes_len()));
}

static void ranges()
{
    const std::uint32_t first = below(300000), count = below(200000);
    const id_set range = id_set::from_range(first, std::uint64_t{first} + count);
    std::uint32_t next = first;

    EXPECT(range.size() == count);
    for (std::uint32_t id : range)
        EXPECT(id == next++);
    EXPECT(range == id_set::from_range(0, first).append(range.unpack()) - id_set::from_range(0, first));
}

static void columns()
{
    std::vector<std::uint32_t> values(below(2000)), sorted;
    const std::uint32_t end = 1U << below(32), low = below(end), high = low + below(end);
    for (std::uint32_t &value : values)
        value = below(end);
    sorted = values;
    std::sort(sorted.begin(), sorted.end());

    const column plain = column::pack(BITPACKING_PLAIN, values), times = column::open([&] {
        const column made = column::pack(BITPACKING_SORTED, sorted);
        return std::vector<std::uint8_t>(made.bytes(), made.bytes() + made.bytes_len());
    }());
    const column_view view = plain;
    EXPECT(view.kind() == BITPACKING_PLAIN && times.kind() == BITPACKING_SORTED && (plain == times) == false);
    EXPECT(std::equal(view.begin(), view.end(), values.begin(), values.end()) && times.unpack() == sorted);
    const auto at = std::lower_bound(sorted.begin(), sorted.end(), low);
    EXPECT(at == sorted.end() ? !times.seek(low) : times.seek(low) == std::pair(static_cast<std::size_t>(at - sorted.begin()), *at));
    std::vector<std::size_t> positions;
    for (std::size_t i = 0; i < values.size(); i++)
        if (low <= values[i] && values[i] <= high)
            positions.push_back(i);
    EXPECT(plain.between(low, high) == positions && plain.count_between(low, high) == positions.size());
    const auto found = plain.gather(positions);
    EXPECT(std::equal(positions.begin(), positions.end(), found.begin(), found.end(), [&](std::size_t i, auto it) { return values[i] == it; }));
    const std::size_t half = values.size() / 2;
    EXPECT(column::pack(BITPACKING_PLAIN, plain.slice(0, half)).append(plain.slice(half, values.size())) == plain);
    EXPECT(thrown([&] { plain.seek(0); }) == BITPACKING_BAD_KIND && thrown([&] { column::pack(7, values); }) == BITPACKING_BAD_KIND);
    EXPECT(thrown([&] { plain.gather({values.size()}); }) == BITPACKING_BAD_POSITION);
}

// By hand: each number is of docs/FORMAT.md or docs/ROARING.md.
static void by_hand()
{
    // 0 to 9 as a run.
    const std::uint8_t roaring[] = {0x3B, 0x30, 0, 0, 1, 0, 0, 9, 0, 1, 0, 0, 0, 9, 0};
    // 7, 9, 10 and 300.
    const std::vector<std::uint8_t> bytes{0x84, 7, 9, 1, 0, 0x84, 4};
    std::ptrdiff_t number;

    is(id_set::from_roaring(roaring, sizeof roaring), {0, 1, 2, 3, 4, 5, 6, 7, 8, 9});
    EXPECT(id_set::from_range(0, 10).to_roaring() == std::vector<std::uint8_t>(std::begin(roaring), std::end(roaring)));
    is(id_set::shifted(id_set{3, 5, UINT32_MAX}, -4), {1, UINT32_MAX - 4});
    is(id_set::from_roaring(roaring, 14, &number), {});
    EXPECT(number == BITPACKING_TRUNCATED && thrown([&] { id_set::from_roaring(roaring, 14); }) == number);
    is(id_set::open(bytes), {7, 9, 10, 300});
    EXPECT(id_set{300, 9, 7, 10, 9}.bytes_len() == 7 && std::equal(bytes.begin(), bytes.end(), id_set{300, 9, 7, 10, 9}.bytes()));
    EXPECT(id_set() == id_set::pack(std::vector<std::uint32_t>{}) && id_set() == id_set_view() && id_set() == id_set(id_set()));
    EXPECT(column() == column::pack(BITPACKING_PLAIN, std::vector<std::uint32_t>{}) && column().begin() == column_view().end());
    EXPECT(thrown([] { id_set::from_range(0, 268435457); }) == BITPACKING_TOO_LONG && id_set::from_range(5, 3).empty());
    EXPECT(thrown([] { id_set::combine(7, std::vector<id_set>(2)); }) == BITPACKING_BAD_KIND);
    EXPECT(id_set::combine(BITPACKING_OR, std::vector<id_set>()).empty());
    EXPECT(wide_set().bytes_len() == 3 && wide_set() == wide_set::pack(std::vector<std::uint64_t>{}) && wide_set() == wide_set_view());
    is(wide_set::open({9, 3, 0x63, 0, 1, 3, 1, 0, 0, 0, 1, 0, 0, 0, 0, 0, 0, 0}), {1, 4294967297, 8589934592});
    is(wide_set::combine(7, wide_set{5}, wide_set{5}, &number), {});
    EXPECT(number == BITPACKING_BAD_KIND && thrown([] { wide_set::combine(7, wide_set(), wide_set()); }) == number);
    // More ids than the room of two sets whose bytes are few.
    EXPECT((id_set::from_range(0, 268435456) ^ id_set{5}).size() == 268435455);
}

// The steps of the program on the first page of CRoaring, for C++.
static void first_page()
{
    id_set r1;
    for (std::uint32_t i = 100; i < 1000; i++)
        r1 |= id_set{i};
    EXPECT(r1.contains(500) && r1.size() == 900 && r1 == id_set::from_range(100, 1000));
    const id_set r2{1, 2, 3, 5, 6};
    const std::uint32_t values[] = {2, 3, 4};
    const id_set r3 = id_set::pack(values);
    EXPECT(id_set::pack(r1.unpack()) == r1 && id_set(r3) == r3 && id_set(values, values + 3) == r3);
    id_set all = r1 | r2;
    all |= r3;
    EXPECT(all == id_set::combine(BITPACKING_OR, std::vector<id_set_view>{r1, r2, r3}) && all.size() == 906);
    EXPECT((r1 & r2).empty() && (r2 & r3) == id_set{2, 3});
    const std::vector<std::uint8_t> stored(r1.bytes(), r1.bytes() + r1.bytes_len());
    const id_set t = id_set::open(stored);
    std::size_t counter = 0;
    for (id_set::const_iterator i = t.begin(); i != t.end(); i++)
        ++counter;
    EXPECT(t == r1 && counter == t.size());
    const std::vector<std::uint8_t> bitmap = all.to_roaring();
    EXPECT(id_set::from_roaring(bitmap.data(), bitmap.size()) == all);
    EXPECT(*id_set{2, 3, 4, 7, 8}.lower_bound(4) == 4 && *id_set{2, 3, 4, 7, 8}.lower_bound(5) == 7);
}

template <class Id> static void all_calls(const std::set<Id> &one, const std::set<Id> &other)
{
    const owner<Id> set(one.begin(), one.end());
    is(set, one);
    reads(set, one);
    two(one, other);
    two(one, one);
    owns(one);
    fails(one);
}

int main()
{
    by_hand();
    first_page();
    for (int turn = 0; turn < 60 && failed == 0; turn++) {
        const ids one = any(), other = any();
        const wide_ids wide = any_wide(), another = turn % 2 != 0 ? any_wide() : combined(BITPACKING_OR, wide, wide_ids{7, UINT64_MAX});
        all_calls(one, other);
        all_calls(wide, another);
        three(one, other);
        appends(one);
        ranges();
        columns();
    }
    if (failed == 0)
        std::puts("all calls");
    return failed;
}
