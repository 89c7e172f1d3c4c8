/* bitpacking.hpp: the sets and columns of bitpacking.h in C++17.
 *
 *     id_set, wide_set, column                   own the bytes of a set, of one of 64-bit ids, or of a column
 *     id_set_view, wide_set_view, column_view    borrow them, from these or from a mapped file
 *
 * A function that reads one or the other takes a const bitpacking::readable_set &, readable_wide_set & or readable_column &.
 *
 *     const bitpacking::id_set cats{7, 9, 10, 300}, dogs{9, 11, 300};
 *     for (std::uint32_t id : cats & dogs) ...
 *
 * Use a view or an iterator only as long as its bytes stay where they are, unchanged. An id_set, wide_set or column has its bytes until it is assigned,
 * moved from or destroyed.
 *
 * A call that fails throws bitpacking::error. If it has a parameter `number` and you pass a pointer, it throws no error. It sets *number to what the
 * function of bitpacking.h returned, which is below 0 for an error, and then returns an empty set or column. A comment lists errors as in bitpacking.h.
 * Calls that make a set, a column or a vector throw std::bad_alloc if there is no memory. Without exceptions, as with -fno-exceptions, an error calls
 * std::abort.
 *
 * This header is tested, not proved. It allocates, and calls the functions of bitpacking.h, which are proved. Other functions take view().
 */
#ifndef BITPACKING_HPP
#define BITPACKING_HPP

#include "bitpacking.h"

#include <algorithm>
#include <cstdint>
#include <cstdlib>
#include <cstring>
#include <functional>
#include <initializer_list>
#include <iterator>
#include <optional>
#include <stdexcept>
#include <utility>
#include <vector>

namespace bitpacking {

/* What a call throws: a number, such as BITPACKING_TRUNCATED, with its sentence. */
class error : public std::runtime_error {
public:
    explicit error(std::ptrdiff_t number) : std::runtime_error(bitpacking_error_text(number)), number_(number) {}
    std::ptrdiff_t number() const noexcept { return number_; }

private:
    std::ptrdiff_t number_;
};

/* A position with the number at it, or nothing. */
using found = std::optional<std::pair<std::size_t, std::uint32_t>>;
using found_wide = std::optional<std::pair<std::size_t, std::uint64_t>>;

/* What the classes below are made of. */
namespace detail {

/* Returns what a function of bitpacking.h returned, or 0 if that is below 0. It is an error unless the caller asks for the number. */
inline std::size_t checked(std::ptrdiff_t returned, std::ptrdiff_t *number = nullptr)
{
    if (number != nullptr)
        *number = returned;
    else if (returned < 0)
#ifdef __cpp_exceptions
        throw error(returned);
#else
        std::abort();
#endif
    return returned < 0 ? 0 : static_cast<std::size_t>(returned);
}

/* The functions of bitpacking.h that sets and columns have both, the bytes without numbers, and what an iterator reads. */
struct of_sets {
    using value = std::uint32_t;
    using view = bitpacking_set;
    using reader = bitpacking_set_cursor;
    static constexpr auto open = bitpacking_set_open;
    static constexpr auto open_tested = bitpacking_set_open_tested;
    static constexpr auto len = bitpacking_set_len;
    static constexpr auto get = bitpacking_set_get;
    static constexpr auto slice = bitpacking_set_slice;
    static constexpr std::uint8_t none[] = {0x80};

    static reader start(const view &set) noexcept
    {
        reader cursor{};
        bitpacking_set_cursor_start(&cursor, &set);
        return cursor;
    }
    static std::ptrdiff_t fill(reader &cursor, std::size_t, std::uint32_t *part, std::size_t part_len) noexcept
    {
        return bitpacking_set_cursor_fill(&cursor, part, part_len);
    }
};

/* What an iterator reads from a position on, by a function that writes numbers. */
template <class Value, class View, auto Slice> struct by_position {
    using value = Value;
    using view = View;
    using reader = View;
    static constexpr auto slice = Slice;

    static reader start(const view &it) noexcept { return it; }
    static std::ptrdiff_t fill(const reader &it, std::size_t position, value *part, std::size_t part_len) noexcept
    {
        return Slice(&it, position, part, part_len);
    }
};

struct of_columns : by_position<std::uint32_t, bitpacking_column, bitpacking_column_range> {
    static constexpr auto open = bitpacking_column_open;
    static constexpr auto open_tested = bitpacking_column_open_tested;
    static constexpr auto len = bitpacking_column_len;
    static constexpr auto get = bitpacking_column_get;
    static constexpr std::uint8_t none[] = {0x40};
};

struct of_wide_sets : by_position<std::uint64_t, bitpacking_wide_set, bitpacking_wide_set_slice> {
    static constexpr auto open = bitpacking_wide_set_open;
    static constexpr auto open_tested = bitpacking_wide_set_open_tested;
    static constexpr auto len = bitpacking_wide_set_len;
    static constexpr auto get = bitpacking_wide_set_get;
    static constexpr std::uint8_t none[] = {9, 0, 0x60};
};

/* Returns ids in any order as increasing ids, each once. */
template <class Id, class Iterator> std::vector<Id> increasing(Iterator first, Iterator last)
{
    std::vector<Id> ids(first, last);
    std::sort(ids.begin(), ids.end());
    ids.erase(std::unique(ids.begin(), ids.end()), ids.end());
    return ids;
}

/* An iterator. It unpacks up to 256 numbers at once. Its size is about 1 KB, or 2 KB if it is of a set or a wide set. */
template <class Of> class iterator {
public:
    using iterator_category = std::forward_iterator_tag;
    using value_type = typename Of::value;
    using difference_type = std::ptrdiff_t;
    using pointer = const value_type *;
    using reference = value_type;

    iterator() = default;
    iterator(const typename Of::reader &reader, std::size_t position) : reader_(reader), position_(position) { unpack(); }

    value_type operator*() const noexcept { return part_[index_]; }
    iterator &operator++() noexcept
    {
        ++position_;
        if (++index_ == len_)
            unpack();
        return *this;
    }
    iterator operator++(int) noexcept
    {
        const iterator before = *this;
        ++*this;
        return before;
    }

    /* Returns the position in the set or the column, which is size() at the end. */
    std::size_t position() const noexcept { return position_; }

    friend bool operator==(const iterator &one, const iterator &other) noexcept { return one.position_ == other.position_; }
    friend bool operator!=(const iterator &one, const iterator &other) noexcept { return one.position_ != other.position_; }

private:
    void unpack() noexcept
    {
        index_ = 0;
        len_ = static_cast<std::size_t>(Of::fill(reader_, position_, part_, 256));
    }

    typename Of::reader reader_{};
    std::size_t position_ = 0, index_ = 0, len_ = 0;
    value_type part_[256] = {};
};

/* The calls that read both sets and columns. */
template <class Of> class readable {
public:
    using of = Of;
    using value_type = typename Of::value;
    using const_iterator = detail::iterator<Of>;
    using iterator = const_iterator;

    /* Returns the view that functions of bitpacking.h read. */
    const typename Of::view &view() const noexcept { return view_; }

    /* Return the encoding, which is what you store, and its length in bytes. */
    const std::uint8_t *bytes() const noexcept { return view_.bytes_len == 0 ? Of::none : view_.bytes; }
    std::size_t bytes_len() const noexcept { return view_.bytes_len == 0 ? sizeof Of::none : view_.bytes_len; }

    /* Returns how many numbers there are. */
    std::size_t size() const noexcept { return Of::len(&view_); }
    bool empty() const noexcept { return size() == 0; }

    /* Returns the number at a position, from 0 on, or nothing if there is no such position. */
    std::optional<value_type> get(std::size_t position) const noexcept
    {
        value_type item = 0;
        return Of::get(&view_, position, &item) == 1 ? std::optional(item) : std::nullopt;
    }

    /* Returns the numbers from position `from` on, at most `most` of them. */
    std::vector<value_type> slice(std::size_t from, std::size_t most) const
    {
        std::vector<value_type> items(from < size() ? std::min(most, size() - from) : 0);
        checked(Of::slice(&view_, from, items.data(), items.size()));
        return items;
    }

    /* Returns all numbers. A set of 49 KB may have 268,435,456. */
    std::vector<value_type> unpack() const { return slice(0, size()); }

    const_iterator begin() const noexcept { return {Of::start(view_), 0}; }
    const_iterator end() const noexcept { return {{}, size()}; }

    /* Returns whether the bytes are equal. Then so are the ids, or the kind and the values: each has one encoding. */
    friend bool operator==(const readable &one, const readable &other) noexcept
    {
        return one.bytes_len() == other.bytes_len() && std::memcmp(one.bytes(), other.bytes(), one.bytes_len()) == 0;
    }
    friend bool operator!=(const readable &one, const readable &other) noexcept { return !(one == other); }

protected:
    typename Of::view view_{};
};

} // namespace detail

/* The calls that read sets. */
class readable_set : public detail::readable<detail::of_sets> {
public:
    bool contains(std::uint32_t id) const noexcept { return bitpacking_set_contains(&view_, id) == 1; }

    /* Returns how many ids are below target. The rank of CRoaring also counts target itself, if the set has it. */
    std::size_t rank(std::uint32_t target) const noexcept { return bitpacking_set_rank(&view_, target); }

    /* Returns the ids as a bitmap in Roaring's portable format: the bytes that roaring_bitmap_portable_serialize of CRoaring writes after
     * roaring_bitmap_run_optimize. id_set::from_roaring makes a set of such bytes. */
    std::vector<std::uint8_t> to_roaring() const
    {
        std::vector<std::uint8_t> bytes(bitpacking_set_roaring_size(&view_));
        bitpacking_set_to_roaring(&view_, bytes.data(), bytes.size());
        return bytes;
    }

    /* Returns what the set is like: its ids, bytes and chunks, and the bodies of each form. */
    bitpacking_set_description describe() const noexcept
    {
        bitpacking_set_description it{};
        bitpacking_set_describe(&view_, &it);
        return it;
    }

    /* Returns the first id that is at least target, with its position. Returns nothing if all ids are below target. */
    found seek(std::uint32_t target) const noexcept
    {
        std::pair<std::size_t, std::uint32_t> it;
        return bitpacking_set_seek(&view_, target, &it.first, &it.second) == 1 ? found(it) : std::nullopt;
    }

    /* Returns the iterator that begins with the first id that is at least target. */
    const_iterator lower_bound(std::uint32_t target) const noexcept
    {
        auto cursor = of::start(view_);
        std::uint32_t id = 0;
        bitpacking_set_cursor_seek(&cursor, target, &id);
        return {cursor, bitpacking_set_cursor_position(&cursor)};
    }

    /* Return the least and the greatest id, or nothing if there is none. */
    std::optional<std::uint32_t> min() const noexcept { return get(0); }
    std::optional<std::uint32_t> max() const noexcept { return empty() ? std::nullopt : get(size() - 1); }

    bool is_subset(const readable_set &other) const noexcept { return bitpacking_set_is_subset(&view_, &other.view_) == 1; }
    bool is_superset(const readable_set &other) const noexcept { return other.is_subset(*this); }
    bool is_disjoint(const readable_set &other) const noexcept { return bitpacking_set_is_disjoint(&view_, &other.view_) == 1; }

    /* Return how many ids `&` and `|` would give. */
    std::size_t intersect_len(const readable_set &other) const noexcept { return count(bitpacking_set_count_common, other); }
    std::size_t unite_len(const readable_set &other) const noexcept { return count(bitpacking_set_count_any, other); }

private:
    template <class Function> std::size_t count(Function function, const readable_set &other) const noexcept
    {
        const bitpacking_set both[] = {view_, other.view_};
        return static_cast<std::size_t>(function(both, 2));
    }
};

/* The calls that read wide sets, whose ids have 64 bits. Each does what the call of readable_set with its name does. */
class readable_wide_set : public detail::readable<detail::of_wide_sets> {
public:
    bool contains(std::uint64_t id) const noexcept { return bitpacking_wide_set_contains(&view_, id) == 1; }
    std::size_t rank(std::uint64_t target) const noexcept { return bitpacking_wide_set_rank(&view_, target); }
    found_wide seek(std::uint64_t target) const noexcept
    {
        std::pair<std::size_t, std::uint64_t> it;
        return bitpacking_wide_set_seek(&view_, target, &it.first, &it.second) == 1 ? found_wide(it) : std::nullopt;
    }
    const_iterator lower_bound(std::uint64_t target) const noexcept { return {view_, rank(target)}; }
    std::optional<std::uint64_t> min() const noexcept { return get(0); }
    std::optional<std::uint64_t> max() const noexcept { return empty() ? std::nullopt : get(size() - 1); }

    bool is_subset(const readable_wide_set &other) const noexcept { return bitpacking_wide_set_is_subset(&view_, &other.view_) == 1; }
    bool is_superset(const readable_wide_set &other) const noexcept { return other.is_subset(*this); }
    bool is_disjoint(const readable_wide_set &other) const noexcept { return bitpacking_wide_set_is_disjoint(&view_, &other.view_) == 1; }
    std::size_t intersect_len(const readable_wide_set &other) const noexcept { return count(BITPACKING_AND, other); }
    std::size_t unite_len(const readable_wide_set &other) const noexcept { return count(BITPACKING_OR, other); }

private:
    std::size_t count(std::uint32_t operation, const readable_wide_set &other) const noexcept
    {
        return static_cast<std::size_t>(bitpacking_wide_set_combine_count(operation, &view_, &other.view_));
    }
};

/* The calls that read columns. */
class readable_column : public detail::readable<detail::of_columns> {
public:
    /* Returns BITPACKING_PLAIN or BITPACKING_SORTED. */
    std::uint8_t kind() const noexcept { return bitpacking_column_kind(&view_); }

    /* Returns the first value that is at least target, with its position. Returns nothing if all values are below target.
     *
     *     BAD_KIND      the column is plain
     */
    found seek(std::uint32_t target) const
    {
        std::pair<std::size_t, std::uint32_t> it;
        return detail::checked(bitpacking_column_seek(&view_, target, &it.first, &it.second)) == 1 ? found(it) : std::nullopt;
    }

    /* Returns how many values are from low to high, both included. */
    std::size_t count_between(std::uint32_t low, std::uint32_t high) const noexcept { return bitpacking_column_count_between(&view_, low, high); }

    /* Returns the positions of the values from low to high, both included, in increasing order. */
    std::vector<std::size_t> between(std::uint32_t low, std::uint32_t high) const
    {
        std::vector<std::size_t> positions(count_between(low, high));
        bitpacking_column_between(&view_, low, high, 0, positions.data(), positions.size());
        return positions;
    }

    /* Returns the value at each position.
     *
     *     BAD_POSITION    one of the positions is not in the column
     */
    std::vector<std::uint32_t> gather(const std::vector<std::size_t> &positions) const
    {
        std::vector<std::uint32_t> values(positions.size());
        detail::checked(bitpacking_column_gather(&view_, positions.data(), positions.size(), values.data(), values.size()));
        return values;
    }
};

namespace detail {

/* What owns its bytes. Self is its class. */
template <class Self, class Readable> class owned : public Readable {
    using of = typename Readable::of;

public:
    owned() = default;
    owned(const owned &other) : owned(static_cast<const Readable &>(other)) {}
    owned(owned &&other) noexcept { swap(other); }
    owned &operator=(owned other) noexcept
    {
        swap(other);
        return *this;
    }

    /* Copies the bytes of another. */
    explicit owned(const Readable &other) { own({other.bytes(), other.bytes() + other.bytes_len()}); }

    /* Opens bytes, and owns them. Tests all of them: they may be untrusted. The error is the first fault in the order of docs/FORMAT.md. */
    static Self open(std::vector<std::uint8_t> bytes, std::ptrdiff_t *number = nullptr)
    {
        typename of::view tested{};
        const std::ptrdiff_t returned = of::open(bytes.data(), bytes.size(), &tested);
        Self it;
        checked(returned, number);
        if (returned == 0)
            it.own(std::move(bytes));
        return it;
    }

    void swap(owned &other) noexcept
    {
        std::swap(this->view_, other.view_);
        bytes_.swap(other.bytes_);
    }

protected:
    /* Returns what a call writes into room for so much, or into twice the room each time that it is too short. */
    template <class Call> static Self written(std::size_t room, std::ptrdiff_t *number, Call call)
    {
        std::vector<std::uint8_t> bytes(room);
        std::ptrdiff_t size = call(bytes.data(), bytes.size());
        for (; size == BITPACKING_SHORT; size = call(bytes.data(), bytes.size()))
            bytes.resize(2 * bytes.size());
        bytes.resize(checked(size, number));
        bytes.shrink_to_fit();
        Self it;
        if (size > 0)
            it.own(std::move(bytes));
        return it;
    }

private:
    /* Takes bytes that were tested or packed. */
    void own(std::vector<std::uint8_t> bytes) noexcept
    {
        bytes_ = std::move(bytes);
        of::open_tested(bytes_.data(), bytes_.size(), &this->view_);
    }

    std::vector<std::uint8_t> bytes_;
};

/* What borrows bytes. */
template <class Readable> class borrowed : public Readable {
public:
    borrowed() = default;
    template <class Self> borrowed(const owned<Self, Readable> &owner) noexcept : Readable(owner) {}
    template <class Self> borrowed(owned<Self, Readable> &&) = delete;

    /* Opens bytes. Tests all of them: they may be untrusted. The error is the first fault in the order of docs/FORMAT.md. */
    static borrowed open(const std::uint8_t *bytes, std::size_t bytes_len, std::ptrdiff_t *number = nullptr)
    {
        borrowed it;
        checked(Readable::of::open(bytes, bytes_len, &it.view_), number);
        return it;
    }

    /* Opens bytes that open accepted before, and that did not change since. It does not test them again. With other bytes this call or a later one
     * may read or write outside its buffers. */
    static borrowed open_tested(const std::uint8_t *bytes, std::size_t bytes_len) noexcept
    {
        borrowed it;
        Readable::of::open_tested(bytes, bytes_len, &it.view_);
        return it;
    }
};

} // namespace detail

using id_set_view = detail::borrowed<readable_set>;
using wide_set_view = detail::borrowed<readable_wide_set>;
using column_view = detail::borrowed<readable_column>;

/* A set of ids. It does not change: a call that combines sets or appends ids makes another. */
class id_set : public detail::owned<id_set, readable_set> {
public:
    using owned::owned;
    id_set() = default;

    /* Make the set of ids in any order, each once. */
    id_set(std::initializer_list<std::uint32_t> ids) : id_set(ids.begin(), ids.end()) {}
    template <class Iterator, class = typename std::iterator_traits<Iterator>::iterator_category> id_set(Iterator first, Iterator last)
    {
        *this = pack(detail::increasing<std::uint32_t>(first, last));
    }

    /* Makes the set of increasing ids, which are a vector or an array.
     *
     *     TOO_LONG      there are more than 268,435,456 ids
     *     NOT_SORTED    an id is not above the one before it
     */
    template <class Ids> static id_set pack(const Ids &ids, std::ptrdiff_t *number = nullptr)
    {
        return written(BITPACKING_SET_ROOM(std::size(ids)), number, [&](std::uint8_t *bytes, std::size_t bytes_len) {
            return bitpacking_set_pack(std::data(ids), std::size(ids), bytes, bytes_len, nullptr);
        });
    }

    /* Makes the set of all ids from first to before end, without listing them. An end above 2^32 is as 2^32.
     *
     *     TOO_LONG      there are more than 268,435,456 ids
     */
    static id_set from_range(std::uint32_t first, std::uint64_t end, std::ptrdiff_t *number = nullptr)
    {
        return written(16, number, [=](std::uint8_t *bytes, std::size_t bytes_len) {
            return bitpacking_set_pack_range(first, end, bytes, bytes_len);
        });
    }

    /* Makes the set of the ids of a bitmap in Roaring's portable format. Tests all bytes: they may be untrusted. The error is the first fault in the
     * order of docs/ROARING.md, and then:
     *
     *     TOO_LONG      there are more than 268,435,456 ids
     */
    static id_set from_roaring(const std::uint8_t *roaring, std::size_t roaring_len, std::ptrdiff_t *number = nullptr)
    {
        std::vector<std::uint32_t> room(bitpacking_set_from_roaring_room(roaring, roaring_len));
        return written(roaring_len / 4 * 5 + 16, number, [&](std::uint8_t *bytes, std::size_t bytes_len) {
            return bitpacking_set_from_roaring(roaring, roaring_len, room.data(), room.size(), bytes, bytes_len);
        });
    }

    /* Makes the set that has a number added to each id, without ids that leave their range. The number may be below 0. */
    static id_set shifted(const readable_set &set, std::int64_t by)
    {
        const bitpacking_set view = set.view();
        std::vector<std::uint32_t> room(bitpacking_set_shift_room(&view));
        return written(set.bytes_len() / 4 * 5 + 16, nullptr, [&](std::uint8_t *bytes, std::size_t bytes_len) {
            return bitpacking_set_shift(&view, by, room.data(), room.size(), bytes, bytes_len);
        });
    }

    /* Makes the set that the first of these sets gives, combined with each other in turn. The operation is BITPACKING_AND, _OR, _AND_NOT or _XOR.
     * sets is a container of id_set or of id_set_view, such as a vector.
     *
     *     BAD_KIND      no operation has this number
     *     TOO_LONG      the set would have more than 268,435,456 ids
     */
    template <class Sets> static id_set combine(std::uint32_t operation, const Sets &sets, std::ptrdiff_t *number = nullptr)
    {
        std::vector<bitpacking_set> views;
        std::size_t most = 8500;
        for (const readable_set &set : sets) {
            views.push_back(set.view());
            most += set.bytes_len();
        }
        std::vector<std::uint32_t> room(bitpacking_set_combine_room(views.data(), views.size()));
        return written(most, number, [&](std::uint8_t *bytes, std::size_t bytes_len) {
            return bitpacking_set_combine(operation, views.data(), views.size(), room.data(), room.size(), bytes, bytes_len);
        });
    }

    /* Makes the set of the ids of this one and of increasing ids after them, which are a vector or an array. It copies all chunks of a large set but
     * the last.
     *
     *     TOO_LONG      all ids are more than 268,435,456
     *     NOT_SORTED    an id is not above the one before it
     */
    template <class Ids> id_set append(const Ids &ids, std::ptrdiff_t *number = nullptr) const
    {
        std::vector<std::uint32_t> room(std::size(ids) + std::min(size(), std::size_t{262144}));
        return written(bytes_len() + BITPACKING_SET_ROOM(std::size(ids)) + 8500, number, [&](std::uint8_t *bytes, std::size_t bytes_len) {
            return bitpacking_set_append(&view_, std::data(ids), std::size(ids), room.data(), room.size(), bytes, bytes_len, nullptr);
        });
    }

    /* Make the set of the ids that both have, that any has, that the first alone has, or that exactly one has. The error is TOO_LONG. */
    friend id_set operator&(const readable_set &one, const readable_set &other) { return two(BITPACKING_AND, one, other); }
    friend id_set operator|(const readable_set &one, const readable_set &other) { return two(BITPACKING_OR, one, other); }
    friend id_set operator-(const readable_set &one, const readable_set &other) { return two(BITPACKING_AND_NOT, one, other); }
    friend id_set operator^(const readable_set &one, const readable_set &other) { return two(BITPACKING_XOR, one, other); }
    id_set &operator&=(const readable_set &other) { return *this = *this & other; }
    id_set &operator|=(const readable_set &other) { return *this = *this | other; }
    id_set &operator-=(const readable_set &other) { return *this = *this - other; }
    id_set &operator^=(const readable_set &other) { return *this = *this ^ other; }

private:
    static id_set two(std::uint32_t operation, const readable_set &one, const readable_set &other)
    {
        return combine(operation, std::initializer_list<std::reference_wrapper<const readable_set>>{one, other});
    }
};

/* A set of 64-bit ids. It does not change: a call that combines sets makes another. */
class wide_set : public detail::owned<wide_set, readable_wide_set> {
public:
    using owned::owned;
    wide_set() = default;

    /* Make the set of ids in any order, each once. */
    wide_set(std::initializer_list<std::uint64_t> ids) : wide_set(ids.begin(), ids.end()) {}
    template <class Iterator, class = typename std::iterator_traits<Iterator>::iterator_category> wide_set(Iterator first, Iterator last)
    {
        *this = pack(detail::increasing<std::uint64_t>(first, last));
    }

    /* Makes the set of increasing ids, which are a vector or an array.
     *
     *     TOO_LONG      there are more than 268,435,456 ids
     *     NOT_SORTED    an id is not above the one before it
     */
    template <class Ids> static wide_set pack(const Ids &ids, std::ptrdiff_t *number = nullptr)
    {
        std::vector<std::uint32_t> space(std::size(ids));
        return written(BITPACKING_WIDE_SET_ROOM(std::size(ids)), number, [&](std::uint8_t *bytes, std::size_t bytes_len) {
            return bitpacking_wide_set_pack(std::data(ids), std::size(ids), bytes, bytes_len, space.data(), space.size(), nullptr);
        });
    }

    /* Makes the set that an operation on two sets gives: BITPACKING_AND, _OR, _AND_NOT or _XOR. Counts its ids first, to make room for them.
     *
     *     BAD_KIND      no operation has this number
     *     TOO_LONG      the set would have more than 268,435,456 ids
     */
    static wide_set combine(std::uint32_t operation, const readable_wide_set &one, const readable_wide_set &other, std::ptrdiff_t *number = nullptr)
    {
        const std::ptrdiff_t len = bitpacking_wide_set_combine_count(operation, &one.view(), &other.view());
        if (len < 0 || len > 268435456) {
            detail::checked(len < 0 ? len : BITPACKING_TOO_LONG, number);
            return {};
        }
        std::vector<std::uint64_t> ids(static_cast<std::size_t>(len));
        std::vector<std::uint32_t> space(ids.size());
        return written(BITPACKING_WIDE_SET_ROOM(ids.size()), number, [&](std::uint8_t *bytes, std::size_t bytes_len) {
            return bitpacking_wide_set_combine(operation, &one.view(), &other.view(), ids.data(), ids.size(), space.data(), space.size(), bytes,
                                               bytes_len);
        });
    }

    /* Make the set of the ids that both have, that any has, that the first alone has, or that exactly one has. The error is TOO_LONG. */
    friend wide_set operator&(const readable_wide_set &one, const readable_wide_set &other) { return combine(BITPACKING_AND, one, other); }
    friend wide_set operator|(const readable_wide_set &one, const readable_wide_set &other) { return combine(BITPACKING_OR, one, other); }
    friend wide_set operator-(const readable_wide_set &one, const readable_wide_set &other) { return combine(BITPACKING_AND_NOT, one, other); }
    friend wide_set operator^(const readable_wide_set &one, const readable_wide_set &other) { return combine(BITPACKING_XOR, one, other); }
    wide_set &operator&=(const readable_wide_set &other) { return *this = *this & other; }
    wide_set &operator|=(const readable_wide_set &other) { return *this = *this | other; }
    wide_set &operator-=(const readable_wide_set &other) { return *this = *this - other; }
    wide_set &operator^=(const readable_wide_set &other) { return *this = *this ^ other; }
};

/* A column of numbers. It does not change: a call that appends values makes another. */
class column : public detail::owned<column, readable_column> {
public:
    using owned::owned;
    column() = default;

    /* Makes the column of values, which are a vector or an array. The kind is BITPACKING_PLAIN or BITPACKING_SORTED.
     *
     *     BAD_KIND      the kind is another
     *     TOO_LONG      there are more than 268,435,456 values
     *     NOT_SORTED    a value of a sorted column is below the one before it
     */
    template <class Values> static column pack(std::uint8_t kind, const Values &values, std::ptrdiff_t *number = nullptr)
    {
        return written(BITPACKING_COLUMN_ROOM(std::size(values)), number, [&](std::uint8_t *bytes, std::size_t bytes_len) {
            return bitpacking_column_pack(kind, std::data(values), std::size(values), bytes, bytes_len, nullptr);
        });
    }

    /* Makes the column of the values of this one and of more after them, which are a vector or an array. It copies whole blocks.
     *
     *     TOO_LONG      all values are more than 268,435,456
     *     NOT_SORTED    a value of a sorted column is below the one before it
     */
    template <class Values> column append(const Values &values, std::ptrdiff_t *number = nullptr) const
    {
        return written(bytes_len() + BITPACKING_COLUMN_ROOM(std::size(values) + 128), number, [&](std::uint8_t *bytes, std::size_t bytes_len) {
            return bitpacking_column_append(&view_, std::data(values), std::size(values), bytes, bytes_len, nullptr);
        });
    }
};

} // namespace bitpacking

#endif
