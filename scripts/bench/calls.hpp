// Calls on sets by include/bitpacking.h, which end the program if they fail. What they write to grows, and does not shrink.
#pragma once
#include "bitpacking.h"
#include "measured.hpp"

#include <algorithm>

inline size_t tested(ptrdiff_t number)
{
    if (number < 0)
        fail(bitpacking_error_text(number));
    return number;
}

inline size_t pack(const uint32_t *ids, size_t len, std::vector<uint8_t> &out)
{
    out.resize(std::max<size_t>(out.size(), BITPACKING_SET_ROOM(len)));
    return tested(bitpacking_set_pack(ids, len, out.data(), out.size(), nullptr));
}

inline bitpacking_set opened(const uint8_t *bytes, size_t size)
{
    bitpacking_set set = BITPACKING_SET_EMPTY;
    tested(bitpacking_set_open(bytes, size, &set));
    return set;
}

inline size_t combine(uint32_t operation, const bitpacking_set *sets, size_t len, std::vector<uint32_t> &work, std::vector<uint8_t> &out)
{
    size_t room = 8500;
    for (size_t i = 0; i < len; i++)
        room += sets[i].bytes_len;
    out.resize(std::max(out.size(), room));
    work.resize(std::max(work.size(), bitpacking_set_combine_room(sets, len)));
    return tested(bitpacking_set_combine(operation, sets, len, work.data(), work.size(), out.data(), out.size()));
}
