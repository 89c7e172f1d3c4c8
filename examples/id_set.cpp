// Sets of ids in C++: combined by operators, stored, and opened again.
#include "bitpacking.hpp"
#include <cstdio>

using bitpacking::id_set, bitpacking::id_set_view;

int main()
{
    const id_set cats{7, 9, 10, 300}, dogs{9, 11, 300};
    for (std::uint32_t id : cats & dogs)
        std::printf("in both: %u\n", static_cast<unsigned>(id));

    id_set all = cats | dogs;
    all -= id_set::from_range(10, 100);
    std::printf("%zu ids, %s, first after 9: %u\n", all.size(), all.contains(11) ? "with 11" : "without 11",
                static_cast<unsigned>(all.seek(10)->second));

    // 0 to 9, as roaring_bitmap_portable_serialize of CRoaring writes them.
    const std::uint8_t bitmap[] = {0x3B, 0x30, 0, 0, 1, 0, 0, 9, 0, 1, 0, 0, 0, 9, 0};
    all |= id_set::from_roaring(bitmap, sizeof bitmap);
    std::printf("%zu ids below 9, %zu in all\n", all.rank(9), all.size());

    const std::vector<std::uint8_t> stored(all.bytes(), all.bytes() + all.bytes_len());
    const id_set_view view = id_set_view::open(stored.data(), stored.size());
    std::ptrdiff_t number;
    id_set_view::open(stored.data(), stored.size() - 1, &number);
    std::printf("%zu bytes, %s\n%s\n", view.bytes_len(), view == all ? "the same set" : "another set", bitpacking_error_text(number));
    return 0;
}
