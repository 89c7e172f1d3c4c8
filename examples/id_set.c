/* Two sets of ids, packed, opened, and combined by AND. */
#include "bitpacking.h"
#include <stdio.h>

int main(void)
{
    const uint32_t ids[2][4] = {{7, 9, 10, 300}, {9, 11, 300, 301}};
    uint8_t bytes[2][BITPACKING_SET_ROOM(4)];
    bitpacking_set sets[2] = {BITPACKING_SET_EMPTY, BITPACKING_SET_EMPTY};
    uint32_t both[4];
    ptrdiff_t count, i;

    for (i = 0; i < 2; i++) {
        count = bitpacking_set_pack(ids[i], 4, bytes[i], sizeof bytes[i], NULL);
        if (count < 0 || bitpacking_set_open(bytes[i], (size_t)count, &sets[i]) < 0)
            return 1;
    }
    count = bitpacking_set_intersect(sets, 2, both, 4);
    for (i = 0; i < count; i++)
        printf("in both: %u\n", (unsigned)both[i]);
    return 0;
}
