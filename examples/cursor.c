/* The ids that two sets have, found by a cursor of each, one after the other and without room for all of them. */
#include "bitpacking.h"
#include <stdio.h>

int main(void)
{
    const uint32_t ids[2][4] = {{7, 9, 10, 300}, {9, 11, 300, 301}};
    uint8_t bytes[2][BITPACKING_SET_ROOM(4)];
    bitpacking_set sets[2] = {BITPACKING_SET_EMPTY, BITPACKING_SET_EMPTY};
    bitpacking_set_cursor one = BITPACKING_SET_CURSOR_EMPTY, other = BITPACKING_SET_CURSOR_EMPTY;
    uint32_t id, next;
    int32_t more;
    ptrdiff_t count, i;

    for (i = 0; i < 2; i++) {
        count = bitpacking_set_pack(ids[i], 4, bytes[i], sizeof bytes[i], NULL);
        if (count < 0 || bitpacking_set_open(bytes[i], (size_t)count, &sets[i]) < 0)
            return 1;
    }
    bitpacking_set_cursor_start(&one, &sets[0]);
    bitpacking_set_cursor_start(&other, &sets[1]);
    more = bitpacking_set_cursor_value(&one, &id);
    while (more && bitpacking_set_cursor_seek(&other, id, &next)) {
        if (next > id) {
            more = bitpacking_set_cursor_seek(&one, next, &id);
        } else {
            printf("position %u and %u: %u\n", (unsigned)bitpacking_set_cursor_position(&one),
                   (unsigned)bitpacking_set_cursor_position(&other), (unsigned)id);
            more = bitpacking_set_cursor_advance(&one, &id);
        }
    }
    return 0;
}
