#include "bitpacking.h"
#include <stdio.h>

int main(void)
{
    uint32_t ids[128], k;
    uint8_t bytes[4 * 128], width;
    for (k = 0; k < 128; k++)
        ids[k] = 3 * k;
    return printf("128 ids in %d bytes\n", (int)bitpacking_4x_pack_sorted(0, ids, 128, bytes, sizeof bytes, &width)) < 0;
}
