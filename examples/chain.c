/* Document numbers to bytes and back: a chain of blocks of 128 numbers, and the numbers that fill no block. */
#include "bitpacking.h"

#include <stdio.h>
#include <stdlib.h>
#include <string.h>

enum { BLOCK = BITPACKING_4X_BLOCK_LEN };

/* What is stored: how many numbers, a width for each whole block, the bytes of the blocks, and the numbers after them. */
struct packed {
    size_t count;
    uint8_t *widths;
    uint8_t *bytes;
    size_t size;
    uint32_t tail[BLOCK];
};

/* Packs increasing document numbers. Returns 0, or -1 if there is no memory. */
static int pack(const uint32_t *documents, size_t count, struct packed *packed)
{
    size_t blocks = count / BLOCK, whole = blocks * BLOCK;
    ptrdiff_t size;

    packed->count = count;
    packed->widths = malloc(blocks + 1);
    packed->bytes = malloc(4 * whole + 1); /* 4 bytes a number are always enough */
    if (!packed->widths || !packed->bytes) {
        free(packed->widths);
        free(packed->bytes);
        return -1;
    }
    size = bitpacking_4x_pack_all_strictly_sorted(BITPACKING_NO_INITIAL, documents, whole, packed->widths, blocks, packed->bytes,
                                                  4 * whole);
    packed->size = (size_t)size; /* not negative: lengths and room are right */
    memcpy(packed->tail, documents + whole, (count - whole) * sizeof *documents);
    return 0;
}

/* Unpacks them into room for packed->count numbers. Returns 0, or a negative error if the widths or bytes are damaged. */
static ptrdiff_t unpack(const struct packed *packed, uint32_t *documents)
{
    size_t blocks = packed->count / BLOCK, whole = blocks * BLOCK;
    ptrdiff_t read = bitpacking_4x_unpack_all_strictly_sorted(BITPACKING_NO_INITIAL, packed->widths, blocks, packed->bytes, packed->size,
                                                              documents, whole);

    if (read < 0)
        return read;
    memcpy(documents + whole, packed->tail, (packed->count - whole) * sizeof *documents);
    return 0;
}

int main(void)
{
    enum { COUNT = 300 };
    uint32_t documents[COUNT], unpacked[COUNT];
    struct packed packed;
    size_t i;

    for (i = 0; i < COUNT; i++)
        documents[i] = (uint32_t)(3 * i + i % 2); /* gaps of 2 and 4: in two bits each, since one less than a gap is packed */
    if (pack(documents, COUNT, &packed) != 0)
        return EXIT_FAILURE;
    if (unpack(&packed, unpacked) != 0 || memcmp(documents, unpacked, sizeof documents) != 0)
        return EXIT_FAILURE;
    printf("%d numbers: %u and %u bits, %u bytes, %u numbers as they are\n", COUNT, (unsigned)packed.widths[0],
           (unsigned)packed.widths[1], (unsigned)packed.size, (unsigned)(COUNT % BLOCK));
    packed.widths[1] = 33; /* as damage may leave it */
    if (unpack(&packed, unpacked) != BITPACKING_BAD_WIDTH)
        return EXIT_FAILURE;
    free(packed.widths);
    free(packed.bytes);
    return EXIT_SUCCESS;
}
