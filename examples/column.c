/* A column of prices, written and opened: the rows whose price is from 5100 to 5119, eight at a time. */
#include "bitpacking.h"

#include <stdio.h>
#include <stdlib.h>

enum { ROWS = 1000, PAGE = 8 };

int main(void)
{
    uint32_t prices[ROWS], price = 0;
    uint8_t bytes[BITPACKING_COLUMN_ROOM(ROWS)]; /* always enough */
    bitpacking_column column = BITPACKING_COLUMN_EMPTY;
    size_t rows[PAGE], row = 0, count, i;
    ptrdiff_t size;

    for (i = 0; i < ROWS; i++)
        prices[i] = (uint32_t)(5000 + 37 * i % 1000);
    size = bitpacking_column_pack(BITPACKING_PLAIN, prices, ROWS, bytes, sizeof bytes, NULL);
    if (size < 0) {
        fprintf(stderr, "%s\n", bitpacking_error_text(size));
        return EXIT_FAILURE;
    }
    if (bitpacking_column_open(bytes, (size_t)size, &column) != 0)
        return EXIT_FAILURE;
    printf("%u prices in %u bytes\n", (unsigned)bitpacking_column_len(&column), (unsigned)size);
    if (bitpacking_column_get(&column, 300, &price))
        printf("row 300: %u\n", (unsigned)price);

    printf("%u rows:", (unsigned)bitpacking_column_count_between(&column, 5100, 5119));
    do {
        count = bitpacking_column_between(&column, 5100, 5119, row, rows, PAGE);
        for (i = 0; i < count; i++)
            printf(" %u", (unsigned)rows[i]);
        row = count > 0 ? rows[count - 1] + 1 : row;
    } while (count == PAGE);
    printf("\n");
    return EXIT_SUCCESS;
}
