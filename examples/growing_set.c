/* A set that grows: its ids come one by one, more follow later, and ids that were deleted are taken from an answer. */
#include <bitpacking.h>
#include <stdio.h>

int main(void)
{
    const uint32_t cats[] = {7, 9, 10, 300}, later[] = {305}, deleted[] = {9, 12};
    uint32_t room[5], answer[] = {9, 10, 305};
    uint8_t first[BITPACKING_SET_ROOM(4)], bytes[BITPACKING_SET_ROOM(5)], deleted_bytes[BITPACKING_SET_ROOM(2)];
    bitpacking_set_builder builder = BITPACKING_SET_BUILDER_EMPTY;
    bitpacking_set set = BITPACKING_SET_EMPTY, gone = BITPACKING_SET_EMPTY;
    ptrdiff_t size, count, i;

    bitpacking_set_builder_start(&builder, room, 4);
    for (i = 0; i < 4; i++)
        if (bitpacking_set_builder_push(&builder, cats[i]) < 0)
            return 1;
    size = bitpacking_set_builder_finish(&builder, first, sizeof first);
    if (size < 0 || bitpacking_set_open(first, (size_t)size, &set) != 0)
        return 1;
    size = bitpacking_set_append(&set, later, 1, room, 5, bytes, sizeof bytes, NULL);
    printf("%u and 1 ids in %d bytes\n", (unsigned)bitpacking_set_len(&set), (int)size);

    size = bitpacking_set_pack(deleted, 2, deleted_bytes, sizeof deleted_bytes, NULL);
    if (size < 0 || bitpacking_set_open(deleted_bytes, (size_t)size, &gone) != 0)
        return 1;
    count = bitpacking_set_remove(&gone, answer, 3);
    for (i = 0; i < count; i++)
        printf("left: %u\n", (unsigned)answer[i]);
    return 0;
}
