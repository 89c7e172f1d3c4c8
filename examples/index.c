/* A small index: for each word the set of the documents that have it, and queries with AND, OR and NOT over these sets, in postfix order. */
#include "bitpacking.h"

#include <stdio.h>
#include <stdlib.h>

enum { DOCUMENTS = 1000 };

/* The words. A document has a word if this number divides its own, which is from 1 on. No document has the last. */
enum { EVEN, FIZZ, BUZZ, NONE, WORDS };
static const uint32_t numbers[NONE] = {2, 3, 5};

/* A set and its bytes, which are the caller's to free. */
struct documents {
    uint8_t *bytes;
    bitpacking_set view;
};

static void *checked(void *memory)
{
    if (!memory) {
        fputs("out of memory\n", stderr);
        exit(EXIT_FAILURE);
    }
    return memory;
}

/* Packs increasing document numbers, and opens the result. Returns the number of bytes. */
static size_t pack(const uint32_t *ids, size_t count, struct documents *documents)
{
    const bitpacking_set empty = BITPACKING_SET_EMPTY;
    const size_t room = BITPACKING_SET_ROOM(count);
    size_t position;
    ptrdiff_t size;

    documents->bytes = checked(malloc(room));
    documents->view = empty;
    size = bitpacking_set_pack(ids, count, documents->bytes, room, &position);
    if (size < 0) {
        fprintf(stderr, "document %u of a word is out of order\n", (unsigned)position);
        exit(EXIT_FAILURE);
    }
    documents->bytes = checked(realloc(documents->bytes, (size_t)size));
    bitpacking_set_open(documents->bytes, (size_t)size, &documents->view); /* it does not fail: this is a set */
    return (size_t)size;
}

/* The set of the documents that have a word. */
static size_t pack_word(uint32_t number, struct documents *documents)
{
    uint32_t ids[DOCUMENTS], k;
    size_t count = 0;

    for (k = 1; k <= DOCUMENTS; k++)
        if (k % number == 0)
            ids[count++] = k;
    return pack(ids, count, documents);
}

/* Queries, and their steps: each operation takes the last two operands. */
static const struct query {
    const char *text;
    size_t steps_len;
    uint32_t steps[5];
} queries[] = {
    {"fizz AND buzz AND even", 5, {FIZZ, BUZZ, BITPACKING_AND, EVEN, BITPACKING_AND}},
    {"fizz OR buzz", 3, {FIZZ, BUZZ, BITPACKING_OR}},
    {"even NOT fizz", 3, {EVEN, FIZZ, BITPACKING_AND_NOT}},
    {"(fizz OR buzz) NOT even", 5, {FIZZ, BUZZ, BITPACKING_OR, EVEN, BITPACKING_AND_NOT}},
    {"fizz AND odd", 3, {FIZZ, NONE, BITPACKING_AND}},
};

/* Answers a query over the sets of the words, and prints the answer. */
static void ask(const struct query *query, const bitpacking_set *views)
{
    uint64_t space[BITPACKING_QUERY_SPACE(2)], next = 0; /* two operands wait at once */
    uint32_t ids[DOCUMENTS];
    struct documents answer;
    size_t position, size, i;
    ptrdiff_t count;

    count = bitpacking_set_query(views, WORDS, query->steps, query->steps_len, space, BITPACKING_QUERY_SPACE(2), &next,
                                 ids, DOCUMENTS, &position);
    if (count < 0) {
        fprintf(stderr, "%s: %s\n", query->text, bitpacking_error_text(count));
        exit(EXIT_FAILURE);
    }
    size = pack(ids, (size_t)count, &answer);
    printf("%s: %u documents in %u bytes, [", query->text, (unsigned)count, (unsigned)size);
    for (i = 0; i < 4 && i < (size_t)count; i++)
        printf(i == 0 ? "%u" : ", %u", (unsigned)ids[i]);
    printf("] ..\n");
    free(answer.bytes);
}

int main(void)
{
    const bitpacking_set none = BITPACKING_SET_EMPTY;
    struct documents index[NONE];
    bitpacking_set views[WORDS];
    size_t size = 0, i;

    for (i = 0; i < NONE; i++) {
        size += pack_word(numbers[i], &index[i]);
        views[i] = index[i].view;
    }
    views[NONE] = none;
    printf("%d words in %u bytes\n", NONE, (unsigned)size);
    for (i = 0; i < sizeof queries / sizeof *queries; i++)
        ask(&queries[i], views);
    for (i = 0; i < NONE; i++)
        free(index[i].bytes);
    return EXIT_SUCCESS;
}
