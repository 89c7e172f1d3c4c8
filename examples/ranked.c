/* A ranked search: of the documents that have one of two words, the three with the greatest scores. A word adds more to the score of a document
 * that has it more often, and less to that of a long one. */
#include <bitpacking.h>
#include <stdio.h>

enum { WORDS = 2, MOST = 4, COUNTS = 4, DOCUMENTS = 301 };

/* A word with the bytes and the table that its term borrows. */
struct word {
    uint8_t ids[BITPACKING_SET_ROOM(MOST)], counts[BITPACKING_COLUMN_ROOM(MOST)];
    uint32_t table[COUNTS * BITPACKING_CLASSES];
};

/* Starts the term of a word that these documents have, each as often as its count says. Returns an error, or 0. */
static ptrdiff_t start(struct word *word, uint32_t weight, const uint32_t *ids, const uint32_t *counts, size_t len, bitpacking_term *term)
{
    bitpacking_set set = BITPACKING_SET_EMPTY;
    bitpacking_column column = BITPACKING_COLUMN_EMPTY;
    ptrdiff_t size = bitpacking_set_pack(ids, len, word->ids, sizeof word->ids, NULL);
    uint32_t i;

    if (size < 0 || (size = bitpacking_set_open(word->ids, (size_t)size, &set)) < 0)
        return size;
    size = bitpacking_column_pack(BITPACKING_PLAIN, counts, len, word->counts, sizeof word->counts, NULL);
    if (size < 0 || (size = bitpacking_column_open(word->counts, (size_t)size, &column)) < 0)
        return size;
    for (i = 0; i < COUNTS * BITPACKING_CLASSES; i++) {
        const uint32_t count = i / BITPACKING_CLASSES, length = i % BITPACKING_CLASSES;
        word->table[i] = 100 * weight * count / (count + 1 + length);
    }
    return bitpacking_term_start(term, &set, &column, word->table, COUNTS * BITPACKING_CLASSES);
}

int main(void)
{
    const uint32_t cats[] = {7, 9, 10, 300}, cat_counts[] = {1, 3, 1, 2}, dogs[] = {9, 11, 300}, dog_counts[] = {1, 2, 1};
    bitpacking_term terms[WORDS] = {BITPACKING_TERM_EMPTY, BITPACKING_TERM_EMPTY};
    bitpacking_walk walks[WORDS];
    bitpacking_scored best[3];
    static struct word words[WORDS];
    static uint8_t lengths[DOCUMENTS];
    ptrdiff_t count, i;

    lengths[9] = 2; /* a long document */
    if (start(&words[0], 2, dogs, dog_counts, 3, &terms[0]) < 0 || start(&words[1], 1, cats, cat_counts, 4, &terms[1]) < 0)
        return 1;
    count = bitpacking_best(terms, WORDS, lengths, DOCUMENTS, 1, walks, WORDS, best, 3);
    for (i = 0; i < count; i++)
        printf("document %u: %u\n", (unsigned)best[i].id, (unsigned)best[i].score);
    return 0;
}
