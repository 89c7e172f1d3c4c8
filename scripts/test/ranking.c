/* Asks for the best documents of words whose scores are worked by hand. Each error is tested, with nothing else written. Random words are
   asked for in rust/src/tests/ranked.rs, and by scripts/test/ranked.py over a program in C. Prints what is wrong, and last that it made all
   calls. */
#include "bitpacking.h"
#include "tables.h"

enum { DOCUMENTS = 10, WORDS = 2, COUNTS = 5, PARTS = COUNTS * BITPACKING_CLASSES };

static uint8_t set_bytes[WORDS][BITPACKING_SET_ROOM(DOCUMENTS)], count_bytes[WORDS][BITPACKING_COLUMN_ROOM(DOCUMENTS)], classes[DOCUMENTS];
static uint32_t tables[WORDS][PARTS + 1];
/* No document has the last word, whose term is not started. */
static bitpacking_term terms[WORDS + 1];
static bitpacking_walk walks[WORDS + 1];
static uint32_t parts[WORDS][2];
static bitpacking_block_bounds bounds[WORDS];
static bitpacking_scored found[DOCUMENTS];

static void opened(const uint32_t *of_ids, const uint32_t *of_counts, size_t len, size_t word, bitpacking_set *set, bitpacking_column *column)
{
    ptrdiff_t size = bitpacking_set_pack(of_ids, len, set_bytes[word], sizeof set_bytes[word], NULL);

    expect(size > 0 && bitpacking_set_open(set_bytes[word], (size_t)size, set) == 0, "a set is not opened");
    size = bitpacking_column_pack(BITPACKING_PLAIN, of_counts, len, count_bytes[word], sizeof count_bytes[word], NULL);
    expect(size > 0 && bitpacking_column_open(count_bytes[word], (size_t)size, column) == 0, "a column is not opened");
}

/* The set and the column go before the query: a term has a copy of each. */
static void start(const uint32_t *of_ids, const uint32_t *of_counts, size_t len, size_t word)
{
    bitpacking_set set = BITPACKING_SET_EMPTY;
    bitpacking_column column = BITPACKING_COLUMN_EMPTY;

    opened(of_ids, of_counts, len, word, &set, &column);
    expect(bitpacking_term_start(&terms[word], &set, &column, tables[word], PARTS) == 0, "a term is not started");
}

/* A query found these documents, the best first. */
static void are(ptrdiff_t answer, const bitpacking_scored *right, size_t len, const char *what)
{
    size_t i;

    expect(answer == (ptrdiff_t)len, what);
    for (i = 0; i < len; i++)
        expect(found[i].score == right[i].score && found[i].id == right[i].id, what);
    memset(found, 0xA5, sizeof found);
}

/* The documents that have at least so many of the words, into this room. */
static void asks(size_t at_least, size_t room, const bitpacking_scored *right, size_t len)
{
    memset(walks, 0xA5, sizeof walks);
    are(bitpacking_best(terms, WORDS + 1, classes, DOCUMENTS, at_least, walks, WORDS + 1, found, room), right, len, "others are the best");
    are(bitpacking_best_bounded(terms, WORDS + 1, bounds, WORDS, classes, DOCUMENTS, at_least, walks, WORDS + 1, found, room), right, len,
        "others are the best with bounds");
    expect(walks[0].unpacked <= 1 && walks[1].unpacked <= 1 && walks[2].unpacked == 0, "more blocks are unpacked than there are");
}

/* A word adds 300 for each time, up to four times, less the class of the document. */
static void worked(void)
{
    static const uint32_t first[] = {1, 4, 7}, first_counts[] = {2, 1, 1}, second[] = {4, 9}, second_counts[] = {1, 9};
    static const uint32_t given[] = {4, 5, 7, 9};
    static const bitpacking_scored any[] = {{800, 9}, {600, 1}, {600, 4}, {300, 7}}, of_given[] = {{800, 9}, {600, 4}, {300, 7}, {0, 5}};
    const bitpacking_term empty = BITPACKING_TERM_EMPTY;
    uint32_t i;

    for (i = 0; i < PARTS; i++)
        tables[0][i] = tables[1][i] = i / BITPACKING_CLASSES * (300 - i % BITPACKING_CLASSES);
    terms[0] = terms[1] = terms[WORDS] = empty;
    classes[9] = 100;
    start(first, first_counts, 3, 0);
    start(second, second_counts, 2, 1);
    for (i = 0; i < WORDS; i++) {
        memset(parts[i], 0xA5, sizeof parts[i]);
        bitpacking_term_bound(&terms[i], classes, DOCUMENTS, parts[i], 2);
        bounds[i] = (bitpacking_block_bounds){parts[i], 1};
    }
    expect(parts[0][0] == 600 && parts[1][0] == 800 && parts[0][1] == 0 && parts[1][1] == 0, "other bounds");
    asks(1, 10, any, 4);
    asks(0, 2, any, 2);
    asks(2, 10, any + 2, 1);
    asks(3, 10, any, 0);
    /* Documents after the classes have class 0. */
    are(bitpacking_best(terms, 2, classes, 9, 1, walks, 2, found, 1), &(const bitpacking_scored){1200, 9}, 1, "a document without a class");
    are(bitpacking_best_among(given, 4, terms, WORDS + 1, classes, DOCUMENTS, found, 10), of_given, 4, "other documents of those given");
    are(bitpacking_best_among(given, 4, terms, WORDS + 1, classes, DOCUMENTS, found, 2), of_given, 2, "others are the two best");
    are(bitpacking_best_among(given, 0, terms, WORDS + 1, classes, DOCUMENTS, found, 10), of_given, 0, "some of no documents");
}

/* A term is not started, and stays what it was. */
static void refuses(const bitpacking_set *set, const bitpacking_column *column, size_t table_len, ptrdiff_t number, const char *what)
{
    bitpacking_term before;

    memcpy(&before, &terms[0], sizeof before);
    expect(bitpacking_term_start(&terms[0], set, column, tables[0], table_len) == number, what);
    expect(memcmp(&before, &terms[0], sizeof before) == 0, what);
}

static void errors(void)
{
    static const uint32_t some[] = {1, 2, 3}, falling[] = {4, 5, 9, 9};
    const bitpacking_walk empty_walk = BITPACKING_WALK_EMPTY;
    const bitpacking_scored none = BITPACKING_SCORED_EMPTY;
    const bitpacking_set no_ids = BITPACKING_SET_EMPTY;
    const bitpacking_column no_counts = BITPACKING_COLUMN_EMPTY;
    bitpacking_set set = BITPACKING_SET_EMPTY;
    bitpacking_column column = BITPACKING_COLUMN_EMPTY;
    const size_t two_rows = 2 * BITPACKING_CLASSES;

    opened(some, some, 3, 0, &set, &column);
    memset(tables[0], 0, sizeof tables[0]);
    refuses(&set, &no_counts, two_rows, BITPACKING_BAD_LENGTH, "more ids than counts");
    refuses(&no_ids, &column, 0, BITPACKING_BAD_LENGTH, "more counts than ids");
    refuses(&set, &column, 0, BITPACKING_BAD_TABLE, "no parts");
    refuses(&set, &column, BITPACKING_CLASSES - 1, BITPACKING_BAD_TABLE, "less than a row");
    refuses(&set, &column, two_rows + 1, BITPACKING_BAD_TABLE, "more than two rows");
    tables[0][two_rows - 1] = 1;
    refuses(&set, &column, two_rows, BITPACKING_BAD_TABLE, "a part above the first of its row");
    tables[0][0] = tables[0][7] = 1;
    tables[0][BITPACKING_CLASSES] = 1;
    refuses(&set, &column, two_rows, BITPACKING_BAD_TABLE, "a part that falls");
    tables[0][BITPACKING_CLASSES + 7] = 1;
    expect(bitpacking_term_start(&terms[0], &set, &column, tables[0], two_rows) == 0, "a table");
    walks[0] = empty_walk;
    found[0] = none;
    walks[0].unpacked = 77;
    expect(bitpacking_best(terms, 2, NULL, 0, 1, walks, 1, found, 10) == BITPACKING_SHORT, "a walk is missing");
    /* The number of terms is tested before any is read. */
    expect(bitpacking_best(terms, 268435457, NULL, 0, 1, walks, 1, found, 10) == BITPACKING_TOO_LONG, "too many terms");
    expect(walks[0].unpacked == 77 && found[0].score == 0 && found[0].id == 0, "something is written at an error");
    expect(bitpacking_best(terms, 1, NULL, 0, 1, walks, 1, found, 0) == 0, "no room");
    expect(bitpacking_best(NULL, 0, NULL, 0, 0, NULL, 0, found, 10) == 0, "no words");
    found[0].id = 77;
    expect(bitpacking_best_among(falling, 4, terms, 1, NULL, 0, found, 10) == BITPACKING_NOT_SORTED, "documents that fall");
    expect(bitpacking_best_among(falling, 4, terms, 268435457, NULL, 0, found, 10) == BITPACKING_TOO_LONG, "too many terms before documents that fall");
    expect(found[0].id == 77, "something is written at an error");
    expect(bitpacking_best_among(falling, 3, terms, 1, NULL, 0, found, 0) == 0, "no room among documents");
    expect(bitpacking_best_among(falling, 3, NULL, 0, NULL, 0, found, 10) == 3 && found[0].id == 4 && found[2].score == 0, "no words of documents");
}

int main(void)
{
    worked();
    errors();
    printf("all calls\n");
    return failed;
}
