/* A small search engine over id sets and columns (README.md): the command line, and `find`. index.c has `index`. */
#define _DEFAULT_SOURCE
#include "search.h"

#include <fcntl.h>
#include <inttypes.h>
#include <math.h>
#include <sys/mman.h>
#include <sys/stat.h>

static const char help[] =
    "A small search engine over id sets and columns.\n\n"
    "    search index [--paragraphs] FOLDER FILE\n"
    "        writes an index of the text files below FOLDER to FILE; a document is a file, or a paragraph\n"
    "    search find [--best N] [--count] [--explain] FILE QUERY\n"
    "        prints the 10 best documents that answer QUERY, or the N best up to 999; or how many answer (--count);\n"
    "        and which sets it reads, and the scores in full (--explain)\n\n"
    "A query has words next to each other (documents with all of them), a | b (with one of them), -c (without it),\n"
    "pre* (all words that begin so), and brackets: 'packed (list | block) -chain*'. All signs but letters and digits end a word;\n"
    "\" and : are errors, as a query has no phrases and no fields.\n\n"
    "The status is 0 if a document was found, 1 if none was, and 2 if something is wrong.\n";

#define DAMAGED "%s: the index is damaged: "
#define ENDS SPACES "\n|()" /* these signs end what is read as one */
#define UNIT 1e7            /* of scores */
#define NO_FIELDS "a query has no fields: a space in place of the colon finds documents with both words"
#define NO_PHRASES "a query has no phrases: without the quotes it finds documents with all words"

/* The most signs of a query; the most words that are ranked without reading all; and the most operands of a query that may wait. */
enum { LONGEST_QUERY = 1000, MOST_TERMS = 32, MOST_WAITING = 64, MOST_BEST = 999 };

/* The steps of a query in postfix order, as bitpacking_set_query reads them; how many operands wait at once; and a bit for each of its operations. */
struct tree { uint32_t *items; size_t len, waiting; unsigned operations; };
#define BIT(operation) (1u << (UINT32_MAX - (operation)))

/* An index file, and where its items begin. A query, where it is read, its sets, and the words that count for the order of documents,
 * if that is wanted. */
struct search {
    const char *file, *query, *at;
    const uint8_t *bytes, *classes;
    const uint32_t *bounds;
    size_t documents, words;
    double norms[BITPACKING_CLASSES]; /* what the length of a document of each class is in BM25: k1 = 1.2, b = 0.75 */
    struct { bitpacking_set *items; size_t len; } sets;
    struct { bitpacking_term *items; size_t len; } terms;
    int explain, is_ranked;
};

void *grown(void *items, size_t len, size_t size)
{
    if ((!items || (len & (len - 1)) == 0) && !(items = realloc(items, (items ? 2 * len : len + 1) * size)))
        err(2, "memory");
    return items;
}

/* The bytes of an item, and their number. */
#define ITEM(s, item) (s)->bytes + (s)->bounds[item], (s)->bounds[(item) + 1] - (s)->bounds[item]

static bitpacking_column open_column(const struct search *s, const uint8_t *bytes, size_t len, uint8_t kind, const char *name)
{
    bitpacking_column column = BITPACKING_COLUMN_EMPTY;
    ptrdiff_t opened = bitpacking_column_open(bytes, len, &column);
    if (opened < 0 || bitpacking_column_kind(&column) != kind)
        errx(2, DAMAGED "a column of %s: %s", s->file, name, opened < 0 ? bitpacking_error_text(opened) : "wrong kind");
    return column;
}

static const char *word_at(const struct search *s, size_t word)
{
    return (const char *)s->bytes + s->bounds[s->documents + word];
}

/* The least number of a class. */
static double least_of(int class)
{
    return class < 8 ? class : (8.0 + class % 8) * (1u << (class / 8 - 1));
}

/* Maps an index file, and tests all of it but for the sets and columns of words. */
static void open_index(struct search *s)
{
    struct stat status;
    int file = open(s->file, O_RDONLY);
    size_t len = file >= 0 && fstat(file, &status) == 0 ? (size_t)status.st_size : 0;
    s->bytes = file >= 0 ? mmap(NULL, len + 1, PROT_READ, MAP_PRIVATE, file, 0) : MAP_FAILED;
    if (s->bytes == MAP_FAILED)
        err(2, "%s", s->file);
    if (len < sizeof MAGIC + 4 || memcmp(s->bytes, MAGIC, sizeof MAGIC) != 0)
        errx(2, "%s: this is no index: it does not begin with '" MAGIC "'", s->file);
    const uint8_t *end = s->bytes + len - 4;
    uint32_t start = end[0] | (uint32_t)end[1] << 8 | (uint32_t)end[2] << 16 | (uint32_t)end[3] << 24;
    if (start > len - 4)
        errx(2, DAMAGED "it is cut", s->file);
    bitpacking_column column = open_column(s, s->bytes + start, len - 4 - start, BITPACKING_SORTED, "bounds");
    size_t count = bitpacking_column_len(&column);
    uint32_t *bounds = grown(NULL, count, sizeof *bounds);
    bitpacking_column_unpack(&column, bounds, count);
    if (count < 2 || bounds[0] != sizeof MAGIC || bounds[count - 1] != start)
        errx(2, DAMAGED "the bounds are of other items", s->file);
    s->bounds = bounds;
    s->classes = s->bytes + bounds[count - 2];
    s->documents = start - bounds[count - 2];
    s->words = (count - 2 - s->documents) / 3;
    if (s->documents > count - 2 || s->documents + 3 * s->words != count - 2)
        errx(2, DAMAGED "the number of items is wrong", s->file);
    for (size_t i = 0; i < s->words; i++) {
        const char *word = word_at(s, i), *last = word_at(s, i + 1) - 1;
        if (last <= word || last[-1] || strspn(word, LETTERS) != (size_t)(last - word) - 1 || (i > 0 && strcmp(word_at(s, i - 1), word) >= 0))
            errx(2, DAMAGED "word %zu has a wrong sign, or is not in order", s->file, i);
    }
    double total = 0;
    for (size_t i = 0; i < s->documents; i++)
        total += least_of(s->classes[i]);
    for (int class = 0; class < BITPACKING_CLASSES; class++)
        s->norms[class] = 1.2 * (0.25 + 0.75 * least_of(class) / fmax(total / (double)s->documents, 1));
}

/* The tree of one set. */
static struct tree leaf(struct search *s, bitpacking_set set)
{
    struct tree tree = {.waiting = 1};
    PUSH(tree, (uint32_t)s->sets.len);
    PUSH(s->sets, set);
    return tree;
}

/* Joins two trees, if neither is empty. If their order does not matter the one for which more operands wait is the first, so that the fewest wait. */
static struct tree join(struct tree one, uint32_t operation, struct tree other)
{
    if (one.len == 0 || other.len == 0)
        return one.len == 0 ? other : one;
    if (operation != BITPACKING_AND_NOT && other.waiting > one.waiting)
        return join(other, operation, one);
    for (size_t i = 0; i < other.len; i++)
        PUSH(one, other.items[i]);
    PUSH(one, operation);
    one.waiting = one.waiting > other.waiting ? one.waiting : other.waiting + 1;
    one.operations |= other.operations | BIT(operation);
    return one;
}

/* Opens the set of the documents that have a word. Unless it is negative it counts for their order. The parts of scores rise with the count and fall
 * with the length in rounded numbers too: each step does. */
static struct tree open_word(struct search *s, size_t word, int negative)
{
    const char *name = word_at(s, word);
    size_t item = s->documents + s->words + 2 * word, len;
    bitpacking_set set = BITPACKING_SET_EMPTY;
    ptrdiff_t opened = bitpacking_set_open(ITEM(s, item), &set);
    uint32_t last;
    if (opened < 0)
        errx(2, DAMAGED "the set of %s: %s", s->file, name, bitpacking_error_text(opened));
    len = bitpacking_set_len(&set);
    if (!bitpacking_set_get(&set, len - 1, &last) || last >= s->documents)
        errx(2, DAMAGED "'%s' is in no document, or in one that is not there", s->file, name);
    if (s->explain)
        fprintf(stderr, "%s: %zu documents\n", name, len);
    if (s->is_ranked && !negative) {
        bitpacking_column counts = open_column(s, ITEM(s, item + 1), BITPACKING_PLAIN, name);
        bitpacking_term term = BITPACKING_TERM_EMPTY;
        double have = (double)len, weight = UNIT * 2.2 * log(1 + ((double)s->documents - have + 0.5) / (have + 0.5));
        int greatest = (uint8_t)word_at(s, word + 1)[-1];
        uint32_t *table = grown(NULL, (size_t)(greatest + 1) * BITPACKING_CLASSES, sizeof *table), *at = table;
        for (int count = 0; count <= greatest; count++)
            for (int class = 0; class < BITPACKING_CLASSES; class++)
                *at++ = (uint32_t)(weight / (1 + s->norms[class] / least_of(count)));
        if (bitpacking_term_start(&term, &set, &counts, table, (size_t)(at - table)) < 0)
            errx(2, DAMAGED "a word has more or fewer counts than documents", s->file);
        PUSH(s->terms, term);
    }
    return leaf(s, set);
}

/* Goes on in the query by this many signs, and the spaces after them. */
static void skip(struct search *s, size_t count)
{
    s->at += count;
    s->at += strspn(s->at, SPACES "\n");
}

static void wrong(const struct search *s, const char *what)
{
    errx(2, "%s: the query, after '%.*s': %s", s->file, (int)(s->at - s->query), s->query, what);
}

/* The documents that have a word of these letters, or one that begins so. */
static struct tree find_word(struct search *s, const char *letters, size_t len, int prefix, int negative)
{
    struct tree any = {0};
    size_t low = 0, high = s->words;
    while (low < high) {
        size_t middle = (low + high) / 2;
        int before = strncasecmp(word_at(s, middle), letters, len) < 0;
        low = before ? middle + 1 : low;
        high = before ? high : middle;
    }
    /* Of the words that begin so, the one that ends there is the first. */
    while (low < s->words && strncasecmp(word_at(s, low), letters, len) == 0 && (prefix || !word_at(s, low)[len]))
        any = join(any, BITPACKING_OR, open_word(s, low++, negative));
    return any.len > 0 ? any : leaf(s, (bitpacking_set)BITPACKING_SET_EMPTY);
}

/* Reads words up to a space, a bar or a bracket, as they are read in documents. The last one may be the first letters of words. Returns the tree of
 * the documents that have all, which is empty if there is no word. */
static struct tree read_words(struct search *s, int negative)
{
    struct tree all = {0};
    while (!strchr(ENDS, *s->at)) {
        size_t len = strspn(s->at, LETTERS "ABCDEFGHIJKLMNOPQRSTUVWXYZ");
        int prefix = s->at[len] == '*' && strchr(ENDS, s->at[len + 1]);
        if (len > 0)
            all = join(all, BITPACKING_AND, find_word(s, s->at, len, prefix, negative));
        s->at += len > 0 ? len : 1;
    }
    skip(s, 0);
    return all;
}

/* Reads a query, or what is in brackets: alternatives, each of which has parts with and parts without a minus. */
static struct tree read_query(struct search *s, int negative, char end)
{
    struct tree any = {0};
    do {
        struct tree parts[] = {{0}, {0}};         /* without a minus, and with one */
        skip(s, end != 0 || any.len > 0); /* a bracket or a line */
        while (!strchr("|)", *s->at)) {
            int minus = *s->at == '-';
            skip(s, minus);
            struct tree part = *s->at == '(' ? read_query(s, negative || minus, ')') : read_words(s, negative || minus);
            parts[minus] = join(parts[minus], minus ? BITPACKING_OR : BITPACKING_AND, part);
        }
        if (parts[0].len == 0)
            wrong(s, "a word is missing, or one without a minus");
        any = join(any, BITPACKING_OR, join(parts[0], BITPACKING_AND_NOT, parts[1]));
    } while (*s->at == '|');
    if (*s->at != end)
        wrong(s, end ? "a bracket is not closed" : "no bracket is open");
    skip(s, end != 0);
    return any;
}

/* The documents that answer a query. */
static struct numbers answer(const struct search *s, const struct tree *query)
{
    static uint64_t space[BITPACKING_QUERY_SPACE(MOST_WAITING)];
    struct numbers ids = {grown(NULL, s->documents, sizeof *ids.items), 0};
    uint64_t next = 0;
    size_t position;
    if (query->waiting > MOST_WAITING)
        wrong(s, "too many brackets after a minus are nested");
    ids.len = (size_t)bitpacking_set_query(s->sets.items, s->sets.len, query->items, query->len, space, BITPACKING_QUERY_SPACE(MOST_WAITING),
                                           &next, ids.items, s->documents, &position);
    if (s->explain)
        fprintf(stderr, "a query of %zu sets: %zu documents\n", s->sets.len, ids.len);
    return ids;
}

/* Finds the best of some documents by adding up the scores of all. Returns how many these are. There is room for one more. */
static size_t scan(const struct search *s, const struct numbers *documents, bitpacking_scored *found, size_t room)
{
    uint64_t *scores = memset(grown(NULL, s->documents, sizeof *scores), 0, s->documents * sizeof *scores);
    uint32_t *ids = grown(NULL, s->documents, sizeof *ids), *counts = grown(NULL, s->documents, sizeof *counts);
    size_t len = 0;
    for (const bitpacking_term *term = s->terms.items; term < s->terms.items + s->terms.len; term++) {
        size_t count = (size_t)bitpacking_set_unpack(&term->set, ids, s->documents), last = term->table_len - BITPACKING_CLASSES;
        bitpacking_column_unpack(&term->counts, counts, s->documents);
        for (size_t i = 0; i < count; i++) {
            size_t row = counts[i] * (size_t)BITPACKING_CLASSES;
            scores[ids[i]] += term->table[(row < last ? row : last) + s->classes[ids[i]]];
        }
    }
    for (size_t i = 0; i < documents->len; i++) {
        bitpacking_scored it = {scores[documents->items[i]], documents->items[i]};
        size_t at = len;
        for (; at > 0 && found[at - 1].score < it.score; at--)
            found[at] = found[at - 1];
        found[at] = it;
        len += len < room;
    }
    return len;
}

/* A term begins with its set. */
static int compare_terms(const void *a, const void *b)
{
    size_t one = bitpacking_set_len(a), other = bitpacking_set_len(b);
    return (one > other) - (one < other);
}

/* Prints the best documents that answer a query, or how many answer. Returns the status of the program. */
static int find(const char *file, const char *query, int explain, size_t best)
{
    struct search s = {.file = file, .query = query, .at = query, .explain = explain, .is_ranked = best > 0};
    bitpacking_scored found[MOST_BEST + 1];
    if (strlen(query) > LONGEST_QUERY)
        errx(2, "%s: the query is too long", file);
    s.at += strcspn(query, "\":");
    if (*s.at)
        wrong(&s, *s.at == ':' ? NO_FIELDS : NO_PHRASES);
    s.at = query;
    open_index(&s);
    struct tree tree = read_query(&s, 0, 0);
    bitpacking_term *terms = s.terms.items;
    size_t words = s.terms.len, at_least = !(tree.operations & ~BIT(BITPACKING_AND)) ? s.sets.len : 0, len;
    if (words <= MOST_TERMS && !(tree.operations & ~BIT(BITPACKING_OR)))
        at_least = 1;
    if (words > 0) /* the rarest word first, which is fastest */
        qsort(terms, words, sizeof *terms, compare_terms);
    if (best > 0 && at_least > 0) {
        bitpacking_walk *walks = grown(NULL, words, sizeof *walks);
        len = (size_t)bitpacking_best(terms, words, s.classes, s.documents, at_least, walks, words, found, best);
    } else {
        struct numbers documents = answer(&s, &tree);
        if (best == 0) {
            printf("%zu of %zu documents\n", documents.len, s.documents);
            return documents.len == 0;
        }
        len = words > MOST_TERMS ? scan(&s, &documents, found, best)
                                 : (size_t)bitpacking_best_among(documents.items, documents.len, terms, words, s.classes, s.documents, found, best);
    }
    for (size_t i = 0; i < len; i++) {
        printf("%7.3f  ", (double)found[i].score / UNIT);
        for (size_t at = s.bounds[found[i].id]; at < s.bounds[found[i].id + 1]; at++)
            putchar(iscntrl(s.bytes[at]) ? '?' : s.bytes[at]); /* a terminal could take it for a command */
        putchar('\n');
        if (explain)
            fprintf(stderr, "document %" PRIu32 ": %" PRIu64 "\n", found[i].id, found[i].score);
    }
    return len == 0;
}

int main(int len, char **arguments)
{
    char *command = len > 1 ? arguments[1] : "", rest;
    int paragraphs = 0, explain = 0, best = 10, right = len > 3, status = 0;
    for (int i = 2; i < len - 2; i++)
        if (strcmp(arguments[i], "--paragraphs") == 0)
            paragraphs = 1;
        else if (strcmp(arguments[i], "--count") == 0)
            best = 0;
        else if (strcmp(arguments[i], "--explain") == 0)
            explain = 1;
        else
            right &= strcmp(arguments[i], "--best") == 0 && sscanf(arguments[++i], "%3d%c", &best, &rest) == 1;
    if (strcmp(command, "index") == 0 && right)
        make_index(arguments[len - 2], arguments[len - 1], paragraphs);
    else if (strcmp(command, "find") == 0 && right && best >= 0)
        status = find(arguments[len - 2], arguments[len - 1], explain, (size_t)best);
    else if (strcmp(command, "--help") == 0)
        fputs(help, stdout);
    else
        errx(2, "arguments: search --help says what is wanted");
    if (fflush(stdout) != 0)
        err(2, "standard output");
    return status;
}
