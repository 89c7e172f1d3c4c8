/* `index`: reads the text files below a folder, and writes an index of their words. */
#define _DEFAULT_SOURCE
#include "search.h"

#include <dirent.h>
#include <errno.h>
#include <fts.h>
#include <signal.h>
#include <sys/stat.h>
#include <unistd.h>

enum { LONGEST_WORD = 64, LONGEST_LINE = 100, CHAINS = 1 << 20 }; /* bytes of a word and of a line, and chains */

/* A word, the documents that have it, and how often each has it. Words are in chains by their hash, and in a row. */
struct word { struct word *next; struct numbers documents, counts; char text[]; };
static struct word *chains[CHAINS];
static struct { struct word **items; size_t len; } words;

/* The bytes of the index, where its items begin, and the classes of the lengths of documents. */
static struct { uint8_t *items; size_t len, room; } out;
static struct numbers bounds;
static struct { uint8_t *items; size_t len; } classes;

/* Room for this many bytes more at the end of the index. */
static void *space(size_t len)
{
    for (; out.len + len > out.room; out.room = out.room ? 2 * out.room : 1)
        out.items = grown(out.items, out.room, 1);
    return out.items + out.len;
}

/* Ends an item with these bytes, or with as many that were written to their space. */
static void end_item(const void *bytes, size_t len)
{
    if (bytes)
        memcpy(space(len), bytes, len);
    if ((out.len += len) > UINT32_MAX)
        errx(2, "there is more text than an index can have");
    PUSH(bounds, (uint32_t)out.len);
}

/* The word of these letters in lower case, which is added if it is new. */
static struct word *find_word(const char *letters, size_t len)
{
    char text[LONGEST_WORD + 1] = "";
    uint32_t hash = 2166136261u;
    for (size_t i = 0; i < len; i++) {
        text[i] = (char)tolower((unsigned char)letters[i]);
        hash = (hash ^ (uint8_t)text[i]) * 16777619u;
    }
    struct word **word = &chains[hash % CHAINS];
    while (*word && strcmp((*word)->text, text) != 0)
        word = &(*word)->next;
    if (!*word) {
        *word = memset(grown(NULL, 0, sizeof **word + len + 1), 0, sizeof **word);
        strcpy((*word)->text, text);
        PUSH(words, *word);
    }
    return *word;
}

/* The class of a number keeps its four highest binary digits. */
static uint8_t class_of(uint32_t number)
{
    uint8_t shift = 0;
    for (; number >= 16; number /= 2)
        shift++;
    return (uint8_t)(8 * shift + number);
}

/* Adds a document, which begins in a line of a file, if it has a word. */
static void add_document(const char *path, size_t line, const char *text, const char *end)
{
    uint32_t document = (uint32_t)classes.len, length = 0;
    for (const char *at = text; at < end; at++) {
        const char *start = at;
        while (isalnum((unsigned char)*at))
            at++;
        if (at == start || at - start > LONGEST_WORD)
            continue;
        struct word *word = find_word(start, (size_t)(at - start));
        if (word->documents.len == 0 || word->documents.items[word->documents.len - 1] != document) {
            PUSH(word->documents, document);
            PUSH(word->counts, 0);
        }
        word->counts.items[word->counts.len - 1]++;
        length++;
    }
    if (length == 0)
        return;
    PUSH(classes, class_of(length));
    size_t kept = strcspn(text, "\r\n");
    while (kept > LONGEST_LINE || (kept > 0 && (text[kept] & 0xC0) == 0x80))
        kept--; /* it does not end within a character of UTF-8 */
    end_item(NULL, (size_t)sprintf(space(strlen(path) + kept + 32), "%s:%zu  %.*s", path, line, (int)kept, text));
}

/* Adds the documents of a file, if no byte of it is zero: of each paragraph one, or one of the whole. */
static void add_file(const char *path, int paragraphs)
{
    static char *text;
    static size_t room;
    size_t begun = 0;
    FILE *file = fopen(path, "rb");
    const char *start = NULL, *at = file && getdelim(&text, &room, 0, file) > 0 && feof(file) ? text : "";
    if (!file || ferror(file))
        warn("%s: left out", path);
    for (size_t line = 1; *at; line++) {
        const char *first = at + strspn(at, SPACES);
        if (!start && *first && *first != '\n') {
            start = first;
            begun = line;
        } else if (start && *first == '\n' && paragraphs) {
            add_document(path, begun, start, at);
            start = NULL;
        }
        at = first + strcspn(first, "\n");
        at += *at == '\n';
    }
    if (start)
        add_document(path, begun, start, at);
    if (file)
        fclose(file);
}

static int compare_names(const FTSENT **a, const FTSENT **b)
{
    return strcmp((*a)->fts_name, (*b)->fts_name);
}

/* Adds all files below a folder but for links, and shows on a terminal how many they are. */
static void add_folder(char *folder, int paragraphs)
{
    FTS *tree = fts_open((char *[]){folder, NULL}, FTS_PHYSICAL | FTS_COMFOLLOW | FTS_NOCHDIR, compare_names);
    if (!tree)
        err(2, "%s", folder);
    size_t files = 0;
    for (FTSENT *entry; (entry = fts_read(tree));) {
        int ends = entry->fts_info == FTS_DP && entry->fts_level == 0;
        errno = entry->fts_errno;
        if (errno && entry->fts_level == 0)
            err(2, "%s", folder);
        if (errno)
            warn("%s: left out", entry->fts_path);
        if (entry->fts_info == FTS_F)
            add_file(entry->fts_path, paragraphs);
        files += entry->fts_info == FTS_F;
        if (isatty(STDERR_FILENO) && (ends || files % 64 == 0))
            fprintf(stderr, "\r%zu files%s", files, ends ? "\n" : "");
    }
}

static int compare_words(const void *a, const void *b)
{
    return strcmp((*(struct word *const *)a)->text, (*(struct word *const *)b)->text);
}

/* Refuses to replace what is no regular file, and removes the files that runs left beside it if they were killed. Returns its folder, opened, or -1. */
static int prepare(const char *file)
{
    const char *slash = strrchr(file, '/'), *name = slash ? slash + 1 : file;
    struct stat status;
    if (lstat(file, &status) == 0 && !S_ISREG(status.st_mode))
        errx(2, "%s: it is no regular file, and is not replaced", file);
    DIR *entries = opendir(slash ? strndup(file, (size_t)(name - file)) : ".");
    for (struct dirent *entry; entries && (entry = readdir(entries));) {
        int process, end = 0;
        const char *rest = strncmp(entry->d_name, name, strlen(name)) == 0 ? entry->d_name + strlen(name) : "";
        if (sscanf(rest, ".%d.tmp%n", &process, &end) == 1 && end > 0 && !rest[end] && process > 0 && kill(process, 0) != 0 && errno == ESRCH)
            unlinkat(dirfd(entries), entry->d_name, 0);
    }
    return entries ? dirfd(entries) : -1;
}

/* Writes the words in their order, each with the greatest class of its counts, and then of each the set and these classes. */
static void write_words(void)
{
    if (words.len > 0)
        qsort(words.items, words.len, sizeof *words.items, compare_words);
    for (size_t i = 0; i < words.len; i++) {
        struct numbers counts = words.items[i]->counts;
        uint8_t greatest = 0;
        for (size_t j = 0; j < counts.len; j++) {
            uint8_t class = class_of(counts.items[j]);
            counts.items[j] = class;
            greatest = class > greatest ? class : greatest;
        }
        end_item(NULL, (size_t)sprintf(space(LONGEST_WORD + 3), "%s%c%c", words.items[i]->text, 0, greatest));
    }
    for (size_t i = 0; i < words.len; i++) {
        struct numbers ids = words.items[i]->documents, counts = words.items[i]->counts;
        size_t room = BITPACKING_SET_ROOM(ids.len) + BITPACKING_COLUMN_ROOM(0); /* enough for both */
        end_item(NULL, (size_t)bitpacking_set_pack(ids.items, ids.len, space(room), room, NULL));
        end_item(NULL, (size_t)bitpacking_column_pack(BITPACKING_PLAIN, counts.items, counts.len, space(room), room, NULL));
    }
}

void make_index(char *folder, const char *file, int paragraphs)
{
    char *name = grown(NULL, strlen(file) + 32, 1);
    int parent = prepare(file);
    end_item(MAGIC, sizeof MAGIC);
    add_folder(folder, paragraphs);
    write_words();
    end_item(classes.items, classes.len);
    uint32_t start = (uint32_t)out.len;
    size_t room = BITPACKING_COLUMN_ROOM(bounds.len);
    end_item(NULL, (size_t)bitpacking_column_pack(BITPACKING_SORTED, bounds.items, bounds.len, space(room), room, NULL));
    end_item((uint8_t[]){start & 0xFF, start >> 8 & 0xFF, start >> 16 & 0xFF, start >> 24}, 4);
    sprintf(name, "%s.%ld.tmp", file, (long)getpid());
    FILE *whole = fopen(name, "wb");
    if (!whole || fwrite(out.items, 1, out.len, whole) < out.len || fflush(whole) || fsync(fileno(whole)) || rename(name, file) ||
        (parent >= 0 && fsync(parent))) { /* stores the name */
        warn("%s", file);
        remove(name);
        exit(2);
    }
    printf("%zu documents and %zu words in %zu bytes\n", classes.len, words.len, out.len);
}
