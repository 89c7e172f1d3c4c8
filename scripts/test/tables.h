/* What the programs share: they say what is wrong, draw numbers, and read tables of vectors/ from the standard input, one after the other. The first
   line of a table has the names of its columns. */
#ifndef TABLES_H
#define TABLES_H

#include <ctype.h>
#include <stddef.h>
#include <stdint.h>
#include <stdio.h>
#include <stdlib.h>
#include <string.h>

enum { LINE = 1 << 21, COLUMNS = 3, TABLES = 5 };

/* The table of the row that was read last. */
static enum {
    ID_SETS,
    REFUSED_BYTES, /* of id sets, of columns or of bitmaps */
    COMBINED_ID_SETS,
    VALUES_OF_COLUMNS,
    BITMAPS
} table;
static const char *const heads[TABLES] = {"ids\tbytes", "number\tfault\tbytes", "ids\tothers\tboth", "kind\tvalues\tbytes",
                                          "ids\tbytes\tcroaring"};

static char line[LINE];
static int failed;

static void expect(int is, const char *what)
{
    if (!is) {
        printf("%s: %.100s\n", what, line);
        failed = 1;
    }
}

/* A number below a bound that is not 0. */
static inline uint32_t drawn(uint64_t bound)
{
    static uint64_t state = 1;

    state = state * 6364136223846793005u + 1442695040888963407u;
    return (uint32_t)((state >> 32) * bound >> 32);
}

/* Whether the line is the first of a table, which is then the table of the rows after it. */
static inline int is_head(void)
{
    size_t i;

    for (i = 0; i < TABLES && strcmp(line, heads[i]) != 0; i++)
        continue;
    if (i < TABLES)
        table = i;
    return i < TABLES;
}

/* Reads the next row into line, and points to its columns: NULL after the last. Returns whether there is one. */
static inline int next_row(char *column[COLUMNS])
{
    while (fgets(line, sizeof line, stdin)) {
        int i;

        line[strcspn(line, "\n")] = 0;
        if (is_head())
            continue;
        column[0] = line;
        for (i = 1; i < COLUMNS; i++) {
            column[i] = column[i - 1] ? strchr(column[i - 1], '\t') : NULL;
            if (column[i])
                *column[i]++ = 0;
        }
        return 1;
    }
    return 0;
}

static inline uint8_t kind_of(const char *name)
{
    return *name != 'p'; /* plain or sorted */
}

static inline unsigned digit(char it)
{
    return (unsigned)(it <= '9' ? it - '0' : it - 'a' + 10);
}

/* The bytes of hexadecimal digits, or none of "-". `{ff00*16}` is these two bytes 16 times. */
static inline size_t read_bytes(const char *digits, uint8_t *bytes)
{
    size_t len = 0, start = 0;

    while (isxdigit((unsigned char)*digits) || *digits == '{' || *digits == '*')
        if (*digits == '{') {
            start = len;
            digits++;
        } else if (*digits == '*') {
            const size_t part = len - start;
            char *end;
            unsigned long times = strtoul(digits + 1, &end, 10);

            for (; times > 1; times--, len += part)
                memcpy(bytes + len, bytes + start, part);
            digits = end + 1;
        } else {
            bytes[len++] = (uint8_t)(16 * digit(digits[0]) + digit(digits[1]));
            digits += 2;
        }
    return len;
}

/* The values between commas, or none of "-". `5-9` is five of them, and `0-8/2` those with steps of 2. */
static inline size_t read_values(char *text, uint32_t *values)
{
    size_t len = 0;
    char *end;

    for (; *text != '-' && *text != 0; text = *end == ',' ? end + 1 : end) {
        uint64_t value = strtoul(text, &end, 10);
        const uint64_t last = *end == '-' ? strtoul(end + 1, &end, 10) : value;
        const uint64_t step = *end == '/' ? strtoul(end + 1, &end, 10) : 1;

        for (; value <= last; value += step)
            values[len++] = (uint32_t)value;
    }
    return len;
}

#endif
