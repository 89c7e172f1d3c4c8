/* What the files of the program share. README.md describes the index file. */
#ifndef SEARCH_H
#define SEARCH_H

#include <ctype.h>
#include <err.h>
#include <stdio.h>
#include <stdlib.h>
#include <string.h>
#include <strings.h>

#include "bitpacking.h"

#define MAGIC "search4" /* an index begins with this and a zero, which no text has */
#define LETTERS "0123456789abcdefghijklmnopqrstuvwxyz"
#define SPACES " \t\f\r"

struct numbers { uint32_t *items; size_t len; };

/* Appends an item to an array, which is {NULL, 0} at first. */
#define PUSH(array, item) \
    ((array).items = grown((array).items, (array).len, sizeof *(array).items), (array).items[(array).len++] = (item))

/* Room for one item more than these. It is full, and is doubled, when their number is a power of two. */
void *grown(void *items, size_t len, size_t size);

/* index.c: writes an index of the text files below a folder. */
void make_index(char *folder, const char *file, int paragraphs);

#endif
