/* Tests that an opened chunk is in the only form of its values: with their bounds, in the kinds that their order allows, and with the numbers that
 * a writer chooses for missing values. */
#include "column.h"
#include <stdlib.h>

/* A piece of the numbers of a chunk, from position `begin` on. */
typedef struct {
    uint32_t low[PIECE], high[PIECE];
    size_t begin, len;
} Piece;

/* The least and the greatest code that were seen. */
typedef struct {
    uint64_t least, greatest;
} Bounds;

static uint64_t code_of(const Chunk *it, const Piece *piece, size_t i)
{
    return it->is_wide ? (uint64_t)piece->high[i] << 32 | piece->low[i] : piece->low[i];
}

static void see(Bounds *bounds, uint64_t code)
{
    bounds->least = code < bounds->least ? code : bounds->least;
    bounds->greatest = code > bounds->greatest ? code : bounds->greatest;
}

static void read_piece(const Chunk *it, Piece *piece)
{
    piece->len = (size_t)bitpacking_column_range(&it->low, piece->begin, piece->low, PIECE);
    if (it->is_wide)
        bitpacking_column_range(&it->high, piece->begin, piece->high, PIECE);
}

/* Whether no value of a chunk is below the one before it. */
int is_in_order(const Chunk *it)
{
    Piece piece;
    uint64_t before = 0, code;
    size_t i;

    if (!it->is_wide)
        return bitpacking_column_kind(&it->low) == BITPACKING_SORTED;
    for (piece.begin = 0; piece.begin < chunk_len(it); piece.begin += piece.len) {
        read_piece(it, &piece);
        for (i = 0; i < piece.len; i++, before = code) {
            code = code_of(it, &piece, i);
            if (code < before)
                return 0;
        }
    }
    return 1;
}

/* Whether a column has the kind that the order of its numbers allows. Opening tested that a sorted one is in order. */
static int has_its_kind(const bitpacking_column *it)
{
    uint32_t values[PIECE + 1];
    size_t at, len;

    if (bitpacking_column_kind(it) == BITPACKING_SORTED)
        return 1;
    for (at = 0; (len = (size_t)bitpacking_column_range(it, at, values, PIECE + 1)) > 1; at += PIECE)
        if (falls(values, len))
            return 1;
    return 0;
}

/* Sees the numbers of a plain narrow chunk: the least of each block, and the values of a block only if it can have the greatest. */
static void see_blocks(const Chunk *it, uint64_t greatest, Bounds *bounds)
{
    uint32_t values[BITPACKING_4X_BLOCK_LEN], least, most;
    size_t len = chunk_len(it), at, count, i;

    for (at = 0; at < len; at += count) {
        count = len - at < BITPACKING_4X_BLOCK_LEN ? len - at : BITPACKING_4X_BLOCK_LEN;
        if (bitpacking_column_bounds(&it->low, at / BITPACKING_4X_BLOCK_LEN, &least, &most) == 0) {
            see(bounds, least);
            if (most < greatest)
                continue;
        }
        bitpacking_column_range(&it->low, at, values, count);
        for (i = count; i < BITPACKING_4X_BLOCK_LEN; i++)
            values[i] = values[0];
        least = most = values[0];
        for (i = 0; i < BITPACKING_4X_BLOCK_LEN; i++) { /* always as many rounds, for which the compiler uses vectors */
            least = values[i] < least ? values[i] : least;
            most = values[i] > most ? values[i] : most;
        }
        see(bounds, least);
        see(bounds, most);
    }
}

/* Sees the codes of a wide chunk that can be its bounds: those with 0 or at least the greatest number in `high`. */
static void see_wide(const Chunk *it, uint64_t greatest, Bounds *bounds)
{
    Piece piece;
    uint32_t top = (uint32_t)(greatest >> 32) - 1;
    size_t i;
    int has_low;

    for (piece.begin = 0; piece.begin < chunk_len(it); piece.begin += piece.len) {
        piece.len = (size_t)bitpacking_column_range(&it->high, piece.begin, piece.high, PIECE);
        has_low = 0;
        for (i = 0; i < piece.len; i++)
            if (piece.high[i] - 1 >= top) {
                if (!has_low)
                    bitpacking_column_range(&it->low, piece.begin, piece.low, PIECE);
                has_low = 1;
                see(bounds, code_of(it, &piece, i));
            }
    }
}

/* Whether the least code is 0, and the greatest that of the row. A chunk is wide only if this takes more than 32 bits. */
static int has_its_bounds(const Chunk *it)
{
    uint64_t greatest = it->greatest - it->least;
    Bounds bounds = {UINT64_MAX, 0};

    if (it->is_wide != (greatest > UINT32_MAX))
        return 0;
    if (it->is_wide)
        see_wide(it, greatest, &bounds);
    else if (!it->is_sorted)
        see_blocks(it, greatest, &bounds);
    else {
        see(&bounds, code_at(it, 0));
        see(&bounds, code_at(it, chunk_len(it) - 1));
    }
    return bounds.least == 0 && bounds.greatest == greatest;
}

/* Whether missing values, at least one, have the numbers that a writer chooses. */
static int is_filled(const Chunk *it, const uint32_t *ids)
{
    Piece piece;
    size_t first = 0, absent = missing_of(it), at = 0;
    uint64_t code, before = 0;

    while (first < absent && ids[first] == first)
        first++;
    if (first == chunk_len(it) && it->least != 0)
        return 0;
    code = first < chunk_len(it) ? code_at(it, first) : 0;
    for (piece.begin = 0; piece.begin < chunk_len(it); piece.begin += piece.len) {
        read_piece(it, &piece);
        for (; at < absent && ids[at] < piece.begin + piece.len; at++) {
            size_t i = ids[at] - piece.begin;
            uint64_t wanted = ids[at] < first ? code : i > 0 ? code_of(it, &piece, i - 1) : before;
            if (code_of(it, &piece, i) != wanted)
                return 0;
        }
        before = code_of(it, &piece, piece.len - 1);
    }
    return 1;
}

/* Tests an opened chunk of len values. Returns a fault, or 0. */
ptrdiff_t test_chunk(Chunk *it, size_t len, uint64_t sign)
{
    uint32_t *ids = NULL, last = 0;
    size_t absent = missing_of(it);
    int is_right;

    if (chunk_len(it) != len || (it->is_wide && bitpacking_column_len(&it->high) != len))
        return BAD_SHAPE;
    if (absent > 0 && (bitpacking_set_get(&it->missing, absent - 1, &last), last >= len))
        return BAD_SHAPE;
    if ((it->least ^ sign) > (it->greatest ^ sign))
        return LOOSE_FORM;
    it->is_sorted = is_in_order(it);
    if (!has_its_kind(&it->low) || (it->is_wide && !has_its_kind(&it->high)) || !has_its_bounds(it))
        return LOOSE_FORM;
    if (absent == 0)
        return 0;
    if (!(ids = missing_ids(it)))
        return BITPACKING_SHORT;
    is_right = is_filled(it, ids);
    free(ids);
    return is_right ? 0 : LOOSE_FORM;
}
