/* bitpacking.h: integers of 32 bits, packed in few bits each.
 *
 *     blocks     32, 128 or 256 integers at one width, in bits per integer. The caller stores the width.
 *     chains     many blocks. The caller stores the width of each.
 *     sets       increasing ids. AND, OR, AND NOT and searches work on the packed bytes.
 *     columns    integers in any order or sorted, such as times and prices, read by position and by range.
 *     terms      words of a search, each a set and a column: the documents with the greatest scores are found.
 *
 * docs/C.md of the repository has a program for each, and docs/FORMAT.md describes each byte. The functions are in libbitpacking.a. A few are
 * `static inline` here too, and bitpacking_error_text is only here: see "Inline functions" in docs/C.md.
 *
 * What each function of the archive returns and writes is proved for all arguments that meet these rules:
 *
 * - A pointer with a length after it is to that many items. It may be NULL if the length is 0.
 * - Other pointers are to one item each and are not NULL. Only a position may be NULL, if the call has an inline function here.
 * - Pointers are aligned for their type.
 * - The buffers that a call writes overlap none of its other arguments, no bytes of a view, and no values of a builder.
 * - Nothing else writes to an argument during a call, and nothing reads what the call writes.
 * - The bytes of a set or a column do not change while a view of it is used: see bitpacking_set below.
 *
 * The functions allocate nothing and have no state: they may run on any threads at once.
 */
#ifndef BITPACKING_H
#define BITPACKING_H

#include <stddef.h>
#include <stdint.h>

#ifdef __cplusplus
extern "C" {
#endif

/* The version of this header: 1000000 times the major number, 1000 times the minor one, and the number of the patch. */
#define BITPACKING_VERSION 2000000

/* Returns the version of the archive, which is BITPACKING_VERSION if both are of one version. */
uint32_t bitpacking_version(void);

/* ---- Errors
 *
 * A call that works returns a number from 0 on. A call that fails returns one of the numbers below, and writes nothing unless its comment says
 * so. A comment lists the errors of a call, without BITPACKING_, in the order of their tests: the call returns the first that applies. */

/* What an argument has. */
#define BITPACKING_BAD_LENGTH (-1)   /* blocks, chains: the values are not whole blocks, or no room for them; terms: not as many ids as counts */
#define BITPACKING_BAD_WIDTH (-2)    /* blocks, chains: a width is above BITPACKING_MAX_WIDTH */
#define BITPACKING_SHORT (-3)        /* a buffer is too short: for what is written, or of a block or a chain for what is read */
#define BITPACKING_UNFIT (-4)        /* blocks: a value does not fit the width */
#define BITPACKING_BAD_POSITION (-5) /* columns: a position is not below the number of values */
#define BITPACKING_BAD_BLOCK (-6)    /* columns: there is no whole block with this number */
#define BITPACKING_BAD_BASE (-7)     /* a base is above BITPACKING_MAX_BASE, or a value with the base is above 2^32 - 1 in a join */
#define BITPACKING_NO_SET (-8)       /* queries: a step names no view */
#define BITPACKING_TOO_DEEP (-9)     /* queries: more than 64 operands wait for their operations */
#define BITPACKING_NO_OPERAND (-10)  /* queries: an operation lacks an operand */
#define BITPACKING_LEFT_OVER (-11)   /* queries: after the last step there is no operand, or more than one */
#define BITPACKING_BAD_TABLE (-12)   /* terms: the parts of scores are not a table */
#define BITPACKING_BAD_KIND (-23)    /* columns: no kind has this number, or a search is in a plain column; sets: no operation has this number */
#define BITPACKING_TOO_LONG (-25)    /* more than 268,435,456 values, ids or terms; opened bytes have it too */
#define BITPACKING_NOT_SORTED (-30)  /* a value or an id is out of order; opened bytes have it too */

/* What is wrong with bytes that are opened: -20 less the number of the fault in docs/FORMAT.md, which has the order of the tests. A
 * bitmap has faults with these numbers in the order of docs/ROARING.md. */
#define BITPACKING_TRUNCATED (-21)       /* bytes are missing */
#define BITPACKING_BAD_VERSION (-22)     /* the first byte begins neither a set nor a column, or begins the other; bitmaps: there is another cookie */
#define BITPACKING_BAD_GROUP_WIDTH (-26) /* the width of a group is above 32 */
#define BITPACKING_LOOSE_WIDTH (-27)     /* a block or a group has a width above its least */
#define BITPACKING_BAD_OFFSET (-28)      /* a block or a chunk has too few or too many bytes; bitmaps: a container has another offset */
#define BITPACKING_BAD_LAST (-29)        /* columns: a mark is not the last or the least value of its block */
#define BITPACKING_TRAILING (-31)        /* bytes are left over */
#define BITPACKING_BAD_NUMBER (-33)      /* a number is not written in its one form, or is out of range */
#define BITPACKING_PADDING (-34)         /* a bit after the codes of a group is set */
#define BITPACKING_BAD_SIZES (-36)       /* the byte of sizes does not say the least sizes */
#define BITPACKING_BAD_KEY (-38)         /* sets: the key of a chunk is not above the one before it; bitmaps: of a container */
#define BITPACKING_BAD_SUM (-39)         /* sets: the number of ids of a chunk or of all chunks is wrong */
#define BITPACKING_BAD_BODY (-40)        /* sets: the bytes of a chunk do not encode its number of ids; bitmaps: of a container */
#define BITPACKING_LOOSE_BODY (-41)      /* sets: the ids of a chunk belong in another form */
#define BITPACKING_LOOSE_FORM (-42)      /* sets: the ids are an array, and belong in chunks */

/* Returns what a negative number means: a sentence, which is a constant. Other numbers have a sentence of their own. */
static inline const char *bitpacking_error_text(ptrdiff_t number)
{
    switch (number) {
    case BITPACKING_BAD_LENGTH:
        return "The number of values is wrong, or there is no room for them.";
    case BITPACKING_BAD_WIDTH:
        return "A width is above 32.";
    case BITPACKING_SHORT:
        return "The buffer is too short.";
    case BITPACKING_UNFIT:
        return "A value does not fit the width.";
    case BITPACKING_BAD_POSITION:
        return "A position is not below the number of values.";
    case BITPACKING_BAD_BLOCK:
        return "There is no block with this number.";
    case BITPACKING_BAD_BASE:
        return "The base is above 2^64 - 2^32, or a value with it does not fit.";
    case BITPACKING_NO_SET:
        return "A step of the query names no set.";
    case BITPACKING_TOO_DEEP:
        return "More than 64 operands of the query wait for their operations.";
    case BITPACKING_NO_OPERAND:
        return "An operation of the query lacks an operand.";
    case BITPACKING_LEFT_OVER:
        return "The query does not leave one operand.";
    case BITPACKING_BAD_TABLE:
        return "The parts of scores are not a table.";
    case BITPACKING_BAD_KIND:
        return "No kind or operation has this number, or the column is plain, and a plain column has no order.";
    case BITPACKING_TOO_LONG:
        return "There are more than 268435456 values.";
    case BITPACKING_NOT_SORTED:
        return "The values are not in order.";
    case BITPACKING_TRUNCATED:
        return "Bytes are missing.";
    case BITPACKING_BAD_VERSION:
        return "The first byte does not begin what is opened.";
    case BITPACKING_BAD_GROUP_WIDTH:
        return "The width of a group is above 32.";
    case BITPACKING_LOOSE_WIDTH:
        return "A width is not the least of its block.";
    case BITPACKING_BAD_OFFSET:
        return "A block or a chunk has too few or too many bytes, or a container has another offset.";
    case BITPACKING_BAD_LAST:
        return "A mark is not the last or the least value of its block.";
    case BITPACKING_TRAILING:
        return "Bytes are left over.";
    case BITPACKING_BAD_NUMBER:
        return "A number is not written in its one form, or is out of range.";
    case BITPACKING_PADDING:
        return "A bit after the codes of a group is set.";
    case BITPACKING_BAD_SIZES:
        return "The byte of sizes does not say the least sizes.";
    case BITPACKING_BAD_KEY:
        return "The key of a chunk is not above the one before it.";
    case BITPACKING_BAD_SUM:
        return "A chunk or the set has a wrong number of ids.";
    case BITPACKING_BAD_BODY:
        return "The bytes of a chunk do not encode its number of ids.";
    case BITPACKING_LOOSE_BODY:
        return "The ids of a chunk belong in another form.";
    case BITPACKING_LOOSE_FORM:
        return "The ids are an array, and belong in chunks.";
    default:
        return "No error has this number.";
    }
}

/* ---- Blocks
 *
 * A block has BITPACKING_4X_BLOCK_LEN values for the functions bitpacking_4x_.., and so for 1x and 8x. Each of the three has a format of its own.
 * At the width num_bits a block has BITPACKING_4X_BLOCK_SIZE(num_bits) bytes, at most 4 per value. The bytes hold neither the width nor the kind
 * nor the initial value of the block: the caller stores them, and for a chain the width of each block.
 *
 *     kind               what is packed                                        before the first value
 *     (plain)            the values
 *     sorted             each value less the one before it, modulo 2^32        initial
 *     strictly_sorted    one less than that, modulo 2^32                       initial, or BITPACKING_NO_INITIAL for none
 *
 *     uint32_t values[128], back[128];
 *     uint8_t bytes[BITPACKING_4X_BLOCK_SIZE(BITPACKING_MAX_WIDTH)], width;
 *     ...
 *     ptrdiff_t size = bitpacking_4x_pack(values, 128, bytes, sizeof bytes, &width);
 *     if (size < 0) return size;
 *     ptrdiff_t read = bitpacking_4x_decompress(bytes, (size_t)size, back, 128, width);
 */

/* The values of a block. */
#define BITPACKING_1X_BLOCK_LEN 32
#define BITPACKING_4X_BLOCK_LEN 128
#define BITPACKING_8X_BLOCK_LEN 256

/* The bytes of a block at a width. */
#define BITPACKING_1X_BLOCK_SIZE(num_bits) (4 * sizeof(uint8_t) * (num_bits))
#define BITPACKING_4X_BLOCK_SIZE(num_bits) (16 * sizeof(uint8_t) * (num_bits))
#define BITPACKING_8X_BLOCK_SIZE(num_bits) (32 * sizeof(uint8_t) * (num_bits))

/* Limits of blocks, for room that serves every packer. */
#define BITPACKING_LANE_LEN 32         /* the values of a block in each of its 1, 4 or 8 lanes */
#define BITPACKING_MAX_LANES 8         /* the most lanes of a packer */
#define BITPACKING_MAX_WIDTH 32        /* the greatest width, in bits per value */
#define BITPACKING_MAX_BLOCK_LEN 256   /* the values of the longest block */
#define BITPACKING_MAX_BLOCK_SIZE 1024 /* its bytes at the greatest width */

/* The initial value of a strictly sorted block that may begin with 0. */
#define BITPACKING_NO_INITIAL UINT32_MAX

/* Returns BITPACKING_NO_INITIAL, for languages without macros. */
uint32_t bitpacking_no_initial(void);

/* Each call on blocks and chains has one function for each packer and kind. In bitpacking_4x_pack_all_strictly_sorted the packer is 4x, the call
 * pack_all, and the kind strictly_sorted. The kinds sorted and strictly_sorted have the initial value as their first argument, and plain is not
 * named. Bytes after the ones written, and values after the block, are unchanged. */

/* pack: packs a block at its least width, which it writes to *num_bits. Returns the number of bytes written. It is as fast as num_bits and then a
 * compress that tests nothing.
 *
 *     BAD_LENGTH    decompressed_len is not the length of a block
 *     SHORT         compressed_len is below the bytes of the block: 4 per value are always enough
 */
ptrdiff_t bitpacking_1x_pack(const uint32_t *decompressed, size_t decompressed_len,
                             uint8_t *compressed, size_t compressed_len, uint8_t *num_bits);
ptrdiff_t bitpacking_1x_pack_sorted(uint32_t initial, const uint32_t *decompressed, size_t decompressed_len,
                                    uint8_t *compressed, size_t compressed_len, uint8_t *num_bits);
ptrdiff_t bitpacking_1x_pack_strictly_sorted(uint32_t initial, const uint32_t *decompressed, size_t decompressed_len,
                                             uint8_t *compressed, size_t compressed_len, uint8_t *num_bits);
ptrdiff_t bitpacking_4x_pack(const uint32_t *decompressed, size_t decompressed_len,
                             uint8_t *compressed, size_t compressed_len, uint8_t *num_bits);
ptrdiff_t bitpacking_4x_pack_sorted(uint32_t initial, const uint32_t *decompressed, size_t decompressed_len,
                                    uint8_t *compressed, size_t compressed_len, uint8_t *num_bits);
ptrdiff_t bitpacking_4x_pack_strictly_sorted(uint32_t initial, const uint32_t *decompressed, size_t decompressed_len,
                                             uint8_t *compressed, size_t compressed_len, uint8_t *num_bits);
ptrdiff_t bitpacking_8x_pack(const uint32_t *decompressed, size_t decompressed_len,
                             uint8_t *compressed, size_t compressed_len, uint8_t *num_bits);
ptrdiff_t bitpacking_8x_pack_sorted(uint32_t initial, const uint32_t *decompressed, size_t decompressed_len,
                                    uint8_t *compressed, size_t compressed_len, uint8_t *num_bits);
ptrdiff_t bitpacking_8x_pack_strictly_sorted(uint32_t initial, const uint32_t *decompressed, size_t decompressed_len,
                                             uint8_t *compressed, size_t compressed_len, uint8_t *num_bits);

/* compress: packs a block at a width from its least to BITPACKING_MAX_WIDTH. Returns the number of bytes written.
 *
 *     BAD_WIDTH     num_bits is above BITPACKING_MAX_WIDTH
 *     BAD_LENGTH    decompressed_len is not the length of a block
 *     SHORT         compressed_len is below the bytes of a block at this width
 *     UNFIT         the width is below the least width of the block
 */
ptrdiff_t bitpacking_1x_compress(const uint32_t *decompressed, size_t decompressed_len,
                                 uint8_t *compressed, size_t compressed_len, uint8_t num_bits);
ptrdiff_t bitpacking_1x_compress_sorted(uint32_t initial, const uint32_t *decompressed, size_t decompressed_len,
                                        uint8_t *compressed, size_t compressed_len, uint8_t num_bits);
ptrdiff_t bitpacking_1x_compress_strictly_sorted(uint32_t initial, const uint32_t *decompressed, size_t decompressed_len,
                                                 uint8_t *compressed, size_t compressed_len, uint8_t num_bits);
ptrdiff_t bitpacking_4x_compress(const uint32_t *decompressed, size_t decompressed_len,
                                 uint8_t *compressed, size_t compressed_len, uint8_t num_bits);
ptrdiff_t bitpacking_4x_compress_sorted(uint32_t initial, const uint32_t *decompressed, size_t decompressed_len,
                                        uint8_t *compressed, size_t compressed_len, uint8_t num_bits);
ptrdiff_t bitpacking_4x_compress_strictly_sorted(uint32_t initial, const uint32_t *decompressed, size_t decompressed_len,
                                                 uint8_t *compressed, size_t compressed_len, uint8_t num_bits);
ptrdiff_t bitpacking_8x_compress(const uint32_t *decompressed, size_t decompressed_len,
                                 uint8_t *compressed, size_t compressed_len, uint8_t num_bits);
ptrdiff_t bitpacking_8x_compress_sorted(uint32_t initial, const uint32_t *decompressed, size_t decompressed_len,
                                        uint8_t *compressed, size_t compressed_len, uint8_t num_bits);
ptrdiff_t bitpacking_8x_compress_strictly_sorted(uint32_t initial, const uint32_t *decompressed, size_t decompressed_len,
                                                 uint8_t *compressed, size_t compressed_len, uint8_t num_bits);

/* decompress: unpacks a block. Any bytes are accepted, and later ones are not read. Returns the number of bytes read.
 *
 *     BAD_LENGTH    decompressed_len is below the length of a block
 *     BAD_WIDTH     num_bits is above BITPACKING_MAX_WIDTH
 *     SHORT         compressed_len is below the bytes of a block at this width
 */
ptrdiff_t bitpacking_1x_decompress(const uint8_t *compressed, size_t compressed_len,
                                   uint32_t *decompressed, size_t decompressed_len, uint8_t num_bits);
ptrdiff_t bitpacking_1x_decompress_sorted(uint32_t initial, const uint8_t *compressed, size_t compressed_len,
                                          uint32_t *decompressed, size_t decompressed_len, uint8_t num_bits);
ptrdiff_t bitpacking_1x_decompress_strictly_sorted(uint32_t initial, const uint8_t *compressed, size_t compressed_len,
                                                   uint32_t *decompressed, size_t decompressed_len, uint8_t num_bits);
ptrdiff_t bitpacking_4x_decompress(const uint8_t *compressed, size_t compressed_len,
                                   uint32_t *decompressed, size_t decompressed_len, uint8_t num_bits);
ptrdiff_t bitpacking_4x_decompress_sorted(uint32_t initial, const uint8_t *compressed, size_t compressed_len,
                                          uint32_t *decompressed, size_t decompressed_len, uint8_t num_bits);
ptrdiff_t bitpacking_4x_decompress_strictly_sorted(uint32_t initial, const uint8_t *compressed, size_t compressed_len,
                                                   uint32_t *decompressed, size_t decompressed_len, uint8_t num_bits);
ptrdiff_t bitpacking_8x_decompress(const uint8_t *compressed, size_t compressed_len,
                                   uint32_t *decompressed, size_t decompressed_len, uint8_t num_bits);
ptrdiff_t bitpacking_8x_decompress_sorted(uint32_t initial, const uint8_t *compressed, size_t compressed_len,
                                          uint32_t *decompressed, size_t decompressed_len, uint8_t num_bits);
ptrdiff_t bitpacking_8x_decompress_strictly_sorted(uint32_t initial, const uint8_t *compressed, size_t compressed_len,
                                                   uint32_t *decompressed, size_t decompressed_len, uint8_t num_bits);

/* num_bits: returns the least width of a block, from 0 to 32.
 *
 *     BAD_LENGTH    decompressed_len is not the length of a block
 */
ptrdiff_t bitpacking_1x_num_bits(const uint32_t *decompressed, size_t decompressed_len);
ptrdiff_t bitpacking_1x_num_bits_sorted(uint32_t initial, const uint32_t *decompressed, size_t decompressed_len);
ptrdiff_t bitpacking_1x_num_bits_strictly_sorted(uint32_t initial, const uint32_t *decompressed, size_t decompressed_len);
ptrdiff_t bitpacking_4x_num_bits(const uint32_t *decompressed, size_t decompressed_len);
ptrdiff_t bitpacking_4x_num_bits_sorted(uint32_t initial, const uint32_t *decompressed, size_t decompressed_len);
ptrdiff_t bitpacking_4x_num_bits_strictly_sorted(uint32_t initial, const uint32_t *decompressed, size_t decompressed_len);
ptrdiff_t bitpacking_8x_num_bits(const uint32_t *decompressed, size_t decompressed_len);
ptrdiff_t bitpacking_8x_num_bits_sorted(uint32_t initial, const uint32_t *decompressed, size_t decompressed_len);
ptrdiff_t bitpacking_8x_num_bits_strictly_sorted(uint32_t initial, const uint32_t *decompressed, size_t decompressed_len);

/* ---- Chains */

/* pack_all: packs a chain of widths_len blocks, each at its least width, which it writes to widths. The first has the kind and the initial value
 * of the call. Each one after it has the last value of the block before as its initial value. Returns the number of bytes written. If out_len is
 * at least 4 * values_len the widths are measured once, and else twice.
 *
 *     BAD_LENGTH    values_len is not the number of values of widths_len blocks
 *     SHORT         out_len is below the bytes of the chain: 4 * values_len are always enough
 */
ptrdiff_t bitpacking_1x_pack_all(const uint32_t *values, size_t values_len,
                                 uint8_t *widths, size_t widths_len, uint8_t *out, size_t out_len);
ptrdiff_t bitpacking_1x_pack_all_sorted(uint32_t initial, const uint32_t *values, size_t values_len,
                                        uint8_t *widths, size_t widths_len, uint8_t *out, size_t out_len);
ptrdiff_t bitpacking_1x_pack_all_strictly_sorted(uint32_t initial, const uint32_t *values, size_t values_len,
                                                 uint8_t *widths, size_t widths_len, uint8_t *out, size_t out_len);
ptrdiff_t bitpacking_4x_pack_all(const uint32_t *values, size_t values_len,
                                 uint8_t *widths, size_t widths_len, uint8_t *out, size_t out_len);
ptrdiff_t bitpacking_4x_pack_all_sorted(uint32_t initial, const uint32_t *values, size_t values_len,
                                        uint8_t *widths, size_t widths_len, uint8_t *out, size_t out_len);
ptrdiff_t bitpacking_4x_pack_all_strictly_sorted(uint32_t initial, const uint32_t *values, size_t values_len,
                                                 uint8_t *widths, size_t widths_len, uint8_t *out, size_t out_len);
ptrdiff_t bitpacking_8x_pack_all(const uint32_t *values, size_t values_len,
                                 uint8_t *widths, size_t widths_len, uint8_t *out, size_t out_len);
ptrdiff_t bitpacking_8x_pack_all_sorted(uint32_t initial, const uint32_t *values, size_t values_len,
                                        uint8_t *widths, size_t widths_len, uint8_t *out, size_t out_len);
ptrdiff_t bitpacking_8x_pack_all_strictly_sorted(uint32_t initial, const uint32_t *values, size_t values_len,
                                                 uint8_t *widths, size_t widths_len, uint8_t *out, size_t out_len);

/* unpack_all: unpacks a chain with the kind, the initial value and the widths that it was packed with. Any bytes are accepted, and later ones are
 * not read. Returns the number of bytes read. Values after the blocks are unchanged. If a width is above 32 and bytes are missing too, either
 * error may be returned.
 *
 *     BAD_WIDTH     a width is above BITPACKING_MAX_WIDTH
 *     SHORT         bytes_len is below the bytes of the blocks
 *     BAD_LENGTH    values_len is below the number of values of the blocks
 */
ptrdiff_t bitpacking_1x_unpack_all(const uint8_t *widths, size_t widths_len,
                                   const uint8_t *bytes, size_t bytes_len, uint32_t *values, size_t values_len);
ptrdiff_t bitpacking_1x_unpack_all_sorted(uint32_t initial, const uint8_t *widths, size_t widths_len,
                                          const uint8_t *bytes, size_t bytes_len, uint32_t *values, size_t values_len);
ptrdiff_t bitpacking_1x_unpack_all_strictly_sorted(uint32_t initial, const uint8_t *widths, size_t widths_len,
                                                   const uint8_t *bytes, size_t bytes_len, uint32_t *values, size_t values_len);
ptrdiff_t bitpacking_4x_unpack_all(const uint8_t *widths, size_t widths_len,
                                   const uint8_t *bytes, size_t bytes_len, uint32_t *values, size_t values_len);
ptrdiff_t bitpacking_4x_unpack_all_sorted(uint32_t initial, const uint8_t *widths, size_t widths_len,
                                          const uint8_t *bytes, size_t bytes_len, uint32_t *values, size_t values_len);
ptrdiff_t bitpacking_4x_unpack_all_strictly_sorted(uint32_t initial, const uint8_t *widths, size_t widths_len,
                                                   const uint8_t *bytes, size_t bytes_len, uint32_t *values, size_t values_len);
ptrdiff_t bitpacking_8x_unpack_all(const uint8_t *widths, size_t widths_len,
                                   const uint8_t *bytes, size_t bytes_len, uint32_t *values, size_t values_len);
ptrdiff_t bitpacking_8x_unpack_all_sorted(uint32_t initial, const uint8_t *widths, size_t widths_len,
                                          const uint8_t *bytes, size_t bytes_len, uint32_t *values, size_t values_len);
ptrdiff_t bitpacking_8x_unpack_all_strictly_sorted(uint32_t initial, const uint8_t *widths, size_t widths_len,
                                                   const uint8_t *bytes, size_t bytes_len, uint32_t *values, size_t values_len);

/* ---- Sets
 *
 * A set has increasing ids. Each set has one encoding, whose bytes hold all that it takes to read it.
 *
 * A view of a set is a struct of the caller that borrows the bytes. It has no memory of its own. Set it to BITPACKING_SET_EMPTY before anything
 * else, or all of it to zero: each is the empty set. Then open it, as often as you like. The bytes stay where they are, unchanged, for as long as
 * the view or a copy of it is used. Only bitpacking_set_open and bitpacking_set_open_tested may write its fields: later calls trust what opening
 * found, as they trust the bytes.
 *
 * The library tests the bytes once, at opening. If they change after that, a call may read or write outside its buffers. Use memory that nothing
 * writes. Replace a file by renaming a new one, and never write into one that is mapped. A mapped file that is cut ends the process with SIGBUS.
 *
 *     bitpacking_set set = BITPACKING_SET_EMPTY;
 *     if (bitpacking_set_open(bytes, bytes_len, &set) < 0) return -1;
 *     if (bitpacking_set_contains(&set, 1000)) ...
 */
typedef struct bitpacking_set {
    const uint8_t *bytes;
    size_t bytes_len;
    size_t count;
    size_t chunks;
    const uint8_t *rest;
    size_t rest_len;
} bitpacking_set;

#define BITPACKING_SET_EMPTY {NULL, 0, 0, 0, NULL, 0}

/* Room that is enough for every set of ids_len ids, in bytes. */
#define BITPACKING_SET_ROOM(ids_len) (10 + 9 * sizeof(uint8_t) * (ids_len) / 2)

/* Writes the set of these ids at the start of bytes, and returns its number of bytes. Bytes after those are unchanged. The ids increase: each
 * is above the one before it.
 *
 *     TOO_LONG      ids_len is above 268,435,456
 *     NOT_SORTED    an id is not above the one before it. *position is the position of the first such id, unless position is NULL
 *     SHORT         bytes_len is below the bytes of the set: BITPACKING_SET_ROOM(ids_len) are always enough
 */
ptrdiff_t bitpacking_set_pack(const uint32_t *ids, size_t ids_len, uint8_t *bytes, size_t bytes_len, size_t *position);

/* The inline form of bitpacking_set_pack, whose position may be NULL. A call of bitpacking_set_pack is a call of this form, unless
 * BITPACKING_NO_INLINE is defined before this header is included. The function of the archive requires a position: pointers to functions and other
 * languages call it, and so does (bitpacking_set_pack)(..). So it is with each call that has an inline form. */
static inline ptrdiff_t bitpacking_set_pack_inline(const uint32_t *ids, size_t ids_len, uint8_t *bytes, size_t bytes_len, size_t *position)
{
    size_t ignored;

    return (bitpacking_set_pack)(ids, ids_len, bytes, bytes_len, position ? position : &ignored);
}

#ifndef BITPACKING_NO_INLINE
#define bitpacking_set_pack(...) bitpacking_set_pack_inline(__VA_ARGS__)
#endif

/* Writes the set of all ids from first to before end at the start of bytes, and returns its number of bytes. Bytes after those are unchanged. The
 * ids are not listed: the time is in proportion to the bytes. If end is at most first the set has no id. An end above 2^32 is as 2^32.
 *
 *     TOO_LONG      there are more than 268,435,456 ids
 *     SHORT         bytes_len is below what bitpacking_set_range_size returns
 */
ptrdiff_t bitpacking_set_pack_range(uint32_t first, uint64_t end, uint8_t *bytes, size_t bytes_len);

/* Returns the number of bytes that bitpacking_set_pack_range writes, and writes none. It has the error TOO_LONG. */
ptrdiff_t bitpacking_set_range_size(uint32_t first, uint64_t end);

/* Opens a set. Accepts any bytes, and tests all of them: they may be untrusted. Returns 0; or the number of the first fault in the order of
 * docs/FORMAT.md, and then the view is unchanged. */
ptrdiff_t bitpacking_set_open(const uint8_t *bytes, size_t bytes_len, bitpacking_set *view);

/* Opens bytes that bitpacking_set_open accepted before, and that did not change since. It does not test them again. With other bytes this
 * call or a later one may read or write outside its buffers. */
void bitpacking_set_open_tested(const uint8_t *bytes, size_t bytes_len, bitpacking_set *view);

/* Returns the length of the set at the front of bytes. Any bytes may follow the set. The call reads only what says the length: open the set before you
 * use it. Returns 0 if what it reads has a fault, or if the set is longer than the bytes. This reads a stream of sets:
 *
 *     while ((size = bitpacking_set_front_len(bytes, bytes_len)) > 0 && bitpacking_set_open(bytes, size, &set) == 0) {
 *         ...
 *         bytes += size, bytes_len -= size;
 *     }
 */
size_t bitpacking_set_front_len(const uint8_t *bytes, size_t bytes_len);

/* Returns how many ids an opened set has. */
size_t bitpacking_set_len(const bitpacking_set *view);

/* Unpacks all ids, and returns their number. Those in the buffer after them are unchanged.
 *
 *     SHORT         ids_len is below the number of ids
 */
ptrdiff_t bitpacking_set_unpack(const bitpacking_set *view, uint32_t *ids, size_t ids_len);

/* Returns 1 if the set has this id, and else 0. */
int32_t bitpacking_set_contains(const bitpacking_set *view, uint32_t id);

/* Writes the id at a position, from 0 on, and returns 1. If there is no such position it returns 0 and writes nothing. */
int32_t bitpacking_set_get(const bitpacking_set *view, size_t position, uint32_t *id);

/* Searches for the first id that is at least target. Writes its position and the id, and returns 1. If every id is below the target it
 * returns 0 and writes nothing. */
int32_t bitpacking_set_seek(const bitpacking_set *view, uint32_t target, size_t *position, uint32_t *id);

/* Calls that combine any number of views of sets. They write the ids in increasing order to the front of ids, and return their number; without
 * views it is 0. A view may be there twice, and one that was not opened is the empty set. They take about 25 KB of stack for two views, and
 * about 120 KB for more. After the ids, any item of ids may have changed: store nothing else there.
 *
 *     SHORT         there is no room for the ids. Any item of ids may have changed then too
 */

/* Writes the ids that all sets have. */
ptrdiff_t bitpacking_set_intersect(const bitpacking_set *views, size_t views_len, uint32_t *ids, size_t ids_len);

/* Writes the ids that any set has. */
ptrdiff_t bitpacking_set_unite(const bitpacking_set *views, size_t views_len, uint32_t *ids, size_t ids_len);

/* Writes the ids of the first set that no other has. */
ptrdiff_t bitpacking_set_subtract(const bitpacking_set *views, size_t views_len, uint32_t *ids, size_t ids_len);

/* Calls that return how many ids the first two of these calls write for the same views, without room for the ids. */

/* Returns how many ids all sets have. */
ptrdiff_t bitpacking_set_count_common(const bitpacking_set *views, size_t views_len);

/* Returns how many ids any set has. */
ptrdiff_t bitpacking_set_count_any(const bitpacking_set *views, size_t views_len);

/* Other counts follow from these. Of `len` sets, the first has bitpacking_set_count_any(views, len) - bitpacking_set_count_any(views + 1, len - 1)
 * ids that no other has; of two sets it has bitpacking_set_len(&views[0]) - common, which is faster, and exactly one of the two has any - common. */

/* Returns the number of bytes that bitpacking_set_pack writes for the ids, and writes none. It has the errors of bitpacking_set_pack, without
 * SHORT. */
ptrdiff_t bitpacking_set_size(const uint32_t *ids, size_t ids_len, size_t *position);

/* Returns how many ids of the set are below target. It is the position of target, if the set has it. The rank of CRoaring also counts target
 * itself, if the set has it. */
size_t bitpacking_set_rank(const bitpacking_set *view, uint32_t target);

/* Returns how many ids are from low to high, both included. */
size_t bitpacking_set_count_between(const bitpacking_set *view, uint32_t low, uint32_t high);

/* What a set is like: how many ids, bytes and chunks it has, and how many chunks have a body of numbers, of blocks, and of runs. Only a set in
 * chunks has chunks. */
typedef struct bitpacking_set_description {
    size_t ids;
    size_t bytes;
    size_t chunks;
    size_t numbers;
    size_t blocks;
    size_t runs;
} bitpacking_set_description;

/* Writes what the set is like. */
void bitpacking_set_describe(const bitpacking_set *view, bitpacking_set_description *to);

/* Unpacks the ids from position `from` on, as many as there are and as fit, and returns how many these are: 0 from the number of ids on. Those in
 * the buffer after them are unchanged. */
ptrdiff_t bitpacking_set_slice(const bitpacking_set *view, size_t from, uint32_t *ids, size_t ids_len);

/* A cursor is a position in the ids of a set that only moves forward. It is a struct of the caller of about 1 KB, which has a copy of the view and up
 * to 256 unpacked ids: so the next id, and a seek that passes few, take a few instructions.
 *
 * Set a cursor to BITPACKING_SET_CURSOR_EMPTY before anything else, or all of it to zero: each is a cursor of the empty set. Then start it, as often
 * as you like. Only the functions for cursors may write its fields. While you use a cursor, do not move or change the bytes of the set. The view need
 * not stay. A copy of a cursor moves on its own.
 *
 *     bitpacking_set_cursor one = BITPACKING_SET_CURSOR_EMPTY, other = BITPACKING_SET_CURSOR_EMPTY;
 *     bitpacking_set_cursor_start(&one, &sets[0]);
 *     bitpacking_set_cursor_start(&other, &sets[1]);
 *     more = bitpacking_set_cursor_value(&one, &id);
 *     while (more && bitpacking_set_cursor_seek(&other, id, &next)) {
 *         if (next > id) {
 *             more = bitpacking_set_cursor_seek(&one, next, &id);
 *         } else {
 *             ... both have id ...
 *             more = bitpacking_set_cursor_advance(&one, &id);
 *         }
 *     }
 */
typedef struct bitpacking_set_cursor {
    bitpacking_set set;
    size_t next;
    size_t begin;
    size_t end;
    size_t most;
    size_t chunk;
    size_t index;
    size_t offset;
    size_t before;
    uint32_t unpacked[256];
} bitpacking_set_cursor;

#define BITPACKING_SET_CURSOR_EMPTY {BITPACKING_SET_EMPTY, 0, 0, 0, 0, 0, 0, 0, 0, {0}}

/* Starts a cursor at the first id of a set. */
void bitpacking_set_cursor_start(bitpacking_set_cursor *cursor, const bitpacking_set *set);

/* Writes the id at the cursor, and returns 1. After the last id it returns 0 and writes nothing. */
int32_t bitpacking_set_cursor_value(const bitpacking_set_cursor *cursor, uint32_t *id);

/* Returns how many ids of the set are before the cursor. */
size_t bitpacking_set_cursor_position(const bitpacking_set_cursor *cursor);

/* Moves to the next id, writes it, and returns 1. If there is none the cursor is after the last id then, and the call returns 0 and writes nothing. */
int32_t bitpacking_set_cursor_advance(bitpacking_set_cursor *cursor, uint32_t *id);

/* Moves to the first id from the cursor on that is at least target, writes it, and returns 1. It does not move if the id at the cursor is. If
 * there is none the cursor is after the last id then, and the call returns 0 and writes nothing. */
int32_t bitpacking_set_cursor_seek(bitpacking_set_cursor *cursor, uint32_t target, uint32_t *id);

/* Unpacks the ids from the cursor on, as many as there are and as fit, and moves after them. Returns how many these are, which is 0 only after the
 * last id, or if there is no room. Those in the buffer after them are unchanged. */
ptrdiff_t bitpacking_set_cursor_fill(bitpacking_set_cursor *cursor, uint32_t *ids, size_t ids_len);

/* The greatest base: with it, no id or value passes 64 bits. */
#define BITPACKING_MAX_BASE (UINT64_MAX - UINT32_MAX)

/* Write base + id, in 64 bits, for ids above 2^32. Otherwise they do what bitpacking_set_get and bitpacking_set_unpack do, and have the same
 * errors. Compare the result of get_wide with `== 1`: in an `if`, BAD_BASE is true as well.
 *
 *     BAD_BASE      the base is above BITPACKING_MAX_BASE, whatever the ids are
 */
int32_t bitpacking_set_get_wide(const bitpacking_set *view, uint64_t base, size_t position, uint64_t *id);
ptrdiff_t bitpacking_set_unpack_wide(const bitpacking_set *view, uint64_t base, uint64_t *ids, size_t ids_len);

/* Writes the ids that exactly one of two sets has, as bitpacking_set_unite does with the ids of both, and has its errors. */
ptrdiff_t bitpacking_set_symmetric_difference(const bitpacking_set *first, const bitpacking_set *second, uint32_t *ids, size_t ids_len);

/* Return 1 if each id of the first set is in the second, or if no id is in both, and else 0. They stop at the first chunk that decides. */
int32_t bitpacking_set_is_subset(const bitpacking_set *first, const bitpacking_set *second);
int32_t bitpacking_set_is_disjoint(const bitpacking_set *first, const bitpacking_set *second);

/* The operations of a query. Other steps are indexes of views. */
#define BITPACKING_AND UINT32_MAX
#define BITPACKING_OR (UINT32_MAX - 1)
#define BITPACKING_AND_NOT (UINT32_MAX - 2)
#define BITPACKING_XOR (UINT32_MAX - 3)

/* The work space of a query for which this many operands wait at once: 8 KB for each. */
#define BITPACKING_QUERY_SPACE(operands) (1024 * sizeof(uint8_t) * (operands))

/* Writes the next ids of a query, which is a tree of operations on views of sets. Its steps are in postfix order: a step is the index of a view, or
 * an operation, which takes the last two operands, the earlier as its first, and leaves one. Views may be named more than once.
 *
 * It writes the ids from *next on to the front of ids, in increasing order, as many as there are and fit, and returns how many these are. It sets
 * *next to the least id that can come after them, so that the next call goes on there. After the last id it returns 0. Begin with 0, and raise
 * *next to pass over ids: any number is allowed. After the ids, any item of ids may have changed.
 *
 * space is work space, which may hold anything. It needs BITPACKING_QUERY_SPACE(operands) items for the most operands that wait at once: for the
 * steps 0 1 OR 2 AND these are 2, and for 0 1 2 OR AND 3. Each call reads the sets anew from *next on: pass room for thousands of ids. A call takes
 * about 12 KB of stack.
 *
 *     const uint32_t steps[] = {0, 1, BITPACKING_OR, 2, BITPACKING_AND_NOT};
 *     uint64_t space[BITPACKING_QUERY_SPACE(2)], next = 0;
 *     ...
 *     while ((count = bitpacking_set_query(sets, 3, steps, 5, space, BITPACKING_QUERY_SPACE(2), &next, ids, 10000, &position)) > 0)
 *         ...
 *
 * The first step with one of the first three errors decides, and *position is its position, from 0 on.
 *
 *     NO_SET        a step is the index of no view
 *     TOO_DEEP      a view would be the 65th operand that waits
 *     NO_OPERAND    fewer than two operands wait for an operation
 *     LEFT_OVER     not one operand is left after the last step, but *position of them: 0 if there are no steps
 *     SHORT         space_len is below BITPACKING_QUERY_SPACE(*position): *position operands wait at once
 */
ptrdiff_t bitpacking_set_query(const bitpacking_set *views, size_t views_len, const uint32_t *steps, size_t steps_len,
                               uint64_t *space, size_t space_len, uint64_t *next, uint32_t *ids, size_t ids_len, size_t *position);

/* Writes the set that the first set gives, combined with each other in turn, at the start of bytes, and returns its number of bytes: what
 * bitpacking_set_pack writes of its ids. The operation is BITPACKING_AND, _OR, _AND_NOT or _XOR. If there is no set, it has no id. Large sets are
 * combined chunk by chunk, and not unpacked. bytes may not overlap the bytes of the sets. Bytes after the set may have changed, and any byte if the
 * call fails. A call takes about 160 KB of stack.
 *
 * room is work space, which may hold anything: as many items as bitpacking_set_combine_room returns for the sets. The call may change any item. Room
 * for the bytes of all sets, and 8500 more, is usually enough. If the call returns SHORT, double the room:
 *
 *     size_t room_len = bitpacking_set_combine_room(sets, 2), bytes_len = sets[0].bytes_len + sets[1].bytes_len + 8500;
 *     ...
 *     ptrdiff_t size = bitpacking_set_combine(BITPACKING_OR, sets, 2, room, room_len, bytes, bytes_len);
 *
 *     BAD_KIND      no operation has this number
 *     SHORT         the work space is too short
 *     TOO_LONG      the set would have more than 268,435,456 ids
 *     SHORT         bytes_len is below the bytes of the set: BITPACKING_SET_ROOM(its ids) are always enough
 */
ptrdiff_t bitpacking_set_combine(uint32_t operation, const bitpacking_set *views, size_t views_len, uint32_t *room, size_t room_len, uint8_t *bytes,
                                 size_t bytes_len);

/* Returns how many items of work space bitpacking_set_combine and bitpacking_set_query_pack need for these sets: 4 for each chunk, or for each id of
 * a set that is not in chunks, but at most 262,144. */
size_t bitpacking_set_combine_room(const bitpacking_set *views, size_t views_len);

/* Writes the set that has a number added to each id at the start of bytes, and returns its number of bytes. The number may be below 0. An id that leaves
 * the range from 0 to 4294967295 is left out. bytes may not overlap the bytes of the set. Bytes after the set may have changed, and any byte if the call
 * fails.
 *
 * room is work space, which may hold anything: as many items as bitpacking_set_shift_room returns. The call may change any item.
 *
 *     SHORT  the work space is too short, or bytes_len is below the bytes of the set: BITPACKING_SET_ROOM(the number of ids) are always enough
 */
ptrdiff_t bitpacking_set_shift(const bitpacking_set *view, int64_t by, uint32_t *room, size_t room_len, uint8_t *bytes, size_t bytes_len);

/* Returns how many items of work space bitpacking_set_shift needs: 4 for each id, at most 262,144. */
size_t bitpacking_set_shift_room(const bitpacking_set *view);

/* Writes the set of the ids of a bitmap at the start of bytes, and returns its number of bytes. The bitmap is what roaring_bitmap_portable_serialize
 * of CRoaring writes, or its counterpart in another language. Accepts any bytes, and tests all of them: they may be untrusted. Bytes after the set
 * may have changed, and any byte if the call fails. A call takes about 40 KB of stack.
 *
 * room is work space, which may hold anything: as many items as bitpacking_set_from_roaring_room returns for the bitmap. The call may change any item.
 * Room for five quarters of the bytes of the bitmap, and 16 more, is usually enough. If the call returns SHORT, double the room:
 *
 *     size_t room_len = bitpacking_set_from_roaring_room(roaring, roaring_len), bytes_len = roaring_len / 4 * 5 + 16;
 *     ...
 *     ptrdiff_t size = bitpacking_set_from_roaring(roaring, roaring_len, room, room_len, bytes, bytes_len);
 *
 *     a fault       the first in the order of docs/ROARING.md
 *     SHORT         the work space is too short
 *     TOO_LONG      there are more than 268,435,456 ids
 *     SHORT         bytes_len is below the bytes of the set: BITPACKING_SET_ROOM(its ids) are always enough
 */
ptrdiff_t bitpacking_set_from_roaring(const uint8_t *roaring, size_t roaring_len, uint32_t *room, size_t room_len, uint8_t *bytes,
                                      size_t bytes_len);

/* Returns how many items of work space bitpacking_set_from_roaring needs for a bitmap: 4 for each container, at most 262,144. It tests the head of
 * the bitmap alone, and returns 0 if that has a fault. */
size_t bitpacking_set_from_roaring_room(const uint8_t *roaring, size_t roaring_len);

/* Writes the ids of a set as a bitmap at the start of bytes, and returns its number of bytes: what roaring_bitmap_portable_serialize of CRoaring writes
 * after roaring_bitmap_run_optimize. If bytes_len is below that number it writes nothing. A call takes about 100 KB of stack. */
size_t bitpacking_set_to_roaring(const bitpacking_set *view, uint8_t *bytes, size_t bytes_len);

/* Returns how many bytes bitpacking_set_to_roaring writes. A call takes about 50 KB of stack. */
size_t bitpacking_set_roaring_size(const bitpacking_set *view);

/* Writes the set of the ids that a query has at the start of bytes, and returns its number of bytes. It requires views, steps and space as
 * bitpacking_set_query does, and room and bytes as bitpacking_set_combine does, and has the errors of both. *position is written only if the steps
 * have a fault, or if space is too short for them. Then nothing else is written. */
ptrdiff_t bitpacking_set_query_pack(const bitpacking_set *views, size_t views_len, const uint32_t *steps, size_t steps_len, uint64_t *space,
                                    size_t space_len, uint32_t *room, size_t room_len, uint8_t *bytes, size_t bytes_len, size_t *position);

/* Calls that combine a set with the increasing ids of an array, in the array. They return how many ids are in its front then.
 *
 *     NOT_SORTED    the ids of the array do not increase
 */

/* Retains the ids that the set has too. Items after them may have changed. */
ptrdiff_t bitpacking_set_retain(const bitpacking_set *view, uint32_t *ids, size_t ids_len);

/* Retains the ids that the set lacks. Items after them may have changed. */
ptrdiff_t bitpacking_set_remove(const bitpacking_set *view, uint32_t *ids, size_t ids_len);

/* Adds the ids of the set to the first `count` ids, each once. The items after these are room, and those after all ids are unchanged.
 *
 *     SHORT         count is above ids_len, or there is no room for all ids
 */
ptrdiff_t bitpacking_set_add(const bitpacking_set *view, size_t count, uint32_t *ids, size_t ids_len);

/* A builder collects the ids of a set one by one, or a part at a time, and then writes the set. It stores the ids in a buffer of the caller.
 *
 * Set a builder to BITPACKING_SET_BUILDER_EMPTY before anything else, or all of it to zero: it then has no room. Then start it, as often as you
 * like. Only the functions for builders may write its fields, and nothing else may write the buffer while the builder is used. Use a builder or
 * its copy, not both.
 *
 *     uint32_t room[1000];
 *     uint8_t bytes[BITPACKING_SET_ROOM(1000)];
 *     bitpacking_set_builder builder = BITPACKING_SET_BUILDER_EMPTY;
 *     bitpacking_set_builder_start(&builder, room, 1000);
 *     while (...)
 *         if (bitpacking_set_builder_push(&builder, id) < 0) ...
 *     ptrdiff_t size = bitpacking_set_builder_finish(&builder, bytes, sizeof bytes);
 */
typedef struct bitpacking_set_builder {
    uint32_t *ids;
    size_t ids_len;
    size_t count;
} bitpacking_set_builder;

#define BITPACKING_SET_BUILDER_EMPTY {NULL, 0, 0}

/* Starts a builder of a set without ids, which has room for ids_len ids. */
void bitpacking_set_builder_start(bitpacking_set_builder *builder, uint32_t *ids, size_t ids_len);

/* Pushes an id, and returns how many ids there are then. If it fails the builder is unchanged.
 *
 *     TOO_LONG      there are 268,435,456 ids
 *     NOT_SORTED    the id is not above the last one
 *     SHORT         the buffer is full
 */
ptrdiff_t bitpacking_set_builder_push(bitpacking_set_builder *builder, uint32_t id);

/* Pushes all of these ids, or none, and returns how many ids there are then. It has the errors of bitpacking_set_builder_push. At
 * NOT_SORTED *position is the position in the set of the first id that is not above the one before it. */
ptrdiff_t bitpacking_set_builder_extend(bitpacking_set_builder *builder, const uint32_t *ids, size_t ids_len, size_t *position);

/* Returns how many ids were pushed since the builder was started. */
size_t bitpacking_set_builder_len(const bitpacking_set_builder *builder);

/* Writes the set at the start of bytes, as bitpacking_set_pack does, and returns its number of bytes. Bytes after those are unchanged. The builder
 * retains its ids: more can be pushed.
 *
 *     SHORT         bytes_len is below the bytes of the set: BITPACKING_SET_ROOM(ids) are always enough
 */
ptrdiff_t bitpacking_set_builder_finish(const bitpacking_set_builder *builder, uint8_t *bytes, size_t bytes_len);

/* Writes the set of the ids of a view and of more ids after them at the start of bytes, and returns its number of bytes: what bitpacking_set_pack
 * writes of all ids. bytes may not overlap the bytes of the set. room is work space for ids: as many as all ids are always enough, and more than
 * ids_len + 262144 are never needed. A large set is not unpacked: all its chunks but the last are copied. Bytes after the set are unchanged.
 *
 *     TOO_LONG      all ids are more than 268,435,456
 *     NOT_SORTED    as in bitpacking_set_pack. *position is counted from the first id of the set
 *     SHORT         the work space is too short, or bytes_len is below the bytes of the set: BITPACKING_SET_ROOM(all ids) are always enough
 */
ptrdiff_t bitpacking_set_append(const bitpacking_set *view, const uint32_t *ids, size_t ids_len, uint32_t *room, size_t room_len,
                                uint8_t *bytes, size_t bytes_len, size_t *position);

/* The inline forms of bitpacking_set_size and bitpacking_set_append, whose position may be NULL. */
static inline ptrdiff_t bitpacking_set_size_inline(const uint32_t *ids, size_t ids_len, size_t *position)
{
    size_t ignored;

    return (bitpacking_set_size)(ids, ids_len, position ? position : &ignored);
}

static inline ptrdiff_t bitpacking_set_append_inline(const bitpacking_set *view, const uint32_t *ids, size_t ids_len, uint32_t *room,
                                                     size_t room_len, uint8_t *bytes, size_t bytes_len, size_t *position)
{
    size_t ignored;

    return (bitpacking_set_append)(view, ids, ids_len, room, room_len, bytes, bytes_len, position ? position : &ignored);
}

#ifndef BITPACKING_NO_INLINE
#define bitpacking_set_size(...) bitpacking_set_size_inline(__VA_ARGS__)
#define bitpacking_set_append(...) bitpacking_set_append_inline(__VA_ARGS__)
#endif

/* ---- Wide sets
 *
 * A wide set has increasing ids of 64 bits, such as keys, times and hashes. Each wide set has one encoding.
 *
 * A view of a wide set is a struct like a view of a set, with the same rules. Set it to BITPACKING_WIDE_SET_EMPTY before anything else, or all of it
 * to zero: each is the empty wide set.
 *
 *     bitpacking_wide_set set = BITPACKING_WIDE_SET_EMPTY;
 *     if (bitpacking_wide_set_open(bytes, bytes_len, &set) < 0) return -1;
 *     if (bitpacking_wide_set_contains(&set, 1000000000000)) ...
 */
typedef struct bitpacking_wide_set {
    const uint8_t *bytes;
    size_t bytes_len;
    size_t count;
    size_t words;
    const uint8_t *rest;
    size_t rest_len;
} bitpacking_wide_set;

#define BITPACKING_WIDE_SET_EMPTY {NULL, 0, 0, 0, NULL, 0}

/* Room that is enough for every wide set of ids_len ids, in bytes. */
#define BITPACKING_WIDE_SET_ROOM(ids_len) (22 + 33 * sizeof(uint8_t) * (ids_len) / 4)

/* Writes the wide set of these ids at the start of bytes, and returns its number of bytes. Bytes after those are unchanged. The ids increase: each
 * is above the one before it. space is work space, which may hold anything.
 *
 *     SHORT         space_len is below ids_len
 *     TOO_LONG      ids_len is above 268,435,456
 *     NOT_SORTED    an id is not above the one before it. *position is the position of the first such id, unless position is NULL
 *     SHORT         bytes_len is below the bytes of the set: BITPACKING_WIDE_SET_ROOM(ids_len) are always enough
 */
ptrdiff_t bitpacking_wide_set_pack(const uint64_t *ids, size_t ids_len, uint8_t *bytes, size_t bytes_len, uint32_t *space, size_t space_len,
                                   size_t *position);

/* Returns the number of bytes that bitpacking_wide_set_pack writes for the ids, and writes none. It has the errors of that call, without the last. */
ptrdiff_t bitpacking_wide_set_size(const uint64_t *ids, size_t ids_len, uint32_t *space, size_t space_len, size_t *position);

/* The inline forms of these calls, whose position may be NULL. */
static inline ptrdiff_t bitpacking_wide_set_pack_inline(const uint64_t *ids, size_t ids_len, uint8_t *bytes, size_t bytes_len, uint32_t *space,
                                                        size_t space_len, size_t *position)
{
    size_t ignored;

    return (bitpacking_wide_set_pack)(ids, ids_len, bytes, bytes_len, space, space_len, position ? position : &ignored);
}

static inline ptrdiff_t bitpacking_wide_set_size_inline(const uint64_t *ids, size_t ids_len, uint32_t *space, size_t space_len, size_t *position)
{
    size_t ignored;

    return (bitpacking_wide_set_size)(ids, ids_len, space, space_len, position ? position : &ignored);
}

#ifndef BITPACKING_NO_INLINE
#define bitpacking_wide_set_pack(...) bitpacking_wide_set_pack_inline(__VA_ARGS__)
#define bitpacking_wide_set_size(...) bitpacking_wide_set_size_inline(__VA_ARGS__)
#endif

/* Opens a wide set. Accepts any bytes, and tests all of them: they may be untrusted. Returns 0; or the number of the first fault in the order of
 * docs/FORMAT.md, and then the view is unchanged. */
ptrdiff_t bitpacking_wide_set_open(const uint8_t *bytes, size_t bytes_len, bitpacking_wide_set *view);

/* Opens bytes that bitpacking_wide_set_open accepted before, and that did not change since. It does not test them again. With other bytes this call or
 * a later one may read or write outside its buffers. */
void bitpacking_wide_set_open_tested(const uint8_t *bytes, size_t bytes_len, bitpacking_wide_set *view);

/* Returns how many ids an opened wide set has. */
size_t bitpacking_wide_set_len(const bitpacking_wide_set *view);

/* Returns 1 if the wide set has this id, and else 0. */
int32_t bitpacking_wide_set_contains(const bitpacking_wide_set *view, uint64_t id);

/* Returns how many ids of the wide set are below target. It is the position of target, if the wide set has it. */
size_t bitpacking_wide_set_rank(const bitpacking_wide_set *view, uint64_t target);

/* Writes the id at a position, from 0 on, and returns 1. From the number of ids on it returns 0 and writes nothing. */
int32_t bitpacking_wide_set_get(const bitpacking_wide_set *view, size_t position, uint64_t *id);

/* Writes the first id that is at least target, and its position, and returns 1. If all ids are below target it returns 0 and writes nothing. */
int32_t bitpacking_wide_set_seek(const bitpacking_wide_set *view, uint64_t target, size_t *position, uint64_t *id);

/* Unpacks all ids, and returns their number. Those in the buffer after them are unchanged.
 *
 *     SHORT         ids_len is below the number of ids
 */
ptrdiff_t bitpacking_wide_set_unpack(const bitpacking_wide_set *view, uint64_t *ids, size_t ids_len);

/* Unpacks the ids from position `from` on, as many as there are and as fit, and returns how many these are: 0 from the number of ids on. Those in the
 * buffer after them are unchanged. */
ptrdiff_t bitpacking_wide_set_slice(const bitpacking_wide_set *view, size_t from, uint64_t *ids, size_t ids_len);

/* Calls that combine two wide sets. The operation is BITPACKING_AND, _OR, _AND_NOT or _XOR. space is work space, which may hold anything.
 *
 * Writes the ids of the answer in increasing order to the front of ids, and returns their number. Without room for all it returns SHORT; room for
 * the ids of both sets is always enough. Items after the ids may have changed, and any item if the call fails.
 *
 *     BAD_KIND      no operation has this number
 *     SHORT         space_len is below ids_len
 *     SHORT         ids_len is below the number of ids
 */
ptrdiff_t bitpacking_wide_set_combine_ids(uint32_t operation, const bitpacking_wide_set *first, const bitpacking_wide_set *second, uint64_t *ids,
                                          size_t ids_len, uint32_t *space, size_t space_len);

/* Returns how many ids the answer has.
 *
 *     BAD_KIND      no operation has this number
 */
ptrdiff_t bitpacking_wide_set_combine_count(uint32_t operation, const bitpacking_wide_set *first, const bitpacking_wide_set *second);

/* Writes the wide set of the answer at the start of bytes, and returns its number of bytes: those that bitpacking_wide_set_pack writes of its ids.
 * Bytes after those are unchanged. ids is work space too, for all ids of the answer.
 *
 *     BAD_KIND      no operation has this number
 *     SHORT         space_len is below ids_len, or ids_len is below the number of ids
 *     TOO_LONG      the set would have more than 268,435,456 ids
 *     SHORT         bytes_len is below the bytes of the set: BITPACKING_WIDE_SET_ROOM of the number of ids are always enough
 */
ptrdiff_t bitpacking_wide_set_combine(uint32_t operation, const bitpacking_wide_set *first, const bitpacking_wide_set *second, uint64_t *ids,
                                      size_t ids_len, uint32_t *space, size_t space_len, uint8_t *bytes, size_t bytes_len);

/* Returns 1 if each id of the first wide set is in the second, and else 0; 1 if no id is in both, and else 0. */
int32_t bitpacking_wide_set_is_subset(const bitpacking_wide_set *first, const bitpacking_wide_set *second);
int32_t bitpacking_wide_set_is_disjoint(const bitpacking_wide_set *first, const bitpacking_wide_set *second);

/* ---- Columns
 *
 * A column has integers, plain or sorted, for what is stored beside ids: times, prices, positions. A value is read in place, by its position.
 * Each column has one encoding.
 *
 * A view of a column has the rules of a view of a set: it borrows the bytes, and only bitpacking_column_open and bitpacking_column_open_tested may
 * write its fields. Set it to BITPACKING_COLUMN_EMPTY before anything else, or all of it to zero: each is the empty plain column.
 *
 *     bitpacking_column times = BITPACKING_COLUMN_EMPTY;
 *     uint32_t time;
 *     if (bitpacking_column_open(bytes, bytes_len, &times) < 0) return -1;
 *     if (bitpacking_column_get(&times, 1000, &time)) ...
 */
typedef struct bitpacking_column {
    const uint8_t *bytes;
    size_t bytes_len;
    size_t count;
    const uint8_t *rest;
    size_t rest_len;
    uint32_t first;
    uint8_t kind;
} bitpacking_column;

#define BITPACKING_COLUMN_EMPTY {NULL, 0, 0, NULL, 0, 0, 0}

/* The kinds of a column. No value of a sorted one is below the value before it. */
#define BITPACKING_PLAIN 0
#define BITPACKING_SORTED 1

/* Room that is enough for every column of values_len values, in bytes. */
#define BITPACKING_COLUMN_ROOM(values_len) (16 + 4 * sizeof(uint8_t) * (values_len) + sizeof(uint8_t) * (values_len) / 4)

/* Writes the column of these values at the start of bytes, and returns its number of bytes. Bytes after those are unchanged. kind is
 * BITPACKING_PLAIN or BITPACKING_SORTED.
 *
 *     BAD_KIND      kind is another
 *     TOO_LONG      values_len is above 268,435,456
 *     NOT_SORTED    a value of a sorted column is below the one before it. *position is the position of the first, unless position is NULL
 *     SHORT         bytes_len is below the bytes of the column: BITPACKING_COLUMN_ROOM(values_len) are always enough
 */
ptrdiff_t bitpacking_column_pack(uint8_t kind, const uint32_t *values, size_t values_len, uint8_t *bytes, size_t bytes_len, size_t *position);

/* Returns the number of bytes that bitpacking_column_pack writes for the values, and writes none. It has the errors of that call, without SHORT. */
ptrdiff_t bitpacking_column_size(uint8_t kind, const uint32_t *values, size_t values_len, size_t *position);

/* The inline forms of bitpacking_column_pack and bitpacking_column_size, whose position may be NULL. */
static inline ptrdiff_t bitpacking_column_pack_inline(uint8_t kind, const uint32_t *values, size_t values_len,
                                                      uint8_t *bytes, size_t bytes_len, size_t *position)
{
    size_t ignored;

    return (bitpacking_column_pack)(kind, values, values_len, bytes, bytes_len, position ? position : &ignored);
}

static inline ptrdiff_t bitpacking_column_size_inline(uint8_t kind, const uint32_t *values, size_t values_len, size_t *position)
{
    size_t ignored;

    return (bitpacking_column_size)(kind, values, values_len, position ? position : &ignored);
}

#ifndef BITPACKING_NO_INLINE
#define bitpacking_column_pack(...) bitpacking_column_pack_inline(__VA_ARGS__)
#define bitpacking_column_size(...) bitpacking_column_size_inline(__VA_ARGS__)
#endif

/* Opens a column. Accepts any bytes, and tests all of them: they may be untrusted. Returns 0; or the number of the first fault in the order of
 * docs/FORMAT.md, and then the view is unchanged. */
ptrdiff_t bitpacking_column_open(const uint8_t *bytes, size_t bytes_len, bitpacking_column *view);

/* Opens bytes that bitpacking_column_open accepted before, and that did not change since. It does not test them again. With other bytes this
 * call or a later one may read or write outside its buffers. */
void bitpacking_column_open_tested(const uint8_t *bytes, size_t bytes_len, bitpacking_column *view);

/* Returns how many values an opened column has. */
size_t bitpacking_column_len(const bitpacking_column *view);

/* Returns the kind of an opened column: BITPACKING_PLAIN or BITPACKING_SORTED. */
uint8_t bitpacking_column_kind(const bitpacking_column *view);

/* Writes the value at a position, from 0 on, and returns 1. If there is no such position it returns 0 and writes nothing. */
int32_t bitpacking_column_get(const bitpacking_column *view, size_t position, uint32_t *item);

/* Unpacks all values, and returns their number. Values after them are unchanged.
 *
 *     SHORT         values_len is below the number of values
 */
ptrdiff_t bitpacking_column_unpack(const bitpacking_column *view, uint32_t *values, size_t values_len);

/* Write base + value, in 64 bits, for offsets in a large corpus, or times. Otherwise they do what bitpacking_column_get and
 * bitpacking_column_unpack do, and have the same errors. Compare the result of get_wide with `== 1`: in an `if`, BAD_BASE is true as well.
 *
 *     BAD_BASE      the base is above BITPACKING_MAX_BASE, whatever the values are
 */
int32_t bitpacking_column_get_wide(const bitpacking_column *view, uint64_t base, size_t position, uint64_t *item);
ptrdiff_t bitpacking_column_unpack_wide(const bitpacking_column *view, uint64_t base, uint64_t *values, size_t values_len);

/* Unpacks the values from position `from` on, as many as there are and as fit, and returns how many these are: 0 from the length on. Values
 * after them are unchanged. */
ptrdiff_t bitpacking_column_range(const bitpacking_column *view, size_t from, uint32_t *values, size_t values_len);

/* Writes the value at each position to the same index of values, and returns their number, positions_len. The positions may be in any order,
 * and one may come twice. Values after them are unchanged. Positions in order take the least time.
 *
 *     SHORT           values_len is below positions_len
 *     BAD_POSITION    one of the positions is not in the column
 */
ptrdiff_t bitpacking_column_gather(const bitpacking_column *view, const size_t *positions, size_t positions_len,
                                   uint32_t *values, size_t values_len);

/* Searches a sorted column for the first value that is at least target. Writes its position and the value, and returns 1. If every value is
 * below the target it returns 0 and writes nothing. Compare the result with `== 1`: in an `if`, BAD_KIND is true as well.
 *
 *     BAD_KIND      the column is plain, and has no order
 */
int32_t bitpacking_column_seek(const bitpacking_column *view, uint32_t target, size_t *position, uint32_t *item);

/* Returns how many values are from low to high, both included. In a sorted column it looks for both ends, and in a plain one it compares the
 * values of the blocks whose bounds do not tell. */
size_t bitpacking_column_count_between(const bitpacking_column *view, uint32_t low, uint32_t high);

/* Writes the positions of the values from low to high, both included, in increasing order: from position `from` on, as many as fit. Returns
 * how many it wrote. Positions after them are unchanged. If it fills the array, there may be more: go on from the position after the last.
 *
 *     size_t found[64], count, from = 0;
 *     do {
 *         count = bitpacking_column_between(&prices, 100, 199, from, found, 64);
 *         ...
 *         from = count > 0 ? found[count - 1] + 1 : from;
 *     } while (count == 64);
 */
size_t bitpacking_column_between(const bitpacking_column *view, uint32_t low, uint32_t high, size_t from,
                                 size_t *positions, size_t positions_len);

/* Writes bounds of the values of a whole block of BITPACKING_4X_BLOCK_LEN values, and returns 0: no value of the block is below *least, or above
 * *greatest. Block b begins at position b * BITPACKING_4X_BLOCK_LEN. The values after the last whole block have no bounds. It unpacks nothing.
 *
 * In a plain column *least is the least value of the block, and *greatest is *least plus the greatest number of the block's width, and at most
 * UINT32_MAX. In a sorted one *greatest is the last value of the block, and *least the value before the block; of the first block it is the
 * first value.
 *
 *     BAD_BLOCK     the column has no whole block of this number
 */
ptrdiff_t bitpacking_column_bounds(const bitpacking_column *view, size_t block, uint32_t *least, uint32_t *greatest);

/* A builder collects the values of a column one by one, or a part at a time, and then writes the column. It stores the values in a buffer of the
 * caller, since the bytes of a column begin with their number: 4 bytes for each value. If you do not know how many values come, collect them in an
 * array that you grow, and call bitpacking_column_pack.
 *
 * Set a builder to BITPACKING_COLUMN_BUILDER_EMPTY or to zero before anything else: it is then one of a plain column, without room. Then start it,
 * as often as you like. Only the functions for builders may write its fields, and nothing else may write the buffer while the builder is used. Use
 * a builder or its copy, not both.
 *
 *     uint32_t room[1000];
 *     uint8_t bytes[BITPACKING_COLUMN_ROOM(1000)];
 *     bitpacking_column_builder builder = BITPACKING_COLUMN_BUILDER_EMPTY;
 *     if (bitpacking_column_builder_start(&builder, BITPACKING_SORTED, room, 1000) < 0) return -1;
 *     while (...)
 *         if (bitpacking_column_builder_push(&builder, value) < 0) ...
 *     ptrdiff_t size = bitpacking_column_builder_finish(&builder, bytes, sizeof bytes);
 */
typedef struct bitpacking_column_builder {
    uint32_t *values;
    size_t values_len;
    size_t count;
    uint8_t kind;
} bitpacking_column_builder;

#define BITPACKING_COLUMN_BUILDER_EMPTY {NULL, 0, 0, 0}

/* Starts a builder of a column without values, which has room for values_len values. kind is BITPACKING_PLAIN or BITPACKING_SORTED. Returns 0. If
 * it fails the builder is unchanged.
 *
 *     BAD_KIND      kind is another
 */
ptrdiff_t bitpacking_column_builder_start(bitpacking_column_builder *builder, uint8_t kind, uint32_t *values, size_t values_len);

/* Pushes a value, and returns how many values there are then. If it fails the builder is unchanged.
 *
 *     TOO_LONG      there are 268,435,456 values
 *     NOT_SORTED    the column is sorted, and the value is below the last one
 *     SHORT         the buffer is full
 */
ptrdiff_t bitpacking_column_builder_push(bitpacking_column_builder *builder, uint32_t value);

/* Pushes all of these values, or none, and returns how many values there are then. It has the errors of bitpacking_column_builder_push. At
 * NOT_SORTED it writes *position: the position in the column of the first value out of order, counted from the first value of the builder. */
ptrdiff_t bitpacking_column_builder_extend(bitpacking_column_builder *builder, const uint32_t *values, size_t values_len, size_t *position);

/* Returns how many values were pushed since the builder was started. */
size_t bitpacking_column_builder_len(const bitpacking_column_builder *builder);

/* Writes the column at the start of bytes, as bitpacking_column_pack does, and returns its number of bytes. Bytes after those are unchanged. The
 * builder retains its values: more can be pushed.
 *
 *     SHORT         bytes_len is below the bytes of the column: BITPACKING_COLUMN_ROOM(values) are always enough
 */
ptrdiff_t bitpacking_column_builder_finish(const bitpacking_column_builder *builder, uint8_t *bytes, size_t bytes_len);

/* Writes the column of a view and more values after it as one column, at the start of bytes, and returns its number of bytes: what
 * bitpacking_column_pack writes of all values, for the kind of the column. Bytes after those are unchanged. The whole blocks of the column are
 * copied, and only the values after them are packed. bytes may not overlap the bytes of the column.
 *
 *     TOO_LONG      all values are more than 268,435,456
 *     NOT_SORTED    as in bitpacking_column_pack. *position is counted from the first value of the column
 *     SHORT         bytes_len is below the bytes of all values: BITPACKING_COLUMN_ROOM(all values) are always enough
 */
ptrdiff_t bitpacking_column_append(const bitpacking_column *view, const uint32_t *values, size_t values_len,
                                   uint8_t *bytes, size_t bytes_len, size_t *position);

/* Writes the values of a view and, after them, the values of another column with base added to each as one column, as bitpacking_column_append
 * does: two segments become one, whose second part begins at base. The result has the kind of the first. room is work space for the values of the
 * other column, and changes.
 *
 *     SHORT         room_len is below the number of values of the other column
 *     BAD_BASE      a value with the base is above 2^32 - 1. *position is its position in the other column, unless position is NULL
 *     and then the errors of bitpacking_column_append
 */
ptrdiff_t bitpacking_column_join(const bitpacking_column *view, uint32_t base, const bitpacking_column *other, uint32_t *room, size_t room_len,
                                 uint8_t *bytes, size_t bytes_len, size_t *position);

/* The inline forms of bitpacking_column_append and bitpacking_column_join, whose position may be NULL. */
static inline ptrdiff_t bitpacking_column_append_inline(const bitpacking_column *view, const uint32_t *values, size_t values_len,
                                                        uint8_t *bytes, size_t bytes_len, size_t *position)
{
    size_t ignored;

    return (bitpacking_column_append)(view, values, values_len, bytes, bytes_len, position ? position : &ignored);
}

static inline ptrdiff_t bitpacking_column_join_inline(const bitpacking_column *view, uint32_t base, const bitpacking_column *other,
                                                      uint32_t *room, size_t room_len, uint8_t *bytes, size_t bytes_len, size_t *position)
{
    size_t ignored;

    return (bitpacking_column_join)(view, base, other, room, room_len, bytes, bytes_len, position ? position : &ignored);
}

#ifndef BITPACKING_NO_INLINE
#define bitpacking_column_append(...) bitpacking_column_append_inline(__VA_ARGS__)
#define bitpacking_column_join(...) bitpacking_column_join_inline(__VA_ARGS__)
#endif

/* ---- Ranked search
 *
 * A term is a word of a query: the set of the documents that have it, a column of how often each of them has it, and a table of what this adds to
 * the score of a document.
 *
 * The table has a row of 256 parts for each count from 0 on, and in each row a part for each class of the lengths of documents. Part
 * 256 * count + class is added. The last row is also for greater counts. Class 0 is for the shortest documents: no part is above the first of its
 * row, and in each class the parts do not fall from one count to the next.
 *
 * A term has the rules of a view: it borrows the bytes of its views and the table, and only bitpacking_term_start may write its fields. Set it to
 * BITPACKING_TERM_EMPTY before anything else, or all of it to zero: each is a word that no document has. The two views may go before it.
 */
typedef struct bitpacking_term {
    bitpacking_set set;
    bitpacking_column counts;
    const uint32_t *table;
    size_t table_len;
} bitpacking_term;

#define BITPACKING_TERM_EMPTY {BITPACKING_SET_EMPTY, BITPACKING_COLUMN_EMPTY, NULL, 0}

/* How many classes there are: a table has as many parts in each row. */
#define BITPACKING_CLASSES 256

/* Starts a term. Returns 0. Each number of the table is read, so start a term once and use it in many queries.
 *
 *     BAD_LENGTH    the set has more ids than the column has values, or fewer
 *     BAD_TABLE     the table is empty, has a row that is not whole, or its parts are not in the order above
 */
ptrdiff_t bitpacking_term_start(bitpacking_term *term, const bitpacking_set *set, const bitpacking_column *counts,
                                const uint32_t *table, size_t table_len);

/* Work space for a term. It may hold anything. After a query, `unpacked` is how many blocks of 128 counts were unpacked to rank its documents. */
typedef struct bitpacking_walk {
    size_t unpacked;
    size_t len;
    uint32_t low;
    uint32_t counts[128];
    uint32_t ids[128];
} bitpacking_walk;

#define BITPACKING_WALK_EMPTY {0, 0, 0, {0}, {0}}

/* A document with its score, which adds up the part of each word that it has. */
typedef struct bitpacking_scored {
    uint64_t score;
    uint32_t id;
} bitpacking_scored;

#define BITPACKING_SCORED_EMPTY {0, 0}

/* Writes the best of the documents that have at least `at_least` of the words to the front of found, the best of them first, as many as there are
 * and fit, and returns how many these are. A document with a greater score comes first, and of two with the same score the one with the lower id.
 * After them, any item of found may have changed.
 *
 * classes has the class of each document by its id. Documents after its end have class 0. With at_least of 1 or 0 it is a query by OR, and with
 * terms_len by AND. Each term needs one of walks. Put the rarest word first: that is fastest. A call takes about 11 KB of stack.
 *
 *     bitpacking_walk walks[2];
 *     bitpacking_scored found[10];
 *     count = bitpacking_best(terms, 2, classes, classes_len, 1, walks, 2, found, 10);
 *
 *     TOO_LONG      terms_len is above 268,435,456
 *     SHORT         walks_len is below terms_len
 */
ptrdiff_t bitpacking_best(const bitpacking_term *terms, size_t terms_len, const uint8_t *classes, size_t classes_len, size_t at_least,
                          bitpacking_walk *walks, size_t walks_len, bitpacking_scored *found, size_t found_len);

/* The bounds of a term: the greatest part of each block of 128 documents that have it, from the first on. They borrow their memory. */
typedef struct bitpacking_block_bounds {
    const uint32_t *parts;
    size_t parts_len;
} bitpacking_block_bounds;

#define BITPACKING_BLOCK_BOUNDS_EMPTY {NULL, 0}

/* Writes the greatest part of each block of a term for documents of these classes, and 0 after the last block. A term has (its ids + 127) / 128 blocks.
 * It reads the whole term, so it is for terms of many queries: then bitpacking_best_bounded reads few blocks of a common word. */
void bitpacking_term_bound(const bitpacking_term *term, const uint8_t *classes, size_t classes_len, uint32_t *parts, size_t parts_len);

/* Writes what bitpacking_best writes, and returns what it returns. bounds are of the first terms, in their order. bitpacking_term_bound wrote them of
 * the same terms for the same classes: with others, documents that are among the best may be missing. A term may have empty bounds. */
ptrdiff_t bitpacking_best_bounded(const bitpacking_term *terms, size_t terms_len, const bitpacking_block_bounds *bounds, size_t bounds_len,
                                  const uint8_t *classes, size_t classes_len, size_t at_least, bitpacking_walk *walks, size_t walks_len,
                                  bitpacking_scored *found, size_t found_len);

/* Writes the best of these documents, which increase, as bitpacking_best does. They may be the answer to any query, such as bitpacking_set_query
 * gives. A document that has none of the words has score 0.
 *
 * A query by AND of three words or more is answered faster by bitpacking_set_intersect and this call than by bitpacking_best.
 *
 *     TOO_LONG      terms_len is above 268,435,456
 *     NOT_SORTED    a document is not above the one before it
 */
ptrdiff_t bitpacking_best_among(const uint32_t *documents, size_t documents_len, const bitpacking_term *terms, size_t terms_len,
                                const uint8_t *classes, size_t classes_len, bitpacking_scored *found, size_t found_len);

#ifdef __cplusplus
}
#endif

#endif
