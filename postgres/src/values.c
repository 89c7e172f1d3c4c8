/* Arrays of ids, and the numbers of PostgreSQL, which have a sign. */
#include "idset.h"

#include "miscadmin.h"
#include "utils/memutils.h"

#define ST_SORT sort_numbers
#define ST_ELEMENT_TYPE set_id
#define ST_COMPARE(a, b) (*(a) < *(b) ? -1 : *(a) > *(b))
#define ST_SCOPE static
#define ST_CHECK_FOR_INTERRUPTS
#define ST_DEFINE
#include "lib/sort_template.h"

void sort_ids(set_id *ids, size_t len) { sort_numbers(ids, len); }

/* Room for ids, which may take more than PostgreSQL's usual limit of 1 GB. */
set_id *new_ids(size_t len)
{
    return palloc_extended(sizeof(set_id) * (len ? len : 1), MCXT_ALLOC_HUGE);
}

static bool increases(const set_id *ids, size_t len)
{
    size_t i;

    for (i = 1; i < len && ids[i - 1] < ids[i]; i++)
        ;
    return i >= len;
}

/* Ids that are dense enough, by a bitmap below their greatest: each once, or, if odd, each that is there an odd number of times. Returns how
 * many there are then, or len + 1 if they are not dense enough. */
static size_t made_by_bits(set_id *ids, size_t len, bool odd)
{
    set_id most = 0;
    uint64 *bits;
    size_t i, words, count = 0;

    for (i = 0; i < len; i++)
        most = Max(most, ids[i]);
    words = (size_t)most / 64 + 1;
    if (len < 64 || words > len)
        return len + 1;
    CHECK_FOR_INTERRUPTS();
    bits = palloc_extended(8 * words, MCXT_ALLOC_HUGE | MCXT_ALLOC_ZERO);
    for (i = 0; i < len; i++)
        if (odd)
            bits[ids[i] / 64] ^= UINT64CONST(1) << ids[i] % 64;
        else
            bits[ids[i] / 64] |= UINT64CONST(1) << ids[i] % 64;
    CHECK_FOR_INTERRUPTS();
    for (i = 0; i < words; i++)
        for (uint64 word = bits[i]; word; word &= word - 1)
            ids[count++] = (set_id)(64 * i) + (set_id)__builtin_ctzll(word);
    pfree(bits);
    return count;
}

/* Sorts ids and leaves each once. Returns how many there are then. */
size_t made_set(set_id *ids, size_t len)
{
    size_t count = 1, i;

    if (increases(ids, len))
        return len;
    if ((i = made_by_bits(ids, len, false)) <= len)
        return i;
    sort_ids(ids, len);
    for (i = 1; i < len; i++)
        if (ids[i] != ids[count - 1])
            ids[count++] = ids[i];
    return count;
}

/* Sorts ids and leaves once each that is there an odd number of times. Returns how many there are then. */
size_t kept_odd(set_id *ids, size_t len)
{
    size_t count = 0, i;

    if (increases(ids, len))
        return len;
    if ((i = made_by_bits(ids, len, true)) <= len)
        return i;
    sort_ids(ids, len);
    for (i = 0; i < len; i++)
        if (i + 1 < len && ids[i] == ids[i + 1])
            i++;
        else
            ids[count++] = ids[i];
    return count;
}

/* Reads digits, and returns what is after them. An id that does not fit is above all ids. */
const char *read_digits(const char *at, set_id *id, bool *fits)
{
    for (*id = 0, *fits = true; *at >= '0' && *at <= '9'; at++) {
        set_id digit = (set_id)(*at - '0');

        *fits = *fits && *id <= (MOST_ID - digit) / 10;
        *id = 10 * *id + digit;
    }
    return at;
}

/* A number that is to be an id of a set. */
set_id as_id(int64 number)
{
    if (number < 0 || number > MOST_NUMBER)
        ereport(ERROR, (errcode(ERRCODE_NUMERIC_VALUE_OUT_OF_RANGE), errmsg("value %lld is out of range for " TYPE_NAME, (long long)number),
                        errdetail(ID_RANGE)));
    return (set_id)number;
}

/* An id as a bigint. */
int64 as_number(set_id id)
{
    if (id > MOST_NUMBER)
        ereport(ERROR, (errcode(ERRCODE_NUMERIC_VALUE_OUT_OF_RANGE), errmsg("value %llu is out of range for type bigint", (unsigned long long)id),
                        errhint("Cast to text.")));
    return (int64)id;
}

/* How many ids of a set are below a number. */
size_t rank_of(const set_view *set, int64 number)
{
    if (number > MOST_NUMBER)
        return CALL(len)(set);
    return number <= 0 ? 0 : CALL(rank)(set, (set_id)number);
}
