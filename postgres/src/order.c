/* The order of sets, which is that of arrays of their ids. Equality and hash are those of the bytes, since one set has one form, and need no
 * code here. */
#include "idset.h"

#include "miscadmin.h"

static bool same_bytes(const set_view *a, const set_view *b)
{
    return a->bytes_len == b->bytes_len && memcmp(a->bytes, b->bytes, a->bytes_len) == 0;
}

/* Below, at or above 0, as the first id that differs says. A set comes before a longer one that begins with it. */
static int sign_of(const set_view *a, const set_view *b)
{
    size_t a_len = CALL(len)(a), b_len = CALL(len)(b), shorter = Min(a_len, b_len), from, i;
    set_id a_ids[PIECE], b_ids[PIECE];

    if (same_bytes(a, b))
        return 0;
    for (from = 0; from < shorter; from += PIECE) {
        CHECK_FOR_INTERRUPTS();
        CALL(slice)(a, from, a_ids, PIECE);
        CALL(slice)(b, from, b_ids, PIECE);
        for (i = 0; i < PIECE && from + i < shorter; i++)
            if (a_ids[i] != b_ids[i])
                return a_ids[i] < b_ids[i] ? -1 : 1;
    }
    return a_len < b_len ? -1 : a_len > b_len;
}

/* Compares the arguments. Copies are freed, since a sort compares many in one context of memory. */
static int compared(FunctionCallInfo fcinfo)
{
    struct varlena *one = PG_GETARG_VARLENA_PP(0), *other = PG_GETARG_VARLENA_PP(1);
    set_view a = opened(one), b = opened(other);
    int sign = sign_of(&a, &b);

    PG_FREE_IF_COPY(one, 0);
    PG_FREE_IF_COPY(other, 1);
    return sign;
}

/* An operator by the sign of the comparison. */
#define COMPARISON(name, test)                                                                                                         \
    FUNCTION(name)                                                                                                                     \
    {                                                                                                                                  \
        int sign = compared(fcinfo);                                                                                                   \
                                                                                                                                       \
        PG_RETURN_BOOL(test);                                                                                                          \
    }

COMPARISON(lt, sign < 0)
COMPARISON(le, sign <= 0)
COMPARISON(gt, sign > 0)
COMPARISON(ge, sign >= 0)

FUNCTION(cmp) { PG_RETURN_INT32(compared(fcinfo)); }
