/* From the bytes of a value to an opened set, from ids to bytes, and the binary form. */
#include "idset.h"

#include "access/detoast.h"
#include "access/xlog.h"
#include "libpq/pqformat.h"
#include "nodes/primnodes.h"
#include "utils/memutils.h"

/* A setting of the server, in none of its headers: pages with a wrong checksum are read all the same. */
extern PGDLLIMPORT bool ignore_checksum_failure;

/* The longest text of a value, in bytes. A row with it still has room for others in the 1 GB that PostgreSQL gives a line of COPY. */
enum { MAX_TEXT = 1000000000 };

/* A set that was opened in an earlier call of a query, over a copy of its bytes. If the value is in TOAST, `pointer` says where; then a value
 * that came only once has no copy yet. */
typedef struct {
    set_view set;
    struct varlena *value;
    bool constant, stored;
    struct varatt_external pointer;
} kept_set;

/* A text of the library without the point at its end. */
char *text_of(ptrdiff_t number)
{
    const char *text = bitpacking_error_text(number);

    return pnstrdup(text, strlen(text) - 1);
}

/* Fails with an error of the library that is about ids, and not about bytes. */
void refuse(ptrdiff_t number)
{
    int code = number == BITPACKING_TOO_LONG ? ERRCODE_PROGRAM_LIMIT_EXCEEDED : ERRCODE_INTERNAL_ERROR;

    ereport(ERROR, (errcode(code), errmsg(TYPE_NAME ": %s", text_of(number))));
}

/* Fails with what is wrong with bytes. Stored bytes were tested before: then the page is damaged. */
static void pg_attribute_noreturn() refuse_bytes(ptrdiff_t number, bool stored)
{
    ereport(ERROR, (errcode(stored ? ERRCODE_DATA_CORRUPTED : ERRCODE_INVALID_BINARY_REPRESENTATION),
                    errmsg("%s " TYPE_NAME ": %s", stored ? "damaged" : "invalid", text_of(number)),
                    stored ? errhint("Restore the row from a backup. Data checksums find damage that has no other sign.") : 0));
}

/* Fails if the text of a set is too long for COPY, and so for pg_dump. It has two brackets, the digits of each id, and commas. */
static void limit_text(const set_view *set)
{
    size_t len = CALL(len)(set), size = 1 + 2 * len;

    if (len <= MAX_TEXT / LONGEST_ID)
        return;
    for (set_id power = 1; power <= MOST_ID / 10;) {
        power *= 10;
        size += len - CALL(rank)(set, power);
    }
    if (size > MAX_TEXT)
        ereport(ERROR, (errcode(ERRCODE_PROGRAM_LIMIT_EXCEEDED), errmsg("the text of the " TYPE_NAME " would have %zu bytes", size),
                        errdetail("It may have %d, so that COPY and pg_dump can write it.", MAX_TEXT),
                        errhint("Store the ids in several rows.")));
}

/* Opens bytes, which tests all of them. */
static set_view opened_bytes(const uint8_t *bytes, size_t len, bool stored)
{
    set_view set = NO_IDS;
    ptrdiff_t fault = CALL(open)(bytes, len, &set);

    if (fault < 0)
        refuse_bytes(fault, stored);
    return set;
}

static set_view opened_tested(struct varlena *value)
{
    set_view set = NO_IDS;

    CALL(open_tested)((const uint8_t *)VARDATA_ANY(value), VARSIZE_ANY_EXHDR(value), &set);
    return set;
}

/* Whether values need no further test: they were tested when they came in, and with data checksums PostgreSQL refuses a page that was
 * damaged since. */
static bool are_trusted(void) { return DataChecksumsEnabled() && !ignore_checksum_failure; }

/* Opens a value of the type, whose header may be short. */
set_view opened(struct varlena *value)
{
    return are_trusted() ? opened_tested(value) : opened_bytes((const uint8_t *)VARDATA_ANY(value), VARSIZE_ANY_EXHDR(value), true);
}

/* The node of an argument, if the call has one. An element of an array in `= ANY` has none. */
static Node *argument_node(FmgrInfo *call, int number)
{
    List *nodes = NIL;

    if (call->fn_expr && IsA(call->fn_expr, FuncExpr))
        nodes = ((FuncExpr *)call->fn_expr)->args;
    else if (call->fn_expr && IsA(call->fn_expr, OpExpr))
        nodes = ((OpExpr *)call->fn_expr)->args;
    return number < list_length(nodes) ? list_nth(nodes, number) : NULL;
}

/* What is kept of an argument. A call has at most two sets. */
static kept_set *kept_of(FmgrInfo *call, int number)
{
    if (!call->fn_extra)
        call->fn_extra = MemoryContextAllocZero(call->fn_mcxt, 2 * sizeof(kept_set));
    return (kept_set *)call->fn_extra + number;
}

/* Frees what is kept of an argument. */
static void forget(kept_set *kept)
{
    struct varlena *before = kept->value;

    kept->value = NULL;
    if (before)
        pfree(before);
}

/* Opens an argument and keeps the set, and a copy of its bytes, for the next call. */
static set_view opened_to_keep(FmgrInfo *call, int number, struct varlena *value, bool constant)
{
    kept_set *kept = kept_of(call, number);
    struct varlena *copy;

    opened(value);
    forget(kept);
    copy = MemoryContextAlloc(call->fn_mcxt, VARSIZE_ANY(value));
    memcpy(copy, value, VARSIZE_ANY(value));
    *kept = (kept_set){.set = opened_tested(copy), .value = copy, .constant = constant};
    return kept->set;
}

/* Opens an argument in TOAST. It is kept if it comes a second time in a row, so a scan of many sets copies none. The bytes at a pointer never
 * change while a query may see them, and PostgreSQL gives the number of a removed value to another one after four billion others. */
static set_view opened_stored(FmgrInfo *call, int number, struct varlena *value)
{
    kept_set *kept = kept_of(call, number);
    struct varatt_external pointer;
    set_view set;
    bool again;

    VARATT_EXTERNAL_GET_POINTER(pointer, value);
    again = kept->stored && memcmp(&pointer, &kept->pointer, sizeof pointer) == 0;
    if (again && kept->value)
        return kept->set;
    value = PG_DETOAST_DATUM_PACKED(PointerGetDatum(value));
    if (again) {
        set = opened_to_keep(call, number, value, false);
    } else {
        set = opened(value);
        forget(kept);
    }
    kept->stored = true;
    kept->pointer = pointer;
    return set;
}

/* Opens an argument. The set of a constant, and one in TOAST, is opened once for all rows of a query. A parameter is compared with the one
 * before, since a function may call with another. */
set_view opened_argument(FunctionCallInfo fcinfo, int number)
{
    FmgrInfo *call = fcinfo->flinfo;
    Node *node = call ? argument_node(call, number) : NULL;
    bool constant = node && IsA(node, Const), parameter = node && IsA(node, Param);
    kept_set *kept = (constant || parameter) && call->fn_extra ? kept_of(call, number) : NULL;
    struct varlena *value;

    if (kept && kept->value && kept->constant)
        return kept->set;
    if (call && VARATT_IS_EXTERNAL_ONDISK(PG_GETARG_POINTER(number)))
        return opened_stored(call, number, (struct varlena *)PG_GETARG_POINTER(number));
    value = PG_GETARG_VARLENA_PP(number);
    if (kept && kept->value && VARSIZE_ANY(value) == VARSIZE_ANY(kept->value) && memcmp(value, kept->value, VARSIZE_ANY(value)) == 0)
        return kept->set;
    return constant || (parameter && !are_trusted()) ? opened_to_keep(call, number, value, constant) : opened(value);
}

/* Ends a value after the bytes of a set, which the library wrote, and gives back the memory after them. */
struct varlena *ended(struct varlena *value, size_t size)
{
    set_view set = NO_IDS;

    CALL(open_tested)((const uint8_t *)VARDATA(value), size, &set);
    limit_text(&set);
    SET_VARSIZE(value, VARHDRSZ + size);
    return repalloc(value, VARHDRSZ + size);
}

/* Packs a set of ids, which increase. */
struct varlena *packed(const set_id *ids, size_t len)
{
    size_t room = ROOM(len);
    struct varlena *value = palloc_extended(VARHDRSZ + room, MCXT_ALLOC_HUGE);
    ptrdiff_t size = pack(ids, len, (uint8_t *)VARDATA(value), room);

    if (size < 0)
        refuse(size);
    return ended(value, (size_t)size);
}

FUNCTION(recv)
{
    StringInfo from = (StringInfo)PG_GETARG_POINTER(0);
    int len = from->len - from->cursor;
    struct varlena *value = palloc(VARHDRSZ + (size_t)len);
    set_view set;

    SET_VARSIZE(value, VARHDRSZ + len);
    pq_copymsgbytes(from, VARDATA(value), len);
    set = opened_bytes((const uint8_t *)VARDATA(value), (size_t)len, false);
    limit_text(&set);
    PG_RETURN_POINTER(value);
}

/* The bytes, once they are tested: the cast from bytea. */
FUNCTION(of_bytea)
{
    struct varlena *value = PG_GETARG_VARLENA_PP(0);
    set_view set = opened_bytes((const uint8_t *)VARDATA_ANY(value), VARSIZE_ANY_EXHDR(value), false);

    limit_text(&set);
    PG_RETURN_POINTER(value);
}

/* A copy of the bytes: the cast to bytea, and what is sent in the binary form. Replication frees it. */
FUNCTION(send)
{
    struct varlena *value = (struct varlena *)PG_GETARG_BYTEA_P_COPY(0);

    opened(value);
    PG_RETURN_POINTER(value);
}
