/* What idset has and idset8 has not: the calls of the library for sets of 32 bits, arrays of int4, and bitmaps of Roaring. */
#include "idset.h"

#include "catalog/pg_type.h"
#include "utils/array.h"
#include "utils/memutils.h"

PG_MODULE_MAGIC;

ptrdiff_t pack(const uint32 *ids, size_t len, uint8_t *bytes, size_t room) { return bitpacking_set_pack(ids, len, bytes, room, NULL); }

size_t work_items(uint32 operation, const bitpacking_set *sets, size_t count) { return bitpacking_set_combine_room(sets, count); }

ptrdiff_t combine_into(uint32 operation, const bitpacking_set *sets, size_t count, void *work, size_t items, uint8_t *bytes, size_t room)
{
    return bitpacking_set_combine(operation, sets, count, work, items, bytes, room);
}

ptrdiff_t combine_many(uint32 operation, const bitpacking_set *sets, size_t count, struct varlena **value)
{
    return combine(operation, sets, count, value);
}

ptrdiff_t count_common(const bitpacking_set *sets) { return bitpacking_set_count_common(sets, 2); }

ptrdiff_t count_any(const bitpacking_set *sets, size_t count) { return bitpacking_set_count_any(sets, count); }

size_t count_between(const bitpacking_set *set, uint32 low, uint32 high) { return bitpacking_set_count_between(set, low, high); }

bool is_sparse(const bitpacking_set *set) { return bitpacking_set_combine_room(set, 1) > bitpacking_set_len(set); }

FUNCTION(to_int4)
{
    bitpacking_set set = opened(PG_GETARG_VARLENA_PP(0));
    size_t len = bitpacking_set_len(&set), position;
    uint32 beyond;
    ArrayType *array;

    if (bitpacking_set_seek(&set, (uint32)INT32_MAX + 1, &position, &beyond) == 1)
        ereport(ERROR, (errcode(ERRCODE_NUMERIC_VALUE_OUT_OF_RANGE), errmsg("value %u is out of range for type integer", beyond),
                        errhint("Cast to bigint[].")));
    array = new_array(INT4OID, sizeof(int32), len);
    bitpacking_set_unpack(&set, (uint32 *)ARR_DATA_PTR(array), len);
    PG_RETURN_ARRAYTYPE_P(array);
}

FUNCTION(to_int8)
{
    bitpacking_set set = opened(PG_GETARG_VARLENA_PP(0));
    size_t len = bitpacking_set_len(&set);
    ArrayType *array = new_array(INT8OID, sizeof(int64), len);

    bitpacking_set_unpack_wide(&set, 0, (uint64_t *)ARR_DATA_PTR(array), len);
    PG_RETURN_ARRAYTYPE_P(array);
}

/* Fails with what is wrong with a bitmap in Roaring's portable format. */
static void pg_attribute_noreturn() refuse_bitmap(ptrdiff_t number)
{
    if (number == BITPACKING_TOO_LONG)
        refuse(number);
    ereport(ERROR, (errcode(ERRCODE_INVALID_BINARY_REPRESENTATION), errmsg("invalid bitmap of Roaring: %s", text_of(number))));
}

/* The set of a bitmap. Room for five quarters of its bytes is usually enough. It doubles until it is. */
FUNCTION(from_roaring)
{
    struct varlena *bitmap = PG_GETARG_VARLENA_PP(0), *value = NULL;
    const uint8_t *bytes = (const uint8_t *)VARDATA_ANY(bitmap);
    size_t len = VARSIZE_ANY_EXHDR(bitmap), room = len / 4 * 5 + 16, items = bitpacking_set_from_roaring_room(bytes, len);
    uint32 *work = new_ids(items);
    ptrdiff_t size = BITPACKING_SHORT;

    for (; size == BITPACKING_SHORT; room *= 2) {
        if (value)
            pfree(value);
        value = palloc_extended(VARHDRSZ + room, MCXT_ALLOC_HUGE);
        size = bitpacking_set_from_roaring(bytes, len, work, items, (uint8_t *)VARDATA(value), room);
    }
    if (size < 0)
        refuse_bitmap(size);
    pfree(work);
    PG_RETURN_POINTER(ended(value, (size_t)size));
}

/* The ids as a bitmap. */
FUNCTION(to_roaring)
{
    bitpacking_set set = opened_argument(fcinfo, 0);
    size_t size = bitpacking_set_roaring_size(&set);
    struct varlena *bitmap = palloc(VARHDRSZ + size);

    bitpacking_set_to_roaring(&set, (uint8_t *)VARDATA(bitmap), size);
    SET_VARSIZE(bitmap, VARHDRSZ + size);
    PG_RETURN_POINTER(bitmap);
}
