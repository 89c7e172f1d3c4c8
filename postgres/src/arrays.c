/* Casts from and to arrays. */
#include "idset.h"

#include "catalog/pg_type.h"
#include "utils/array.h"
#include "utils/memutils.h"

/* How many elements an array has, all of which have to be there. */
static size_t elements(ArrayType *array)
{
    if (ARR_NDIM(array) > 1)
        ereport(ERROR, (errcode(ERRCODE_ARRAY_SUBSCRIPT_ERROR), errmsg(TYPE_NAME ": the array has more than one dimension")));
    if (array_contains_nulls(array))
        ereport(ERROR, (errcode(ERRCODE_NULL_VALUE_NOT_ALLOWED), errmsg(TYPE_NAME ": the array has a null"),
                        errhint("Leave nulls out with array_remove(array, NULL).")));
    return (size_t)ArrayGetNItems(ARR_NDIM(array), ARR_DIMS(array));
}

/* The cast from an array of a type of integers. */
#define FROM_ARRAY(name, type)                                                                                                         \
    FUNCTION(name)                                                                                                                     \
    {                                                                                                                                  \
        ArrayType *array = PG_GETARG_ARRAYTYPE_P(0);                                                                                   \
        const type *numbers = (const type *)ARR_DATA_PTR(array);                                                                       \
        size_t len = elements(array), i;                                                                                               \
        set_id *ids = new_ids(len);                                                                                                    \
                                                                                                                                       \
        for (i = 0; i < len; i++)                                                                                                      \
            ids[i] = as_id(numbers[i]);                                                                                                \
        PG_RETURN_POINTER(packed(ids, made_set(ids, len)));                                                                            \
    }

FROM_ARRAY(of_int2, int16)
FROM_ARRAY(of_int4, int32)
FROM_ARRAY(of_int8, int64)

/* An array with room for that many elements of a size. */
ArrayType *new_array(Oid type, size_t size, size_t len)
{
    size_t bytes = ARR_OVERHEAD_NONULLS(1) + size * len;
    ArrayType *array;

    if (len == 0)
        return construct_empty_array(type);
    if (!AllocSizeIsValid(bytes))
        ereport(ERROR, (errcode(ERRCODE_PROGRAM_LIMIT_EXCEEDED), errmsg(TYPE_NAME ": an array of %zu ids is too long", len),
                        errhint("Use unnest, which reads the ids one after the other.")));
    array = palloc0(bytes);
    SET_VARSIZE(array, bytes);
    array->ndim = 1;
    array->elemtype = type;
    ARR_DIMS(array)[0] = (int)len;
    ARR_LBOUND(array)[0] = 1;
    return array;
}
