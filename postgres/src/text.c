/* The text of a set, as the text of an array: {7,9,10,300}. */
#include "idset.h"

#include "lib/stringinfo.h"
#include "miscadmin.h"
#include "parser/scansup.h"
#include "utils/builtins.h"

static void pg_attribute_noreturn() refuse_text(const char *text, const char *why)
{
    ereport(ERROR, (errcode(ERRCODE_INVALID_TEXT_REPRESENTATION), errmsg("invalid input syntax for type " TYPE_NAME ": \"%s\"", text),
                    errdetail("%s", why)));
}

static const char *after_spaces(const char *at)
{
    while (scanner_isspace(*at))
        at++;
    return at;
}

/* Reads an id, and returns what is after it. */
static const char *read_id(const char *at, const char *text, set_id *id)
{
    const char *start = at = after_spaces(at);
    bool negative = *at == '-';
    bool fits;

    at = read_digits(at + negative, id, &fits);
    if (at == start + negative)
        refuse_text(text, "A number is missing.");
    if (!fits || (negative && *id > 0))
        ereport(ERROR, (errcode(ERRCODE_NUMERIC_VALUE_OUT_OF_RANGE),
                        errmsg("value \"%.*s\" is out of range for " TYPE_NAME, (int)(at - start < 40 ? at - start : 40), start),
                        errdetail(ID_RANGE)));
    return after_spaces(at);
}

/* Takes ids in any order, also one twice. */
FUNCTION(in)
{
    const char *text = PG_GETARG_CSTRING(0), *at = after_spaces(text);
    set_id *ids = new_ids(strlen(text) / 2);
    size_t len = 0;

    if (*at != '{')
        refuse_text(text, "The text has to begin with \"{\".");
    at = after_spaces(at + 1);
    for (bool more = *at != '}'; more; len++) {
        CHECK_FOR_INTERRUPTS();
        at = read_id(at, text, &ids[len]);
        if (*at != ',' && *at != '}')
            refuse_text(text, "After a number there has to be \",\" or \"}\".");
        more = *at == ',';
        at += more;
    }
    if (*after_spaces(at + 1))
        refuse_text(text, "There is something after \"}\".");
    PG_RETURN_POINTER(packed(ids, made_set(ids, len)));
}

FUNCTION(out)
{
    set_view set = opened(PG_GETARG_VARLENA_PP(0));
    set_id ids[PIECE];
    size_t from, count, i;
    StringInfoData text;

    initStringInfo(&text);
    appendStringInfoChar(&text, '{');
    for (from = 0; (count = (size_t)CALL(slice)(&set, from, ids, PIECE)) > 0; from += count) {
        CHECK_FOR_INTERRUPTS();
        enlargeStringInfo(&text, (int)(LONGEST_ID * count));
        for (i = 0; i < count; i++) {
            if (from + i > 0)
                text.data[text.len++] = ',';
            text.len += DIGITS_OF(ids[i], text.data + text.len);
        }
    }
    appendStringInfoChar(&text, '}');
    PG_RETURN_CSTRING(text.data);
}
