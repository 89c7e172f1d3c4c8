/* Queries with AND, OR and NOT, as 1&(2|!3). A value has the signs of its text, one after the other, and after each operand that has a NOT
 * the sign INVERT. It is answered from left to right: `&` after a false operand, or `|` after a true one, skips the other operand. So neither
 * reading, answering nor writing a query calls itself, and bytes that are no query, of a damaged page, lead to an answer too. */
#include "idset.h"

#include "libpq/pqformat.h"
#include "miscadmin.h"
#include "parser/scansup.h"
#include "utils/builtins.h"
#include "utils/memutils.h"

enum { ID = 1, OPEN, CLOSE, NOT, AND, OR, INVERT };

/* A sign. The number of an ID is the id, and that of AND and OR where to go on after they skip. */
typedef struct {
    uint16 kind;
    uint16 negated; /* of an ID: whether the number of NOTs around it is odd */
    uint32 number;
} sign;

struct idset_query {
    int32 vl_len_;
    sign signs[FLEXIBLE_ARRAY_MEMBER];
};

/* A query that is being read, and the numbers of signs whose operand has not ended. */
typedef struct {
    const char *text, *at;
    idset_query *query;
    uint32 *open, opened, len;
    bool negated;
} parse;

static uint32 signs_of(const idset_query *query) { return (uint32)((VARSIZE(query) - VARHDRSZ) / sizeof(sign)); }

/* A query as a value has it, with its signs aligned. */
idset_query *query_of(Datum value) { return (idset_query *)PG_DETOAST_DATUM(value); }

static void pg_attribute_noreturn() refuse_query(const parse *it, const char *why)
{
    ereport(ERROR, (errcode(ERRCODE_INVALID_TEXT_REPRESENTATION), errmsg("invalid input syntax for type idset_query: \"%s\"", it->text),
                    errdetail("%s", why)));
}

/* Appends a sign. With `stays`, its operand has not ended. */
static void append(parse *it, uint16 kind, uint32 number, bool stays)
{
    it->query->signs[it->len] = (sign){kind, kind == ID && it->negated, number};
    if (stays)
        it->open[it->opened++] = it->len;
    it->len++;
}

/* The kind of the last sign whose operand has not ended, or 0. */
static uint16 last_open(const parse *it) { return it->opened ? it->query->signs[it->open[it->opened - 1]].kind : 0; }

/* After an operand: ends the NOTs before it. */
static void end_operand(parse *it)
{
    for (; last_open(it) == NOT; it->opened--) {
        append(it, INVERT, 0, false);
        it->negated = !it->negated;
    }
}

/* Ends the operators before this place that bind at least as tightly as `|`, or as `&`. They skip to here. */
static void end_operators(parse *it, bool or_too)
{
    for (; last_open(it) == AND || (or_too && last_open(it) == OR); it->opened--)
        it->query->signs[it->open[it->opened - 1]].number = it->len;
}

static void read_number(parse *it)
{
    uint32 id;
    bool fits;

    if (*it->at < '0' || *it->at > '9')
        refuse_query(it, "A number is missing.");
    it->at = read_digits(it->at, &id, &fits);
    if (!fits)
        refuse_query(it, ID_RANGE);
    append(it, ID, id, false);
    end_operand(it);
}

/* Reads what may be where an operand begins. Returns whether the operand has ended. */
static bool read_operand(parse *it)
{
    if (*it->at != '!' && *it->at != '(') {
        read_number(it);
        return true;
    }
    append(it, *it->at == '!' ? NOT : OPEN, 0, true);
    it->negated ^= *it->at++ == '!';
    return false;
}

/* Reads what may be after an operand. Returns whether an operand has ended. */
static bool read_operator(parse *it)
{
    char read = *it->at++;

    if (read != '&' && read != '|' && read != ')')
        refuse_query(it, "After an operand there has to be \"&\", \"|\" or \")\".");
    if (read != '&')
        end_operators(it, read == ')');
    if (read != ')') {
        append(it, read == '&' ? AND : OR, 0, true);
        return false;
    }
    if (last_open(it) != OPEN)
        refuse_query(it, "A \"(\" is missing.");
    it->opened--;
    append(it, CLOSE, 0, false);
    end_operand(it);
    return true;
}

/* Reads a query from its text. Each character is at most one sign, and a NOT is an INVERT too. */
static idset_query *parsed(const char *text)
{
    size_t most = 2 * strlen(text), size = VARHDRSZ + sizeof(sign) * most;
    parse it = {.text = text, .at = text};
    bool ended = false;

    if (!AllocSizeIsValid(size))
        ereport(ERROR, (errcode(ERRCODE_PROGRAM_LIMIT_EXCEEDED), errmsg("the text of the idset_query is too long")));
    it.query = palloc(size);
    it.open = palloc(sizeof(uint32) * (most + 1));
    for (;; ended = ended ? read_operator(&it) : read_operand(&it)) {
        CHECK_FOR_INTERRUPTS();
        while (scanner_isspace(*it.at))
            it.at++;
        if (!*it.at)
            break;
    }
    if (!ended)
        refuse_query(&it, "A number is missing.");
    end_operators(&it, true);
    if (it.opened)
        refuse_query(&it, "A \")\" is missing.");
    pfree(it.open);
    SET_VARSIZE(it.query, VARHDRSZ + sizeof(sign) * it.len);
    return it.query;
}

PG_FUNCTION_INFO_V1(idset_query_in);
Datum idset_query_in(PG_FUNCTION_ARGS) { PG_RETURN_POINTER(parsed(PG_GETARG_CSTRING(0))); }

static StringInfoData written(const idset_query *query)
{
    static const char marks[] = {[OPEN] = '(', [CLOSE] = ')', [NOT] = '!', [AND] = '&', [OR] = '|'};
    StringInfoData text;

    initStringInfo(&text);
    for (uint32 at = 0; at < signs_of(query); at++)
        if (query->signs[at].kind == ID)
            appendStringInfo(&text, "%u", query->signs[at].number);
        else if (query->signs[at].kind < INVERT && marks[query->signs[at].kind])
            appendStringInfoChar(&text, marks[query->signs[at].kind]);
    return text;
}

PG_FUNCTION_INFO_V1(idset_query_out);
Datum idset_query_out(PG_FUNCTION_ARGS) { PG_RETURN_CSTRING(written(query_of(PG_GETARG_DATUM(0))).data); }

/* The binary form is the text. */
PG_FUNCTION_INFO_V1(idset_query_recv);
Datum idset_query_recv(PG_FUNCTION_ARGS)
{
    StringInfo from = (StringInfo)PG_GETARG_POINTER(0);
    int len;

    PG_RETURN_POINTER(parsed(pq_getmsgtext(from, from->len - from->cursor, &len)));
}

PG_FUNCTION_INFO_V1(idset_query_send);
Datum idset_query_send(PG_FUNCTION_ARGS)
{
    StringInfoData text = written(query_of(PG_GETARG_DATUM(0))), answer;

    pq_begintypsend(&answer);
    pq_sendtext(&answer, text.data, text.len);
    PG_RETURN_BYTEA_P(pq_endtypsend(&answer));
}

/* Whether a query holds, if `has` says which ids are there. */
bool holds(const idset_query *query, has_id *has, void *state)
{
    bool it = false;
    uint32 until = 0;
    size_t ids = 0;

    for (uint32 at = 0; at < signs_of(query); at++) {
        sign here = query->signs[at];
        size_t number = ids;

        ids += here.kind == ID;
        if (at < until)
            continue;
        if (here.kind == ID)
            it = has(state, here.number, here.negated, number);
        else if (here.kind == INVERT)
            it = !it;
        else if ((here.kind == AND && !it) || (here.kind == OR && it))
            until = here.number;
    }
    return it;
}

/* Of the operands in a pair of brackets so far: the share of sets for which no operand of `|` holds, and the share for which all operands of the
 * last `&` hold. */
typedef struct {
    double none, all;
} operands;

/* The share of sets that a query holds for, if `share` is that of an id, and a set has one id independently of the others. */
double share_of_query(const idset_query *query, share_of_id *share, void *state)
{
    operands *first = palloc(sizeof *first * (signs_of(query) + 1)), *here = first;
    double last = 0;

    *here = (operands){1, 1};
    for (uint32 at = 0; at < signs_of(query); at++) {
        sign it = query->signs[at];

        if (it.kind == OPEN)
            *++here = (operands){1, 1};
        else if (it.kind == ID)
            last = share(state, it.number);
        else if (it.kind == INVERT)
            last = 1 - last;
        else if (it.kind == AND)
            here->all *= last;
        else if (it.kind == OR)
            *here = (operands){here->none * (1 - here->all * last), 1};
        else if (it.kind == CLOSE) {
            last = 1 - here->none * (1 - here->all * last);
            here -= here > first;
        }
    }
    last = 1 - first->none * (1 - first->all * last);
    pfree(first);
    return last;
}

/* How many ids a query has, one as often as it is there. Writes them as keys of an index, unless `ids` is NULL. */
size_t query_ids(const idset_query *query, Datum *ids)
{
    size_t count = 0;

    for (uint32 at = 0; at < signs_of(query); at++)
        if (query->signs[at].kind == ID) {
            if (ids)
                ids[count] = Int64GetDatum(query->signs[at].number);
            count++;
        }
    return count;
}

static bool is_in_set(void *set, uint32 id, bool negated, size_t number) { return bitpacking_set_contains(set, id) == 1; }

PG_FUNCTION_INFO_V1(idset_matches);
Datum idset_matches(PG_FUNCTION_ARGS)
{
    bitpacking_set set = opened_argument(fcinfo, 0);

    PG_RETURN_BOOL(holds(query_of(PG_GETARG_DATUM(1)), is_in_set, &set));
}

PG_FUNCTION_INFO_V1(idset_query_matches);
Datum idset_query_matches(PG_FUNCTION_ARGS)
{
    bitpacking_set set = opened_argument(fcinfo, 1);

    PG_RETURN_BOOL(holds(query_of(PG_GETARG_DATUM(0)), is_in_set, &set));
}
