/* The share of the rows that an operator of sets returns, from the common ids of the column. It takes ids to come independently. */
#include "planner.h"

#include <math.h>

#include "nodes/nodeFuncs.h"
#include "optimizer/optimizer.h"

/* The share of sets with one id, for a query. */
static double share_for_query(void *known, uint32 id) { return share_of(known, id); }

/* Calls a function with the share of each common id that a set has. Returns how many ids of the set are not common. */
static double over_common(const known_sets *it, const bitpacking_set *set, void call(double share, double *sum), double *sum)
{
    double others = (double)bitpacking_set_len(set);

    for (int i = 0; i < it->common.nvalues; i++)
        if (bitpacking_set_contains(set, (uint32)DatumGetInt64(it->common.values[i])) == 1) {
            call(it->common.numbers[i], sum);
            others--;
        }
    return others;
}

static void all_of(double share, double *sum) { *sum *= share; }
static void none_of(double share, double *sum) { *sum *= 1 - share; }
static void sum_of(double share, double *sum) { *sum += share; }

/* The share of sets that have all ids of a constant, or any. */
static double share_with_all(const known_sets *it, const bitpacking_set *set)
{
    double all = 1, others = over_common(it, set, all_of, &all);

    return all * pow(it->other, others);
}

static double share_with_any(const known_sets *it, const bitpacking_set *set)
{
    double none = 1, others = over_common(it, set, none_of, &none);

    return 1 - none * pow(1 - it->other, others);
}

/* The share of sets without other ids than those of a constant: each id of a set is one of these with the share that they have of all ids. */
static double share_within(const known_sets *it, const bitpacking_set *set)
{
    double within = 0, sum = 0, others = over_common(it, set, sum_of, &within);
    int len = it->counts.nnumbers - 1;

    within = it->ids > 0 ? Min((within + others * it->other) / it->ids, 1) : 1;
    for (int i = 0; i < len; i++)
        sum += pow(within, it->counts.numbers[i]);
    return sum / Max(len, 1);
}

/* A constant, once parameters have their values, or NULL. */
static Const *constant_of(PlannerInfo *root, Node *node)
{
    Node *it = estimate_expression_value(root, node);

    return IsA(it, Const) && !((Const *)it)->constisnull ? (Const *)it : NULL;
}

static bitpacking_set set_of_constant(Const *it) { return opened(PG_DETOAST_DATUM_PACKED(it->constvalue)); }

/* The share of rows whose number is in a set: the ids of the set beside all different numbers. A cast does not change how many there are. */
static double share_of_number(PlannerInfo *root, Node *set, Node *number, int relation)
{
    double ids = ids_of(root, set), different;
    VariableStatData column;
    known_sets known;
    bool guessed;

    if (ids < 0)
        return UNKNOWN_SHARE;
    while (is_funcclause(number) && list_length(((FuncExpr *)number)->args) == 1)
        number = linitial(((FuncExpr *)number)->args);
    examine_variable(root, number, relation, &column);
    different = get_variable_numdistinct(&column, &guessed);
    ReleaseVariableStats(column);
    if (get_known(root, set, 0, &known)) {
        different = Max(different, different_of(&known));
        free_known(&known);
    }
    return ids / Max(different, 1);
}

/* The share of sets that have an id, all ids of another set, or any of them, or that a query is true of, if the other side is a constant. */
static double share_by_constant(asked_of asked, const known_sets *known, Const *it)
{
    bitpacking_set set = BITPACKING_SET_EMPTY;

    if (asked == HAS_ID)
        return share_of(known, DatumGetInt64(it->constvalue));
    if (asked == HOLDS)
        return share_of_query(query_of(it->constvalue), share_for_query, (void *)known);
    set = set_of_constant(it);
    return asked == HAS_ALL ? share_with_all(known, &set) : asked == HAS_ANY ? share_with_any(known, &set) : share_within(known, &set);
}

/* The share of pairs of sets of two columns that share an id, or of which the first has all ids of the second. */
static double share_of_pairs(asked_of asked, const known_sets *one, const known_sets *other)
{
    double none = 1, both = 0, left = different_of(one) - one->common.nvalues, sum = 0;

    if (asked == IS_WITHIN)
        return share_of_pairs(HAS_ALL, other, one);
    for (int i = 0; i < one->common.nvalues; i++) {
        double share = one->common.numbers[i] * share_of(other, DatumGetInt64(one->common.values[i]));

        none *= 1 - share;
        both += share;
    }
    both += left * one->other * other->other;
    if (asked == HAS_ANY)
        return 1 - none * pow(1 - one->other * other->other, left);
    both = other->ids > 0 ? Min(both / other->ids, 1) : 1;
    for (int i = 0; i < other->counts.nnumbers - 1; i++)
        sum += pow(both, other->counts.numbers[i]);
    return sum / Max(other->counts.nnumbers - 1, 1);
}

/* The share of sets for which the answer is true, if the other side is no constant. It is another column with statistics, or a set of whose ids
 * only the number is known: then a set has each with the average share. */
static double share_by_set(PlannerInfo *root, asked_of asked, const known_sets *known, Node *other)
{
    double share = Min(known->ids / different_of(known), 1), ids;
    known_sets its;

    if (asked == HOLDS)
        return UNKNOWN_SHARE;
    if (get_known(root, other, 0, &its)) {
        share = (1 - its.nulls) * share_of_pairs(asked, known, &its);
        free_known(&its);
        return share;
    }
    ids = ids_of(root, other);
    if (ids < 0)
        return UNKNOWN_SHARE;
    if (asked == IS_WITHIN)
        return pow(Min(ids / different_of(known), 1), known->ids);
    return asked == HAS_ALL ? pow(share, ids) : 1 - pow(1 - share, ids);
}

/* What a function asks. `set` is the argument that is asked, and `other` the one that it is asked for. */
static asked_of asked_by(Oid function, List *args, Node **set, Node **other)
{
    PGFunction call = address_of(function);
    bool swapped = call == idset_is_in || call == idset_query_matches;

    if (list_length(args) != 2)
        return OTHER_CALL;
    *set = swapped ? lsecond(args) : linitial(args);
    *other = swapped ? linitial(args) : lsecond(args);
    if (call == idset_contains || call == idset_is_in)
        return HAS_ID;
    if (call == idset_matches || call == idset_query_matches)
        return HOLDS;
    return call == idset_contains_all ? HAS_ALL : call == idset_contained ? IS_WITHIN : call == idset_overlaps ? HAS_ANY : OTHER_CALL;
}

double share_of_rows(PlannerInfo *root, Oid function, List *args, int relation)
{
    Node *set, *other, *swapped;
    asked_of asked = asked_by(function, args, &set, &other);
    double share = UNKNOWN_SHARE;
    known_sets known;
    Const *it;

    if (asked == OTHER_CALL)
        return -1;
    if (asked != HAS_ID && asked != HOLDS && constant_of(root, set)) {
        swapped = set;
        set = other;
        other = swapped;
        asked = asked == HAS_ALL ? IS_WITHIN : asked == IS_WITHIN ? HAS_ALL : asked;
    }
    it = constant_of(root, other);
    if (asked == HAS_ID && !it)
        share = share_of_number(root, set, other, relation);
    else if (get_known(root, set, relation, &known)) {
        share = (1 - known.nulls) * (it ? share_by_constant(asked, &known, it) : share_by_set(root, asked, &known, other));
        free_known(&known);
    }
    CLAMP_PROBABILITY(share);
    return share;
}

PG_FUNCTION_INFO_V1(idset_sel);
Datum idset_sel(PG_FUNCTION_ARGS)
{
    PlannerInfo *root = (PlannerInfo *)PG_GETARG_POINTER(0);

    PG_RETURN_FLOAT8(share_of_rows(root, get_opcode(PG_GETARG_OID(1)), (List *)PG_GETARG_POINTER(2), PG_GETARG_INT32(3)));
}

PG_FUNCTION_INFO_V1(idset_joinsel);
Datum idset_joinsel(PG_FUNCTION_ARGS)
{
    PlannerInfo *root = (PlannerInfo *)PG_GETARG_POINTER(0);

    PG_RETURN_FLOAT8(share_of_rows(root, get_opcode(PG_GETARG_OID(1)), (List *)PG_GETARG_POINTER(2), 0));
}
