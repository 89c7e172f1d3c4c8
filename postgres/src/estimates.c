/* What the planner may know of sets: the statistics of a column, and how many ids the sets of an expression have. */
#include "planner.h"

#include "access/htup_details.h"
#include "catalog/pg_statistic.h"
#include "nodes/nodeFuncs.h"

/* Reads the statistics of an expression. Returns false if there are none. Otherwise free_known frees them. */
bool get_known(PlannerInfo *root, Node *node, int relation, known_sets *it)
{
    VariableStatData found;
    HeapTuple row;

    memset(it, 0, sizeof *it);
    examine_variable(root, node, relation, &found);
    row = found.statsTuple;
    if (HeapTupleIsValid(row) && get_attstatsslot(&it->counts, row, STATISTIC_KIND_DECHIST, InvalidOid, ATTSTATSSLOT_NUMBERS)) {
        it->nulls = ((Form_pg_statistic)GETSTRUCT(row))->stanullfrac;
        it->ids = it->counts.numbers[it->counts.nnumbers - 1];
        get_attstatsslot(&it->common, row, STATISTIC_KIND_MCELEM, InvalidOid, ATTSTATSSLOT_NUMBERS);
        if (it->common.nnumbers > COMMON_MORE) {
            free_attstatsslot(&it->common);
            get_attstatsslot(&it->common, row, STATISTIC_KIND_MCELEM, InvalidOid, ATTSTATSSLOT_NUMBERS | ATTSTATSSLOT_VALUES);
        }
    }
    ReleaseVariableStats(found);
    if (it->common.nnumbers < COMMON_MORE) {
        free_known(it);
        return false;
    }
    it->other = it->common.numbers[it->common.nnumbers - 1];
    return true;
}

void free_known(known_sets *it)
{
    free_attstatsslot(&it->common);
    free_attstatsslot(&it->counts);
}

/* The share of sets that have an id, of those that are not null. */
double share_of(const known_sets *it, int64 id)
{
    int from = 0, to = it->common.nvalues;

    while (from < to) {
        int middle = (from + to) / 2;
        int64 there = DatumGetInt64(it->common.values[middle]);

        if (there == id)
            return it->common.numbers[middle];
        if (there < id)
            from = middle + 1;
        else
            to = middle;
    }
    return id < 0 || id > UINT32_MAX ? 0 : it->other;
}

/* How many different ids the sets have together. */
double different_of(const known_sets *it)
{
    double others = it->ids;

    for (int i = 0; i < it->common.nvalues; i++)
        others -= it->common.numbers[i];
    return Max(it->common.nvalues + (it->other > 0 ? Max(others, 0) / it->other : 0), 1);
}

/* What a subquery in an expression returns, or NULL if the expression is none. `root` becomes the root of the subquery. A subquery that is run
 * once is a parameter by now. */
static Node *column_of(PlannerInfo **root, Node *node)
{
    for (PlannerInfo *query = *root; query && IsA(node, Param) && ((Param *)node)->paramkind == PARAM_EXEC; query = query->parent_root) {
        ListCell *it;

        foreach (it, query->init_plans)
            if (list_member_int(((SubPlan *)lfirst(it))->setParam, ((Param *)node)->paramid)) {
                node = (Node *)lfirst(it);
                break;
            }
    }
    if (!IsA(node, SubPlan))
        return NULL;
    *root = list_nth((*root)->glob->subroots, ((SubPlan *)node)->plan_id - 1);
    return (*root)->parse->targetList ? (Node *)((TargetEntry *)linitial((*root)->parse->targetList))->expr : NULL;
}

/* How many ids both of two sets have, if ids come independently. */
static double common_ids(PlannerInfo *root, List *args, double a, double b)
{
    known_sets known;
    double different;

    if (!get_known(root, linitial(args), 0, &known) && !get_known(root, lsecond(args), 0, &known))
        return Min(a, b);
    different = different_of(&known);
    free_known(&known);
    return Min(Max(a * b / different, 1), Min(a, b));
}

/* What is called, whatever its name in SQL. */
PGFunction address_of(Oid function)
{
    FmgrInfo call;

    fmgr_info(function, &call);
    return call.fn_addr;
}

/* Whether the type of an expression is idset. */
bool is_set(Node *node)
{
    Oid input, element;

    getTypeInputInfo(exprType(node), &input, &element);
    return address_of(input) == idset_in;
}

/* How many numbers two constants include, or -1. */
static double between_constants(List *args)
{
    Node *low = lsecond(args), *high = lthird(args);

    if (!IsA(low, Const) || !IsA(high, Const) || ((Const *)low)->constisnull || ((Const *)high)->constisnull)
        return -1;
    return Max((double)DatumGetInt64(((Const *)high)->constvalue) - (double)DatumGetInt64(((Const *)low)->constvalue) + 1, 0);
}

/* How many ids a function of sets returns, or -1. */
static double ids_of_call(PlannerInfo *root, Oid function, List *args)
{
    bool two = list_length(args) == 2 && is_set(lsecond(args));
    double a = ids_of(root, linitial(args)), b = two ? ids_of(root, lsecond(args)) : 1;
    PGFunction call = address_of(function);

    if (a < 0 || b < 0)
        return -1;
    if (call == idset_intersect)
        return common_ids(root, args, a, b);
    if (call == idset_unite || call == idset_symmetric_difference || call == idset_add)
        return a + b;
    if (call == idset_range || call == idset_slice)
        return between_constants(args) < 0 ? a : Min(a, between_constants(args));
    return call == idset_subtract || call == idset_remove ? a : -1;
}

/* How many ids the sets of an expression have on average, or -1 if nothing is known. */
double ids_of(PlannerInfo *root, Node *node)
{
    PlannerInfo *query = root;
    known_sets known;
    Node *column;

    if (IsA(node, Const) && is_set(node)) {
        Datum value = ((Const *)node)->constvalue;
        bitpacking_set set = BITPACKING_SET_EMPTY;

        if (!((Const *)node)->constisnull)
            set = opened(PG_DETOAST_DATUM_PACKED(value));
        return (double)bitpacking_set_len(&set);
    }
    if (!root || !is_set(node))
        return -1;
    column = column_of(&query, node);
    if (column)
        return ids_of(query, column);
    if (is_opclause(node) || is_funcclause(node)) {
        Oid function = is_opclause(node) ? ((OpExpr *)node)->opfuncid : ((FuncExpr *)node)->funcid;
        List *args = is_opclause(node) ? ((OpExpr *)node)->args : ((FuncExpr *)node)->args;
        double ids = args ? ids_of_call(root, function, args) : -1;

        if (ids >= 0)
            return ids;
    }
    if (!get_known(root, node, 0, &known))
        return -1;
    free_known(&known);
    return known.ids;
}
