/* What the planner asks of a function of sets: how many rows it returns, what it costs, and for what share of rows it is true. */
#include "planner.h"

#include "access/htup_details.h"
#include "catalog/pg_proc.h"
#include "nodes/nodeFuncs.h"
#include "nodes/supportnodes.h"
#include "optimizer/optimizer.h"
#include "utils/syscache.h"

/* The cost of an id, in that of an operator: if a set is read, and if one is written or aggregated. */
#define READ_ID 0.25
#define WRITTEN_ID 1.0

static List *args_of(Node *node)
{
    return is_opclause(node) ? ((OpExpr *)node)->args : is_funcclause(node) ? ((FuncExpr *)node)->args : NIL;
}

/* The sets of an aggregate, which the planner asks of without them, or NIL. */
static List *args_of_aggregate(PlannerInfo *root, Oid function)
{
    ListCell *it;

    foreach (it, root ? root->aggtransinfos : NIL) {
        AggTransInfo *aggregate = lfirst(it);

        if (aggregate->transfn_oid == function && aggregate->args)
            return list_make1(((TargetEntry *)linitial(aggregate->args))->expr);
    }
    return NIL;
}

/* How many ids a call reads. Constants and parameters are opened once. */
static double ids_read(PlannerInfo *root, List *args, bool all)
{
    double sum = 0;
    ListCell *it;

    foreach (it, args) {
        Node *node = lfirst(it);

        if (is_set(node) && (all || !(IsA(node, Const) || IsA(node, Param))))
            sum += Max(ids_of(root, node), 0);
    }
    return sum;
}

/* The cost of a function without its ids, in that of an operator. */
static double usual_cost(Oid function)
{
    HeapTuple row = SearchSysCache1(PROCOID, ObjectIdGetDatum(function));
    double cost = HeapTupleIsValid(row) ? ((Form_pg_proc)GETSTRUCT(row))->procost : 1;

    if (HeapTupleIsValid(row))
        ReleaseSysCache(row);
    return cost;
}

static bool get_rows(SupportRequestRows *asked)
{
    List *args = args_of(asked->node);
    double ids = args ? ids_of(asked->root, linitial(args)) : -1;

    if (ids >= 0)
        asked->rows = ids;
    return ids >= 0;
}

static bool get_cost(SupportRequestCost *asked)
{
    bool writes = !asked->node || is_set(asked->node);
    List *args = asked->node ? args_of(asked->node) : args_of_aggregate(asked->root, asked->funcid);

    asked->startup = 0;
    asked->per_tuple = cpu_operator_cost * (usual_cost(asked->funcid) + (writes ? WRITTEN_ID : READ_ID) * ids_read(asked->root, args, writes));
    return true;
}

static bool get_share(SupportRequestSelectivity *asked)
{
    double share = share_of_rows(asked->root, asked->funcid, asked->args, asked->varRelid);

    if (share >= 0)
        asked->selectivity = share;
    return share >= 0;
}

PG_FUNCTION_INFO_V1(idset_support);
Datum idset_support(PG_FUNCTION_ARGS)
{
    Node *asked = (Node *)PG_GETARG_POINTER(0);
    bool answered = IsA(asked, SupportRequestRows) ? get_rows((SupportRequestRows *)asked)
        : IsA(asked, SupportRequestCost)           ? get_cost((SupportRequestCost *)asked)
        : IsA(asked, SupportRequestSelectivity)    ? get_share((SupportRequestSelectivity *)asked)
                                                   : false;

    PG_RETURN_POINTER(answered ? asked : NULL);
}

/* The name of this function in version 1.0. */
PG_FUNCTION_INFO_V1(idset_rows);
Datum idset_rows(PG_FUNCTION_ARGS) { return idset_support(fcinfo); }
