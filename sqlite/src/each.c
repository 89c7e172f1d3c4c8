/* idset_each(set [, low, high]): a table with a row for each id of a set, in order. It reads from the first id that the limits and the
 * conditions on the column id let through, to the last. */
#include "idset.h"

enum { PIECE = 1024 };
enum { ID, SET, LOW, HIGH };

/* The hidden columns of the arguments. Few tables have columns with these names, so that `ids` in a join is the column of the other table. */
#define COLUMNS "each_set BLOB HIDDEN, each_low INTEGER HIDDEN, each_high INTEGER HIDDEN"

/* The bits of idxNum: which values xFilter is given after the set, in this order. SQLite tests conditions on the id once more. */
enum { HAS_LOW = 1, HAS_HIGH = 2, FROM_ID = 4, TO_ID = 8, AT_ID = 16, WAYS = 5, HAS_NO_SET = 1 << WAYS };

/* The rows that SQLite's planner expects, of a set whose size it does not know, and what opening a set costs, in rows. */
enum { ROWS = 1000, ROWS_WITHIN = 100, OPENING = 50 };

typedef struct {
    sqlite3_vtab_cursor base;
    bitpacking_set set;
    uint8_t *bytes;
    size_t len;
    sqlite3_int64 limits[2];
    int way;
    size_t at, end;
    size_t from, count;
    uint32_t ids[PIECE];
} reading;

static int connect_each(sqlite3 *db, void *data, int count, const char *const *words, sqlite3_vtab **table, char **why)
{
    int status = sqlite3_declare_vtab(db, "CREATE TABLE idset_each(id INTEGER, " COLUMNS ")");

    (void)data, (void)count, (void)words, (void)why;
    if (status != SQLITE_OK)
        return status;
    if (!(*table = sqlite3_malloc64(sizeof **table)))
        return SQLITE_NOMEM;
    memset(*table, 0, sizeof **table);
    return sqlite3_vtab_config(db, SQLITE_VTAB_INNOCUOUS);
}

static int disconnect_each(sqlite3_vtab *table)
{
    sqlite3_free(table);
    return SQLITE_OK;
}

/* Fails with words, or for want of memory. */
static int refuse_each(sqlite3_vtab *table, char *why)
{
    sqlite3_free(table->zErrMsg);
    table->zErrMsg = why;
    return why ? SQLITE_ERROR : SQLITE_NOMEM;
}

/* The bit of idxNum for a condition, 0 for the set, or -1 if the condition is not used. */
static int way_of(int column, int operation)
{
    int is_equal = operation == SQLITE_INDEX_CONSTRAINT_EQ;

    if (column == SET || column == LOW || column == HIGH)
        return !is_equal ? -1 : column == SET ? 0 : column == LOW ? HAS_LOW : HAS_HIGH;
    if (column > ID)
        return -1;
    if (operation == SQLITE_INDEX_CONSTRAINT_GE || operation == SQLITE_INDEX_CONSTRAINT_GT)
        return FROM_ID;
    if (operation == SQLITE_INDEX_CONSTRAINT_LE || operation == SQLITE_INDEX_CONSTRAINT_LT)
        return TO_ID;
    return is_equal ? AT_ID : -1;
}

/* Tells the planner what the conditions that are used cost. */
static void estimate(sqlite3_index_info *plan)
{
    int both = (plan->idxNum & (HAS_LOW | FROM_ID)) && (plan->idxNum & (HAS_HIGH | TO_ID));

    plan->estimatedRows = plan->idxNum & AT_ID ? 1 : both ? ROWS_WITHIN : ROWS;
    plan->estimatedCost = OPENING + (double)plan->estimatedRows;
    plan->idxFlags = plan->idxNum & AT_ID ? SQLITE_INDEX_SCAN_UNIQUE : 0;
    plan->orderByConsumed = plan->nOrderBy == 1 && plan->aOrderBy[0].iColumn <= ID && !plan->aOrderBy[0].desc;
}

/* Chooses what is read. A plan without a set has the greatest cost: SQLite asks for one too for a part of an OR. */
static int choose_plan(sqlite3_vtab *table, sqlite3_index_info *plan)
{
    int found[WAYS + 1] = {-1, -1, -1, -1, -1, -1}, unusable = 0, count = 0, i, way, k;

    for (i = 0; i < plan->nConstraint; i++) {
        way = way_of(plan->aConstraint[i].iColumn, plan->aConstraint[i].op);
        for (k = 0; way > 0 && way >> k; k++)
            ;
        if (way >= 0 && plan->aConstraint[i].usable)
            found[way > 0 ? k : 0] = i;
        else if (way >= 0 && way <= HAS_HIGH)
            unusable = 1;
    }
    (void)table;
    if (unusable)
        return SQLITE_CONSTRAINT;
    if (found[0] < 0) {
        plan->idxNum = HAS_NO_SET;
        return SQLITE_OK;
    }
    for (k = 0; k <= WAYS; k++)
        if (found[k] >= 0) {
            plan->aConstraintUsage[found[k]].argvIndex = ++count;
            plan->aConstraintUsage[found[k]].omit = k <= 2;
            plan->idxNum |= k > 0 ? 1 << (k - 1) : 0;
        }
    estimate(plan);
    return SQLITE_OK;
}

static int open_each(sqlite3_vtab *table, sqlite3_vtab_cursor **cursor)
{
    reading *it = sqlite3_malloc64(sizeof *it);

    (void)table;
    if (!it)
        return SQLITE_NOMEM;
    memset(it, 0, offsetof(reading, ids));
    *cursor = &it->base;
    return SQLITE_OK;
}

static int close_each(sqlite3_vtab_cursor *cursor)
{
    sqlite3_free(((reading *)cursor)->bytes);
    sqlite3_free(cursor);
    return SQLITE_OK;
}

/* Opens a copy of a set. If the last rows had the same set, it is not tested again. */
static int open_set(reading *it, sqlite3_value *value)
{
    const void *bytes = sqlite3_value_type(value) == SQLITE_BLOB ? sqlite3_value_blob(value) : NULL;
    size_t len = (size_t)sqlite3_value_bytes(value);
    char room[WHY_ROOM];
    ptrdiff_t fault;

    if (sqlite3_value_type(value) != SQLITE_BLOB)
        return refuse_each(it->base.pVtab, sqlite3_mprintf("idset_each: argument 1 is not a blob, and so not a set"));
    if (!bytes && len > 0)
        return SQLITE_NOMEM;
    if (it->bytes && it->len == len && memcmp(it->bytes, bytes, len) == 0)
        return SQLITE_OK;
    if ((fault = bitpacking_set_open(bytes, len, &it->set)) < 0)
        return refuse_each(it->base.pVtab, sqlite3_mprintf("idset_each: argument 1 is not a set: %s", why_of(fault, room)));
    sqlite3_free(it->bytes);
    if (!(it->bytes = sqlite3_malloc64(len)))
        return SQLITE_NOMEM;
    memcpy(it->bytes, bytes, len);
    it->len = len;
    bitpacking_set_open_tested(it->bytes, len, &it->set);
    return SQLITE_OK;
}

/* Writes the integer at or below the number of a condition. Returns whether the condition has a number: SQLite alone tests others. */
static int bound_of(sqlite3_value *value, sqlite3_int64 *bound)
{
    int type = sqlite3_value_numeric_type(value);
    double number = type == SQLITE_FLOAT ? sqlite3_value_double(value) : 0;

    if (type == SQLITE_INTEGER)
        *bound = sqlite3_value_int64(value);
    else if (type == SQLITE_FLOAT)
        *bound = number < 0 ? -1 : number > UINT32_MAX ? (sqlite3_int64)UINT32_MAX + 1 : (sqlite3_int64)number;
    return type == SQLITE_INTEGER || type == SQLITE_FLOAT;
}

/* Reads the limits that were given as arguments. */
static int read_limits(reading *it, sqlite3_value **values)
{
    int k, at = 0;

    it->limits[0] = 0;
    it->limits[1] = UINT32_MAX;
    for (k = 0; k < 2; k++) {
        if (!(it->way & (k ? HAS_HIGH : HAS_LOW)))
            continue;
        if (sqlite3_value_numeric_type(values[at]) != SQLITE_INTEGER)
            return refuse_each(it->base.pVtab, sqlite3_mprintf("idset_each: argument %d is not an integer", k + 2));
        it->limits[k] = sqlite3_value_int64(values[at++]);
    }
    return SQLITE_OK;
}

/* Sets the positions of the rows: from the greatest of the lower limits to the least of the upper ones. */
static void set_positions(reading *it, sqlite3_value **conditions)
{
    sqlite3_int64 low = it->limits[0], high = it->limits[1], bound;
    int way;

    for (way = FROM_ID; way <= AT_ID; way *= 2) {
        if (!(it->way & way) || !bound_of(*conditions++, &bound))
            continue;
        if (way != TO_ID && bound > low)
            low = bound;
        if (way != FROM_ID && bound < high)
            high = bound;
    }
    it->at = rank_of(&it->set, low);
    it->end = high < low ? it->at : high >= UINT32_MAX ? bitpacking_set_len(&it->set) : rank_of(&it->set, high + 1);
}

/* Unpacks the ids from the row at hand on. */
static void read_piece(reading *it)
{
    size_t left = it->at < it->end ? it->end - it->at : 0;

    it->from = it->at;
    it->count = (size_t)bitpacking_set_slice(&it->set, it->at, it->ids, left < PIECE ? left : PIECE);
}

static int filter_each(sqlite3_vtab_cursor *cursor, int way, const char *name, int count, sqlite3_value **values)
{
    reading *it = (reading *)cursor;
    int given = 1 + !!(way & HAS_LOW) + !!(way & HAS_HIGH), status;

    (void)name, (void)count;
    it->way = way;
    it->at = it->end = 0;
    if (way == HAS_NO_SET)
        return refuse_each(cursor->pVtab, sqlite3_mprintf("idset_each: argument 1, a set, is missing"));
    if (has_null(given, values))
        return SQLITE_OK;
    status = open_set(it, values[0]);
    if (status == SQLITE_OK)
        status = read_limits(it, values + 1);
    if (status != SQLITE_OK)
        return status;
    set_positions(it, values + given);
    read_piece(it);
    return SQLITE_OK;
}

static int next_each(sqlite3_vtab_cursor *cursor)
{
    reading *it = (reading *)cursor;

    it->at++;
    if (it->at == it->from + it->count)
        read_piece(it);
    return SQLITE_OK;
}

static int is_after_each(sqlite3_vtab_cursor *cursor) { return ((reading *)cursor)->at >= ((reading *)cursor)->end; }

static int column_each(sqlite3_vtab_cursor *cursor, sqlite3_context *context, int column)
{
    reading *it = (reading *)cursor;

    if (column == ID)
        sqlite3_result_int64(context, it->ids[it->at - it->from]);
    else if (column == SET)
        sqlite3_result_blob64(context, it->bytes, it->len, SQLITE_TRANSIENT);
    else if (it->way & (column == LOW ? HAS_LOW : HAS_HIGH))
        sqlite3_result_int64(context, it->limits[column - LOW]);
    return SQLITE_OK;
}

static int rowid_each(sqlite3_vtab_cursor *cursor, sqlite3_int64 *row)
{
    *row = ((reading *)cursor)->ids[((reading *)cursor)->at - ((reading *)cursor)->from];
    return SQLITE_OK;
}

/* Without xCreate the table is there in each database, and no other can be made. */
const sqlite3_module idset_each = {
    .xConnect = connect_each,
    .xBestIndex = choose_plan,
    .xDisconnect = disconnect_each,
    .xOpen = open_each,
    .xClose = close_each,
    .xFilter = filter_each,
    .xNext = next_each,
    .xEof = is_after_each,
    .xColumn = column_each,
    .xRowid = rowid_each,
};
