/* The planner's questions.
 *
 * A row is found at once: one block is opened. A range of rows opens the blocks that it lies in, and a range of numbers
 * those whose smallest and largest number, as the contents say, leave room for one of them; in edition 1, whose
 * contents do not say that, every block. Where the bounds are known already, the blocks are counted. */
#include "plan.h"
#include "fascjoldi.h"
#include <string.h>

SQLITE_EXTENSION_INIT3

/* What it costs to open a block, where a row that is given costs 1. */
static const double OPENING = 50;

/* A comparison that is handed over. */
struct taken {
    const char *word; /* as in the text */
    enum column column;
    char comparison;
    bool or_equal;
};

static const struct taken all_taken[] = {
    {"row=", ROW, '=', false},
    {"row>=", ROW, '>', true},
    {"row>", ROW, '>', false},
    {"row<=", ROW, '<', true},
    {"row<", ROW, '<', false},
    {"value=", VALUE, '=', false},
    {"value>=", VALUE, '>', true},
    {"value>", VALUE, '>', false},
    {"value<=", VALUE, '<', true},
    {"value<", VALUE, '<', false},
};
enum { TAKEN = sizeof(all_taken) / sizeof(all_taken[0]) };

/* ---- which comparisons are taken */

/* The comparison that a constraint is; null where it is none that is taken. The rowid is the row. */
static const struct taken *taken_as(const struct sqlite3_index_constraint *constraint)
{
    enum column column = constraint->iColumn == VALUE ? VALUE : ROW;
    char comparison = 0;
    bool or_equal = false;
    if (!constraint->usable || constraint->iColumn > VALUE)
        return NULL;
    switch (constraint->op) {
    case SQLITE_INDEX_CONSTRAINT_EQ: comparison = '='; break;
    case SQLITE_INDEX_CONSTRAINT_GE: or_equal = true; /* fall through */
    case SQLITE_INDEX_CONSTRAINT_GT: comparison = '>'; break;
    case SQLITE_INDEX_CONSTRAINT_LE: or_equal = true; /* fall through */
    case SQLITE_INDEX_CONSTRAINT_LT: comparison = '<'; break;
    default: return NULL;
    }
    for (size_t i = 0; i < TAKEN; i++)
        if (all_taken[i].column == column && all_taken[i].comparison == comparison &&
            all_taken[i].or_equal == or_equal)
            return &all_taken[i];
    return NULL;
}

/* What is known of a plan: which sorts of comparisons it has, and the bounds as far as they are numbers that stand in
 * the query itself. */
struct plan {
    bool has_row, one_row, has_value, one_value;
    struct asked asked;
    bool rows_known, values_known;
};

/* The number that a constraint compares with; null where it is none, or is not known. Before SQLite 3.38 none is. */
static sqlite3_value *known_number(sqlite3_index_info *info, int which)
{
#if SQLITE_VERSION_NUMBER >= 3038000
    sqlite3_value *with = NULL;
    if (sqlite3_libversion_number() < 3038000 || sqlite3_vtab_rhs_value(info, which, &with) != SQLITE_OK)
        return NULL;
    int type = with == NULL ? SQLITE_NULL : sqlite3_value_type(with);
    return type == SQLITE_INTEGER || type == SQLITE_FLOAT ? with : NULL;
#else
    (void)info;
    (void)which;
    return NULL;
#endif
}

/* Takes a constraint into account. */
static void take(struct plan *plan, sqlite3_index_info *info, int which, const struct taken *one)
{
    sqlite3_value *with = known_number(info, which);
    bool is_row = one->column == ROW;
    if (with == NULL)
        *(is_row ? &plan->rows_known : &plan->values_known) = false;
    else
        bounds_take(is_row ? &plan->asked.rows : &plan->asked.values, one->comparison, one->or_equal, with);
    plan->has_row = plan->has_row || is_row;
    plan->has_value = plan->has_value || !is_row;
    plan->one_row = plan->one_row || (is_row && one->comparison == '=');
    plan->one_value = plan->one_value || (!is_row && one->comparison == '=');
}

/* ---- what it costs */

struct cost {
    double blocks, rows;
};

/* The blocks of all files in which a search between known bounds could find something, and the most rows they have. */
static struct cost met(const struct version *version, const struct asked *asked)
{
    struct cost cost = {0, 0};
    if (asked->values.is_none || asked->rows.is_none)
        return cost;
    for (size_t i = 0; i < version->count; i++) {
        const struct part *part = &version->parts[i];
        for (size_t block = 0; block < part->blocks; block++) {
            uint64_t first = version->before[i] + BLOCK * (uint64_t)block;
            if (first > asked->rows.high || first + (BLOCK - 1) < asked->rows.low)
                continue;
            if (!fascjoldi_search_opens(
                    part->front, part->front_length, block, asked->values.low, asked->values.high))
                continue;
            cost.blocks++;
            cost.rows += BLOCK;
        }
    }
    return cost;
}

/* Of rows that are asked for by bounds which are not known, this part is thought to be meant. */
static double guessed(bool is_there, bool is_known, bool is_one, double one)
{
    return !is_there || is_known ? 1 : is_one ? one : 0.2;
}

static struct cost cost_of(const struct plan *plan, const struct version *version)
{
    struct cost cost = {1000, 1000000};
    double part = guessed(plan->has_row, plan->rows_known, false, 0) *
                  guessed(plan->has_value, plan->values_known, plan->one_value, 0.02);
    if (plan->one_row)
        return (struct cost){1, 1};
    if (version != NULL)
        cost = met(version, &plan->asked);
    cost.blocks *= part;
    cost.rows *= part;
    /* Of the rows of the blocks that are opened not all have such a number, and of a row range not all blocks are
     * whole. */
    if (plan->has_value)
        cost.rows *= plan->one_value ? 0.1 : 0.5;
    if (plan->has_row && plan->rows_known && plan->asked.rows.high - plan->asked.rows.low < cost.rows)
        cost.rows = (double)(plan->asked.rows.high - plan->asked.rows.low) + 1;
    return cost;
}

/* ---- the text */

/* In edition 1 alone every block is opened. */
static bool has_ranges(const struct version *version)
{
    for (size_t i = 0; version != NULL && i < version->count; i++)
        if (version->parts[i].edition == 2)
            return true;
    return false;
}

static const char *words_of(const struct plan *plan, const struct version *version)
{
    if (plan->one_row)
        return "one row";
    if (plan->has_value && !has_ranges(version))
        return plan->has_row ? "values in a range of rows, every block of it" : "values, every block";
    if (plan->has_value)
        return plan->has_row ? "values in a range of rows, blocks whose range meets them"
                             : "values, blocks whose range meets them";
    return plan->has_row ? "a range of rows" : "every row";
}

/* Hands the constraints over that are taken, and gives their words; null where there is no room. A row that is named
 * needs nothing else: SQLite looks at the other comparisons itself. */
static char *hand_over(sqlite3_index_info *info, const struct plan *plan)
{
    sqlite3_str *text = sqlite3_str_new(NULL);
    int count = 0;
    for (int i = 0; i < info->nConstraint; i++) {
        const struct taken *one = taken_as(&info->aConstraint[i]);
        if (one == NULL || (plan->one_row && strcmp(one->word, "row=") != 0))
            continue;
        info->aConstraintUsage[i].argvIndex = ++count;
        sqlite3_str_appendf(text, "%s%s", count == 1 ? ": " : " ", one->word);
    }
    return sqlite3_str_finish(text);
}

int plan_choose(sqlite3_index_info *info, const struct version *version)
{
    struct plan plan = {.asked = {bounds_all(), bounds_all(), false}, .rows_known = true, .values_known = true};
    for (int i = 0; i < info->nConstraint; i++) {
        const struct taken *one = taken_as(&info->aConstraint[i]);
        if (one != NULL)
            take(&plan, info, i, one);
    }
    struct cost cost = cost_of(&plan, version);
    bool has_words = plan.has_row || plan.has_value;
    char *words = has_words ? hand_over(info, &plan) : NULL;
    if (has_words && words == NULL)
        return SQLITE_NOMEM;
    info->idxStr = sqlite3_mprintf("%s%s", words_of(&plan, version), has_words ? words : "");
    sqlite3_free(words);
    if (info->idxStr == NULL)
        return SQLITE_NOMEM;
    info->needToFreeIdxStr = 1;
    info->estimatedCost = 1 + cost.blocks * OPENING + cost.rows;
    info->estimatedRows = (sqlite3_int64)cost.rows + 1;
    if (plan.one_row)
        info->idxFlags = SQLITE_INDEX_SCAN_UNIQUE;
    /* The rows come rising, and no two are the same. */
    info->orderByConsumed =
        info->nOrderBy > 0 && info->aOrderBy[0].iColumn <= ROW && !info->aOrderBy[0].desc;
    return SQLITE_OK;
}

/* ---- what comes back */

/* The comparisons that stand in a text behind its last ": ". */
static const char *words_in(const char *text)
{
    const char *found = NULL;
    for (const char *at = strstr(text, ": "); at != NULL; at = strstr(at + 2, ": "))
        found = at + 2;
    return found == NULL ? "" : found;
}

static const struct taken *taken_by(const char *word, size_t length)
{
    for (size_t i = 0; i < TAKEN; i++)
        if (strlen(all_taken[i].word) == length && memcmp(all_taken[i].word, word, length) == 0)
            return &all_taken[i];
    return NULL;
}

struct asked plan_asked(const char *text, int count, sqlite3_value **given)
{
    struct asked asked = {bounds_all(), bounds_all(), false};
    const char *at = words_in(text == NULL ? "" : text);
    for (int i = 0; i < count && *at != 0; i++) {
        size_t length = strcspn(at, " ");
        const struct taken *one = taken_by(at, length);
        if (one != NULL)
            bounds_take(one->column == ROW ? &asked.rows : &asked.values, one->comparison, one->or_equal, given[i]);
        asked.by_value = asked.by_value || (one != NULL && one->column == VALUE);
        at += length;
        at += strspn(at, " ");
    }
    return asked;
}
