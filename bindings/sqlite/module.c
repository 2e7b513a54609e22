/* Column files as tables of SQLite.
 *
 *     CREATE VIRTUAL TABLE path USING column_file('path.col');
 *
 * The table has the columns row and value, and the hidden column digits, which is the number as text. Several files
 * that are named one after another are one column, and their rows are counted on. It can only be read.
 *
 * What is proved and what is not. Every decision on what a file is like, which blocks a search opens, which rows lie
 * between two bounds and what stands at a place is that of a function of the library, whose outcome is proved for every
 * input (include/fascjoldi.h). Not proved, and tested, is what stands between: that the files are read, that a
 * comparison of SQL becomes bounds (bounds.c), that the rows of several files are counted on, and what SQLite is told
 * (plan.c).
 *
 * A query keeps the contents of the files as they were when it began. Where a file is replaced or changed before the
 * query has read from it all that it needs, that is an error; the next query has the new file. */
#include "fascjoldi.h"
#include "plan.h"
#include <string.h>

SQLITE_EXTENSION_INIT1

struct table {
    sqlite3_vtab base;
    char *name;
    char **names;
    size_t count;
    struct version *version; /* of the last query, or null */
};

struct cursor {
    sqlite3_vtab_cursor base;
    struct version *version;
    struct reader reader;
    struct asked asked;
    uint64_t row; /* where it is, counted through all files, */
    bool at_end;
    size_t part; /* the file that this is in, */
    size_t next_block; /* and where the search goes on in it */
    uint64_t *numbers; /* of the block that was opened last, */
    size_t opened_part, opened_block;
    bool is_opened;
    uint64_t *found; /* and the rows of it that a search gives */
    size_t found_count, found_next;
    uint8_t *digits; /* of a number */
};

enum { DIGITS_MOST = 20 };

/* ---- complaints */

static int complain(sqlite3_vtab *base, char *why)
{
    if (why == NULL)
        return SQLITE_NOMEM;
    sqlite3_free(base->zErrMsg);
    base->zErrMsg = why;
    return SQLITE_ERROR;
}

/* ---- the table */

/* The text of an argument, without the quotes that may stand around it; null where there is no room. */
static char *unquoted(const char *word)
{
    static const char opening[] = "'\"`[", closing[] = "'\"`]";
    word += strspn(word, " \t\r\n");
    size_t length = strlen(word);
    while (length > 0 && strchr(" \t\r\n", word[length - 1]) != NULL)
        length--;
    char *text = room_for(length + 1, 1);
    const char *quote = length == 0 ? NULL : strchr(opening, word[0]);
    if (text == NULL)
        return NULL;
    if (quote == NULL) {
        memcpy(text, word, length);
        return text;
    }
    char end = closing[quote - opening];
    size_t to = 0;
    for (size_t i = 1; i < length; i++) {
        if (word[i] == end && !(i + 1 < length && word[i + 1] == end && end != ']'))
            break;
        if (word[i] == end)
            i++;
        text[to++] = word[i];
    }
    text[to] = 0;
    return text;
}

static void table_free(struct table *table)
{
    version_drop(table->version);
    for (size_t i = 0; table->names != NULL && i < table->count; i++)
        sqlite3_free(table->names[i]);
    sqlite3_free(table->names);
    sqlite3_free(table->name);
    sqlite3_free(table);
}

/* The names of the files, which stand behind the module, the database and the table. */
static int take_names(struct table *table, int count, const char *const *words, char **why)
{
    enum { BEFORE = 3 };
    if (count <= BEFORE) {
        *why = sqlite3_mprintf("column_file takes the names of files, as in column_file('path.col')");
        return *why == NULL ? SQLITE_NOMEM : SQLITE_ERROR;
    }
    table->name = sqlite3_mprintf("%s", words[BEFORE - 1]);
    table->count = (size_t)(count - BEFORE);
    table->names = room_for(table->count, sizeof(char *));
    if (table->name == NULL || table->names == NULL)
        return SQLITE_NOMEM;
    for (size_t i = 0; i < table->count; i++) {
        table->names[i] = unquoted(words[BEFORE + i]);
        if (table->names[i] == NULL)
            return SQLITE_NOMEM;
        if (table->names[i][0] == 0) {
            *why = sqlite3_mprintf("column_file: the name of a file is empty");
            return *why == NULL ? SQLITE_NOMEM : SQLITE_ERROR;
        }
    }
    return SQLITE_OK;
}

/* A table that is there already is connected to whatever its files are, so that it can be dropped: a query says what is
 * wrong with them. */
static int column_connect(
    sqlite3 *db, void *with, int count, const char *const *words, sqlite3_vtab **to, char **why)
{
    (void)with;
    struct table *table = room_for(1, sizeof(struct table));
    if (table == NULL)
        return SQLITE_NOMEM;
    int answer = take_names(table, count, words, why);
    if (answer == SQLITE_OK)
        answer = sqlite3_declare_vtab(db, "CREATE TABLE column_file(row INTEGER, value INTEGER, digits TEXT HIDDEN)");
    if (answer != SQLITE_OK) {
        table_free(table);
        return answer;
    }
    *to = &table->base;
    return SQLITE_OK;
}

/* The files as they are now, for a query; null where the complaint is made. */
static struct version *version_for(struct table *table, int *answer)
{
    char *why;
    struct version *version = version_now(table->version, table->names, table->count, &why);
    if (version == NULL) {
        *answer = complain(&table->base, why);
        return NULL;
    }
    if (version != table->version) {
        version_drop(table->version);
        version->users++;
        table->version = version;
    }
    return version;
}

/* A new table is refused where one of its files is. */
static int column_create(
    sqlite3 *db, void *with, int count, const char *const *words, sqlite3_vtab **to, char **why)
{
    int answer = column_connect(db, with, count, words, to, why);
    if (answer != SQLITE_OK)
        return answer;
    struct table *table = (struct table *)*to;
    struct version *version = version_for(table, &answer);
    if (version == NULL) {
        *why = table->base.zErrMsg;
        table_free(table);
        *to = NULL;
        return answer;
    }
    version_drop(version);
    return SQLITE_OK;
}

static int column_disconnect(sqlite3_vtab *base)
{
    table_free((struct table *)base);
    return SQLITE_OK;
}

/* Where the files cannot be read, the plan is made without them: the query says why when it begins. */
static int column_best_index(sqlite3_vtab *base, sqlite3_index_info *info)
{
    struct table *table = (struct table *)base;
    if (table->version == NULL) {
        char *why;
        table->version = version_now(NULL, table->names, table->count, &why);
        sqlite3_free(why);
    }
    return plan_choose(info, table->version);
}

/* ---- the cursor */

static void cursor_free(struct cursor *cursor)
{
    reader_close(&cursor->reader);
    version_drop(cursor->version);
    sqlite3_free(cursor->reader.body);
    sqlite3_free(cursor->numbers);
    sqlite3_free(cursor->found);
    sqlite3_free(cursor->digits);
    sqlite3_free(cursor);
}

static int column_open(sqlite3_vtab *base, sqlite3_vtab_cursor **to)
{
    int answer = SQLITE_NOMEM;
    struct cursor *cursor = room_for(1, sizeof(struct cursor));
    if (cursor == NULL)
        return SQLITE_NOMEM;
    cursor->reader.fd = -1;
    cursor->reader.body = room_for(LONGEST_BODY, 1);
    cursor->numbers = room_for(BLOCK, sizeof(uint64_t));
    cursor->found = room_for(BLOCK, sizeof(uint64_t));
    cursor->digits = room_for(DIGITS_MOST, 1);
    if (cursor->reader.body != NULL && cursor->numbers != NULL && cursor->found != NULL && cursor->digits != NULL)
        cursor->version = version_for((struct table *)base, &answer);
    if (cursor->version == NULL) {
        cursor_free(cursor);
        return answer;
    }
    *to = &cursor->base;
    return SQLITE_OK;
}

static int column_close(sqlite3_vtab_cursor *base)
{
    cursor_free((struct cursor *)base);
    return SQLITE_OK;
}

/* Opens a block, unless it is the one that was opened last. */
static bool open_block(struct cursor *cursor, size_t part, size_t block, char **why)
{
    *why = NULL;
    if (cursor->is_opened && cursor->opened_part == part && cursor->opened_block == block)
        return true;
    cursor->is_opened = false;
    if (!reader_block(&cursor->reader, cursor->version, part, block, cursor->numbers, why))
        return false;
    cursor->is_opened = true;
    cursor->opened_part = part;
    cursor->opened_block = block;
    return true;
}

/* ---- by rows */

/* The file of the row, which is not before the one that it was in. */
static void follow_row(struct cursor *cursor)
{
    while (cursor->row >= cursor->version->before[cursor->part + 1])
        cursor->part++;
}

static void next_row(struct cursor *cursor)
{
    cursor->at_end = cursor->row >= cursor->asked.rows.high;
    if (cursor->at_end)
        return;
    cursor->row++;
    follow_row(cursor);
}

/* ---- by values */

/* Lists the rows of the next block whose numbers lie between the bounds. */
static bool search_block(struct cursor *cursor, size_t block, char **why)
{
    size_t opened, place;
    if (!open_block(cursor, cursor->part, block, why))
        return false;
    cursor->found_next = 0;
    fascjoldi_search_rows(cursor->numbers, BLOCK, block, cursor->asked.values.low, cursor->asked.values.high,
        cursor->found, BLOCK, &cursor->found_count, &opened, &place);
    return true;
}

/* Goes on to the next block that the search opens, from file to file; at the end there is none. */
static bool next_block(struct cursor *cursor, char **why)
{
    const struct version *version = cursor->version;
    cursor->found_count = cursor->found_next = 0;
    for (; cursor->part < version->count; cursor->part++, cursor->next_block = 0) {
        const struct part *part = &version->parts[cursor->part];
        while (cursor->next_block < part->blocks) {
            size_t block = cursor->next_block++;
            if (version->before[cursor->part] + BLOCK * (uint64_t)block > cursor->asked.rows.high)
                break;
            if (fascjoldi_search_opens(
                    part->front, part->front_length, block, cursor->asked.values.low, cursor->asked.values.high))
                return search_block(cursor, block, why);
        }
    }
    cursor->at_end = true;
    return true;
}

static bool next_found(struct cursor *cursor, char **why)
{
    for (;;) {
        while (cursor->found_next < cursor->found_count) {
            cursor->row = cursor->version->before[cursor->part] + cursor->found[cursor->found_next++];
            if (cursor->row > cursor->asked.rows.high)
                cursor->at_end = true;
            if (cursor->row >= cursor->asked.rows.low)
                return true;
        }
        if (!next_block(cursor, why))
            return false;
        if (cursor->at_end)
            return true;
    }
}

/* ---- what SQLite calls */

static int column_next(sqlite3_vtab_cursor *base)
{
    struct cursor *cursor = (struct cursor *)base;
    char *why = NULL;
    if (!cursor->asked.by_value)
        next_row(cursor);
    else if (!next_found(cursor, &why))
        return complain(base->pVtab, why);
    return SQLITE_OK;
}

static int column_filter(
    sqlite3_vtab_cursor *base, int number, const char *text, int count, sqlite3_value **given)
{
    struct cursor *cursor = (struct cursor *)base;
    const struct version *version = cursor->version;
    uint64_t rows = version->before[version->count];
    char *why = NULL;
    (void)number;
    cursor->asked = plan_asked(text, count, given);
    cursor->at_end = cursor->asked.rows.is_none || cursor->asked.values.is_none || cursor->asked.rows.low >= rows;
    if (cursor->at_end)
        return SQLITE_OK;
    if (cursor->asked.rows.high >= rows)
        cursor->asked.rows.high = rows - 1;
    cursor->row = cursor->asked.rows.low;
    cursor->part = version_part_of(version, cursor->row);
    if (!cursor->asked.by_value)
        return SQLITE_OK;
    cursor->next_block = (size_t)((cursor->row - version->before[cursor->part]) / BLOCK);
    cursor->found_count = cursor->found_next = 0;
    return next_found(cursor, &why) ? SQLITE_OK : complain(base->pVtab, why);
}

static int column_eof(sqlite3_vtab_cursor *base)
{
    return ((struct cursor *)base)->at_end;
}

static int column_rowid(sqlite3_vtab_cursor *base, sqlite3_int64 *row)
{
    *row = (sqlite3_int64)((struct cursor *)base)->row;
    return SQLITE_OK;
}

/* The number at the row where the cursor is. */
static bool number_here(struct cursor *cursor, uint64_t *number, char **why)
{
    uint64_t row = cursor->row - cursor->version->before[cursor->part];
    size_t block = (size_t)(row / BLOCK);
    if (!open_block(cursor, cursor->part, block, why))
        return false;
    *number = cursor->numbers[fascjoldi_summary_place_in(row, block) % BLOCK];
    return true;
}

static void give_value(sqlite3_context *context, const struct cursor *cursor, uint64_t number)
{
    if (number <= INT64_MAX) {
        sqlite3_result_int64(context, (sqlite3_int64)number);
        return;
    }
    char *why = sqlite3_mprintf("row %llu of %s is %llu, which is above 9223372036854775807 and so no integer of "
                                "SQLite; the hidden column digits has it as text",
        (sqlite3_uint64)cursor->row, ((struct table *)cursor->base.pVtab)->name, (sqlite3_uint64)number);
    if (why == NULL)
        sqlite3_result_error_nomem(context);
    else
        sqlite3_result_error(context, why, -1);
    sqlite3_free(why);
}

static void give_digits(sqlite3_context *context, const struct cursor *cursor, uint64_t number)
{
    size_t length = fascjoldi_decimal_lay(number, cursor->digits, DIGITS_MOST);
    sqlite3_result_text(context, (const char *)cursor->digits, (int)length, SQLITE_TRANSIENT);
}

static int column_column(sqlite3_vtab_cursor *base, sqlite3_context *context, int which)
{
    struct cursor *cursor = (struct cursor *)base;
    uint64_t number;
    char *why = NULL;
    if (which == ROW) {
        sqlite3_result_int64(context, (sqlite3_int64)cursor->row);
        return SQLITE_OK;
    }
    if (!number_here(cursor, &number, &why)) {
        if (why == NULL)
            sqlite3_result_error_nomem(context);
        else
            sqlite3_result_error(context, why, -1);
        sqlite3_free(why);
        return SQLITE_OK;
    }
    if (which == VALUE)
        give_value(context, cursor, number);
    else
        give_digits(context, cursor, number);
    return SQLITE_OK;
}

/* Create and connect are two functions, so there is no table of the module's own name. Without an update the table can
 * only be read. */
static const sqlite3_module module = {
    .iVersion = 1,
    .xCreate = column_create,
    .xConnect = column_connect,
    .xBestIndex = column_best_index,
    .xDisconnect = column_disconnect,
    .xDestroy = column_disconnect,
    .xOpen = column_open,
    .xClose = column_close,
    .xFilter = column_filter,
    .xNext = column_next,
    .xEof = column_eof,
    .xColumn = column_column,
    .xRowid = column_rowid,
};

__attribute__((visibility("default"))) int sqlite3_fascjoldisqlite_init(
    sqlite3 *db, char **why, const sqlite3_api_routines *api);

int sqlite3_fascjoldisqlite_init(sqlite3 *db, char **why, const sqlite3_api_routines *api)
{
    SQLITE_EXTENSION_INIT2(api);
    if (sqlite3_libversion_number() < 3024000) {
        *why = sqlite3_mprintf("column_file needs SQLite 3.24 or later, and this is %s", sqlite3_libversion());
        return SQLITE_ERROR;
    }
    return sqlite3_create_module_v2(db, "column_file", &module, NULL, NULL);
}
