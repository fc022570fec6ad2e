/* fuzzydate.c: reminder phrases in SQLite, over fuzzy.h. README.md says what each function takes and gives. Nothing is kept and no
 * clock is read: an answer depends on the arguments alone, so that it may stand in an index or a generated column. */
#include "fuzzy.h"
#include "moments.h"
#include "refused.h"

#include <sqlite3ext.h>
SQLITE_EXTENSION_INIT1

#include <stdio.h>
#include <string.h>

#define MOST_PARAMETERS 4

/* What an argument is for. */
enum kind { READING, PHRASE, NOW, READY, ZONE, INSTANT, RULE, START, ASKED, MOST, STAMP, MOMENT, NUMBER };

/* How an argument is named in errors, and of which type it must be. */
static const struct parameter {
    const char *name;
    int type;
} parameters[] = {
    [READING] = {"reading", SQLITE_INTEGER},
    [PHRASE] = {"phrase", SQLITE_TEXT},
    [NOW] = {"now", SQLITE_TEXT},
    [READY] = {"ready", SQLITE_BLOB},
    [ZONE] = {"zone", SQLITE_BLOB},
    [INSTANT] = {"instant", SQLITE_TEXT},
    [RULE] = {"rule", SQLITE_TEXT},
    [START] = {"start", SQLITE_TEXT},
    [ASKED] = {"asked", SQLITE_TEXT},
    [MOST] = {"most", SQLITE_INTEGER},
    [STAMP] = {"text", SQLITE_TEXT},
    [MOMENT] = {"moment", SQLITE_TEXT},
    [NUMBER] = {"number", SQLITE_INTEGER},
};

/* An argument in the types of fuzzy.h. */
struct argument {
    const char *text;
    uint64_t length;
    uint32_t reading;
    struct fuzzy_moment moment;
    int64_t second;
    uint32_t millisecond;
    int other_form;
};

/* What a call gives back: a text, or a blob. */
struct result {
    int type;
    size_t length;
    char bytes[FUZZY_READY_SIZE];
};

/* A call that was made: with what, what it gave, and the library's answer. */
struct made {
    struct argument given[MOST_PARAMETERS];
    struct result result;
    uint64_t answer;
};

/* A function of SQL: its name, its parameters, and the call that it makes. The answer is fuzzy.h's. */
struct call {
    const char *name;
    int count;
    enum kind takes[MOST_PARAMETERS];
    uint64_t (*make)(const struct argument *given, struct result *result);
};

/* An argument of the right type. A reading that has no 32 bits stands for 0, which is none. A text that is not a moment stands for
 * zeros, and one that is not an instant for a millisecond too many: the library refuses both with 8, when no other reason comes first. */
static void take_argument(enum kind kind, sqlite3_value *value, struct argument *given) {
    memset(given, 0, sizeof *given);
    if (parameters[kind].type == SQLITE_INTEGER) {
        int64_t number = sqlite3_value_int64(value);
        given->reading = number < 0 || number > UINT32_MAX ? 0 : (uint32_t)number;
        return;
    }
    given->text = parameters[kind].type == SQLITE_TEXT ? (const char *)sqlite3_value_text(value) : sqlite3_value_blob(value);
    given->length = given->text == NULL ? 0 : (uint64_t)sqlite3_value_bytes(value);
    given->millisecond = 1000;
    if (kind == NOW || kind == START || kind == ASKED || kind == MOMENT) {
        given->other_form = !read_moment(given->text, given->length, &given->moment);
    } else if (kind == INSTANT) {
        given->other_form = !read_instant(given->text, given->length, &given->second, &given->millisecond);
    }
}

static void give_text(struct result *result, const char *text, size_t length) {
    result->type = SQLITE_TEXT;
    result->length = length;
    memcpy(result->bytes, text, length);
}

static void give_moment(struct result *result, const struct fuzzy_moment *moment) {
    char text[MOMENT_SIZE];
    give_text(result, text, write_moment(moment, text));
}

/* An instant is given as a moment in UTC. One that has none in the years 1 to 9999 has no text: it is refused with 12. */
static uint64_t give_instant(struct result *result, int64_t second, uint32_t millisecond) {
    struct fuzzy_moment moment;
    if (!moment_in_utc(second, millisecond, &moment)) return FUZZY_OUTSIDE;
    give_moment(result, &moment);
    return 0;
}

static uint64_t make_read(const struct argument *given, struct result *result) {
    struct fuzzy_moment moment;
    uint64_t answer = fuzzy_read(given[0].reading, given[1].text, given[1].length, &given[2].moment, &moment);
    if (fuzzy_ok(answer)) give_moment(result, &moment);
    return answer;
}

static uint64_t make_ready(const struct argument *given, struct result *result) {
    uint64_t answer = fuzzy_make_ready(given[0].reading, given[1].text, given[1].length, (uint8_t *)result->bytes);
    result->type = SQLITE_BLOB;
    result->length = fuzzy_length(answer);
    return answer;
}

static uint64_t make_run(const struct argument *given, struct result *result) {
    struct fuzzy_moment moment;
    uint64_t answer = fuzzy_run((const uint8_t *)given[0].text, given[0].length, &given[1].moment, &moment);
    if (fuzzy_ok(answer)) give_moment(result, &moment);
    return answer;
}

static uint64_t make_next(const struct argument *given, struct result *result) {
    struct fuzzy_moment moment;
    uint64_t answer = fuzzy_next(given[0].text, given[0].length, &given[1].moment, &given[2].moment, &moment);
    if (fuzzy_ok(answer)) give_moment(result, &moment);
    return answer;
}

/* Whether a rule has occurrences from a start on; they are the table's to give. */
static uint64_t make_list(const struct argument *given, struct result *result) {
    struct fuzzy_moment moment;
    uint64_t answer = fuzzy_list(given[0].text, given[0].length, &given[1].moment, &moment, 1);
    if (fuzzy_ok(answer)) give_moment(result, &moment);
    return answer;
}

static uint64_t make_read_in_zone(const struct argument *given, struct result *result) {
    struct fuzzy_local local;
    int64_t due;
    uint64_t answer = fuzzy_read_in_zone(given[0].reading, given[1].text, given[1].length, (const uint8_t *)given[2].text, given[2].length,
                                         given[3].second, given[3].millisecond, &due, &local);
    return fuzzy_ok(answer) ? give_instant(result, due, local.moment.millisecond) : answer;
}

/* Runs a ready phrase in given[0], a zone, at given[1], an instant. */
static uint64_t run_in_zone(const char *ready, uint64_t length, const struct argument *given, int64_t *due, struct fuzzy_local *local) {
    return fuzzy_run_in_zone((const uint8_t *)ready, length, (const uint8_t *)given[0].text, given[0].length, given[1].second,
                             given[1].millisecond, due, local);
}

static uint64_t make_run_in_zone(const struct argument *given, struct result *result) {
    struct fuzzy_local local;
    int64_t due;
    uint64_t answer = run_in_zone(given[0].text, given[0].length, given + 1, &due, &local);
    return fuzzy_ok(answer) ? give_instant(result, due, local.moment.millisecond) : answer;
}

/* What a zone's clocks show at an instant: there, "now" is the instant itself. */
static uint64_t make_local(const struct argument *given, struct result *result) {
    uint8_t ready[FUZZY_READY_SIZE];
    struct fuzzy_local local;
    int64_t due;
    uint64_t made = fuzzy_make_ready(FUZZY_FIRST, "now", 3, ready);
    uint64_t answer = run_in_zone((const char *)ready, fuzzy_length(made), given, &due, &local);
    if (fuzzy_ok(answer)) give_moment(result, &local.moment);
    return answer;
}

static uint64_t make_stamp(const struct argument *given, struct result *result) {
    struct fuzzy_stamp stamp;
    char text[FUZZY_STAMP_SIZE];
    uint64_t answer = fuzzy_read_stamp(given[0].text, given[0].length, &stamp);
    if (!fuzzy_ok(answer)) return answer;
    answer = fuzzy_write_stamp(&stamp, text, sizeof text);
    if (fuzzy_ok(answer)) give_text(result, text, fuzzy_length(answer));
    return answer;
}

static uint64_t make_read_stamp(const struct argument *given, struct result *result) {
    struct fuzzy_stamp stamp;
    uint64_t answer = fuzzy_read_stamp(given[0].text, given[0].length, &stamp);
    if (fuzzy_ok(answer)) give_moment(result, &stamp.moment);
    return answer;
}

static uint64_t make_show(const struct argument *given, struct result *result) {
    char text[FUZZY_PHRASE_SIZE];
    uint64_t answer = fuzzy_write_phrase(&given[0].moment, text, sizeof text);
    if (fuzzy_ok(answer)) give_text(result, text, fuzzy_length(answer));
    return answer;
}

/* The functions that may refuse. fuzzy_why takes the first whose number of arguments and type of the first argument are those given;
 * fuzzy_occurrences is a table of its own, and stands here for fuzzy_why. */
static const struct call calls[] = {
    {"fuzzy_read", 3, {READING, PHRASE, NOW}, make_read},
    {"fuzzy_make_ready", 2, {READING, PHRASE}, make_ready},
    {"fuzzy_run", 2, {READY, NOW}, make_run},
    {"fuzzy_next", 3, {RULE, START, ASKED}, make_next},
    {"fuzzy_occurrences", 2, {RULE, START}, make_list},
    {"fuzzy_read_in_zone", 4, {READING, PHRASE, ZONE, INSTANT}, make_read_in_zone},
    {"fuzzy_run_in_zone", 3, {READY, ZONE, INSTANT}, make_run_in_zone},
    {"fuzzy_stamp", 1, {STAMP}, make_stamp},
    {"fuzzy_read_stamp", 1, {STAMP}, make_read_stamp},
    {"fuzzy_show", 1, {MOMENT}, make_show},
    {"fuzzy_local", 2, {ZONE, INSTANT}, make_local},
};

#define CALLS (sizeof calls / sizeof calls[0])
#define OCCURRENCES (&calls[4])

static const char *type_name(int type) {
    static const char *const names[] = {
        [SQLITE_INTEGER] = "INTEGER", [SQLITE_FLOAT] = "REAL", [SQLITE_TEXT] = "TEXT", [SQLITE_BLOB] = "BLOB", [SQLITE_NULL] = "NULL"};
    return names[type];
}

static int has_null(int count, sqlite3_value **values) {
    int i;
    for (i = 0; i < count; i++) {
        if (sqlite3_value_type(values[i]) == SQLITE_NULL) return 1;
    }
    return 0;
}

/* What to say of an argument of a wrong type, for sqlite3_free. */
static char *wrong_type_text(const char *name, enum kind kind, sqlite3_value *value) {
    const char *asked = type_name(parameters[kind].type), *found = type_name(sqlite3_value_type(value));
    return sqlite3_mprintf("%s: %s must be %s, not %s", name, parameters[kind].name, asked, found);
}

static void raise_error(sqlite3_context *context, char *text) {
    if (text == NULL) sqlite3_result_error_nomem(context);
    else sqlite3_result_error(context, text, -1);
    sqlite3_free(text);
}

/* Takes the arguments of a call, up to one of a wrong type: gives how many are right. */
static int take_arguments(const struct call *call, sqlite3_value **values, struct argument *given) {
    int i;
    for (i = 0; i < call->count; i++) {
        if (sqlite3_value_type(values[i]) != parameters[call->takes[i]].type) break;
        take_argument(call->takes[i], values[i], &given[i]);
    }
    return i;
}

/* Makes a call, unless an argument is NULL or of a wrong type: gives whether it was made. */
static int make_call(sqlite3_context *context, const struct call *call, sqlite3_value **values, struct made *made) {
    int right;
    if (has_null(call->count, values)) return 0;
    right = take_arguments(call, values, made->given);
    if (right < call->count) {
        raise_error(context, wrong_type_text(call->name, call->takes[right], values[right]));
        return 0;
    }
    made->answer = call->make(made->given, &made->result);
    return 1;
}

/* What a call gives; NULL where it is refused. */
static void give_answer(sqlite3_context *context, int count, sqlite3_value **values) {
    struct made made;
    (void)count;
    if (!make_call(context, sqlite3_user_data(context), values, &made) || !fuzzy_ok(made.answer)) return;
    if (made.result.type == SQLITE_BLOB) {
        sqlite3_result_blob(context, made.result.bytes, (int)made.result.length, SQLITE_TRANSIENT);
    } else {
        sqlite3_result_text(context, made.result.bytes, (int)made.result.length, SQLITE_TRANSIENT);
    }
}

/* A refusal as text. Of a moment or an instant in another form it says how to write it. */
static void give_refusal(sqlite3_context *context, const struct call *call, const struct made *made) {
    static const char form[] = " (write it as 2026-02-20 15:00:00 or 2026-02-20 15:00:00.250)";
    const struct argument *phrase = &made->given[call->takes[0] == READING];
    char text[REFUSED_SIZE + sizeof form];
    size_t length = refused_text(made->answer, phrase->text, phrase->length, 1, text);
    int i, other_form = 0;
    for (i = 0; i < call->count; i++) other_form |= made->given[i].other_form;
    if (other_form && fuzzy_number(made->answer) == FUZZY_INVALID_MOMENT) {
        memcpy(text + length, form, sizeof form - 1);
        length += sizeof form - 1;
    }
    sqlite3_result_text(context, text, (int)length, SQLITE_TRANSIENT);
}

/* The call that takes so many arguments, the first of that type; NULL where there is none. */
static const struct call *call_with(int count, int type) {
    const struct call *call;
    for (call = calls; call < calls + CALLS; call++) {
        if (call->count == count && parameters[call->takes[0]].type == type) return call;
    }
    return NULL;
}

/* Why a call with these arguments is refused; NULL where it is not. */
static void give_why(sqlite3_context *context, int count, sqlite3_value **values) {
    const struct call *call;
    struct made made;
    if (has_null(count, values)) return;
    call = count == 0 ? NULL : call_with(count, sqlite3_value_type(values[0]));
    if (call == NULL) {
        sqlite3_result_error(context, "fuzzy_why: takes the arguments of the call that gave NULL", -1);
    } else if (make_call(context, call, values, &made) && !fuzzy_ok(made.answer)) {
        give_refusal(context, call, &made);
    }
}

/* The words of a refusal's number. */
static void give_words(sqlite3_context *context, int count, sqlite3_value **values) {
    int64_t number = sqlite3_value_int64(values[0]);
    uint32_t known = number < 0 || number > UINT32_MAX ? UINT32_MAX : (uint32_t)number;
    if (has_null(count, values)) return;
    if (sqlite3_value_type(values[0]) == SQLITE_INTEGER) sqlite3_result_text(context, fuzzy_words(known), -1, SQLITE_STATIC);
    else raise_error(context, wrong_type_text("fuzzy_refusal", NUMBER, values[0]));
}

/* The library's version, as 1.0.0. */
static void give_version(sqlite3_context *context, int count, sqlite3_value **values) {
    uint32_t version = fuzzy_version();
    char text[32];
    (void)count, (void)values;
    snprintf(text, sizeof text, "%u.%u.%u", (unsigned)(version / 1000000), (unsigned)(version / 1000 % 1000), (unsigned)(version % 1000));
    sqlite3_result_text(context, text, -1, SQLITE_TRANSIENT);
}

/* The columns of fuzzy_occurrences: what it gives, and its hidden arguments. */
enum column { COLUMN_MOMENT, COLUMN_RULE, COLUMN_START, COLUMN_MOST, COLUMNS };

#define ARGUMENTS 3
#define FIRST_ROOM 64
#define ROOM_GROWS 8

/* A walk through the occurrences of a rule. It holds as many as were asked for so far, and some more. */
struct walk {
    sqlite3_vtab_cursor base;
    sqlite3_value *values[ARGUMENTS];
    struct argument given[2];
    struct fuzzy_moment *moments;
    uint64_t most, room, count, row;
};

static int connect_occurrences(sqlite3 *db, void *none, int count, const char *const *names, sqlite3_vtab **table, char **error) {
    int code = sqlite3_declare_vtab(db, "CREATE TABLE x(moment TEXT, rule HIDDEN, start HIDDEN, most HIDDEN)");
    (void)none, (void)count, (void)names, (void)error;
    if (code == SQLITE_OK) code = sqlite3_vtab_config(db, SQLITE_VTAB_INNOCUOUS);
    if (code != SQLITE_OK) return code;
    *table = sqlite3_malloc64(sizeof **table);
    if (*table == NULL) return SQLITE_NOMEM;
    memset(*table, 0, sizeof **table);
    return SQLITE_OK;
}

static int disconnect_occurrences(sqlite3_vtab *table) {
    sqlite3_free(table);
    return SQLITE_OK;
}

/* Says which arguments there are, as bits of idxNum, and hands them over in their order. Occurrences come in the order of their moments. */
static int plan_occurrences(sqlite3_vtab *table, sqlite3_index_info *plan) {
    int i, place = 0, at[COLUMNS] = {-1, -1, -1, -1};
    for (i = 0; i < plan->nConstraint; i++) {
        int column = plan->aConstraint[i].iColumn;
        if (column < COLUMN_RULE || plan->aConstraint[i].op != SQLITE_INDEX_CONSTRAINT_EQ) continue;
        if (!plan->aConstraint[i].usable) return SQLITE_CONSTRAINT;
        at[column] = i;
    }
    if (at[COLUMN_RULE] < 0 || at[COLUMN_START] < 0) {
        table->zErrMsg = sqlite3_mprintf("fuzzy_occurrences: takes a rule, a start and, where not all are wanted, how many at most");
        return SQLITE_ERROR;
    }
    for (i = COLUMN_RULE; i < COLUMNS; i++) {
        if (at[i] < 0) continue;
        plan->aConstraintUsage[at[i]].argvIndex = ++place;
        plan->aConstraintUsage[at[i]].omit = 1;
    }
    plan->idxNum = place;
    plan->orderByConsumed = plan->nOrderBy == 1 && plan->aOrderBy[0].iColumn == COLUMN_MOMENT && !plan->aOrderBy[0].desc;
    plan->estimatedCost = 100;
    plan->estimatedRows = 100;
    return SQLITE_OK;
}

static int open_walk(sqlite3_vtab *table, sqlite3_vtab_cursor **cursor) {
    struct walk *walk = sqlite3_malloc64(sizeof *walk);
    (void)table;
    if (walk == NULL) return SQLITE_NOMEM;
    memset(walk, 0, sizeof *walk);
    *cursor = &walk->base;
    return SQLITE_OK;
}

/* Ends a walk: nothing is left of it. */
static void clear_walk(struct walk *walk) {
    sqlite3_vtab_cursor base = walk->base;
    int i;
    for (i = 0; i < ARGUMENTS; i++) sqlite3_value_free(walk->values[i]);
    sqlite3_free(walk->moments);
    memset(walk, 0, sizeof *walk);
    walk->base = base;
}

static int close_walk(sqlite3_vtab_cursor *cursor) {
    clear_walk((struct walk *)cursor);
    sqlite3_free(cursor);
    return SQLITE_OK;
}

/* Lists again with room for more. A refused rule has no rows, as a refused phrase has NULL. */
static int list_more(struct walk *walk) {
    uint64_t answer, room = walk->room == 0 ? FIRST_ROOM : walk->room * ROOM_GROWS;
    struct fuzzy_moment *moments;
    if (room > walk->most) room = walk->most;
    moments = sqlite3_realloc64(walk->moments, (room + 1) * sizeof *moments);
    if (moments == NULL) return SQLITE_NOMEM;
    walk->moments = moments;
    walk->room = room;
    answer = fuzzy_list(walk->given[0].text, walk->given[0].length, &walk->given[1].moment, moments, room);
    walk->count = fuzzy_ok(answer) ? fuzzy_length(answer) : 0;
    return SQLITE_OK;
}

/* How many are wanted at most: all, where it is not said. What is wrong with it otherwise, for sqlite3_free. */
static char *take_most(struct walk *walk, int count, sqlite3_value **values) {
    int64_t most = count < ARGUMENTS ? FUZZY_MOST_OCCURRENCES : sqlite3_value_int64(values[2]);
    if (count == ARGUMENTS && sqlite3_value_type(values[2]) != SQLITE_INTEGER) return wrong_type_text(OCCURRENCES->name, MOST, values[2]);
    if (most < 0) return sqlite3_mprintf("%s: most must be 0 or more, not %lld", OCCURRENCES->name, (sqlite3_int64)most);
    walk->most = most < FUZZY_MOST_OCCURRENCES ? (uint64_t)most : FUZZY_MOST_OCCURRENCES;
    return NULL;
}

static int end_with(struct walk *walk, char *text) {
    sqlite3_free(walk->base.pVtab->zErrMsg);
    walk->base.pVtab->zErrMsg = text;
    return SQLITE_ERROR;
}

/* Begins a walk with its own copies of the arguments. With a NULL among them there are no rows. */
static int begin_walk(sqlite3_vtab_cursor *cursor, int plan, const char *none, int count, sqlite3_value **values) {
    struct walk *walk = (struct walk *)cursor;
    char *wrong;
    int i;
    (void)plan, (void)none;
    clear_walk(walk);
    if (has_null(count, values)) return SQLITE_OK;
    for (i = 0; i < count; i++) {
        walk->values[i] = sqlite3_value_dup(values[i]);
        if (walk->values[i] == NULL) return SQLITE_NOMEM;
    }
    i = take_arguments(OCCURRENCES, walk->values, walk->given);
    if (i < OCCURRENCES->count) return end_with(walk, wrong_type_text(OCCURRENCES->name, OCCURRENCES->takes[i], walk->values[i]));
    wrong = take_most(walk, count, walk->values);
    return wrong != NULL ? end_with(walk, wrong) : list_more(walk);
}

static int step_walk(sqlite3_vtab_cursor *cursor) {
    struct walk *walk = (struct walk *)cursor;
    walk->row++;
    return walk->row == walk->room && walk->room < walk->most ? list_more(walk) : SQLITE_OK;
}

static int walk_is_over(sqlite3_vtab_cursor *cursor) {
    const struct walk *walk = (const struct walk *)cursor;
    return walk->row >= walk->count;
}

static int give_column(sqlite3_vtab_cursor *cursor, sqlite3_context *context, int column) {
    const struct walk *walk = (const struct walk *)cursor;
    char text[MOMENT_SIZE];
    if (column == COLUMN_MOMENT) {
        sqlite3_result_text(context, text, (int)write_moment(&walk->moments[walk->row], text), SQLITE_TRANSIENT);
    } else if (walk->values[column - COLUMN_RULE] != NULL) {
        sqlite3_result_value(context, walk->values[column - COLUMN_RULE]);
    }
    return SQLITE_OK;
}

static int give_row_number(sqlite3_vtab_cursor *cursor, sqlite3_int64 *number) {
    *number = (sqlite3_int64)((const struct walk *)cursor)->row + 1;
    return SQLITE_OK;
}

static const sqlite3_module occurrences = {
    .xConnect = connect_occurrences,
    .xBestIndex = plan_occurrences,
    .xDisconnect = disconnect_occurrences,
    .xOpen = open_walk,
    .xClose = close_walk,
    .xFilter = begin_walk,
    .xNext = step_walk,
    .xEof = walk_is_over,
    .xColumn = give_column,
    .xRowid = give_row_number,
};

typedef void function(sqlite3_context *context, int count, sqlite3_value **values);

static int add_function(sqlite3 *db, const char *name, int count, const struct call *call, function *give) {
    int flags = SQLITE_UTF8 | SQLITE_DETERMINISTIC | SQLITE_INNOCUOUS;
    return sqlite3_create_function_v2(db, name, count, flags, (void *)call, give, NULL, NULL, NULL);
}

/* What SQLite calls when it loads fuzzydate.so. */
#ifdef _WIN32
__declspec(dllexport)
#endif
int sqlite3_fuzzydate_init(sqlite3 *db, char **error, const sqlite3_api_routines *api);

int sqlite3_fuzzydate_init(sqlite3 *db, char **error, const sqlite3_api_routines *api) {
    const struct call *call;
    int code = SQLITE_OK;
    (void)error;
    SQLITE_EXTENSION_INIT2(api);
    (void)api;
    for (call = calls; call < calls + CALLS && code == SQLITE_OK; call++) {
        if (call != OCCURRENCES) code = add_function(db, call->name, call->count, call, give_answer);
    }
    if (code == SQLITE_OK) code = add_function(db, "fuzzy_why", -1, NULL, give_why);
    if (code == SQLITE_OK) code = add_function(db, "fuzzy_refusal", 1, NULL, give_words);
    if (code == SQLITE_OK) code = add_function(db, "fuzzy_version", 0, NULL, give_version);
    if (code == SQLITE_OK) code = sqlite3_create_module_v2(db, "fuzzy_occurrences", &occurrences, NULL, NULL);
    return code;
}
