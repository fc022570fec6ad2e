/* fuzzydate.c: reminder phrases in PostgreSQL, over fuzzy.h. README.md says what each function takes and gives. Nothing is kept and no
 * clock, setting or table is read: an answer depends on the arguments alone. */
#include "postgres.h"

#include "datatype/timestamp.h"
#include "fmgr.h"
#include "funcapi.h"
#include "mb/pg_wchar.h"
#include "utils/builtins.h"
#include "utils/timestamp.h"
#if PG_VERSION_NUM >= 160000
#include "varatt.h"
#endif

#include "fuzzy.h"
#include "moments.h"
#include "refused.h"

PG_MODULE_MAGIC;

/* The seconds from 1970 to 2000, where PostgreSQL begins to count. */
#define SECONDS_TO_2000 ((int64)(POSTGRES_EPOCH_JDATE - UNIX_EPOCH_JDATE) * SECS_PER_DAY)

/* PostgreSQL counts microseconds. */
#define PARTS_OF_A_MILLISECOND 1000

/* A call that was made: the library's answer, what it gives, the text that the answer's place is in, and whether a time that was given
 * has parts of a millisecond. */
struct made {
    uint64_t answer;
    Datum given;
    const char *text;
    size_t length;
    bool has_parts;
};

typedef void call(FunctionCallInfo fcinfo, struct made *made);

/* A text or bytes as the library takes them. */
struct part {
    const char *bytes;
    uint64_t length;
};

static struct part part_of(Datum datum) {
    struct varlena *value = PG_DETOAST_DATUM_PACKED(datum);
    struct part part = {VARDATA_ANY(value), VARSIZE_ANY_EXHDR(value)};
    return part;
}

/* A timestamp as a moment. One outside the years 1 to 9999, or with parts of a millisecond, stands for zeros: the library refuses them
 * with 8, when no other reason comes first. */
static struct fuzzy_moment moment_of(Datum datum, struct made *made) {
    Timestamp timestamp = DatumGetTimestamp(datum);
    struct fuzzy_moment moment = {0, 0, 0, 0, 0, 0, 0};
    struct pg_tm tm;
    fsec_t fraction;
    if (TIMESTAMP_NOT_FINITE(timestamp) || timestamp2tm(timestamp, NULL, &tm, &fraction, NULL, NULL) != 0) return moment;
    if (fraction % PARTS_OF_A_MILLISECOND != 0) made->has_parts = true;
    if (fraction % PARTS_OF_A_MILLISECOND != 0 || tm.tm_year < 1 || tm.tm_year > 9999) return moment;
    moment.year = (uint32_t)tm.tm_year;
    moment.month = (uint32_t)tm.tm_mon;
    moment.day = (uint32_t)tm.tm_mday;
    moment.hour = (uint32_t)tm.tm_hour;
    moment.minute = (uint32_t)tm.tm_min;
    moment.second = (uint32_t)tm.tm_sec;
    moment.millisecond = (uint32_t)(fraction / PARTS_OF_A_MILLISECOND);
    return moment;
}

static Datum timestamp_of(const struct fuzzy_moment *moment) {
    struct pg_tm tm;
    fsec_t fraction;
    Timestamp timestamp;
    memset(&tm, 0, sizeof tm);
    tm.tm_year = (int)moment->year;
    tm.tm_mon = (int)moment->month;
    tm.tm_mday = (int)moment->day;
    tm.tm_hour = (int)moment->hour;
    tm.tm_min = (int)moment->minute;
    tm.tm_sec = (int)moment->second;
    fraction = (fsec_t)(moment->millisecond * PARTS_OF_A_MILLISECOND);
    if (tm2timestamp(&tm, fraction, NULL, &timestamp) != 0) elog(ERROR, "a moment is no timestamp");
    return TimestampGetDatum(timestamp);
}

/* An instant, as the library takes it. */
struct instant {
    int64_t second;
    uint32_t millisecond;
};

/* A timestamptz as an instant. One that is infinite, or has parts of a millisecond, stands for a millisecond too many: the library
 * refuses it with 8, when no other reason comes first. */
static struct instant instant_of(Datum datum, struct made *made) {
    TimestampTz timestamp = DatumGetTimestampTz(datum);
    struct instant instant = {0, 1000};
    int64 second, fraction;
    if (TIMESTAMP_NOT_FINITE(timestamp)) return instant;
    second = timestamp / USECS_PER_SEC;
    fraction = timestamp % USECS_PER_SEC;
    if (fraction < 0) {
        second--;
        fraction += USECS_PER_SEC;
    }
    made->has_parts = fraction % PARTS_OF_A_MILLISECOND != 0;
    if (made->has_parts) return instant;
    instant.second = second + SECONDS_TO_2000;
    instant.millisecond = (uint32_t)(fraction / PARTS_OF_A_MILLISECOND);
    return instant;
}

static void give_moment(uint64_t answer, const struct fuzzy_moment *moment, struct made *made) {
    made->answer = answer;
    if (fuzzy_ok(answer)) made->given = timestamp_of(moment);
}

/* Gives an instant. As in SQLite, one that is outside the years 1 to 9999 in UTC is refused with 12. */
static void give_instant(uint64_t answer, const int64_t *second, const struct fuzzy_local *local, struct made *made) {
    int64 fraction;
    made->answer = answer;
    if (!fuzzy_ok(answer)) return;
    if (*second < FIRST_SECOND || *second > LAST_SECOND) made->answer = FUZZY_OUTSIDE;
    fraction = (int64)local->moment.millisecond * PARTS_OF_A_MILLISECOND;
    made->given = TimestampTzGetDatum((*second - SECONDS_TO_2000) * USECS_PER_SEC + fraction);
}

static void give_text(uint64_t answer, const char *text, struct made *made) {
    made->answer = answer;
    if (fuzzy_ok(answer)) made->given = PointerGetDatum(cstring_to_text_with_len(text, (int)fuzzy_length(answer)));
}

/* Takes a phrase: the place and the part of a refusal are in it. */
static struct part phrase_of(Datum datum, struct made *made) {
    struct part phrase = part_of(datum);
    made->text = phrase.bytes;
    made->length = phrase.length;
    return phrase;
}

static void make_read(FunctionCallInfo fcinfo, struct made *made) {
    struct part phrase = phrase_of(PG_GETARG_DATUM(1), made);
    struct fuzzy_moment now = moment_of(PG_GETARG_DATUM(2), made), moment;
    give_moment(fuzzy_read((uint32_t)PG_GETARG_INT32(0), phrase.bytes, phrase.length, &now, &moment), &moment, made);
}

static void make_ready(FunctionCallInfo fcinfo, struct made *made) {
    struct part phrase = phrase_of(PG_GETARG_DATUM(1), made);
    uint8_t ready[FUZZY_READY_SIZE];
    give_text(fuzzy_make_ready((uint32_t)PG_GETARG_INT32(0), phrase.bytes, phrase.length, ready), (const char *)ready, made);
}

static void make_run(FunctionCallInfo fcinfo, struct made *made) {
    struct part ready = part_of(PG_GETARG_DATUM(0));
    struct fuzzy_moment now = moment_of(PG_GETARG_DATUM(1), made), moment;
    give_moment(fuzzy_run((const uint8_t *)ready.bytes, ready.length, &now, &moment), &moment, made);
}

static void make_next(FunctionCallInfo fcinfo, struct made *made) {
    struct part rule = part_of(PG_GETARG_DATUM(0));
    struct fuzzy_moment start = moment_of(PG_GETARG_DATUM(1), made), asked = moment_of(PG_GETARG_DATUM(2), made), moment;
    give_moment(fuzzy_next(rule.bytes, rule.length, &start, &asked, &moment), &moment, made);
}

/* The first occurrence of a rule: whether it has any. */
static void make_list(FunctionCallInfo fcinfo, struct made *made) {
    struct part rule = part_of(PG_GETARG_DATUM(0));
    struct fuzzy_moment start = moment_of(PG_GETARG_DATUM(1), made), moment;
    give_moment(fuzzy_list(rule.bytes, rule.length, &start, &moment, 1), &moment, made);
}

/* A zone's file and an instant. */
struct zoned {
    struct part zone;
    struct instant at;
};

static struct zoned zoned_of(Datum zone, Datum instant, struct made *made) {
    struct zoned zoned = {part_of(zone), instant_of(instant, made)};
    return zoned;
}

static uint64_t read_in_zone(uint32_t reading, struct part phrase, const struct zoned *in, int64_t *due, struct fuzzy_local *local) {
    return fuzzy_read_in_zone(reading, phrase.bytes, phrase.length, (const uint8_t *)in->zone.bytes, in->zone.length, in->at.second,
                              in->at.millisecond, due, local);
}

static void make_read_in_zone(FunctionCallInfo fcinfo, struct made *made) {
    struct part phrase = phrase_of(PG_GETARG_DATUM(1), made);
    struct zoned in = zoned_of(PG_GETARG_DATUM(2), PG_GETARG_DATUM(3), made);
    struct fuzzy_local local;
    int64_t due;
    give_instant(read_in_zone((uint32_t)PG_GETARG_INT32(0), phrase, &in, &due, &local), &due, &local, made);
}

static void make_run_in_zone(FunctionCallInfo fcinfo, struct made *made) {
    struct part ready = part_of(PG_GETARG_DATUM(0));
    struct zoned in = zoned_of(PG_GETARG_DATUM(1), PG_GETARG_DATUM(2), made);
    struct fuzzy_local local;
    int64_t due;
    uint64_t answer = fuzzy_run_in_zone((const uint8_t *)ready.bytes, ready.length, (const uint8_t *)in.zone.bytes, in.zone.length,
                                        in.at.second, in.at.millisecond, &due, &local);
    give_instant(answer, &due, &local, made);
}

/* What a zone's clocks show at an instant: there, "now" is the instant itself. */
static void make_local(FunctionCallInfo fcinfo, struct made *made) {
    static const struct part now = {"now", 3};
    struct zoned in = zoned_of(PG_GETARG_DATUM(0), PG_GETARG_DATUM(1), made);
    struct fuzzy_local local;
    int64_t due;
    give_moment(read_in_zone(FUZZY_FIRST, now, &in, &due, &local), &local.moment, made);
}

static void make_stamp(FunctionCallInfo fcinfo, struct made *made) {
    struct part given = part_of(PG_GETARG_DATUM(0));
    struct fuzzy_stamp stamp;
    char text[FUZZY_STAMP_SIZE];
    uint64_t answer = fuzzy_read_stamp(given.bytes, given.length, &stamp);
    if (fuzzy_ok(answer)) answer = fuzzy_write_stamp(&stamp, text, sizeof text);
    give_text(answer, text, made);
}

static void make_read_stamp(FunctionCallInfo fcinfo, struct made *made) {
    struct part given = part_of(PG_GETARG_DATUM(0));
    struct fuzzy_stamp stamp;
    give_moment(fuzzy_read_stamp(given.bytes, given.length, &stamp), &stamp.moment, made);
}

static void make_show(FunctionCallInfo fcinfo, struct made *made) {
    struct fuzzy_moment moment = moment_of(PG_GETARG_DATUM(0), made);
    char text[FUZZY_PHRASE_SIZE];
    give_text(fuzzy_write_phrase(&moment, text, sizeof text), text, made);
}

/* The SQLSTATE of a refusal: FZ and its number, FZ999 for a number of a newer library that has more than three digits. */
static int state_of(uint32_t number) {
    uint32_t n = number > 999 ? 999 : number;
    return MAKE_SQLSTATE('F', 'Z', '0' + n / 100, '0' + n / 10 % 10, '0' + n % 10);
}

static int detail_of(const struct made *made) {
    char lines[REFUSED_SIZE];
    size_t n = refused_underline(made->answer, made->text, made->length, GetDatabaseEncoding() == PG_UTF8, lines);
    return errdetail_internal("At byte %u, length %u:\n%.*s", fuzzy_place(made->answer), fuzzy_length(made->answer), (int)n, lines);
}

/* Whether a call is refused because a time has parts of a millisecond. */
static bool is_in_parts(const struct made *made) {
    return fuzzy_number(made->answer) == FUZZY_INVALID_MOMENT && made->has_parts;
}

static void raise_refusal(const struct made *made) {
    uint32_t number = fuzzy_number(made->answer);
    ereport(ERROR, (errcode(state_of(number)), errmsg_internal("refused %u (%s): %s", number, refused_name(number), fuzzy_words(number)),
                    fuzzy_length(made->answer) > 0 && made->text != NULL ? detail_of(made) : 0,
                    is_in_parts(made) ? errdetail("It has parts of a millisecond, which are not rounded.") : 0,
                    is_in_parts(made) ? errhint("date_trunc('milliseconds', ..) and localtimestamp(3) have whole milliseconds.") : 0));
}

static struct made made_by(FunctionCallInfo fcinfo, call *make) {
    struct made made = {0, 0, NULL, 0, false};
    make(fcinfo, &made);
    return made;
}

static Datum given_or_raised(FunctionCallInfo fcinfo, call *make) {
    struct made made = made_by(fcinfo, make);
    if (!fuzzy_ok(made.answer)) raise_refusal(&made);
    return made.given;
}

static Datum given_or_null(FunctionCallInfo fcinfo, call *make) {
    struct made made = made_by(fcinfo, make);
    if (!fuzzy_ok(made.answer)) PG_RETURN_NULL();
    return made.given;
}

/* Why a call is refused, in SQLite's words; NULL where it is not. */
static Datum refused_or_null(FunctionCallInfo fcinfo, call *make) {
    struct made made = made_by(fcinfo, make);
    char text[REFUSED_SIZE];
    size_t length;
    if (fuzzy_ok(made.answer)) PG_RETURN_NULL();
    length = refused_text(made.answer, made.text, made.length, GetDatabaseEncoding() == PG_UTF8, text);
    PG_RETURN_TEXT_P(cstring_to_text(psprintf("%.*s%s", (int)length, text, is_in_parts(&made) ? " (it has parts of a millisecond)" : "")));
}

/* A function of SQL over a call; a refusal is raised, or NULL, or what is given. */
#define FUNCTION(name, manner, make) \
    PGDLLEXPORT Datum name(PG_FUNCTION_ARGS); \
    Datum name(PG_FUNCTION_ARGS) { \
        return manner(fcinfo, make); \
    } \
    PG_FUNCTION_INFO_V1(name)

FUNCTION(fuzzydate_read, given_or_raised, make_read);
FUNCTION(fuzzydate_make_ready, given_or_raised, make_ready);
FUNCTION(fuzzydate_run, given_or_raised, make_run);
FUNCTION(fuzzydate_next, given_or_raised, make_next);
FUNCTION(fuzzydate_read_in_zone, given_or_raised, make_read_in_zone);
FUNCTION(fuzzydate_run_in_zone, given_or_raised, make_run_in_zone);
FUNCTION(fuzzydate_local, given_or_raised, make_local);
FUNCTION(fuzzydate_stamp, given_or_raised, make_stamp);
FUNCTION(fuzzydate_read_stamp, given_or_raised, make_read_stamp);
FUNCTION(fuzzydate_show, given_or_raised, make_show);

FUNCTION(fuzzydate_try_read, given_or_null, make_read);
FUNCTION(fuzzydate_try_make_ready, given_or_null, make_ready);
FUNCTION(fuzzydate_try_run, given_or_null, make_run);
FUNCTION(fuzzydate_try_next, given_or_null, make_next);
FUNCTION(fuzzydate_try_read_in_zone, given_or_null, make_read_in_zone);
FUNCTION(fuzzydate_try_run_in_zone, given_or_null, make_run_in_zone);
FUNCTION(fuzzydate_try_local, given_or_null, make_local);
FUNCTION(fuzzydate_try_stamp, given_or_null, make_stamp);
FUNCTION(fuzzydate_try_read_stamp, given_or_null, make_read_stamp);
FUNCTION(fuzzydate_try_show, given_or_null, make_show);

FUNCTION(fuzzydate_why_read, refused_or_null, make_read);
FUNCTION(fuzzydate_why_make_ready, refused_or_null, make_ready);
FUNCTION(fuzzydate_why_run, refused_or_null, make_run);
FUNCTION(fuzzydate_why_next, refused_or_null, make_next);
FUNCTION(fuzzydate_why_list, refused_or_null, make_list);
FUNCTION(fuzzydate_why_read_in_zone, refused_or_null, make_read_in_zone);
FUNCTION(fuzzydate_why_run_in_zone, refused_or_null, make_run_in_zone);
FUNCTION(fuzzydate_why_stamp, refused_or_null, make_stamp);

/* The words of a refusal's number. */
PG_FUNCTION_INFO_V1(fuzzydate_refusal);
Datum fuzzydate_refusal(PG_FUNCTION_ARGS) {
    PG_RETURN_TEXT_P(cstring_to_text(fuzzy_words((uint32_t)PG_GETARG_INT32(0))));
}

/* The library's version, as 1.0.0. */
PG_FUNCTION_INFO_V1(fuzzydate_version);
Datum fuzzydate_version(PG_FUNCTION_ARGS) {
    uint32_t version = fuzzy_version();
    PG_RETURN_TEXT_P(cstring_to_text(psprintf("%u.%u.%u", version / 1000000, version / 1000 % 1000, version % 1000)));
}

#define FIRST_ROOM 64
#define ROOM_GROWS 8

/* A walk through the occurrences of a rule. It holds as many as were asked for so far, and some more. */
struct walk {
    struct part rule;
    struct fuzzy_moment start, *moments;
    uint64_t most, room, count;
};

/* Lists again with room for more. */
static uint64_t list_more(struct walk *walk) {
    uint64_t answer, room = walk->room == 0 ? FIRST_ROOM : walk->room * ROOM_GROWS;
    walk->room = room < walk->most ? room : walk->most;
    if (walk->moments != NULL) pfree(walk->moments);
    walk->moments = palloc((walk->room + 1) * sizeof *walk->moments);
    answer = fuzzy_list(walk->rule.bytes, walk->rule.length, &walk->start, walk->moments, walk->room);
    walk->count = fuzzy_ok(answer) ? fuzzy_length(answer) : 0;
    return answer;
}

/* Begins a walk with its own copies of the arguments, in the memory that all its rows share. */
static struct walk *begin_walk(FunctionCallInfo fcinfo, bool raises) {
    struct made made = {0, 0, NULL, 0, false};
    struct walk *walk = palloc0(sizeof *walk);
    int32 most = PG_GETARG_INT32(2);
    if (most < 0) ereport(ERROR, (errcode(ERRCODE_INVALID_PARAMETER_VALUE), errmsg("most must be 0 or more, not %d", most)));
    walk->rule = part_of(PointerGetDatum(PG_GETARG_TEXT_P_COPY(0)));
    walk->start = moment_of(PG_GETARG_DATUM(1), &made);
    walk->most = most < FUZZY_MOST_OCCURRENCES ? (uint64_t)most : FUZZY_MOST_OCCURRENCES;
    made.answer = list_more(walk);
    if (raises && !fuzzy_ok(made.answer)) raise_refusal(&made);
    return walk;
}

/* One occurrence after the other; a refused rule is raised, or has none. */
static Datum next_occurrence(FunctionCallInfo fcinfo, bool raises) {
    FuncCallContext *context;
    struct walk *walk;
    MemoryContext before;
    Datum occurrence;
    if (SRF_IS_FIRSTCALL()) {
        context = SRF_FIRSTCALL_INIT();
        before = MemoryContextSwitchTo(context->multi_call_memory_ctx);
        context->user_fctx = begin_walk(fcinfo, raises);
        MemoryContextSwitchTo(before);
    }
    context = SRF_PERCALL_SETUP();
    walk = context->user_fctx;
    if (context->call_cntr == walk->room && walk->room < walk->most) {
        before = MemoryContextSwitchTo(context->multi_call_memory_ctx);
        list_more(walk);
        MemoryContextSwitchTo(before);
    }
    if (context->call_cntr >= walk->count) SRF_RETURN_DONE(context);
    /* worked out before the next line counts the row */
    occurrence = timestamp_of(&walk->moments[context->call_cntr]);
    SRF_RETURN_NEXT(context, occurrence);
}

FUNCTION(fuzzydate_occurrences, next_occurrence, true);
FUNCTION(fuzzydate_try_occurrences, next_occurrence, false);
