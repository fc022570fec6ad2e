/* Calls every function with good, damaged and empty input, and looks at every byte that must not change: every ZONE, the file
 * bindings/zones/New_York. */
#include "fuzzy.h"

#include <stdio.h>
#include <string.h>

#define PATTERN 0xa5
#define GUARD 64

/* A moment, for a call that only reads it. */
#define AT(...) (&(const struct fuzzy_moment){__VA_ARGS__})
#define NOW AT(2026, 2, 11, 9, 30, 15, 250)

/* As many occurrences are listed at most. */
#define MOST_MOMENTS 8

static int failed = 0;

static void expect(int holds, const char *what) {
    if (!holds) {
        printf("failed: %s\n", what);
        failed = 1;
    }
}

/* A buffer between two guards, all of it full of a pattern. */
struct lent {
    uint8_t before[GUARD];
    union {
        struct fuzzy_moment moment;
        uint8_t ready[FUZZY_READY_SIZE];
        struct fuzzy_stamp stamp;
        char text[2 * FUZZY_STAMP_SIZE];
        uint32_t found[FUZZY_FOUND_NUMBERS];
        struct fuzzy_moment moments[MOST_MOMENTS];
        uint32_t numbers[MOST_MOMENTS * FUZZY_MOMENT_NUMBERS];
        int64_t due;
        struct fuzzy_local local;
    } in;
    uint8_t after[GUARD];
};

static struct lent fresh(void) {
    struct lent l;
    memset(&l, PATTERN, sizeof l);
    return l;
}

/* Whether all bytes of l from a place in `in` on, and both guards, are as they were. */
static int kept_from(const struct lent *l, size_t from) {
    const uint8_t *in = (const uint8_t *)&l->in;
    size_t i;
    for (i = 0; i < GUARD; i++) {
        if (l->before[i] != PATTERN || l->after[i] != PATTERN) return 0;
    }
    for (i = from; i < sizeof l->in; i++) {
        if (in[i] != PATTERN) return 0;
    }
    return 1;
}

static uint64_t read_at(uint32_t reading, const char *phrase, size_t n, struct lent *l) {
    return fuzzy_read(reading, phrase, n, NOW, &l->in.moment);
}

/* A refusal with its number, place and length, and nothing written: by reading, and by making ready where it is one of 1 to 7 or 15. */
static void refused_as(uint32_t reading, const char *phrase, size_t n, unsigned number, uint32_t place, uint32_t length) {
    struct lent l = fresh();
    uint64_t answer = read_at(reading, phrase, n, &l);
    expect(fuzzy_number(answer) == number, "the number of a refusal");
    expect(fuzzy_place(answer) == place, "the place of a refusal");
    expect(fuzzy_length(answer) == length, "the length of a part");
    expect(kept_from(&l, 0), "nothing written on a refusal");
    if (number <= 7 || number == FUZZY_NO_READING) {
        l = fresh();
        expect(fuzzy_make_ready(reading, phrase, n, l.in.ready) == answer, "making ready refuses as reading does");
        expect(kept_from(&l, 0), "nothing written by making ready on a refusal");
    }
}

/* The same in both readings. */
static void refused(const char *phrase, size_t n, unsigned number, uint32_t place, uint32_t length) {
    refused_as(FUZZY_FIRST, phrase, n, number, place, length);
    refused_as(FUZZY_SECOND, phrase, n, number, place, length);
}

/* A moment, by reading and by running what was made ready; bytes past what was written stay. */
static void given_as(uint32_t reading, const char *phrase, uint32_t y, uint32_t mo, uint32_t d, uint32_t h, uint32_t mi, uint32_t s,
                     uint32_t ms) {
    const struct fuzzy_moment wanted = {y, mo, d, h, mi, s, ms};
    struct lent l = fresh();
    struct lent m = fresh();
    uint64_t made;
    expect(read_at(reading, phrase, strlen(phrase), &l) == 0, "a phrase that is read");
    expect(memcmp(&l.in.moment, &wanted, sizeof wanted) == 0, "its moment");
    expect(kept_from(&l, sizeof wanted), "nothing written but the moment");
    l = fresh();
    made = fuzzy_make_ready(reading, phrase, strlen(phrase), l.in.ready);
    expect(fuzzy_ok(made) && fuzzy_place(made) == 0, "a phrase that is made ready");
    expect(fuzzy_length(made) >= 16 && fuzzy_length(made) <= FUZZY_READY_SIZE && fuzzy_length(made) % 16 == 0, "its length");
    expect(kept_from(&l, fuzzy_length(made)), "nothing written but the ready phrase");
    expect(fuzzy_run(l.in.ready, fuzzy_length(made), NOW, &m.in.moment) == 0, "a ready phrase that is run");
    expect(memcmp(&m.in.moment, &wanted, sizeof wanted) == 0, "its moment when run");
    expect(kept_from(&m, sizeof wanted), "nothing written but the moment when run");
    m = fresh();
    expect(fuzzy_run(l.in.ready, fuzzy_length(made), AT(2026, 2, 30, 9, 30, 15, 250), &m.in.moment) == 8, "an invalid now");
    expect(kept_from(&m, 0), "nothing written at an invalid now");
    expect(fuzzy_run(l.in.ready, fuzzy_length(made) - 1, NOW, &m.in.moment) == 9, "a ready phrase cut short");
    l.in.ready[2] ^= 1;
    expect(fuzzy_run(l.in.ready, fuzzy_length(made), NOW, &m.in.moment) == 9, "a damaged ready phrase");
    expect(kept_from(&m, 0), "nothing written for a damaged ready phrase");
}

/* The same in both readings. */
static void given(const char *phrase, uint32_t y, uint32_t mo, uint32_t d, uint32_t h, uint32_t mi, uint32_t s, uint32_t ms) {
    given_as(FUZZY_FIRST, phrase, y, mo, d, h, mi, s, ms);
    given_as(FUZZY_SECOND, phrase, y, mo, d, h, mi, s, ms);
}

/* "an hour ago" at 09:30:15 and so many milliseconds, read and run: they are kept, or the now is invalid and nothing is written. */
static void at_millisecond(uint32_t ms, unsigned number) {
    const char *phrase = "an hour ago";
    const struct fuzzy_moment now = {2026, 2, 11, 9, 30, 15, ms}, wanted = {2026, 2, 11, 8, 30, 15, ms};
    size_t written = number == 0 ? sizeof wanted : 0;
    struct lent ready = fresh(), l = fresh();
    uint64_t made = fuzzy_make_ready(FUZZY_FIRST, phrase, 11, ready.in.ready);
    expect(fuzzy_read(FUZZY_FIRST, phrase, 11, &now, &l.in.moment) == number, "reading at a millisecond");
    expect(memcmp(&l.in.moment, &wanted, written) == 0 && kept_from(&l, written), "what reading writes at a millisecond");
    l = fresh();
    expect(fuzzy_run(ready.in.ready, fuzzy_length(made), &now, &l.in.moment) == number, "running at a millisecond");
    expect(memcmp(&l.in.moment, &wanted, written) == 0 && kept_from(&l, written), "what running writes at a millisecond");
}

/* A text with its stamp, which is written as `written`: with room for exactly that, and not with a byte less. */
static void stamped(const char *text, const char *written, uint32_t y, uint32_t mo, uint32_t d, uint32_t h, uint32_t mi, uint32_t s,
                    uint32_t ms, uint32_t west, uint32_t offset) {
    const struct fuzzy_stamp wanted = {{y, mo, d, h, mi, s, ms}, west, offset};
    size_t n = strlen(written);
    struct lent l = fresh();
    uint64_t answer;
    expect(fuzzy_read_stamp(text, strlen(text), &l.in.stamp) == 0, "a stamp that is read");
    expect(memcmp(&l.in.stamp, &wanted, sizeof wanted) == 0, "its numbers");
    expect(kept_from(&l, sizeof wanted), "nothing written but the stamp");
    l = fresh();
    answer = fuzzy_write_stamp(&wanted, l.in.text, n);
    expect(fuzzy_ok(answer) && fuzzy_place(answer) == 0 && fuzzy_length(answer) == n, "a stamp that is written");
    expect(memcmp(l.in.text, written, n) == 0, "its text");
    expect(kept_from(&l, n), "nothing written but the text");
    l = fresh();
    expect(fuzzy_write_stamp(&wanted, l.in.text, n - 1) == FUZZY_NO_ROOM, "a text too short");
    expect(kept_from(&l, 0), "nothing written where there is no room");
}

/* A text that is not a stamp, and nothing written. */
static void unstamped(const char *text, size_t n, unsigned number) {
    struct lent l = fresh();
    expect(fuzzy_read_stamp(text, n, &l.in.stamp) == number, "a text that is not a stamp");
    expect(kept_from(&l, 0), "nothing written for a text that is not a stamp");
}

/* Numbers that are not a stamp, and nothing written. */
static void unwritten(uint32_t mo, uint32_t ms, uint32_t west, uint32_t offset, size_t room, unsigned number) {
    const struct fuzzy_stamp stamp = {{2026, mo, 11, 9, 30, 15, ms}, west, offset};
    struct lent l = fresh();
    expect(fuzzy_write_stamp(&stamp, l.in.text, room) == number, "numbers that are not a stamp");
    expect(kept_from(&l, 0), "nothing written for numbers that are not a stamp");
}

static void stamps(void) {
    stamped("2024-02-29t23:59:59z", "2024-02-29T23:59:59Z", 2024, 2, 29, 23, 59, 59, 0, 0, 0);
    stamped("2026-02-11T09:30:15+00:00", "2026-02-11T09:30:15Z", 2026, 2, 11, 9, 30, 15, 0, 0, 0);
    stamped("2026-02-11T09:30:15-00:00", "2026-02-11T09:30:15-00:00", 2026, 2, 11, 9, 30, 15, 0, 1, 0);
    stamped("0001-01-01T00:00:00+23:59", "0001-01-01T00:00:00+23:59", 1, 1, 1, 0, 0, 0, 0, 0, 1439);
    stamped("9999-12-31T23:59:59-23:59", "9999-12-31T23:59:59-23:59", 9999, 12, 31, 23, 59, 59, 0, 1, 1439);
    stamped("2026-02-11T09:30:15.5Z", "2026-02-11T09:30:15.500Z", 2026, 2, 11, 9, 30, 15, 500, 0, 0);
    stamped("2026-02-11T09:30:15.05Z", "2026-02-11T09:30:15.050Z", 2026, 2, 11, 9, 30, 15, 50, 0, 0);
    stamped("2026-02-11t09:30:15.005z", "2026-02-11T09:30:15.005Z", 2026, 2, 11, 9, 30, 15, 5, 0, 0);
    stamped("2026-02-11T09:30:15.0Z", "2026-02-11T09:30:15Z", 2026, 2, 11, 9, 30, 15, 0, 0, 0);
    stamped("2026-02-11T09:30:15.00+00:00", "2026-02-11T09:30:15Z", 2026, 2, 11, 9, 30, 15, 0, 0, 0);
    stamped("2026-02-11T09:30:15.000-00:00", "2026-02-11T09:30:15-00:00", 2026, 2, 11, 9, 30, 15, 0, 1, 0);
    stamped("2026-02-11T09:30:15.7+05:30", "2026-02-11T09:30:15.700+05:30", 2026, 2, 11, 9, 30, 15, 700, 0, 330);
    stamped("2026-02-11T09:30:15.25-05:00", "2026-02-11T09:30:15.250-05:00", 2026, 2, 11, 9, 30, 15, 250, 1, 300);
    stamped("9999-12-31T23:59:59.999-23:59", "9999-12-31T23:59:59.999-23:59", 9999, 12, 31, 23, 59, 59, 999, 1, 1439);
    unstamped("0000-02-29T00:00:00Z", 20, FUZZY_OUTSIDE);
    unstamped("0000-02-30T00:00:00Z", 20, FUZZY_NO_STAMP);
    unstamped("2026-02-29T00:00:00Z", 20, FUZZY_NO_STAMP);
    unstamped("2026-02-11T09:30:60Z", 20, FUZZY_NO_STAMP);
    unstamped("2026-02-11 09:30:15Z", 20, FUZZY_NO_STAMP);
    unstamped("0000-02-29T00:00:00.5Z", 22, FUZZY_OUTSIDE);
    unstamped("0000-02-30T00:00:00.5Z", 22, FUZZY_NO_STAMP);
    unstamped("2026-02-11T09:30:15.Z", 21, FUZZY_NO_STAMP);
    unstamped("2026-02-11T09:30:15.+05:30", 26, FUZZY_NO_STAMP);
    unstamped("2026-02-11T09:30:15.5000Z", 25, FUZZY_NO_STAMP);
    unstamped("2026-02-11T09:30:15.5000+05:30", 30, FUZZY_NO_STAMP);
    unstamped("2026-02-11T09:30:15,5Z", 22, FUZZY_NO_STAMP);
    unstamped("2026-02-11T09:30:15,500+05:30", 29, FUZZY_NO_STAMP);
    unstamped("2026-02-11T09:30:15.5x0Z", 24, FUZZY_NO_STAMP);
    unstamped("2026-02-11T09:30:15.500", 23, FUZZY_NO_STAMP);
    unstamped("2026-02-11T09:30:15.5+24:00", 27, FUZZY_NO_STAMP);
    unstamped("2026-02-11T09:30:15+24:00", 25, FUZZY_NO_STAMP);
    unstamped("2026-02-11T09:30:15+23:60", 25, FUZZY_NO_STAMP);
    unstamped("2026-02-11T09:30:15Z\n", 21, FUZZY_NO_STAMP);
    unstamped("2026-02-11T09:30:15", 19, FUZZY_NO_STAMP);
    unstamped("", 0, FUZZY_NO_STAMP);
    unwritten(13, 0, 2, 1440, 0, FUZZY_INVALID_MOMENT);
    unwritten(2, 1000, 2, 1440, 0, FUZZY_INVALID_MOMENT);
    unwritten(2, 1000, 0, 0, FUZZY_STAMP_SIZE, FUZZY_INVALID_MOMENT);
    unwritten(2, UINT32_MAX, 0, 0, FUZZY_STAMP_SIZE, FUZZY_INVALID_MOMENT);
    unwritten(2, 0, 2, 0, 0, FUZZY_NO_STAMP);
    unwritten(2, 0, 0, 1440, 0, FUZZY_NO_STAMP);
    unwritten(2, 0, 0, 1, 0, FUZZY_NO_ROOM);
}

/* A word in one reading: its code or 0, and the comparisons made. */
static void found_as(uint32_t reading, const char *word, size_t n, uint32_t code, uint32_t comparisons) {
    const uint32_t wanted[FUZZY_FOUND_NUMBERS] = {code, comparisons};
    struct lent l = fresh();
    expect(fuzzy_find_word(reading, word, n, l.in.found) == 0, "a word that is looked up");
    expect(memcmp(l.in.found, wanted, sizeof wanted) == 0, "its code and the comparisons");
    expect(kept_from(&l, sizeof wanted), "nothing written but the two numbers");
}

/* An unknown reading, and nothing written. */
static void unfound(uint32_t reading) {
    struct lent l = fresh();
    expect(fuzzy_find_word(reading, "now", 3, l.in.found) == FUZZY_NO_READING, "a word in no reading");
    expect(kept_from(&l, 0), "nothing written for a word in no reading");
}

static void words(const char *many, size_t n) {
    found_as(FUZZY_FIRST, "Friday", 6, 123, 7);
    found_as(FUZZY_FIRST, "zERO", 4, 151, 8);
    found_as(FUZZY_FIRST, "th", 2, 159, 7);
    found_as(FUZZY_SECOND, "th", 2, 160, 4);
    found_as(FUZZY_FIRST, "forty", 5, 0, 7);
    found_as(FUZZY_SECOND, "FORTY", 5, 40, 5);
    found_as(FUZZY_FIRST, "", 0, 0, 7);
    found_as(FUZZY_SECOND, "fri\xff", 4, 0, 7);
    found_as(FUZZY_SECOND, "fr\0day", 6, 0, 7);
    found_as(FUZZY_FIRST, many, n, 0, 7);
    unfound(0);
    unfound(3);
    unfound(UINT32_MAX);
}

/* A moment as a phrase, with room for exactly that, and not with a byte less; it is read back in both readings, or, in a year of fewer than
 * four digits, in the first. */
static void shown(const char *phrase, uint32_t y, uint32_t mo, uint32_t d, uint32_t h, uint32_t mi) {
    const struct fuzzy_moment wanted = {y, mo, d, h, mi, 0, 0};
    size_t n = strlen(phrase);
    struct lent l = fresh();
    uint64_t answer = fuzzy_write_phrase(&wanted, l.in.text, n);
    uint32_t reading;
    expect(fuzzy_ok(answer) && fuzzy_place(answer) == 0 && fuzzy_length(answer) == n, "a moment that is shown");
    expect(memcmp(l.in.text, phrase, n) == 0, "its phrase");
    expect(kept_from(&l, n), "nothing written but the phrase");
    l = fresh();
    expect(fuzzy_write_phrase(&wanted, l.in.text, n - 1) == FUZZY_NO_ROOM, "a text too short for a phrase");
    expect(kept_from(&l, 0), "nothing written where there is no room for a phrase");
    for (reading = FUZZY_FIRST; reading <= (y < 1000 ? FUZZY_FIRST : FUZZY_SECOND); reading++) {
        l = fresh();
        expect(read_at(reading, phrase, n, &l) == 0, "a phrase that was shown");
        expect(memcmp(&l.in.moment, &wanted, sizeof wanted) == 0, "the moment that it shows");
    }
}

/* Numbers that are not shown, and nothing written. */
static void unshown(uint32_t mo, uint32_t s, uint32_t ms, size_t room, unsigned number) {
    const struct fuzzy_moment moment = {2026, mo, 4, 9, 5, s, ms};
    struct lent l = fresh();
    expect(fuzzy_write_phrase(&moment, l.in.text, room) == number, "a moment that is not shown");
    expect(kept_from(&l, 0), "nothing written for a moment that is not shown");
}

static void phrases(void) {
    shown("march 4 2026 at 9:05", 2026, 3, 4, 9, 5);
    shown("may 1 1 at 0:00", 1, 5, 1, 0, 0);
    shown("september 30 2026 at 23:59", 2026, 9, 30, 23, 59);
    shown("june 30 999 at 10:10", 999, 6, 30, 10, 10);
    shown("february 29 2024 at 12:00", 2024, 2, 29, 12, 0);
    shown("december 31 9999 at 23:59", 9999, 12, 31, 23, 59);
    unshown(13, 1, 1, 0, FUZZY_INVALID_MOMENT);
    unshown(3, 60, 0, FUZZY_PHRASE_SIZE, FUZZY_INVALID_MOMENT);
    unshown(3, 0, 1000, FUZZY_PHRASE_SIZE, FUZZY_INVALID_MOMENT);
    unshown(3, 1, 0, 0, FUZZY_NOT_WHOLE);
    unshown(3, 0, 1, FUZZY_PHRASE_SIZE, FUZZY_NOT_WHOLE);
    unshown(3, 0, 0, 0, FUZZY_NO_ROOM);
}

/* Tuesday, 2026-02-10 09:30:15.250 */
static const struct fuzzy_moment tuesday = {2026, 2, 10, 9, 30, 15, 250};

/* The moment of a date, year, month and day in one number, at so many milliseconds of 09:30:15. */
static struct fuzzy_moment on_date(uint32_t date, uint32_t millisecond) {
    struct fuzzy_moment moment = tuesday;
    moment.year = date / 10000;
    moment.month = date / 100 % 100;
    moment.day = date % 100;
    moment.millisecond = millisecond;
    return moment;
}

/* An answer that counts the occurrences of a rule from Tuesday on, whose dates are given, and nothing written after them. */
static void rows_are(const struct lent *l, uint64_t answer, size_t count, const uint32_t *dates) {
    size_t i;
    expect(fuzzy_ok(answer) && fuzzy_place(answer) == 0 && fuzzy_length(answer) == count, "a rule that is listed");
    for (i = 0; i < count; i++) {
        struct fuzzy_moment wanted = on_date(dates[i], tuesday.millisecond);
        expect(memcmp(&l->in.moments[i], &wanted, sizeof wanted) == 0, "an occurrence");
    }
    expect(kept_from(l, count * sizeof l->in.moments[0]), "nothing written but the occurrences");
}

/* The dates of a rule's occurrences from Tuesday on: with room for so many moments, for a number less than one more, and, where they fill
 * the room, for one less, down to none. */
static void listed(const char *rule, size_t room, size_t count, const uint32_t *dates) {
    struct lent l = fresh();
    size_t n = strlen(rule), numbers = FUZZY_MOMENT_NUMBERS * room + FUZZY_MOMENT_NUMBERS - 1;
    rows_are(&l, fuzzy_list(rule, n, &tuesday, l.in.moments, room), count, dates);
    l = fresh();
    if (room < MOST_MOMENTS) rows_are(&l, fuzzy_list_in(rule, n, &tuesday, l.in.numbers, numbers), count, dates);
    if (count > 0 && count == room) listed(rule, room - 1, count - 1, dates);
}

/* A length above all that a rule may have is taken as that: only as many as the rule has are written. */
static void listed_without_end(uint64_t room) {
    static const uint32_t days[] = {20260210, 20260211, 20260212};
    struct lent l = fresh();
    rows_are(&l, fuzzy_list("FREQ=DAILY;COUNT=3", 18, &tuesday, l.in.moments, room), 3, days);
}

/* A rule or a start that is refused, and nothing written. */
static void unlisted(const char *rule, size_t n, const struct fuzzy_moment *start, unsigned number) {
    struct lent l = fresh();
    expect(fuzzy_list(rule, n, start, l.in.moments, MOST_MOMENTS) == number, "a rule that is not listed");
    expect(fuzzy_list(rule, n, start, l.in.moments, 0) == number, "a rule that is not listed without room");
    expect(fuzzy_list(rule, n, start, NULL, 0) == number, "a rule that is not listed without a buffer");
    expect(kept_from(&l, 0), "nothing written for a rule that is not listed");
}

static void rules(const char *many, size_t n) {
    static const uint32_t fortnights[] = {20260210, 20260224, 20260310, 20260324, 20260407};
    static const uint32_t sundays_too[] = {20260210, 20260215, 20260224, 20260301};
    static const uint32_t days[] = {20260210, 20260211, 20260212};
    static const uint32_t months[] = {20260210, 20260310, 20260410, 20260510};
    static const struct fuzzy_moment past = {10000, 1, 1, 0, 0, 0, 0};
    static const struct fuzzy_moment no_day = {2026, 2, 29, 9, 30, 15, 250};
    static const struct fuzzy_moment no_time = {2026, 2, 10, 9, 30, 15, 1000};
    listed("FREQ=WEEKLY;INTERVAL=2;BYDAY=TU", 5, 5, fortnights);
    listed("freq=weekly;wkst=mo;byday=tu;interval=002", 5, 5, fortnights);
    listed("FREQ=WEEKLY;INTERVAL=2;BYDAY=SU,TU,SU", 4, 4, sundays_too);
    listed("FREQ=DAILY;COUNT=3", MOST_MOMENTS, 3, days);
    listed("FREQ=DAILY;UNTIL=20260212", MOST_MOMENTS, 3, days);
    listed("FREQ=DAILY;UNTIL=20260212T093015", MOST_MOMENTS, 2, days);
    listed("FREQ=DAILY;UNTIL=20260212T093016", MOST_MOMENTS, 3, days);
    listed("FREQ=MONTHLY;BYMONTHDAY=+10;COUNT=4294967295", 4, 4, months);
    listed("FREQ=MONTHLY", 0, 0, months);
    listed_without_end(3);
    listed_without_end(FUZZY_MOST_OCCURRENCES - 1);
    listed_without_end(FUZZY_MOST_OCCURRENCES);
    listed_without_end(FUZZY_MOST_OCCURRENCES + 1);
    listed_without_end(UINT64_MAX / FUZZY_MOMENT_NUMBERS + 1);
    listed_without_end(UINT64_MAX);
    unlisted("FREQ=WEEKLY;BYDAY=MO", 20, &tuesday, FUZZY_NO_START);
    unlisted("FREQ=MONTHLY;BYMONTHDAY=11", 26, &tuesday, FUZZY_NO_START);
    unlisted("FREQ=DAILY;UNTIL=20260209", 25, &tuesday, FUZZY_NO_START);
    unlisted("FREQ=DAILY;UNTIL=20260210T093015", 32, &tuesday, FUZZY_NO_START);
    unlisted("", 0, &tuesday, FUZZY_NO_RULE);
    unlisted("FREQ=DAILY\n", 11, &tuesday, FUZZY_NO_RULE);
    unlisted("FREQ=YEARLY", 11, &tuesday, FUZZY_NO_RULE);
    unlisted("RRULE:FREQ=DAILY", 16, &tuesday, FUZZY_NO_RULE);
    unlisted("FREQ=WEEKLY;BYDAY=MO;BYDAY=MO", 29, &tuesday, FUZZY_NO_RULE);
    unlisted("FREQ=DAILY;UNTIL=20260212T093015Z", 33, &tuesday, FUZZY_NO_RULE);
    unlisted(many, n, &tuesday, FUZZY_NO_RULE);
    unlisted("FREQ=DAILY", 10, &past, FUZZY_INVALID_MOMENT);
    unlisted("FREQ=YEARLY", 11, &no_day, FUZZY_INVALID_MOMENT);
    unlisted("FREQ=WEEKLY;BYDAY=MO", 20, &no_time, FUZZY_INVALID_MOMENT);
}

/* The date of the occurrence that comes next, from Tuesday on, as asked at so many milliseconds of 09:30:15 on a date; 0 where none is
 * left. */
static void comes(const char *rule, uint32_t asked_date, uint32_t millisecond, uint32_t date) {
    struct fuzzy_moment asked = on_date(asked_date, millisecond), wanted = on_date(date, tuesday.millisecond);
    struct lent l = fresh();
    expect(fuzzy_next(rule, strlen(rule), &tuesday, &asked, &l.in.moment) == (date == 0 ? FUZZY_NO_NEXT : 0),
           "whether an occurrence comes next");
    if (date != 0) expect(memcmp(&l.in.moment, &wanted, sizeof wanted) == 0, "the occurrence that comes next");
    expect(kept_from(&l, date == 0 ? 0 : sizeof wanted), "nothing written but the occurrence");
}

/* A rule, a start or an asked moment that is refused, and nothing written. The asked moment is a copy: it may be the start. */
static void unasked(const char *rule, size_t n, const struct fuzzy_moment *start, struct fuzzy_moment asked, unsigned number) {
    struct lent l = fresh();
    expect(fuzzy_next(rule, n, start, &asked, &l.in.moment) == number, "what cannot be asked");
    expect(kept_from(&l, 0), "nothing written for what cannot be asked");
}

static void asked_rules(const char *many, size_t n) {
    static const struct fuzzy_moment past = {10000, 1, 1, 0, 0, 0, 0};
    static const struct fuzzy_moment no_time = {2026, 2, 10, 9, 30, 15, 1000};
    static const struct fuzzy_moment last = {9999, 12, 31, 23, 59, 59, 999};
    comes("FREQ=WEEKLY;INTERVAL=2;BYDAY=TU", 10101, 0, 20260210);
    comes("FREQ=WEEKLY;INTERVAL=2;BYDAY=TU", 20260210, 250, 20260210);
    comes("FREQ=WEEKLY;INTERVAL=2;BYDAY=TU", 20260210, 251, 20260224);
    comes("FREQ=WEEKLY;INTERVAL=2;BYDAY=TU", 20260224, 249, 20260224);
    comes("freq=weekly;wkst=mo;byday=tu;interval=002", 20260224, 251, 20260310);
    comes("FREQ=WEEKLY;INTERVAL=2;BYDAY=SU,TU,SU", 20260211, 0, 20260215);
    comes("FREQ=DAILY;COUNT=3", 20260212, 250, 20260212);
    comes("FREQ=DAILY;COUNT=3", 20260212, 251, 0);
    comes("FREQ=DAILY;UNTIL=20260212", 20260212, 250, 20260212);
    comes("FREQ=DAILY;UNTIL=20260212", 20260213, 0, 0);
    comes("FREQ=DAILY;UNTIL=20260212T093015", 20260212, 0, 0);
    comes("FREQ=DAILY;UNTIL=20260212T093016", 20260212, 0, 20260212);
    comes("FREQ=DAILY", 99991231, 250, 99991231);
    comes("FREQ=DAILY", 99991231, 251, 0);
    comes("FREQ=MONTHLY;BYMONTHDAY=+10;COUNT=95687", 99991111, 0, 99991210);
    comes("FREQ=MONTHLY;BYMONTHDAY=+10;COUNT=95686", 99991111, 0, 0);
    unasked("FREQ=WEEKLY;BYDAY=MO", 20, &tuesday, last, FUZZY_NO_START);
    unasked("FREQ=DAILY;UNTIL=20260209", 25, &tuesday, last, FUZZY_NO_START);
    unasked("", 0, &tuesday, tuesday, FUZZY_NO_RULE);
    unasked("FREQ=YEARLY", 11, &tuesday, last, FUZZY_NO_RULE);
    unasked(many, n, &tuesday, tuesday, FUZZY_NO_RULE);
    unasked("FREQ=DAILY", 10, &past, tuesday, FUZZY_INVALID_MOMENT);
    unasked("FREQ=DAILY", 10, &tuesday, past, FUZZY_INVALID_MOMENT);
    unasked("FREQ=YEARLY", 11, &tuesday, no_time, FUZZY_INVALID_MOMENT);
    unasked("FREQ=WEEKLY;BYDAY=MO", 20, &no_time, last, FUZZY_INVALID_MOMENT);
}

/* The most bytes of a zone's file, and one more. */
static uint8_t zone[65537];
static size_t zone_length;

/* 01:30:00 on 8 March 2026, half an hour before New York's clocks go forward; the last transition that the file has. */
#define BEFORE_GAP 1772951400
#define LAST 1805007600

/* A phrase at an instant in the zone, read, and run where it can be made ready: the same answer, and the same written by both. */
static uint64_t in_zone(uint32_t reading, const char *phrase, size_t n, int64_t second, uint32_t ms, struct lent *due, struct lent *local) {
    struct lent ready = fresh(), d = fresh(), l = fresh();
    uint64_t made = fuzzy_make_ready(reading, phrase, n, ready.in.ready), run;
    uint64_t answer = fuzzy_read_in_zone(reading, phrase, n, zone, zone_length, second, ms, &due->in.due, &local->in.local);
    if (!fuzzy_ok(made)) {
        expect(answer == made, "reading in a zone refuses as making ready does");
        return answer;
    }
    run = fuzzy_run_in_zone(ready.in.ready, fuzzy_length(made), zone, zone_length, second, ms, &d.in.due, &l.in.local);
    expect(run == answer, "running in a zone");
    expect(memcmp(&d, due, sizeof d) == 0 && memcmp(&l, local, sizeof l) == 0, "what running in a zone writes");
    return answer;
}

/* An instant and what New York's clocks show then, month to second, in 2026 and an offset of so many hours to the west; the milliseconds
 * are kept or 0. */
static void due_at(const char *phrase, int64_t second, int64_t due, uint32_t mo, uint32_t d, uint32_t h, uint32_t mi, uint32_t ms,
                   uint32_t hours) {
    const struct fuzzy_local wanted = {{2026, mo, d, h, mi, 0, ms}, 1, 3600 * hours};
    uint32_t reading;
    for (reading = FUZZY_FIRST; reading <= FUZZY_SECOND; reading++) {
        struct lent at = fresh(), local = fresh();
        expect(in_zone(reading, phrase, strlen(phrase), second, 250, &at, &local) == 0, "a phrase in a zone");
        expect(at.in.due == due, "its instant");
        expect(memcmp(&local.in.local, &wanted, sizeof wanted) == 0, "what the clocks show");
        expect(kept_from(&at, sizeof due) && kept_from(&local, sizeof wanted), "nothing written but the instant and what the clocks show");
    }
}

/* A refusal in the zone, and nothing written. */
static void undue(uint32_t reading, const char *phrase, size_t n, int64_t second, uint32_t ms, unsigned number) {
    struct lent due = fresh(), local = fresh();
    expect(fuzzy_number(in_zone(reading, phrase, n, second, ms, &due, &local)) == number, "the number of a refusal in a zone");
    expect(kept_from(&due, 0) && kept_from(&local, 0), "nothing written on a refusal in a zone");
}

/* The same at half past one in the first reading. */
static void undue_phrase(const char *phrase, unsigned number) {
    undue(FUZZY_FIRST, phrase, strlen(phrase), BEFORE_GAP, 250, number);
}

static void zones(const char *many, size_t n) {
    due_at("now", BEFORE_GAP, BEFORE_GAP, 3, 8, 1, 30, 250, 5);
    due_at("today 3:00", BEFORE_GAP, 1772953200, 3, 8, 3, 0, 0, 4);
    due_at("an hour from now", BEFORE_GAP, 1772955000, 3, 8, 3, 30, 250, 4);
    due_at("1 day from now", 1772892000, 1772978400, 3, 8, 10, 0, 250, 4);
    due_at("tomorrow", 1772892000, 1772974800, 3, 8, 9, 0, 250, 4);
    due_at("2 months from now", 1770535800, 1775629800, 4, 8, 2, 30, 250, 4);
    due_at("now", 1793514600, 1793514600, 11, 1, 1, 30, 250, 5);
    due_at("today", 1793514600, 1793511000, 11, 1, 1, 30, 250, 4);
    undue(FUZZY_FIRST, "a month from now", 16, 1770535800, 250, FUZZY_NO_INSTANT);
    undue_phrase("today 2:00", FUZZY_NO_INSTANT);
    undue_phrase("today 2:59", FUZZY_NO_INSTANT);
    undue_phrase("2 years from now", FUZZY_PAST_LAST);
    undue_phrase("four billion days from now", FUZZY_PAST_LAST);
    undue_phrase("four billion days ago", FUZZY_OUTSIDE);
    undue_phrase("four billion months from now", FUZZY_OUTSIDE);
    undue(FUZZY_FIRST, "a year from now", 15, 1709226000, 250, FUZZY_NO_LEAP_DAY);
    undue_phrase("january 1, 99", FUZZY_NO_TIME);
    undue_phrase("1000/1/1", FUZZY_NO_DATE);
    undue_phrase("this month", FUZZY_NO_SENSE);
    undue(FUZZY_SECOND, "now", 3, LAST, 0, FUZZY_PAST_LAST);
    undue(FUZZY_SECOND, "this month", 10, LAST, 0, FUZZY_PAST_LAST);
    undue(FUZZY_SECOND, "now", 3, LAST, 1000, FUZZY_INVALID_MOMENT);
    undue(FUZZY_SECOND, "now", 3, BEFORE_GAP, UINT32_MAX, FUZZY_INVALID_MOMENT);
    undue(FUZZY_SECOND, "now", 3, INT64_MIN, 0, FUZZY_INVALID_MOMENT);
    undue(FUZZY_SECOND, "now", 3, INT64_MAX, 0, FUZZY_PAST_LAST);
    undue(0, "now", 3, BEFORE_GAP, 1000, FUZZY_NO_READING);
    undue(FUZZY_FIRST, many, n, BEFORE_GAP, 1000, FUZZY_TOO_LONG);
    undue(FUZZY_FIRST, "5/2", 3, LAST, 1000, FUZZY_LEFT_OVER);
}

/* Bytes that are not a zone, by both calls: after what making ready refuses, before everything else. */
static void unzoned(void) {
    undue(FUZZY_FIRST, "now", 3, BEFORE_GAP, 0, FUZZY_NO_ZONE);
    undue(FUZZY_SECOND, "this month", 10, LAST, 1000, FUZZY_NO_ZONE);
    undue(FUZZY_FIRST, "", 0, BEFORE_GAP, 0, FUZZY_NOTHING);
    undue(UINT32_MAX, "", 0, BEFORE_GAP, 0, FUZZY_NO_READING);
}

/* A zone with a bit changed: refused, or another zone, in which "tomorrow" may be refused too. */
static void damaged(void) {
    struct lent due = fresh(), local = fresh();
    uint64_t answer = in_zone(FUZZY_FIRST, "tomorrow", 8, BEFORE_GAP, 250, &due, &local);
    int written = answer == 0, by_zone = answer >= FUZZY_NO_ZONE && answer <= FUZZY_NO_INSTANT;
    expect(written || answer == FUZZY_INVALID_MOMENT || answer == FUZZY_OUTSIDE || by_zone, "an answer in a damaged zone");
    expect(kept_from(&due, written ? sizeof due.in.due : 0), "nothing written but the instant in a damaged zone");
    expect(kept_from(&local, written ? sizeof local.in.local : 0), "nothing written but what the clocks of a damaged zone show");
}

/* The file cut short, with each bit changed, and with as many bytes after it as a zone may have, and one more; then bytes that are not a
 * file. */
static void files(const char *many, size_t n) {
    size_t whole = zone_length, i;
    for (zone_length = 0; zone_length < whole; zone_length++) unzoned();
    for (i = 0; i < 8 * whole; i++) {
        zone[i / 8] ^= (uint8_t)(1u << i % 8);
        damaged();
        zone[i / 8] ^= (uint8_t)(1u << i % 8);
    }
    zone_length = sizeof zone - 1;
    due_at("now", BEFORE_GAP, BEFORE_GAP, 3, 8, 1, 30, 250, 5);
    zone_length = sizeof zone;
    unzoned();
    memcpy(zone, many, n);
    for (zone_length = 0; zone_length <= n; zone_length += 64) unzoned();
}

/* Bytes that are not a ready phrase, in a zone. */
static void unready(const char *many) {
    const uint8_t *bytes = (const uint8_t *)many;
    struct lent due = fresh(), local = fresh();
    expect(fuzzy_run_in_zone(bytes, 0, zone, zone_length, 0, 0, &due.in.due, &local.in.local) == FUZZY_NO_SENSE, "no step in a zone");
    expect(fuzzy_run_in_zone(bytes, 400, zone, zone_length, 0, 0, &due.in.due, &local.in.local) == FUZZY_NO_SENSE, "25 records in a zone");
    expect(fuzzy_run_in_zone(bytes, 0, zone, zone_length, LAST, 0, &due.in.due, &local.in.local) == FUZZY_PAST_LAST, "22 before 9");
    expect(kept_from(&due, 0) && kept_from(&local, 0), "nothing written for what is not a ready phrase");
}

static void take_zone(const char *name) {
    FILE *file = fopen(name, "rb");
    if (file == NULL) return;
    zone_length = fread(zone, 1, sizeof zone, file);
    fclose(file);
}

/* A board between two guards, and how it was before a call. */
static struct guarded {
    uint8_t before[GUARD];
    struct fuzzy_board board;
    uint8_t after[GUARD];
} held, was;

#define IN_SLOT(slot) ((uint64_t)(slot) << 32)

/* The guards of the board are as they were. */
static void board_guarded(void) {
    size_t i;
    for (i = 0; i < GUARD; i++) expect(held.before[i] == PATTERN && held.after[i] == PATTERN, "nothing written beside a board");
}

/* A call's answer; where it is a refusal, every byte of the board is as it was. */
static void answered(uint64_t answer, uint64_t wanted, const char *what) {
    expect(answer == wanted, what);
    if (!fuzzy_ok(wanted)) expect(memcmp(&held, &was, sizeof held) == 0, "a refused call leaves the board unchanged");
    board_guarded();
    was = held;
}

static uint64_t add_phrase(uint32_t reading, const char *phrase) {
    return fuzzy_board_add(&held.board, reading, phrase, strlen(phrase));
}

static uint64_t again_at(uint32_t year, uint32_t month, uint32_t day, uint32_t millisecond) {
    return fuzzy_board_again(&held.board, AT(year, month, day, 0, 0, 0, millisecond));
}

/* The head's slot, month, day and hour; in no slot 26, and nothing written. */
static void heads(uint32_t slot, uint32_t month, uint32_t day, uint32_t hour) {
    struct lent l = fresh();
    uint64_t answer = fuzzy_board_head(&held.board, &l.in.moment);
    int none = slot == FUZZY_BOARD_SLOTS;
    expect(answer == (none ? FUZZY_NOTHING_DUE : IN_SLOT(slot)), "the slot of a head");
    if (!none) expect(l.in.moment.month == month && l.in.moment.day == day && l.in.moment.hour == hour, "the moment of a head");
    expect(kept_from(&l, none ? 0 : sizeof l.in.moment), "nothing written but the head's moment");
    expect(memcmp(&held, &was, sizeof held) == 0, "asking leaves the board unchanged");
}

/* The order has these slots, and nothing is written after them. */
static void ordered(const uint32_t *slots, size_t count) {
    static uint32_t found[FUZZY_BOARD_SLOTS + 1];
    size_t i;
    memset(found, PATTERN, sizeof found);
    expect(fuzzy_board_order(&held.board, found) == (uint64_t)count << 32, "the count of an order");
    expect(memcmp(found, slots, count * sizeof *slots) == 0, "the slots of an order");
    for (i = count; i <= FUZZY_BOARD_SLOTS; i++) expect(found[i] == 0xa5a5a5a5u, "nothing written after an order");
    expect(memcmp(&held, &was, sizeof held) == 0, "asking leaves the board unchanged");
}

/* What adding refuses before it looks for a slot, in either reading. */
static void unadded(const char *many) {
    answered(add_phrase(0, "forty"), FUZZY_NO_READING, "adding in no reading");
    answered(add_phrase(3, "now"), FUZZY_NO_READING, "adding in no reading");
    answered(fuzzy_board_add(&held.board, 1, many, 257), FUZZY_TOO_LONG, "adding a long phrase");
    answered(add_phrase(2, "next fryday"), FUZZY_UNKNOWN | 5u << 16 | (uint64_t)6 << 32, "adding what is not understood");
    answered(add_phrase(1, "4294967296 days ago"), FUZZY_LARGE_DIGITS | (uint64_t)10 << 32, "adding large digits");
    answered(fuzzy_board_add(&held.board, 2, many, 256), FUZZY_TOO_MANY | 128u << 16 | (uint64_t)1 << 32, "adding 65 numbers");
    answered(add_phrase(1, ""), FUZZY_NOTHING, "adding nothing");
    answered(fuzzy_board_add(&held.board, 2, NULL, 0), FUZZY_NOTHING, "adding a null phrase");
    answered(add_phrase(2, "five billion days ago"), FUZZY_LARGE_SUM, "adding a large sum");
    answered(add_phrase(1, "5/2"), FUZZY_LEFT_OVER | 1u << 16 | (uint64_t)2 << 32, "adding what is left over");
}

/* Few reminders: ties, one that refuses at every now, one that refuses at one, and both readings. */
static void small_board(const char *many) {
    static const uint32_t first[] = {1, 3, 4, 2, 0, 5, 6}, second[] = {3, 4, 2, 0, 5, 6};
    static const uint32_t leap_day[] = {3, 4, 2, 6, 0, 1, 5}, none[] = {0, 1};
    answered(fuzzy_board_make(&held.board, AT(2026, 2, 30, 0, 0, 0, 0)), FUZZY_INVALID_MOMENT, "a board at an invalid now");
    answered(fuzzy_board_make(&held.board, NOW), 0, "a board");
    heads(FUZZY_BOARD_SLOTS, 0, 0, 0);
    ordered(none, 0);
    answered(fuzzy_board_remove(&held.board, 0), FUZZY_EMPTY_SLOT, "removing from an empty board");
    unadded(many);
    answered(add_phrase(1, "next friday"), IN_SLOT(0), "adding");
    answered(add_phrase(1, "tuesday in two weeks"), IN_SLOT(1), "adding");
    answered(add_phrase(1, "noon"), IN_SLOT(2), "adding");
    answered(add_phrase(2, "an hour ago"), IN_SLOT(3), "adding");
    answered(add_phrase(1, "60 minutes ago"), IN_SLOT(4), "adding a tie");
    answered(add_phrase(1, "this month"), IN_SLOT(5), "adding what refuses at every now");
    answered(add_phrase(1, "1000/1/1"), IN_SLOT(6), "adding what refuses at every now");
    ordered(first, 7);
    heads(1, 1, 27, 9);
    answered(fuzzy_board_remove(&held.board, 7), FUZZY_EMPTY_SLOT, "removing from a slot that was never filled");
    answered(fuzzy_board_remove(&held.board, 256), FUZZY_EMPTY_SLOT, "removing from slot 256");
    answered(fuzzy_board_remove(&held.board, 257), FUZZY_EMPTY_SLOT, "removing from slot 257");
    answered(fuzzy_board_remove(&held.board, UINT32_MAX), FUZZY_EMPTY_SLOT, "removing from the last number");
    answered(fuzzy_board_remove(&held.board, 1), 0, "removing");
    answered(fuzzy_board_remove(&held.board, 1), FUZZY_EMPTY_SLOT, "removing twice");
    ordered(second, 6);
    heads(3, 2, 11, 8);
    answered(again_at(2026, 13, 1, 0), FUZZY_INVALID_MOMENT, "running again in month 13");
    answered(again_at(2026, 2, 12, 1000), FUZZY_INVALID_MOMENT, "running again at millisecond 1000");
    ordered(second, 6);
    answered(again_at(2026, 2, 12, 0), 0, "running again at midnight");
    heads(3, 2, 11, 23);
    answered(fuzzy_board_remove(&held.board, 6), 0, "removing what refuses");
    answered(add_phrase(1, "a year from now"), IN_SLOT(1), "adding into the lowest free slot");
    answered(add_phrase(2, "march 3, 2024"), IN_SLOT(6), "adding into the next");
    answered(again_at(2024, 2, 29, 0), 0, "running again at an older now");
    ordered(leap_day, 7);
    answered(fuzzy_board_make(&held.board, NOW), 0, "making a board anew");
    heads(FUZZY_BOARD_SLOTS, 0, 0, 0);
    answered(add_phrase(1, "this month"), IN_SLOT(0), "adding what refuses at every now");
    heads(FUZZY_BOARD_SLOTS, 0, 0, 0);
    ordered(none, 1);
}

/* As many as there are slots, all at one moment, and no more. */
static void full_board(const char *many) {
    static uint32_t slots[FUZZY_BOARD_SLOTS];
    uint32_t i;
    answered(fuzzy_board_make(&held.board, NOW), 0, "a board");
    for (i = 0; i < FUZZY_BOARD_SLOTS; i++) {
        answered(add_phrase(1 + i % 2, "tomorrow"), IN_SLOT(i), "filling a board");
        slots[i] = i;
    }
    ordered(slots, FUZZY_BOARD_SLOTS);
    heads(0, 2, 12, 9);
    answered(add_phrase(1, "now"), FUZZY_FULL_BOARD, "adding to a full board");
    unadded(many);
    answered(again_at(2026, 2, 30, 0), FUZZY_INVALID_MOMENT, "running a full board again at an invalid now");
    answered(again_at(2026, 2, 12, 0), 0, "running a full board again");
    heads(0, 2, 13, 0);
    answered(fuzzy_board_remove(&held.board, 200), 0, "removing from a full board");
    answered(fuzzy_board_remove(&held.board, 77), 0, "removing from a full board");
    answered(add_phrase(1, "now"), IN_SLOT(77), "the lowest free slot first");
    heads(77, 2, 12, 0);
    answered(add_phrase(1, "now"), IN_SLOT(200), "then the next");
    answered(add_phrase(1, "now"), FUZZY_FULL_BOARD, "adding to a board that is full again");
}

/* Memory that no call made: every call answers, and nothing beside it is written. */
static void any_memory(uint8_t filling, uint32_t count) {
    static uint32_t slots[FUZZY_BOARD_SLOTS];
    struct fuzzy_moment moment, same;
    uint64_t answer;
    uint32_t slot;
    size_t i;
    memset(&held.board, filling, sizeof held.board);
    held.board.state[7] = count;
    answer = fuzzy_board_head(&held.board, &moment);
    expect(fuzzy_ok(answer) || answer == FUZZY_NOTHING_DUE, "a head of any memory");
    if (fuzzy_ok(answer)) expect(fuzzy_read(FUZZY_FIRST, "now", 3, &moment, &same) == 0, "a head of any memory is a valid moment");
    answer = fuzzy_board_order(&held.board, slots);
    expect(fuzzy_ok(answer) && fuzzy_length(answer) <= FUZZY_BOARD_SLOTS, "an order of any memory");
    for (i = 0; i < fuzzy_length(answer); i++) expect(slots[i] < FUZZY_BOARD_SLOTS, "slots of any memory");
    answer = add_phrase(1, "next friday");
    expect(fuzzy_ok(answer) ? fuzzy_length(answer) < FUZZY_BOARD_SLOTS : answer == FUZZY_FULL_BOARD, "adding to any memory");
    for (slot = 0; slot <= FUZZY_BOARD_SLOTS; slot++) {
        answer = fuzzy_board_remove(&held.board, slot);
        expect(answer == 0 || answer == FUZZY_EMPTY_SLOT, "removing from any memory");
    }
    memset(held.board.lengths, filling, sizeof held.board.lengths);
    expect(again_at(2026, 2, 12, 0) == 0, "running any memory again");
    board_guarded();
    was = held;
    answered(fuzzy_board_make(&held.board, NOW), 0, "making a board of any memory");
    heads(FUZZY_BOARD_SLOTS, 0, 0, 0);
}

static void boards(const char *many) {
    static const uint8_t fillings[] = {0, 1, 16, 127, 128, PATTERN, 255};
    static const uint32_t counts[] = {0, 1, 255, 256, 257, UINT32_MAX};
    size_t i, k;
    memset(&held, PATTERN, sizeof held);
    was = held;
    small_board(many);
    full_board(many);
    for (i = 0; i < sizeof fillings; i++) {
        for (k = 0; k < sizeof counts / sizeof counts[0]; k++) any_memory(fillings[i], counts[k]);
    }
}

/* A null pointer with length 0 is an empty text, word, rule, ready phrase or zone, or no room, in every call that takes a length. */
static void nulls(void) {
    static const struct fuzzy_stamp stamp = {{2026, 2, 11, 9, 30, 15, 250}, 0, 0};
    static const struct fuzzy_moment whole = {2026, 2, 11, 9, 30, 0, 0};
    struct lent l = fresh(), ready = fresh();
    expect(fuzzy_read(FUZZY_FIRST, NULL, 0, NOW, &l.in.moment) == FUZZY_NOTHING, "reading a null phrase");
    expect(fuzzy_read(FUZZY_SECOND, NULL, 0, NOW, &l.in.moment) == FUZZY_NOTHING, "reading a null phrase in the second reading");
    expect(fuzzy_make_ready(FUZZY_FIRST, NULL, 0, ready.in.ready) == FUZZY_NOTHING, "making a null phrase ready");
    expect(fuzzy_run(NULL, 0, NOW, &l.in.moment) == FUZZY_NO_SENSE, "running a null ready phrase");
    expect(fuzzy_read_stamp(NULL, 0, &l.in.stamp) == FUZZY_NO_STAMP, "reading a null stamp");
    expect(fuzzy_write_stamp(&stamp, NULL, 0) == FUZZY_NO_ROOM, "writing a stamp into a null text");
    expect(fuzzy_write_phrase(&whole, NULL, 0) == FUZZY_NO_ROOM, "writing a phrase into a null text");
    expect(fuzzy_list(NULL, 0, &tuesday, l.in.moments, MOST_MOMENTS) == FUZZY_NO_RULE, "listing a null rule");
    expect(fuzzy_list(NULL, 0, &tuesday, NULL, 0) == FUZZY_NO_RULE, "listing a null rule into nothing");
    expect(fuzzy_list("FREQ=DAILY", 10, &tuesday, NULL, 0) == 0, "listing into nothing");
    expect(fuzzy_list_in("FREQ=DAILY", 10, &tuesday, NULL, 0) == 0, "listing numbers into nothing");
    expect(fuzzy_next(NULL, 0, &tuesday, NOW, &l.in.moment) == FUZZY_NO_RULE, "asking a null rule");
    expect(kept_from(&l, 0) && kept_from(&ready, 0), "nothing written for a null pointer");
    found_as(FUZZY_FIRST, NULL, 0, 0, 7);
    found_as(FUZZY_SECOND, NULL, 0, 0, 7);
}

/* The same in the zone. */
static void nulls_in_zone(void) {
    struct lent ready = fresh(), due = fresh(), local = fresh();
    uint64_t made = fuzzy_make_ready(FUZZY_FIRST, "now", 3, ready.in.ready);
    int64_t *d = &due.in.due;
    struct fuzzy_local *l = &local.in.local;
    expect(fuzzy_read_in_zone(FUZZY_FIRST, NULL, 0, zone, zone_length, BEFORE_GAP, 0, d, l) == FUZZY_NOTHING,
           "reading a null phrase in a zone");
    expect(fuzzy_read_in_zone(FUZZY_FIRST, "now", 3, NULL, 0, BEFORE_GAP, 0, d, l) == FUZZY_NO_ZONE, "reading in a null zone");
    expect(fuzzy_read_in_zone(FUZZY_FIRST, NULL, 0, NULL, 0, BEFORE_GAP, 0, d, l) == FUZZY_NOTHING, "reading a null phrase in a null zone");
    expect(fuzzy_run_in_zone(NULL, 0, zone, zone_length, BEFORE_GAP, 0, d, l) == FUZZY_NO_SENSE, "running a null ready phrase in a zone");
    expect(fuzzy_run_in_zone(ready.in.ready, fuzzy_length(made), NULL, 0, BEFORE_GAP, 0, d, l) == FUZZY_NO_ZONE, "running in a null zone");
    expect(fuzzy_run_in_zone(NULL, 0, NULL, 0, BEFORE_GAP, 0, d, l) == FUZZY_NO_ZONE, "running a null ready phrase in a null zone");
    expect(kept_from(&due, 0) && kept_from(&local, 0), "nothing written for a null pointer in a zone");
}

/* The version's numbers, its text, and the library's are one. */
static void versions(void) {
    char text[40];
    snprintf(text, sizeof text, "%d.%d.%d", FUZZY_VERSION_MAJOR, FUZZY_VERSION_MINOR, FUZZY_VERSION_PATCH);
    expect(strcmp(text, FUZZY_VERSION) == 0, "the version's text");
    expect(fuzzy_version() == 1000000 * FUZZY_VERSION_MAJOR + 1000 * FUZZY_VERSION_MINOR + FUZZY_VERSION_PATCH, "the library's version");
}

/* Every refusal has words of its own, and a number that is not known has others. */
static void refusals(void) {
    const char *unknown = "a refusal of a newer library";
    uint32_t i, k;
    expect(strcmp(fuzzy_words(0), "done") == 0, "the words of success");
    expect(strcmp(fuzzy_words(FUZZY_TOO_LONG), "longer than 256 bytes") == 0, "the words of the first refusal");
    expect(strcmp(fuzzy_words(FUZZY_NOTHING_DUE), "no reminder has a moment") == 0, "the words of the last refusal");
    for (i = 0; i <= FUZZY_NOTHING_DUE; i++) {
        expect(fuzzy_words(i)[0] != '\0' && strcmp(fuzzy_words(i), unknown) != 0, "the words of a refusal");
        for (k = 0; k < i; k++) expect(strcmp(fuzzy_words(i), fuzzy_words(k)) != 0, "words of its own");
        expect(fuzzy_ok(i) == (i == 0) && fuzzy_number(i) == i && fuzzy_place(i) == 0 && fuzzy_length(i) == 0, "the parts of a refusal");
    }
    expect(strcmp(fuzzy_words(FUZZY_NOTHING_DUE + 1), unknown) == 0, "the words of the next number");
    expect(strcmp(fuzzy_words(UINT32_MAX), unknown) == 0, "the words of the last number");
    expect(fuzzy_number(UINT64_MAX) == 0xffff && fuzzy_place(UINT64_MAX) == 0xffff && fuzzy_length(UINT64_MAX) == UINT32_MAX,
           "the largest parts");
    expect(!fuzzy_ok(UINT64_MAX) && fuzzy_ok((uint64_t)7 << 32), "a refusal and a success that counts");
}

int main(int count, char **arguments) {
    static char many[4096];
    struct lent l = fresh();
    size_t i;

    given("next friday", 2026, 2, 20, 9, 30, 15, 250);
    given_as(FUZZY_FIRST, "tuesday in two weeks", 2026, 1, 27, 9, 30, 15, 250);
    given_as(FUZZY_SECOND, "tuesday in two weeks", 2026, 3, 3, 9, 30, 15, 250);
    given_as(FUZZY_SECOND, "march 3 5 pm", 2026, 3, 3, 17, 0, 0, 0);
    given_as(FUZZY_SECOND, "march 24th", 2026, 3, 24, 9, 30, 15, 250);
    given_as(FUZZY_SECOND, "january 1, 2010", 2010, 1, 1, 9, 30, 15, 250);
    given_as(FUZZY_SECOND, "forty days ago", 2026, 1, 2, 9, 30, 15, 250);
    given("tuesday two weeks ago", 2026, 1, 27, 9, 30, 15, 250);
    given("5.2.2022", 2022, 2, 5, 9, 30, 15, 250);
    given("an hour ago", 2026, 2, 11, 8, 30, 15, 250);
    given("friday at midnight", 2026, 2, 13, 0, 0, 0, 0);
    given("an hour after noon", 2026, 2, 11, 13, 0, 0, 0);
    given("5/2 at noon", 2026, 5, 2, 12, 0, 0, 0);
    given("2 months before 3 weeks after tomorrow at 5:00", 2026, 1, 5, 5, 0, 0, 0);

    at_millisecond(0, 0);
    at_millisecond(999, 0);
    at_millisecond(1000, FUZZY_INVALID_MOMENT);
    at_millisecond(UINT32_MAX, FUZZY_INVALID_MOMENT);

    refused_as(0, "forty", 5, FUZZY_NO_READING, 0, 0);
    refused_as(3, "", 0, FUZZY_NO_READING, 0, 0);
    refused_as(UINT32_MAX, "today", 5, FUZZY_NO_READING, 0, 0);
    refused("", 0, FUZZY_NOTHING, 0, 0);
    refused("   ", 3, FUZZY_NOTHING, 0, 0);
    refused("fourthy days ago", 16, FUZZY_UNKNOWN, 0, 7);
    refused_as(FUZZY_FIRST, "forty days ago", 14, FUZZY_UNKNOWN, 0, 5);
    refused("at \xff", 4, FUZZY_UNKNOWN, 3, 1);
    refused("in\0two days", 11, FUZZY_UNKNOWN, 2, 1);
    refused("4294967296 days ago", 19, FUZZY_LARGE_DIGITS, 0, 10);
    refused("five billion days ago", 21, FUZZY_LARGE_SUM, 0, 0);
    refused("5/2", 3, FUZZY_LEFT_OVER, 1, 2);
    refused("this month", 10, FUZZY_NO_SENSE, 0, 0);
    refused("1000/1/1", 8, FUZZY_NO_DATE, 0, 0);
    refused("january 1, 99", 13, FUZZY_NO_TIME, 0, 0);
    refused_as(FUZZY_FIRST, "january 1, 2010", 15, FUZZY_NO_TIME, 0, 0);
    refused_as(FUZZY_FIRST, "march 3 5 pm", 12, FUZZY_LEFT_OVER, 10, 2);
    refused_as(FUZZY_FIRST, "march 24th", 10, FUZZY_LEFT_OVER, 8, 2);
    refused("four billion days ago", 21, FUZZY_OUTSIDE, 0, 0);
    for (i = 0; i < sizeof many; i++) many[i] = i % 2 == 0 ? '1' : ' ';
    refused(many, 256, FUZZY_TOO_MANY, 128, 1);
    refused(many, 257, FUZZY_TOO_LONG, 0, 0);
    refused(many, sizeof many, FUZZY_TOO_LONG, 0, 0);
    refused_as(3, many, sizeof many, FUZZY_NO_READING, 0, 0);

    expect(fuzzy_read(FUZZY_FIRST, "today", 5, AT(10000, 1, 1, 0, 0, 0, 0), &l.in.moment) == FUZZY_INVALID_MOMENT,
           "a now after the calendar");
    expect(fuzzy_read(3, "today", 5, AT(10000, 1, 1, 0, 0, 0, 0), &l.in.moment) == FUZZY_NO_READING, "an unknown reading, before the now");
    expect(fuzzy_read(FUZZY_FIRST, "a year from now", 15, AT(2024, 2, 29, 12, 0, 0, 0), &l.in.moment) == FUZZY_NO_LEAP_DAY, "29 February");
    expect(fuzzy_run((const uint8_t *)many, 0, NOW, &l.in.moment) == FUZZY_NO_SENSE, "no step");
    expect(fuzzy_run((const uint8_t *)many, 400, NOW, &l.in.moment) == FUZZY_NO_SENSE, "25 records");
    expect(kept_from(&l, 0), "nothing written by any of these");
    stamps();
    words(many, sizeof many);
    phrases();
    rules(many, sizeof many);
    asked_rules(many, sizeof many);
    if (count == 2) take_zone(arguments[1]);
    zones(many, sizeof many);
    unready(many);
    nulls();
    nulls_in_zone();
    files(many, sizeof many);
    boards(many);
    versions();
    refusals();

    printf(failed ? "some calls failed\n" : "every call answered as it should\n");
    return failed;
}
