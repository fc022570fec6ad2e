/* moments.h: moments and instants in SQLite's own text, 2026-02-20 15:00:00 or 2026-02-20 15:00:00.250. */
#ifndef MOMENTS_H
#define MOMENTS_H

#include "fuzzy.h"

#include <stdio.h>
#include <string.h>

/* The longest text of a moment, and a zero byte. */
#define MOMENT_SIZE 24

#define SECONDS_OF_A_DAY 86400

/* The days from 1 March of year 0 to 1 January 1970. */
#define DAYS_TO_1970 719468

/* The first and the last second of the years 1 to 9999, counted from 1970-01-01T00:00:00Z. */
#define FIRST_SECOND (-62135596800)
#define LAST_SECOND 253402300799

/* Whether a text is 2026-02-20 15:00:00 or 2026-02-20 15:00:00.250, with a T allowed for the space. */
static inline int has_moment_form(const char *text, uint64_t length) {
    static const char form[] = "0000-00-00 00:00:00.000";
    uint64_t i;
    if (length != 19 && length != 23) return 0;
    for (i = 0; i < length; i++) {
        int digit = text[i] >= '0' && text[i] <= '9', letter = i == 10 && text[i] == 'T';
        if (form[i] == '0' ? !digit : text[i] != form[i] && !letter) return 0;
    }
    return 1;
}

static inline uint32_t digits(const char *text, int count) {
    uint32_t number = 0;
    for (; count > 0; count--) number = 10 * number + (uint32_t)(*text++ - '0');
    return number;
}

/* Reads a moment's text; says whether it has the form. In any other form the moment is zeros, which the library refuses. */
static inline int read_moment(const char *text, uint64_t length, struct fuzzy_moment *moment) {
    memset(moment, 0, sizeof *moment);
    if (!has_moment_form(text, length)) return 0;
    moment->year = digits(text, 4);
    moment->month = digits(text + 5, 2);
    moment->day = digits(text + 8, 2);
    moment->hour = digits(text + 11, 2);
    moment->minute = digits(text + 14, 2);
    moment->second = digits(text + 17, 2);
    if (length == 23) moment->millisecond = digits(text + 20, 3);
    return 1;
}

static inline char *write_digits(char *text, uint32_t number, int count) {
    int i;
    for (i = count - 1; i >= 0; i--, number /= 10) text[i] = (char)('0' + number % 10);
    return text + count;
}

/* Writes a moment's text, without a fraction where its millisecond is 0; gives its length. */
static inline size_t write_moment(const struct fuzzy_moment *moment, char text[MOMENT_SIZE]) {
    char *at;
    memcpy(text, "0000-00-00 00:00:00.", 20);
    write_digits(text, moment->year, 4);
    write_digits(text + 5, moment->month, 2);
    write_digits(text + 8, moment->day, 2);
    write_digits(text + 11, moment->hour, 2);
    write_digits(text + 14, moment->minute, 2);
    at = write_digits(text + 17, moment->second, 2);
    if (moment->millisecond > 0) at = write_digits(text + 20, moment->millisecond, 3);
    return (size_t)(at - text);
}

/* The second of a stamp, counted from 1970-01-01T00:00:00Z; years are taken to begin on 1 March. */
static inline int64_t second_of(const struct fuzzy_stamp *stamp) {
    const struct fuzzy_moment *m = &stamp->moment;
    int64_t year = (int64_t)m->year - (m->month < 3), month = (m->month + 9) % 12;
    int64_t days = 365 * year + year / 4 - year / 100 + year / 400 + (153 * month + 2) / 5 + m->day - 1 - DAYS_TO_1970;
    int64_t clocks = days * SECONDS_OF_A_DAY + m->hour * 3600 + m->minute * 60 + m->second, offset = (int64_t)stamp->offset * 60;
    return stamp->west ? clocks + offset : clocks - offset;
}

/* Reads an instant: an RFC 3339 stamp or, as in SQLite's own functions, a moment in UTC. Says whether it is one. */
static inline int read_instant(const char *text, uint64_t length, int64_t *second, uint32_t *millisecond) {
    char utc[MOMENT_SIZE];
    struct fuzzy_stamp stamp;
    if (has_moment_form(text, length)) {
        memcpy(utc, text, length);
        utc[10] = 'T';
        utc[length++] = 'Z';
        text = utc;
    }
    if (!fuzzy_ok(fuzzy_read_stamp(text, length, &stamp))) return 0;
    *second = second_of(&stamp);
    *millisecond = stamp.moment.millisecond;
    return 1;
}

/* The date that is so many days after 1 March of year 0, by 400 years of 146,097 days. */
static inline void date_after(int64_t days, struct fuzzy_moment *m) {
    int64_t day = days % 146097, year = (day - day / 1460 + day / 36524 - day / 146096) / 365;
    int64_t rest = day - (365 * year + year / 4 - year / 100), month = (5 * rest + 2) / 153;
    m->year = (uint32_t)(400 * (days / 146097) + year + (month >= 10));
    m->month = (uint32_t)((month + 2) % 12 + 1);
    m->day = (uint32_t)(rest - (153 * month + 2) / 5 + 1);
}

/* An instant as a moment in UTC; says whether it is in the years 1 to 9999 there. */
static inline int moment_in_utc(int64_t second, uint32_t millisecond, struct fuzzy_moment *m) {
    int64_t passed = second + (int64_t)DAYS_TO_1970 * SECONDS_OF_A_DAY, clock = passed % SECONDS_OF_A_DAY;
    if (second < FIRST_SECOND || second > LAST_SECOND) return 0;
    date_after(passed / SECONDS_OF_A_DAY, m);
    m->hour = (uint32_t)(clock / 3600);
    m->minute = (uint32_t)(clock / 60 % 60);
    m->second = (uint32_t)(clock % 60);
    m->millisecond = millisecond;
    return 1;
}

#endif
