/* dates.h: random dates and times of day, and the order of moments. For the programs that try sentences on random moments. */
#ifndef DATES_H
#define DATES_H

#include "fuzzy.h"
#include "lent.h"

static inline uint32_t month_length(uint32_t year, uint32_t month) {
    if (month == 2) return (year % 4 == 0 && year % 100 != 0) || year % 400 == 0 ? 29 : 28;
    return month == 4 || month == 6 || month == 9 || month == 11 ? 30 : 31;
}

/* Moments of the calendar are ordered by their numbers, the year first. */
static inline int is_after(const struct fuzzy_moment *a, const struct fuzzy_moment *b) {
    if (a->year != b->year) return a->year > b->year;
    if (a->month != b->month) return a->month > b->month;
    if (a->day != b->day) return a->day > b->day;
    if (a->hour != b->hour) return a->hour > b->hour;
    if (a->minute != b->minute) return a->minute > b->minute;
    if (a->second != b->second) return a->second > b->second;
    return a->millisecond > b->millisecond;
}

static inline int is_same(const struct fuzzy_moment *a, const struct fuzzy_moment *b) {
    return !is_after(a, b) && !is_after(b, a);
}

/* A date of any year, at times of the first or last ones or a leap year, and at times at a month's end. */
static inline void random_date(struct fuzzy_moment *now) {
    static const uint32_t first[4] = {1, 9997, 4, 1}, count[4] = {3, 3, 2499, 9999}, apart[4] = {1, 1, 4, 1};
    size_t kind = random_below(8);
    if (kind > 3) kind = 3;
    now->year = first[kind] + apart[kind] * (uint32_t)random_below(count[kind]);
    now->month = 1 + (uint32_t)random_below(random_below(3) == 0 ? 3 : 12);
    now->day = month_length(now->year, now->month);
    if (random_below(2) == 0) now->day = 1 + (uint32_t)random_below(now->day);
}

static inline void random_time(struct fuzzy_moment *now) {
    now->hour = (uint32_t)random_below(24);
    now->minute = (uint32_t)random_below(60);
    now->second = (uint32_t)random_below(60);
    now->millisecond = (uint32_t)random_below(1000);
}

#endif
