/* Document 02's E10, tried: of two nows with the same time of day the later never gives the earlier moment. Reads lines `NOW|PHRASE`
 * and asks each phrase in both readings at so many pairs of nows: later PAIRS < LINES. For comparison each pair on two days is asked once
 * more at 23 and at 1 o'clock, where moments may cross: a run in which none does would have found nothing in the other pairs either. */
#define _DEFAULT_SOURCE
#include "dates.h"

#define MOST_TEXT 8192

/* So many days on, as far as the calendar goes. */
static void go_on(struct fuzzy_moment *now, size_t days) {
    for (; days > 0; days--) {
        if (now->year == 9999 && now->month == 12 && now->day == 31) return;
        if (now->day++ < month_length(now->year, now->month)) continue;
        now->day = 1;
        if (now->month++ < 12) continue;
        now->month = 1;
        now->year++;
    }
}

/* Two nows with the same time of day, the first not after the second: mostly up to 40 days apart, at times on any two dates. */
static void random_pair(struct fuzzy_moment *first, struct fuzzy_moment *second) {
    struct fuzzy_moment dates[2];
    int later;
    random_date(&dates[0]);
    random_time(&dates[0]);
    dates[1] = dates[0];
    if (random_below(4) == 0) random_date(&dates[1]);
    else go_on(&dates[1], random_below(4) == 0 ? random_below(41) : random_below(8));
    later = is_after(&dates[0], &dates[1]);
    *first = dates[later];
    *second = dates[1 - later];
}

static uint64_t ask(uint32_t reading, const struct line *l, const struct fuzzy_moment *now, struct fuzzy_moment *moment) {
    return fuzzy_read(reading, (const char *)l->phrase, l->length, now, moment);
}

/* What was seen of the pairs: how many, of how many both nows gave a moment, a later one at the second now, an earlier one. */
struct seen {
    unsigned long pairs, both, later, back;
};

static void ask_pair(uint32_t reading, const struct line *l, const struct fuzzy_moment *first, const struct fuzzy_moment *second,
                     struct seen *s) {
    struct fuzzy_moment a, b;
    s->pairs++;
    if (!fuzzy_ok(ask(reading, l, first, &a)) || !fuzzy_ok(ask(reading, l, second, &b))) return;
    s->both++;
    s->later += is_after(&b, &a);
    s->back += is_after(&a, &b);
}

static void report(const char *what, uint32_t reading, const struct seen *s) {
    printf("reading %u, %s: %lu pairs, %lu both answered, %lu with a later moment, %lu with an earlier one\n",
           (unsigned)reading, what, s->pairs, s->both, s->later, s->back);
}

int main(int count, char **arguments) {
    static char text[MOST_TEXT];
    static struct line l;
    struct seen same[2] = {{0, 0, 0, 0}, {0, 0, 0, 0}}, other[2] = {{0, 0, 0, 0}, {0, 0, 0, 0}};
    struct fuzzy_moment first, second;
    uint32_t reading;
    unsigned long i, pairs, lines = 0;
    if (count != 2) stop("usage: later PAIRS < LINES");
    pairs = strtoul(arguments[1], NULL, 10);
    for (; fgets(text, sizeof text, stdin) != NULL; lines++) {
        take_line(text, &l);
        for (i = 0; i < pairs; i++) {
            random_pair(&first, &second);
            for (reading = 1; reading <= 2; reading++) ask_pair(reading, &l, &first, &second, &same[reading - 1]);
            first.hour = 23;
            second.hour = 1;
            if (is_after(&first, &second)) continue;
            for (reading = 1; reading <= 2; reading++) ask_pair(reading, &l, &first, &second, &other[reading - 1]);
        }
    }
    printf("%lu phrases\n", lines);
    for (reading = 1; reading <= 2; reading++) {
        report("the same time of day", reading, &same[reading - 1]);
        report("23 and 1 o'clock", reading, &other[reading - 1]);
        if (same[reading - 1].back > 0) stop("a later now went back");
        if (same[reading - 1].later == 0 || other[reading - 1].back == 0) stop("too few pairs to find anything");
    }
    return 0;
}
