/* Document 02's E12, tried: the occurrence that comes next is the first entry of the full list at or after the asked moment, and 20 where
 * there is none. Random rules and starts, each listed once and asked at so many moments on and around its entries: next RULES ASKED. A
 * list that fills the room says nothing of moments after its last entry, which are counted apart; now and then the room is enough for all. */
#define _DEFAULT_SOURCE
#include "dates.h"

#define MOST_RULE 160

static struct fuzzy_moment entries[FUZZY_MOST_OCCURRENCES];

/* A start: any date, at times 29 February of a leap year, at any time of day; now and then an invalid one. */
static void random_start(struct fuzzy_moment *start) {
    random_date(start);
    if (random_below(8) == 0) {
        start->year = 4 * (1 + (uint32_t)random_below(2499));
        start->month = 2;
        start->day = month_length(start->year, 2);
    }
    random_time(start);
    if (random_below(64) == 0) start->minute = 60;
}

/* An INTERVAL: mostly small, at times a number of years, at times anything. */
static unsigned random_interval(void) {
    switch (random_below(4)) {
    case 0: return 1 + (unsigned)random_below(999);
    case 1: return 12 * (1 + (unsigned)random_below(83));
    default: return 1 + (unsigned)random_below(5);
    }
}

/* A COUNT of any size. */
static unsigned random_count(void) {
    static const size_t most[4] = {5, 3000, 20000, FUZZY_MOST_OCCURRENCES};
    return 1 + (unsigned)random_below(most[random_below(4)]);
}

/* COUNT, UNTIL as a date or with the start's time of day or a second more, or neither; UNTIL mostly after the start. */
static void random_end(char *text, const struct fuzzy_moment *start) {
    unsigned year = (unsigned)start->year + (unsigned)random_below(random_below(2) == 0 ? 10000 - start->year : 1);
    unsigned month = 1 + (unsigned)random_below(12), day = 1 + (unsigned)random_below(28);
    unsigned hour = (unsigned)start->hour, minute = (unsigned)start->minute;
    unsigned second = (unsigned)start->second + (start->second < 59 ? (unsigned)random_below(2) : 0);
    switch (random_below(4)) {
    case 0: sprintf(text, ";COUNT=%u", random_count()); break;
    case 1: sprintf(text, ";UNTIL=%04u%02u%02u", year, month, day); break;
    case 2: sprintf(text, ";UNTIL=%04u%02u%02uT%02u%02u%02u", year, month, day, hour, minute, second); break;
    default: break;
    }
}

/* A rule whose FREQ and BYDAY or BYMONTHDAY are at random, more often MONTHLY for a day that not every month has; the start matches it
 * more often than not. Now and then one that is not accepted. */
static void random_rule(char text[MOST_RULE], const struct fuzzy_moment *start) {
    static const char *const frequencies[4] = {"DAILY", "WEEKLY", "MONTHLY", "YEARLY"};
    static const char *const days[7] = {"MO", "TU", "WE", "TH", "FR", "SA", "SU"};
    size_t frequency = start->day > 28 && random_below(2) == 0 ? 2 : random_below(3);
    size_t set = random_below(2) == 0 ? 0 : 1 + random_below(127), i;
    if (random_below(64) == 0) frequency = 3;
    text += sprintf(text, "FREQ=%s;INTERVAL=%u", frequencies[frequency], random_interval());
    for (i = 0; frequency == 1 && i < 7; i++) {
        if (set >> i & 1) text += sprintf(text, "%s%s", set % ((size_t)1 << i) == 0 ? ";BYDAY=" : ",", days[i]);
    }
    if (frequency == 2 && set > 0) {
        text += sprintf(text, ";BYMONTHDAY=%u", random_below(8) == 0 ? 1 + (unsigned)random_below(31) : (unsigned)start->day);
    }
    random_end(text, start);
}

/* A moment to be asked: an entry of the list, at times the last, that or a millisecond before or after it or its day at any time; any
 * moment; or an invalid one. */
static void random_asked(struct fuzzy_moment *asked, size_t count) {
    size_t kind = random_below(8);
    if (kind < 5 && count > 0) {
        size_t entry = random_below(4) == 0 ? count - 1 : random_below(count);
        *asked = entries[entry];
        if (kind == 1 && asked->millisecond > 0) asked->millisecond--;
        if (kind == 2 && asked->millisecond < 999) asked->millisecond++;
        if (kind == 3) random_time(asked);
        return;
    }
    random_date(asked);
    random_time(asked);
    if (kind == 7) asked->day = 32;
}

/* How often the answer was the list's entry, 20, or another refusal, and how often the list did not say. */
struct seen {
    unsigned long answered, none, refused, unknown;
};

/* What the list says of the asked moment: a refusal, an entry, none, or nothing since the list was cut. */
static void compare(const char *rule, const struct fuzzy_moment *start, const struct fuzzy_moment *asked, uint64_t listed, size_t room,
                    struct seen *s) {
    struct fuzzy_moment moment;
    uint64_t answer = fuzzy_next(rule, strlen(rule), start, asked, &moment);
    size_t i, count = fuzzy_length(listed);
    if (asked->day > 31 || !fuzzy_ok(listed)) {
        if (answer != (asked->day > 31 ? FUZZY_INVALID_MOMENT : listed)) stop("another refusal than 8 or the list's");
        s->refused++;
        return;
    }
    for (i = 0; i < count && is_after(asked, &entries[i]); i++) continue;
    if (i < count) {
        if (answer != 0 || !is_same(&moment, &entries[i])) stop("another entry than the list's");
        s->answered++;
    } else if (count < room || room == FUZZY_MOST_OCCURRENCES) {
        if (answer != FUZZY_NO_NEXT) stop("20 was not given where the list has none");
        s->none++;
    } else {
        s->unknown++;
    }
}

int main(int count, char **arguments) {
    struct seen s = {0, 0, 0, 0};
    struct fuzzy_moment start, asked;
    unsigned long i, j, rules, each;
    char rule[MOST_RULE];
    if (count != 3) stop("usage: next RULES ASKED");
    rules = strtoul(arguments[1], NULL, 10);
    each = strtoul(arguments[2], NULL, 10);
    for (i = 0; i < rules; i++) {
        size_t room = random_below(500) == 0 ? FUZZY_MOST_OCCURRENCES : 1 + random_below(random_below(4) == 0 ? 20000 : 2000);
        uint64_t listed;
        random_start(&start);
        random_rule(rule, &start);
        listed = fuzzy_list(rule, strlen(rule), &start, entries, room);
        for (j = 0; j < each; j++) {
            random_asked(&asked, fuzzy_length(listed));
            compare(rule, &start, &asked, listed, room, &s);
        }
    }
    printf("%lu rules, %lu asked each: %lu with the list's entry, %lu with none, %lu refused, %lu behind a list that was cut\n",
           rules, each, s.answered, s.none, s.refused, s.unknown);
    if (s.answered == 0 || s.none == 0 || s.refused == 0) stop("too few rules to find anything");
    return 0;
}
