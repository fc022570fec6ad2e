/* Lists a rule's occurrences, or asks for the one that comes next, so many times: rules START RULE ROUNDS [ASKED]. START and ASKED are
 * dates, both at 09:30:15.250. Prints how many moments were listed. It fails where a call is refused. */
#include "fuzzy.h"
#include "page.h"

#include <stdio.h>
#include <stdlib.h>
#include <string.h>

#define MOST_RULE 256

static struct fuzzy_moment moments[FUZZY_MOST_OCCURRENCES];
static char rule[MOST_RULE];

/* The date of a text, at the time of day that all moments here have; 0 where the text has none. */
static int take_date(const char *text, struct fuzzy_moment *to) {
    unsigned year, month, day;
    struct fuzzy_moment at = {0, 0, 0, 9, 30, 15, 250};
    if (sscanf(text, "%u-%u-%u", &year, &month, &day) != 3) return 0;
    at.year = year;
    at.month = month;
    at.day = day;
    *to = at;
    return 1;
}

static int go_through(int count, char **arguments) {
    struct fuzzy_moment start, asked, moment;
    size_t length;
    unsigned long rounds;
    uint64_t answer = 0;
    if (count < 4 || !take_date(arguments[1], &start) || (count > 4 && !take_date(arguments[4], &asked))) return 2;
    length = strlen(arguments[2]);
    if (length > MOST_RULE) return 2;
    memcpy(rule, arguments[2], length);
    for (rounds = strtoul(arguments[3], NULL, 10); rounds > 0; rounds--) {
        if (count > 4) answer = fuzzy_next(rule, length, &start, &asked, &moment);
        else answer = fuzzy_list(rule, length, &start, moments, FUZZY_MOST_OCCURRENCES);
    }
    printf("%lu\n", (unsigned long)fuzzy_length(answer));
    return !fuzzy_ok(answer);
}

int main(int count, char **arguments) {
    return on_a_page(go_through, count, arguments);
}
