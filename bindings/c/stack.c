/* Prints the most bytes of stack that reading, making ready and running, in a zone too, were seen to use, over the replayed list and over
 * phrases that nest as deeply as 256 bytes let them, those for rules over a rule of each FREQ, and those for boards over such phrases:
 * stack LIST ZONE. A call runs on a stack of its own that is full of a pattern; what an empty call uses is taken off. */
#define _DEFAULT_SOURCE
#include "fuzzy.h"
#include "lent.h"

#include <ucontext.h>

#define ROOM (1 << 18)

static struct field stack;
static struct line line;
static uint8_t ready[FUZZY_READY_SIZE];
static struct fuzzy_moment moment, moments[64];
static uint64_t made;
static uint8_t zone[65536];
static size_t zone_length;
static int64_t due;
static struct fuzzy_local local;
static struct fuzzy_board board;
static uint32_t slots[FUZZY_BOARD_SLOTS];
static ucontext_t here, there;

static const struct fuzzy_moment leap_day = {2024, 2, 29, 12, 0, 0, 0}, last_leap_day = {9996, 2, 29, 12, 0, 0, 0};
static const struct fuzzy_moment wednesday = {2026, 2, 11, 9, 30, 15, 250};

static void call_nothing(void) {
}

static void call_read(void) {
    fuzzy_read(FUZZY_FIRST, line.phrase, line.length, &line.now, &moment);
}

static void call_make_ready(void) {
    made = fuzzy_make_ready(FUZZY_FIRST, line.phrase, line.length, ready);
}

static void call_run(void) {
    fuzzy_run(ready, fuzzy_length(made), &line.now, &moment);
}

/* An instant that New York's file knows. */
#define SECOND 1772951400

static void call_read_in_zone(void) {
    fuzzy_read_in_zone(FUZZY_FIRST, line.phrase, line.length, zone, zone_length, SECOND, 0, &due, &local);
}

static void call_run_in_zone(void) {
    fuzzy_run_in_zone(ready, fuzzy_length(made), zone, zone_length, SECOND, 0, &due, &local);
}

static void call_list(void) {
    fuzzy_list(line.phrase, line.length, &leap_day, moments, sizeof moments / sizeof moments[0]);
}

static void call_next(void) {
    fuzzy_next(line.phrase, line.length, &leap_day, &last_leap_day, &moment);
}

static void call_board_make(void) {
    fuzzy_board_make(&board, &leap_day);
}

static void call_board_add(void) {
    fuzzy_board_add(&board, FUZZY_FIRST, line.phrase, line.length);
}

static void call_board_remove(void) {
    fuzzy_board_remove(&board, 0);
}

static void call_board_again(void) {
    fuzzy_board_again(&board, &wednesday);
}

static void call_board_head(void) {
    fuzzy_board_head(&board, &moment);
}

static void call_board_order(void) {
    fuzzy_board_order(&board, slots);
}

/* The bytes of stack that a call changes, counted from the top down to the lowest one. */
static size_t used_by(void (*call)(void)) {
    uint8_t *p, *end = stack.first + stack.size;
    if (getcontext(&there) != 0) stop("no context");
    there.uc_stack.ss_sp = stack.first;
    there.uc_stack.ss_size = stack.size;
    there.uc_link = &here;
    makecontext(&there, call, 0);
    if (swapcontext(&here, &there) != 0) stop("no switch");
    for (p = stack.first; p < end && *p == PATTERN; p++) continue;
    memset(p, PATTERN, (size_t)(end - p));
    return (size_t)(end - p);
}

/* The functions for phrases, of which the last two run what was made ready, those for rules, and those for boards. */
#define PHRASES 5
#define RULES 2
#define BOARDS 6
#define CALLS (PHRASES + RULES + BOARDS)
static size_t most[CALLS];

/* The functions for phrases on the phrase of `line`. */
static void measure(void) {
    static void (*const calls[PHRASES])(void) = {call_read, call_make_ready, call_read_in_zone, call_run, call_run_in_zone};
    size_t i;
    for (i = 0; i < PHRASES; i++) {
        size_t used = i >= 3 && !fuzzy_ok(made) ? 0 : used_by(calls[i]);
        if (used > most[i]) most[i] = used;
    }
}

/* The functions for boards, with the phrase of `line` as the only reminder. */
static void keep(void) {
    static void (*const calls[BOARDS])(void) = {call_board_make, call_board_add,   call_board_again,
                                                call_board_head, call_board_order, call_board_remove};
    size_t i;
    for (i = 0; i < BOARDS; i++) {
        size_t used = used_by(calls[i]);
        if (used > most[PHRASES + RULES + i]) most[PHRASES + RULES + i] = used;
    }
}

/* A part over and over, as often as there is room for it, and an end. */
static void nested(const char *part, const char *end) {
    size_t n = strlen(part), last = strlen(end);
    for (line.length = 0; line.length + n + last <= 256; line.length += n) memcpy(line.phrase + line.length, part, n);
    memcpy(line.phrase + line.length, end, last);
    line.length += last;
    measure();
    keep();
}

/* The two functions for rules on a rule. */
static void repeat(const char *rule) {
    static void (*const calls[RULES])(void) = {call_list, call_next};
    size_t i;
    line.length = strlen(rule);
    memcpy(line.phrase, rule, line.length);
    for (i = 0; i < RULES; i++) {
        size_t used = used_by(calls[i]);
        if (used > most[PHRASES + i]) most[PHRASES + i] = used;
    }
}

int main(int count, char **arguments) {
    static const char *const names[CALLS] = {
        "fuzzy_read",       "fuzzy_make_ready",  "fuzzy_read_in_zone", "fuzzy_run",       "fuzzy_run_in_zone",
        "fuzzy_list",       "fuzzy_next",        "fuzzy_board_make",   "fuzzy_board_add", "fuzzy_board_again",
        "fuzzy_board_head", "fuzzy_board_order", "fuzzy_board_remove",
    };
    static const char *const parts[] = {"million ",  "1 million ",  "a day after ", "1 day before ",
                                        "1day from", "1day after ", "1 day, ",      "1 day and "};
    static const char *const ends[] = {"days ago", "today", "noon", "1 day ago", "now", ""};
    static char text[8192];
    size_t i, j, nothing;
    FILE *in = count == 3 ? fopen(arguments[1], "r") : NULL, *file = count == 3 ? fopen(arguments[2], "rb") : NULL;
    if (in == NULL || file == NULL) stop("usage: stack LIST ZONE");
    zone_length = fread(zone, 1, sizeof zone, file);
    stack = fenced(ROOM);
    memset(stack.first, PATTERN, stack.size);
    nothing = used_by(call_nothing);
    while (fgets(text, sizeof text, in) != NULL) {
        take_line(text, &line);
        measure();
    }
    for (i = 0; i < sizeof parts / sizeof parts[0]; i++) {
        for (j = 0; j < sizeof ends / sizeof ends[0]; j++) nested(parts[i], ends[j]);
    }
    repeat("FREQ=DAILY;INTERVAL=999;COUNT=3652058");
    repeat("FREQ=WEEKLY;UNTIL=99991231T235959;BYDAY=MO,TU,WE,TH,FR,SA,SU;INTERVAL=2;WKST=MO");
    repeat("FREQ=WEEKLY;BYDAY=MO,TU,WE,TH,FR,SA,SU;INTERVAL=2;COUNT=3652058");
    repeat("FREQ=MONTHLY;BYMONTHDAY=+29;INTERVAL=12;COUNT=3652058");
    for (i = 0; i < CALLS; i++) printf("%-18s %6zu bytes of stack\n", names[i], most[i] - nothing);
    return 0;
}
