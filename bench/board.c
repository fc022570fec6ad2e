/* Fills a board with so many reminders and makes one call so many times: board CALL REMINDERS ROUNDS. `add` adds the last reminder to a
 * board that has the others, `remove` removes the first; before either the board is put back, by copying all but the ready phrases, which
 * `restore` does alone. `ready` makes the last reminder's phrase ready, as `add` does; `scan` runs every ready phrase at the now and keeps
 * the earliest. It fails where the head is another than the scan's, or a call is refused. */
#include "fuzzy.h"
#include "page.h"

#include <stdlib.h>
#include <string.h>

static const struct fuzzy_moment now = {2026, 2, 11, 9, 30, 15, 250};
static struct fuzzy_board board, all, but_last, other;
static uint8_t ready[FUZZY_BOARD_SLOTS][FUZZY_READY_SIZE];
static size_t lengths[FUZZY_BOARD_SLOTS];

/* The reminders, by turns. */
static const char *const reminders[] = {"next friday at 3 pm", "tomorrow", "2 months before 3 weeks after tomorrow at 5:00",
                                        "an hour from now",    "march 4 2027", "a week from now", "a year from now", "noon"};

static const char *phrase_of(size_t slot) {
    return reminders[slot % 8];
}

static int is_before(const struct fuzzy_moment *a, const struct fuzzy_moment *b) {
    if (a->year != b->year) return a->year < b->year;
    if (a->month != b->month) return a->month < b->month;
    if (a->day != b->day) return a->day < b->day;
    if (a->hour != b->hour) return a->hour < b->hour;
    if (a->minute != b->minute) return a->minute < b->minute;
    if (a->second != b->second) return a->second < b->second;
    return a->millisecond < b->millisecond;
}

/* What is due first, by running all. */
static uint64_t scan(size_t count, struct fuzzy_moment *first) {
    uint64_t answer = FUZZY_NOTHING_DUE;
    struct fuzzy_moment moment;
    size_t slot;
    for (slot = 0; slot < count; slot++) {
        if (!fuzzy_ok(fuzzy_run(ready[slot], lengths[slot], &now, &moment))) continue;
        if (answer == FUZZY_NOTHING_DUE || is_before(&moment, first)) {
            answer = (uint64_t)slot << 32;
            *first = moment;
        }
    }
    return answer;
}

static uint64_t add(size_t slot) {
    const char *phrase = phrase_of(slot);
    return fuzzy_board_add(&board, FUZZY_FIRST, phrase, strlen(phrase));
}

static uint64_t make_ready(size_t slot) {
    const char *phrase = phrase_of(slot);
    return fuzzy_make_ready(FUZZY_FIRST, phrase, strlen(phrase), ready[slot]);
}

/* The board as it was, but for the ready phrases, which no call here changes to others. Never compiled into its callers: its own
 * instructions are taken off theirs. */
static __attribute__((noinline)) void restore(const struct fuzzy_board *from) {
    memcpy(board.keys, from->keys, sizeof board.keys);
    memcpy(board.lengths, from->lengths, sizeof board.lengths);
    memcpy(board.state, from->state, sizeof board.state);
}

static uint64_t call_make(size_t count) {
    (void)count;
    return fuzzy_board_make(&other, &now);
}

static uint64_t call_ready(size_t count) {
    return make_ready(count - 1);
}

static uint64_t call_restore(size_t count) {
    (void)count;
    restore(&all);
    return 0;
}

static uint64_t call_add(size_t count) {
    restore(&but_last);
    return add(count - 1);
}

static uint64_t call_remove(size_t count) {
    (void)count;
    restore(&all);
    return fuzzy_board_remove(&board, 0);
}

static uint64_t call_again(size_t count) {
    (void)count;
    return fuzzy_board_again(&board, &now);
}

static uint64_t call_head(size_t count) {
    struct fuzzy_moment moment;
    (void)count;
    return fuzzy_board_head(&board, &moment);
}

static uint64_t call_order(size_t count) {
    static uint32_t slots[FUZZY_BOARD_SLOTS];
    (void)count;
    return fuzzy_board_order(&board, slots);
}

static uint64_t call_scan(size_t count) {
    struct fuzzy_moment moment;
    return scan(count, &moment);
}

static const struct {
    const char *name;
    uint64_t (*call)(size_t count);
} calls[] = {{"make", call_make},   {"ready", call_ready}, {"restore", call_restore}, {"add", call_add},  {"remove", call_remove},
             {"again", call_again}, {"head", call_head},   {"order", call_order},     {"scan", call_scan}};

/* The reminders put on the board, and their ready phrases kept for the scan; the head must be the scan's. */
static int fill(size_t count) {
    struct fuzzy_moment first, moment;
    uint64_t answer = fuzzy_board_make(&board, &now);
    size_t slot;
    for (slot = 0; slot < count; slot++) {
        if (slot == count - 1) but_last = board;
        answer = add(slot);
        if (!fuzzy_ok(answer) || fuzzy_length(answer) != slot) return 0;
        lengths[slot] = fuzzy_length(make_ready(slot));
    }
    all = board;
    answer = scan(count, &first);
    return fuzzy_board_head(&board, &moment) == answer && memcmp(&moment, &first, sizeof first) == 0;
}

static int make_calls(int count, char **arguments) {
    size_t i, reminders_kept;
    unsigned long rounds;
    if (count != 4) return 2;
    reminders_kept = strtoul(arguments[2], NULL, 10);
    if (reminders_kept < 1 || reminders_kept > FUZZY_BOARD_SLOTS || !fill(reminders_kept)) return 1;
    for (i = 0; i < sizeof calls / sizeof calls[0]; i++) {
        if (strcmp(arguments[1], calls[i].name) != 0) continue;
        for (rounds = strtoul(arguments[3], NULL, 10); rounds > 0; rounds--) {
            if (!fuzzy_ok(calls[i].call(reminders_kept))) return 1;
        }
        return 0;
    }
    return 2;
}

int main(int count, char **arguments) {
    return on_a_page(make_calls, count, arguments);
}
