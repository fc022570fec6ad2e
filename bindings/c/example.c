/* Reads phrases at one now, a ready phrase at two, one phrase in both readings, and stamps, looks words up, writes a moment as a phrase,
 * lists a rule's occurrences and finds which comes next, reads phrases in the zone of a file, and keeps reminders on a board: example ZONE.
 * Copy what you need. */
#include "fuzzy.h"

#include <stdio.h>
#include <string.h>

/* Prints a refused text, why it is refused, and under it where: the refused part is marked on a second line. */
static void print_refusal(const char *text, uint64_t answer) {
    uint32_t i;
    printf("%s: %s\n", text, fuzzy_words(fuzzy_number(answer)));
    if (fuzzy_length(answer) == 0) {
        return;
    }
    printf("%*s", (int)fuzzy_place(answer), "");
    for (i = 0; i < fuzzy_length(answer); i++) {
        printf("^");
    }
    printf("\n");
}

/* Prints a moment, with its milliseconds where they are not 0. */
static void print_moment(const char *text, const struct fuzzy_moment *m) {
    printf("%s: %04u-%02u-%02u %02u:%02u:%02u", text, (unsigned)m->year, (unsigned)m->month, (unsigned)m->day, (unsigned)m->hour,
           (unsigned)m->minute, (unsigned)m->second);
    if (m->millisecond != 0) {
        printf(".%03u", (unsigned)m->millisecond);
    }
    printf("\n");
}

/* Prints what a call gave for a text: a moment or a refusal. */
static void show(const char *text, uint64_t answer, const struct fuzzy_moment *moment) {
    if (fuzzy_ok(answer)) {
        print_moment(text, moment);
    } else {
        print_refusal(text, answer);
    }
}

/* Reads a phrase at a now. */
static void show_phrase(uint32_t reading, const char *phrase, const struct fuzzy_moment *now) {
    struct fuzzy_moment moment;
    uint64_t answer = fuzzy_read(reading, phrase, strlen(phrase), now, &moment);
    show(phrase, answer, &moment);
}

/* Makes a phrase ready once, and runs it at two nows. */
static void show_ready(const char *phrase, const struct fuzzy_moment *one, const struct fuzzy_moment *other) {
    uint8_t ready[FUZZY_READY_SIZE];
    struct fuzzy_moment moment;
    uint64_t made = fuzzy_make_ready(FUZZY_FIRST, phrase, strlen(phrase), ready);
    if (!fuzzy_ok(made)) {
        print_refusal(phrase, made);
        return;
    }
    show(phrase, fuzzy_run(ready, fuzzy_length(made), one, &moment), &moment);
    show(phrase, fuzzy_run(ready, fuzzy_length(made), other, &moment), &moment);
}

/* Reads a stamp and writes it again. */
static void show_stamp(const char *text) {
    char again[FUZZY_STAMP_SIZE];
    struct fuzzy_stamp stamp;
    uint64_t answer = fuzzy_read_stamp(text, strlen(text), &stamp);
    if (!fuzzy_ok(answer)) {
        print_refusal(text, answer);
        return;
    }
    answer = fuzzy_write_stamp(&stamp, again, sizeof again);
    printf("%s: %.*s, %s %u minutes\n", text, (int)fuzzy_length(answer), again, stamp.west == 0 ? "east" : "west", (unsigned)stamp.offset);
}

/* Says of a word, as it is typed, whether a phrase may have it. */
static void show_word(const char *word) {
    uint32_t found[FUZZY_FOUND_NUMBERS];
    uint32_t reading;
    for (reading = FUZZY_FIRST; reading <= FUZZY_SECOND; reading++) {
        if (fuzzy_ok(fuzzy_find_word(reading, word, strlen(word), found))) {
            printf("%s: %s in reading %u, after %u comparisons\n", word, found[0] == 0 ? "not a word" : "a word", (unsigned)reading,
                   (unsigned)found[1]);
        }
    }
}

/* Writes a moment as a phrase to be edited. */
static void show_written(const char *name, const struct fuzzy_moment *moment) {
    char text[FUZZY_PHRASE_SIZE];
    uint64_t answer = fuzzy_write_phrase(moment, text, sizeof text);
    if (fuzzy_ok(answer)) {
        printf("%s: %.*s\n", name, (int)fuzzy_length(answer), text);
    } else {
        print_refusal(name, answer);
    }
}

/* Lists the first five occurrences of a rule from a start on. */
static void show_rule(const char *rule, const struct fuzzy_moment *start) {
    struct fuzzy_moment moments[5];
    uint64_t answer = fuzzy_list(rule, strlen(rule), start, moments, sizeof moments / sizeof moments[0]);
    uint32_t i;
    if (!fuzzy_ok(answer)) {
        print_refusal(rule, answer);
        return;
    }
    for (i = 0; i < fuzzy_length(answer); i++) {
        print_moment(rule, &moments[i]);
    }
}

/* Finds the first occurrence of a rule that is at or after noon of the first day of a year. */
static void show_next(const char *rule, const struct fuzzy_moment *start, uint32_t year) {
    struct fuzzy_moment asked = {1, 1, 1, 12, 0, 0, 0}, moment;
    uint64_t answer;
    asked.year = year;
    answer = fuzzy_next(rule, strlen(rule), start, &asked, &moment);
    printf("asked in %u, ", (unsigned)year);
    show(rule, answer, &moment);
}

/* A zone's file, and room for one byte more than any has, so that a longer one is refused. */
struct zone {
    uint8_t bytes[65537];
    size_t length;
};

/* Reads a zone's file; 0 where there is none. */
static int read_zone(const char *name, struct zone *zone) {
    FILE *file = fopen(name, "rb");
    if (file == NULL) {
        return 0;
    }
    zone->length = fread(zone->bytes, 1, sizeof zone->bytes, file);
    fclose(file);
    return 1;
}

/* Reads a phrase at an instant in a zone: what its clocks show when it is due, and that instant's second. */
static void show_in_zone(const struct zone *zone, const char *phrase, int64_t second) {
    struct fuzzy_local local;
    int64_t due;
    uint64_t answer = fuzzy_read_in_zone(FUZZY_FIRST, phrase, strlen(phrase), zone->bytes, zone->length, second, 0, &due, &local);
    show(phrase, answer, &local.moment);
    if (fuzzy_ok(answer)) {
        printf("  %u seconds %s of UTC, at the second %lld\n", (unsigned)local.offset, local.west == 0 ? "east" : "west", (long long)due);
    }
}

/* Shows what is due first on a board, or that nothing is. */
static void show_head(const struct fuzzy_board *board) {
    struct fuzzy_moment moment;
    uint64_t answer = fuzzy_board_head(board, &moment);
    if (!fuzzy_ok(answer)) {
        print_refusal("due first", answer);
        return;
    }
    printf("slot %u, ", (unsigned)fuzzy_length(answer));
    print_moment("due first", &moment);
}

/* Adds a reminder to a board. */
static void show_added(struct fuzzy_board *board, const char *phrase) {
    uint64_t answer = fuzzy_board_add(board, FUZZY_FIRST, phrase, strlen(phrase));
    if (fuzzy_ok(answer)) {
        printf("%s: in slot %u\n", phrase, (unsigned)fuzzy_length(answer));
    } else {
        print_refusal(phrase, answer);
    }
}

/* Three reminders on a board, one refused, one removed, and all run again at midnight. A board is large: not on a small stack. */
static void show_board(const struct fuzzy_moment *now) {
    static const struct fuzzy_moment midnight = {2026, 2, 12, 0, 0, 0, 0};
    static struct fuzzy_board board;
    if (!fuzzy_ok(fuzzy_board_make(&board, now))) {
        return;
    }
    show_head(&board);
    show_added(&board, "friday at 3 pm");
    show_added(&board, "noon");
    show_added(&board, "an hour from now");
    show_added(&board, "next fryday");
    show_head(&board);
    printf("slot 2 removed: %s\n", fuzzy_words(fuzzy_number(fuzzy_board_remove(&board, 2))));
    show_head(&board);
    printf("again at midnight: %s\n", fuzzy_words(fuzzy_number(fuzzy_board_again(&board, &midnight))));
    show_head(&board);
}

int main(int count, char **arguments) {
    static const struct fuzzy_moment now = {2026, 2, 11, 9, 30, 15, 250}, leap_day = {2024, 2, 29, 12, 0, 0, 0};
    static const struct fuzzy_moment start = {2026, 2, 10, 9, 30, 0, 0};
    static const struct fuzzy_moment whole = {2026, 3, 4, 9, 5, 0, 0}, not_whole = {2026, 3, 4, 9, 5, 30, 0};
    static struct zone new_york;

    /* a stated time has no milliseconds; without one now's are kept */
    show_phrase(FUZZY_FIRST, "next friday at 3 pm", &now);
    show_phrase(FUZZY_FIRST, "an hour ago", &now);
    show_phrase(FUZZY_FIRST, "forty days ago", &now);
    show_phrase(FUZZY_FIRST, "5/2", &now);

    /* a year after 29 February is refused */
    show_ready("a year from now", &now, &leap_day);

    /* one phrase in both readings */
    show_phrase(FUZZY_FIRST, "tuesday in two weeks", &now);
    show_phrase(FUZZY_SECOND, "tuesday in two weeks", &now);

    show_stamp("2026-02-11t09:30:15+00:00");
    show_stamp("2026-02-11T09:30:15-05:00");
    show_stamp("2026-02-30T09:30:15Z");
    show_stamp("2026-02-11T09:30:15.5Z");
    show_stamp("2026-02-11T09:30:15.05-05:00");
    show_stamp("2026-02-11T09:30:15.0005Z");

    show_word("Friday");
    show_word("fort");
    show_word("forty");

    show_written("2026-03-04 09:05:00", &whole);
    show_written("2026-03-04 09:05:30", &not_whole);

    /* every second Tuesday; three days; a start that is not a Monday; a rule that is not accepted */
    show_rule("FREQ=WEEKLY;INTERVAL=2;BYDAY=TU", &start);
    show_rule("FREQ=DAILY;UNTIL=20260212", &start);
    show_rule("FREQ=WEEKLY;BYDAY=MO", &start);
    show_rule("FREQ=YEARLY", &start);

    /* before the start; a phone that was off for a year; an UNTIL that has passed */
    show_next("FREQ=WEEKLY;INTERVAL=2;BYDAY=TU", &start, 2026);
    show_next("FREQ=WEEKLY;INTERVAL=2;BYDAY=TU", &start, 2027);
    show_next("FREQ=DAILY;UNTIL=20260212", &start, 2027);

    /* half an hour before New York's clocks go forward, and in the hour that occurs twice, for the second time */
    if (count != 2 || !read_zone(arguments[1], &new_york)) {
        return 1;
    }
    show_in_zone(&new_york, "an hour from now", 1772951400);
    show_in_zone(&new_york, "today 3:00", 1772951400);
    show_in_zone(&new_york, "today 2:30", 1772951400);
    show_in_zone(&new_york, "2 years from now", 1772951400);
    show_in_zone(&new_york, "today 1:30", 1793514600);

    show_board(&now);
    return 0;
}
