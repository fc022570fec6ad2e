/* fuzzy.h: reads reminder phrases such as "next friday at 3 pm" at a now that the caller gives. Version 1.0.0.
 *
 * Link with libfuzzydate.a of your target. No function allocates memory, keeps state, or reads a clock, a locale or a
 * file, so every function may run in any thread. The library calls only C's memcpy, memmove and memset (on Apple's
 * systems bzero too), and on 32-bit Arm the division helpers of the compiler's own runtime.
 *
 * What is true of every call
 *   - Every byte string, every number and every ready phrase gets an answer: there is nothing to check before a call.
 *   - An answer is one number, taken apart by the helpers at the end of this file:
 *       fuzzy_ok(answer)      whether the call succeeded
 *       fuzzy_number(answer)  0 for success, else the refusal, by its number in enum fuzzy_refusal
 *       fuzzy_place(answer)   where in the text the refused part begins, in bytes
 *       fuzzy_length(answer)  of a refusal: how long the refused part is, 0 where there is none;
 *                             of a success: what the call counts (bytes, moments, a slot), where it counts something
 *     So a successful answer itself is 0 only where nothing is counted: test it with fuzzy_ok.
 *   - When a call is refused, your buffers are unchanged.
 *   - Lengths are 64 bits on every target. A text need not end with a zero byte.
 *   - Pointers must point to what the parameter says. A null pointer with length 0 is allowed.
 *   - The buffers of one call must not overlap: to read a phrase at a moment and store the answer there, copy the moment.
 */
#ifndef FUZZY_H
#define FUZZY_H

#include <stdint.h>

/* The version of this header; fuzzy_version() gives that of the library. */
#define FUZZY_VERSION "1.0.0"
#define FUZZY_VERSION_MAJOR 1
#define FUZZY_VERSION_MINOR 0
#define FUZZY_VERSION_PATCH 0

/* The numbers of a moment, of a stamp, and of what a zone's clocks show. */
#define FUZZY_MOMENT_NUMBERS 7
#define FUZZY_STAMP_NUMBERS 9
#define FUZZY_LOCAL_NUMBERS 9

/* What fuzzy_find_word writes. */
#define FUZZY_FOUND_NUMBERS 2

/* The buffers that are always large enough, in bytes: for a ready phrase, for a stamp's text, and for a moment's phrase. */
#define FUZZY_READY_SIZE 384
#define FUZZY_STAMP_SIZE 29
#define FUZZY_PHRASE_SIZE 26

/* The reminders of a board, and the bytes of their ready phrases. */
#define FUZZY_BOARD_SLOTS 256
#define FUZZY_BOARD_READY_SIZE 98304

/* The days of the years 1 to 9999: no rule has more occurrences. */
#define FUZZY_MOST_OCCURRENCES 3652059

#ifdef __cplusplus
extern "C" {
#endif

/* A date and time of the years 1 to 9999: month 1 to 12, day 1 to 31, hour 0 to 23, minute and second 0 to 59, millisecond 0 to 999. */
struct fuzzy_moment {
    uint32_t year, month, day, hour, minute, second, millisecond;
};

/* A moment and its offset from UTC, 0 to 1439 minutes: east of UTC where west is 0, west of it where west is 1. West 1 with
 * offset 0 is "-00:00", an unknown offset. */
struct fuzzy_stamp {
    struct fuzzy_moment moment;
    uint32_t west, offset;
};

/* What the clocks of a zone show at an instant. The offset is in seconds: below 26 hours east of UTC where west is 0, and
 * 1 second to below 25 hours west of it where west is 1. */
struct fuzzy_local {
    struct fuzzy_moment moment;
    uint32_t west, offset;
};

/* A board: up to 256 reminders, each in a slot of 0 to 255, and the order of their moments at the board's now. It is the
 * caller's own memory, 101,408 bytes without pointers, so it may be copied; store and send phrases or ready phrases, not
 * boards. fuzzy_board_make fills it in and the calls below change it. With any other contents every call still answers and
 * touches nothing outside the board. */
struct fuzzy_board {
    uint64_t keys[FUZZY_BOARD_SLOTS];
    uint32_t lengths[FUZZY_BOARD_SLOTS];
    uint32_t state[FUZZY_MOMENT_NUMBERS + 1];
    uint8_t ready[FUZZY_BOARD_READY_SIZE];
};

/* The library takes a moment as an array of its numbers; a struct lays them out in the same way. */
#if defined __cplusplus
#define FUZZY_ASSERT(holds) static_assert(holds, #holds)
#elif __STDC_VERSION__ >= 201112L
#define FUZZY_ASSERT(holds) _Static_assert(holds, #holds)
#else
#define FUZZY_ASSERT(holds) extern int fuzzy_asserted[(holds) ? 1 : -1]
#endif
FUZZY_ASSERT(sizeof(struct fuzzy_moment) == FUZZY_MOMENT_NUMBERS * sizeof(uint32_t));
FUZZY_ASSERT(sizeof(struct fuzzy_stamp) == FUZZY_STAMP_NUMBERS * sizeof(uint32_t));
FUZZY_ASSERT(sizeof(struct fuzzy_local) == FUZZY_LOCAL_NUMBERS * sizeof(uint32_t));
FUZZY_ASSERT(FUZZY_BOARD_READY_SIZE == FUZZY_BOARD_SLOTS * FUZZY_READY_SIZE);
#undef FUZZY_ASSERT

/* The two readings of a phrase; the first is the original Rust library's. They differ in two places. "in" after a weekday:
 * on Wednesday, 11 February 2026, "tuesday in two weeks" is 27 January in the first and 3 March in the second. The year
 * after month and day: any number in the first, so that "march 3 5 pm" is refused, and exactly four digits in the second,
 * where it is 17:00 on 3 March. The second also accepts "24th" with any ending, "january 1, 2010" with a comma, and "forty",
 * "fortieth" and "eighth". Any other number is refused with 15, before everything else. */
enum fuzzy_reading {
    FUZZY_FIRST = 1,
    FUZZY_SECOND = 2
};

/* Why a call is refused. Of several reasons the first in this order is given, except that 15 comes first of all, 21 comes just
 * before 8, 22 for the now just after 8, and 22 and 23 for any other moment where it arises. */
enum fuzzy_refusal {
    FUZZY_TOO_LONG = 1,       /* the phrase has more than 256 bytes */
    FUZZY_UNKNOWN = 2,        /* a word that is not known, or a byte without a meaning */
    FUZZY_LARGE_DIGITS = 3,   /* digits above 4,294,967,295 */
    FUZZY_TOO_MANY = 4,       /* more than 64 words, numbers and marks */
    FUZZY_NOTHING = 5,        /* no date or time in the phrase */
    FUZZY_LARGE_SUM = 6,      /* a number in words above 4,294,967,295 */
    FUZZY_LEFT_OVER = 7,      /* something follows the date or time */
    FUZZY_INVALID_MOMENT = 8, /* a given moment (now, start, asked or written) is not a date and time of the years 1 to 9999 */
    FUZZY_NO_SENSE = 9,       /* the phrase has no sense, or the bytes are not a ready phrase */
    FUZZY_NO_DATE = 10,       /* no such month or day */
    FUZZY_NO_TIME = 11,       /* no such time of day */
    FUZZY_OUTSIDE = 12,       /* outside the years 1 to 9999 */
    FUZZY_NO_LEAP_DAY = 13,   /* a step of years from 29 February into a year without one */
    FUZZY_NO_STAMP = 14,      /* not an RFC 3339 stamp: another form, or no such date, time or offset */
    FUZZY_NO_READING = 15,    /* a reading other than 1 and 2 */
    FUZZY_NOT_WHOLE = 16,     /* a phrase cannot show the moment's second or millisecond */
    FUZZY_NO_ROOM = 17,       /* the buffer for the text is too short */
    FUZZY_NO_RULE = 18,       /* not an RFC 5545 rule, or one that is not accepted */
    FUZZY_NO_START = 19,      /* the start does not match the rule, or is after its UNTIL */
    FUZZY_NO_NEXT = 20,       /* no occurrence of the rule is at or after the asked moment */
    FUZZY_NO_ZONE = 21,       /* not a TZif file of version 2 or later, or one beyond the limits */
    FUZZY_PAST_LAST = 22,     /* at or after the last transition of the zone's file */
    FUZZY_NO_INSTANT = 23,    /* a time that the zone's clocks skip */
    FUZZY_FULL_BOARD = 24,    /* no slot of the board is free */
    FUZZY_EMPTY_SLOT = 25,    /* the slot is empty */
    FUZZY_NOTHING_DUE = 26    /* no reminder of the board has a moment */
};

/* The library's version: 1000000 for 1.0.0, by 1000000 * major + 1000 * minor + patch. */
uint32_t fuzzy_version(void);

/* Reads a phrase at a now, in one of the two readings. Success: `moment` is the moment. Where the phrase states a time, noon
 * and midnight included, its second and millisecond are 0; else they are now's. */
uint64_t fuzzy_read(uint32_t reading, const char *phrase, uint64_t phrase_length, const struct fuzzy_moment *now,
                    struct fuzzy_moment *moment);

/* Makes a phrase ready without a now, to be stored, sent and run later. Success: the first fuzzy_length bytes of `ready` are
 * the ready phrase, which belongs to the reading that it was made in. Refused with 1 to 7 or 15, as fuzzy_read. */
uint64_t fuzzy_make_ready(uint32_t reading, const char *phrase, uint64_t phrase_length, uint8_t ready[FUZZY_READY_SIZE]);

/* Runs a ready phrase at a now: gives what fuzzy_read gives for its phrase at that now. Bytes that are not a ready phrase are
 * refused with 9. */
uint64_t fuzzy_run(const uint8_t *ready, uint64_t ready_length, const struct fuzzy_moment *now, struct fuzzy_moment *moment);

/* Reads a whole text as an RFC 3339 stamp: "2026-02-11T09:30:15Z", or with an offset as in "2026-02-11T09:30:15+05:30", with
 * letters in either case. After the second there may be a "." and one to three digits: ".5" is 500 milliseconds, ".05" is 50.
 * Success: `stamp` has the moment as it is written and the offset. Refused with 14, or with 12 for a stamp of year 0. */
uint64_t fuzzy_read_stamp(const char *text, uint64_t text_length, struct fuzzy_stamp *stamp);

/* Writes a stamp as text: in capitals, with three digits of a fraction or none for millisecond 0, and "Z" for offset 0.
 * Success: the first fuzzy_length bytes of `text` are the stamp, which reads back as the same; the rest is unchanged. Refused,
 * in this order, with 8 for an invalid moment, 14 for a west above 1 or an offset above 1439, 17 for a text too short: 29 bytes
 * are always enough, "Z" needs five less than an offset, and millisecond 0 four less than a fraction. */
uint64_t fuzzy_write_stamp(const struct fuzzy_stamp *stamp, char *text, uint64_t text_length);

/* Says of a word, while it is typed, whether it is one of a reading's words. Success: found[0] is its lexeme's code, the same
 * for words of one meaning, or 0 where the reading has no such word; found[1] is the number of comparisons made, at most 8.
 * Letters in either case. Refused with 15. */
uint64_t fuzzy_find_word(uint32_t reading, const char *word, uint64_t word_length, uint32_t found[FUZZY_FOUND_NUMBERS]);

/* Writes a moment as a phrase that people can edit: "march 4 2026 at 9:05". Success: the first fuzzy_length bytes of `text`, 15
 * to 26, are the phrase; the rest is unchanged. fuzzy_read gives the moment back at every now, in both readings for the years
 * 1000 to 9999 and in the first for the years 1 to 999. Refused, in this order, with 8 for an invalid moment, 16 for a second or
 * millisecond other than 0, 17 for a text too short for that phrase. */
uint64_t fuzzy_write_phrase(const struct fuzzy_moment *moment, char *text, uint64_t text_length);

/* What fuzzy_list below is made of: its moments are rows of seven numbers, and moments_length counts the numbers. */
uint64_t fuzzy_list_in(const char *rule, uint64_t rule_length, const struct fuzzy_moment *start, uint32_t *moments,
                       uint64_t moments_length);

/* Lists the occurrences of a repeating rule of RFC 5545, in order, from its start on: as many as there are in the years 1 to 9999
 * or as `moments` has room for. moments_length counts moments; no rule has more than FUZZY_MOST_OCCURRENCES, and a larger length
 * is taken as that. Success: the first fuzzy_length moments are written, the rest is unchanged. The start is the first occurrence,
 * and every occurrence has its time of day. Refused, in this order, with 8 for an invalid start, 18 for a rule that is not accepted,
 * 19 for a start that does not match the rule or is after its UNTIL.
 *   A rule is "FREQ=WEEKLY;INTERVAL=2;BYDAY=TU", without "RRULE:" and without spaces; letters in either case, zeros before a
 * number are allowed. First comes FREQ, which is DAILY, WEEKLY or MONTHLY, then in any order, each at most once:
 *   INTERVAL     1 to 999; 1 where there is none
 *   COUNT        1 to 4,294,967,295
 *   UNTIL        a date such as 20260301, that day included, or a date-time such as 20260301T093000, without "Z"; not with COUNT
 *   BYDAY        only with WEEKLY: days such as TU,FR, each counted once; the start's own weekday where there is none
 *   BYMONTHDAY   only with MONTHLY: a day of 1 to 31, "+" allowed before it, the start's own where there is none; a month without
 *                that day has no occurrence
 *   WKST         MO: weeks begin on Monday */
static inline uint64_t fuzzy_list(const char *rule, uint64_t rule_length, const struct fuzzy_moment *start, struct fuzzy_moment *moments,
                                  uint64_t moments_length) {
    uint64_t most = moments_length < FUZZY_MOST_OCCURRENCES ? moments_length : FUZZY_MOST_OCCURRENCES;
    return fuzzy_list_in(rule, rule_length, start, (uint32_t *)moments, FUZZY_MOMENT_NUMBERS * most);
}

/* Finds which occurrence comes next: the first at or after the asked moment, the start included. Success: `moment` is the first
 * moment at or after the asked one that fuzzy_list, with room for all, would write. Refused, in this order, with 8 for an invalid
 * start or asked moment, 18 and 19 as fuzzy_list, and 20 where no occurrence in the years 1 to 9999 is at or after the asked
 * moment. The occurrences before it are not gone through: the cost has a bound, however many they are. */
uint64_t fuzzy_next(const char *rule, uint64_t rule_length, const struct fuzzy_moment *start, const struct fuzzy_moment *asked,
                    struct fuzzy_moment *moment);

/* Reads a phrase at an instant in a zone, in one of the two readings: gives what fuzzy_run_in_zone gives for the phrase made
 * ready. Refused as fuzzy_make_ready, then as fuzzy_run_in_zone. */
uint64_t fuzzy_read_in_zone(uint32_t reading, const char *phrase, uint64_t phrase_length, const uint8_t *zone, uint64_t zone_length,
                            int64_t second, uint32_t millisecond, int64_t *due, struct fuzzy_local *local);

/* Runs a ready phrase at an instant in a zone. The instant is a second, counted from 1970-01-01T00:00:00Z and negative before it,
 * and a millisecond of it; the zone is the bytes of its TZif file. Success: `due` is the second of the instant that is meant, and
 * `local` is what the zone's clocks show then, its millisecond included.
 *   Dates, weekdays, months and years go by the clocks. Minutes and hours are lengths of time. Days and weeks go by the clocks in
 * "1 day ago" and after or from today, tomorrow or a date, and are lengths in "1 day from now", "1 day before now", before anything
 * else, and after a weekday: at 09:00 on the day before the clocks go forward by an hour, "tomorrow" is 09:00 and "1 day from now"
 * is 10:00. Of a time that the clocks show twice the earlier is meant.
 *   Refused, in this order, with 21; 8 for a millisecond above 999 or, before the last transition, a now outside the years 1 to 9999
 * by the zone's clocks; 22 for a now at or after the last transition (any now, where the file has none); 9 for bytes that are not a
 * ready phrase; and what the steps refuse: 10 to 13, 22 and 23.
 *   A zone's file is one of RFC 9636, version 2 or later, of at most 65,536 bytes, with ascending times, indexes in range, no leap
 * seconds, offsets above -25 and below 26 hours, and no transition in the UTC years 0 and 1 or after 9998. Of its footer only the
 * newlines are looked at: what is known ends with the last transition. */
uint64_t fuzzy_run_in_zone(const uint8_t *ready, uint64_t ready_length, const uint8_t *zone, uint64_t zone_length, int64_t second,
                           uint32_t millisecond, int64_t *due, struct fuzzy_local *local);

/* What the calls for boards below are made of: the same calls on a board's parts. */
uint64_t fuzzy_board_make_in(uint32_t lengths[FUZZY_BOARD_SLOTS], uint32_t state[FUZZY_MOMENT_NUMBERS + 1],
                             const struct fuzzy_moment *now);
uint64_t fuzzy_board_add_in(uint8_t ready[FUZZY_BOARD_READY_SIZE], uint32_t lengths[FUZZY_BOARD_SLOTS],
                            uint64_t keys[FUZZY_BOARD_SLOTS], uint32_t state[FUZZY_MOMENT_NUMBERS + 1], uint32_t reading,
                            const char *phrase, uint64_t phrase_length);
uint64_t fuzzy_board_remove_in(uint32_t lengths[FUZZY_BOARD_SLOTS], uint64_t keys[FUZZY_BOARD_SLOTS],
                               uint32_t state[FUZZY_MOMENT_NUMBERS + 1], uint32_t slot);
uint64_t fuzzy_board_again_in(const uint8_t ready[FUZZY_BOARD_READY_SIZE], const uint32_t lengths[FUZZY_BOARD_SLOTS],
                              uint64_t keys[FUZZY_BOARD_SLOTS], uint32_t state[FUZZY_MOMENT_NUMBERS + 1],
                              const struct fuzzy_moment *now);
uint64_t fuzzy_board_head_in(const uint64_t keys[FUZZY_BOARD_SLOTS], const uint32_t state[FUZZY_MOMENT_NUMBERS + 1],
                             struct fuzzy_moment *moment);
uint64_t fuzzy_board_order_in(const uint64_t keys[FUZZY_BOARD_SLOTS], const uint32_t state[FUZZY_MOMENT_NUMBERS + 1],
                              uint32_t slots[FUZZY_BOARD_SLOTS]);

/* Makes a board empty at a now, whatever it held. Refused with 8 for an invalid now: then all of it is unchanged. */
static inline uint64_t fuzzy_board_make(struct fuzzy_board *board, const struct fuzzy_moment *now) {
    return fuzzy_board_make_in(board->lengths, board->state, now);
}

/* Adds a reminder, made ready in a reading. Success: it is in slot fuzzy_length, the lowest that was free. Refused as
 * fuzzy_make_ready, then with 24 for a full board: then all is unchanged. A phrase without a moment at the board's now is accepted:
 * it comes last, and may have a moment at another now. */
static inline uint64_t fuzzy_board_add(struct fuzzy_board *board, uint32_t reading, const char *phrase, uint64_t phrase_length) {
    return fuzzy_board_add_in(board->ready, board->lengths, board->keys, board->state, reading, phrase, phrase_length);
}

/* Removes a reminder: its slot is free again. Refused with 25 for an empty slot, and for 256 and above: then all is unchanged. */
static inline uint64_t fuzzy_board_remove(struct fuzzy_board *board, uint32_t slot) {
    return fuzzy_board_remove_in(board->lengths, board->keys, board->state, slot);
}

/* Runs all reminders again at another now, later or earlier, which is then the board's. Refused with 8 for an invalid now: then all
 * is unchanged. */
static inline uint64_t fuzzy_board_again(struct fuzzy_board *board, const struct fuzzy_moment *now) {
    return fuzzy_board_again_in(board->ready, board->lengths, board->keys, board->state, now);
}

/* Finds what is due first: the earliest moment of all reminders at the board's now, and of equal ones the lowest slot. Success: its
 * slot is fuzzy_length, and `moment` is its moment. Refused with 26 where no reminder has a moment. Nothing is searched. */
static inline uint64_t fuzzy_board_head(const struct fuzzy_board *board, struct fuzzy_moment *moment) {
    return fuzzy_board_head_in(board->keys, board->state, moment);
}

/* Lists the filled slots in order, each once: by moment and, for equal moments, by slot; after them those without a moment at the
 * board's now, by slot. It is never refused: the first fuzzy_length numbers of `slots` are written, the rest is unchanged. */
static inline uint64_t fuzzy_board_order(const struct fuzzy_board *board, uint32_t slots[FUZZY_BOARD_SLOTS]) {
    return fuzzy_board_order_in(board->keys, board->state, slots);
}

/* Which refusal an answer is; 0 for success. */
static inline uint32_t fuzzy_number(uint64_t answer) { return (uint32_t)(answer & 0xffffu); }

/* Whether a call succeeded. */
static inline int fuzzy_ok(uint64_t answer) { return fuzzy_number(answer) == 0; }

/* Where the refused part of a text begins, in bytes. */
static inline uint32_t fuzzy_place(uint64_t answer) { return (uint32_t)((answer >> 16) & 0xffffu); }

/* How long the refused part is, in bytes; of a success, how many bytes fuzzy_make_ready, fuzzy_write_stamp or fuzzy_write_phrase
 * wrote, how many moments fuzzy_list or slots fuzzy_board_order did, or the slot of fuzzy_board_add and fuzzy_board_head. */
static inline uint32_t fuzzy_length(uint64_t answer) { return (uint32_t)(answer >> 32); }

/* The words of a refusal, to be shown to people; "done" for 0. */
static inline const char *fuzzy_words(uint32_t number) {
    switch (number) {
    case 0: return "done";
    case FUZZY_TOO_LONG: return "longer than 256 bytes";
    case FUZZY_UNKNOWN: return "not understood";
    case FUZZY_LARGE_DIGITS: return "number too large";
    case FUZZY_TOO_MANY: return "more than 64 words, numbers and marks";
    case FUZZY_NOTHING: return "no date or time in it";
    case FUZZY_LARGE_SUM: return "number in words too large";
    case FUZZY_LEFT_OVER: return "not part of the date or time";
    case FUZZY_INVALID_MOMENT: return "the given moment is not a valid date and time";
    case FUZZY_NO_SENSE: return "makes no sense";
    case FUZZY_NO_DATE: return "no such month or day";
    case FUZZY_NO_TIME: return "no such time of day";
    case FUZZY_OUTSIDE: return "outside the years 1 to 9999";
    case FUZZY_NO_LEAP_DAY: return "29 February is not in that year";
    case FUZZY_NO_STAMP: return "not an RFC 3339 date and time";
    case FUZZY_NO_READING: return "no such reading";
    case FUZZY_NOT_WHOLE: return "a phrase shows no seconds";
    case FUZZY_NO_ROOM: return "no room for the text";
    case FUZZY_NO_RULE: return "not a repeating rule that is accepted";
    case FUZZY_NO_START: return "the start is not an occurrence of the rule";
    case FUZZY_NO_NEXT: return "no occurrence is left";
    case FUZZY_NO_ZONE: return "not a zone file that is accepted";
    case FUZZY_PAST_LAST: return "later than the zone's file knows";
    case FUZZY_NO_INSTANT: return "the zone's clocks skip that time";
    case FUZZY_FULL_BOARD: return "no slot is free";
    case FUZZY_EMPTY_SLOT: return "the slot is empty";
    case FUZZY_NOTHING_DUE: return "no reminder has a moment";
    default: return "a refusal of a newer library";
    }
}

#ifdef __cplusplus
}
#endif

#endif
