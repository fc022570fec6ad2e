/* refused.h: a refusal as text for people, the same in SQLite and in PostgreSQL: number, name, place and words, and below them the
 * phrase with the refused part underlined. */
#ifndef REFUSED_H
#define REFUSED_H

#include "fuzzy.h"

#include <stdio.h>
#include <string.h>

/* Enough for the first line, and for a phrase of 256 bytes and its underline with every byte shown as \xHH. */
#define REFUSED_SIZE 2304
#define REFUSED_MOST_PHRASE 256

/* The name of a refusal in fuzzy.h, without FUZZY_. */
static inline const char *refused_name(uint32_t number) {
    static const char *const names[] = {
        [FUZZY_TOO_LONG] = "TOO_LONG",
        [FUZZY_UNKNOWN] = "UNKNOWN",
        [FUZZY_LARGE_DIGITS] = "LARGE_DIGITS",
        [FUZZY_TOO_MANY] = "TOO_MANY",
        [FUZZY_NOTHING] = "NOTHING",
        [FUZZY_LARGE_SUM] = "LARGE_SUM",
        [FUZZY_LEFT_OVER] = "LEFT_OVER",
        [FUZZY_INVALID_MOMENT] = "INVALID_MOMENT",
        [FUZZY_NO_SENSE] = "NO_SENSE",
        [FUZZY_NO_DATE] = "NO_DATE",
        [FUZZY_NO_TIME] = "NO_TIME",
        [FUZZY_OUTSIDE] = "OUTSIDE",
        [FUZZY_NO_LEAP_DAY] = "NO_LEAP_DAY",
        [FUZZY_NO_STAMP] = "NO_STAMP",
        [FUZZY_NO_READING] = "NO_READING",
        [FUZZY_NOT_WHOLE] = "NOT_WHOLE",
        [FUZZY_NO_ROOM] = "NO_ROOM",
        [FUZZY_NO_RULE] = "NO_RULE",
        [FUZZY_NO_START] = "NO_START",
        [FUZZY_NO_NEXT] = "NO_NEXT",
        [FUZZY_NO_ZONE] = "NO_ZONE",
        [FUZZY_PAST_LAST] = "PAST_LAST",
        [FUZZY_NO_INSTANT] = "NO_INSTANT",
        [FUZZY_FULL_BOARD] = "FULL_BOARD",
        [FUZZY_EMPTY_SLOT] = "EMPTY_SLOT",
        [FUZZY_NOTHING_DUE] = "NOTHING_DUE",
    };
    return number < sizeof names / sizeof names[0] && names[number] != NULL ? names[number] : "NEWER";
}

/* Whether a second byte of UTF-8 may follow that first one: no form longer than needed, no surrogate, nothing above U+10FFFF. */
static inline int refused_second_fits(unsigned char first, unsigned char second) {
    switch (first) {
    case 0xe0: return second >= 0xa0;
    case 0xed: return second < 0xa0;
    case 0xf0: return second >= 0x90;
    case 0xf4: return second < 0x90;
    default: return 1;
    }
}

/* How many bytes the character at the front of a text has; 0 where it cannot be shown as it is. */
static inline size_t refused_character(const unsigned char *text, size_t length, int utf8) {
    unsigned char first = text[0];
    size_t i, size = first < 0xc2 ? 0 : first < 0xe0 ? 2 : first < 0xf0 ? 3 : first < 0xf5 ? 4 : 0;
    if (first < 0x80) return first >= 0x20 && first != 0x7f;
    if (!utf8 || size > length) return 0;
    for (i = 1; i < size; i++) {
        if ((text[i] & 0xc0) != 0x80) return 0;
    }
    return size > 0 && refused_second_fits(first, text[1]) ? size : 0;
}

/* Writes a phrase on a line and, on the next, a ^ below each place of its refused part; a byte that cannot be shown is \xHH. Gives the
 * length of both lines, and 0 for a phrase that is too long for them. */
static inline size_t refused_underline(uint64_t answer, const char *phrase, size_t length, int utf8, char out[REFUSED_SIZE]) {
    const unsigned char *bytes = (const unsigned char *)phrase;
    size_t place = fuzzy_place(answer), end = place + fuzzy_length(answer), at, n = 0, marks = 0, marked = 0;
    char below[4 * REFUSED_MOST_PHRASE];
    if (length > REFUSED_MOST_PHRASE) return 0;
    for (at = 0; at < length;) {
        size_t size = refused_character(bytes + at, length - at, utf8), taken = size > 0 ? size : 1, wide = size > 0 ? 1 : 4;
        int refused = at < end && at + taken > place;
        if (size > 0) memcpy(out + n, bytes + at, size);
        else snprintf(out + n, 5, "\\x%02X", bytes[at]);
        n += size > 0 ? size : 4;
        memset(below + marks, refused ? '^' : ' ', wide);
        marks += wide;
        if (refused) marked = marks;
        at += taken;
    }
    out[n++] = '\n';
    memcpy(out + n, below, marked);
    return n + marked;
}

/* Writes what a refused answer says of a phrase: "refused 2 (UNKNOWN) at byte 0: not understood", and below it the phrase with the part
 * underlined, where there is one. Gives the length of the text. */
static inline size_t refused_text(uint64_t answer, const char *phrase, size_t length, int utf8, char out[REFUSED_SIZE]) {
    uint32_t number = fuzzy_number(answer);
    char where[32] = "", lines[REFUSED_SIZE];
    size_t n = fuzzy_length(answer) == 0 ? 0 : refused_underline(answer, phrase, length, utf8, lines);
    if (fuzzy_length(answer) > 0) snprintf(where, sizeof where, " at byte %u", (unsigned)fuzzy_place(answer));
    return (size_t)snprintf(out, REFUSED_SIZE, "refused %u (%s)%s: %s%s%.*s", (unsigned)number, refused_name(number), where,
                            fuzzy_words(number), n > 0 ? "\n" : "", (int)n, lines);
}

#endif
