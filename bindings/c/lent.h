/* lent.h: buffers between two fences, pages that nobody may touch, random numbers, a digest, and the lines of the replayed list. Linux
 * only; for the tests. */
#ifndef LENT_H
#define LENT_H

#include "fuzzy.h"

#include <ctype.h>
#include <inttypes.h>
#include <stdio.h>
#include <stdlib.h>
#include <string.h>
#include <sys/mman.h>
#include <unistd.h>

#define PATTERN 0xa5

/* One page or more between two fences; a buffer in it ends at the upper fence or begins at the lower one. */
struct field {
    uint8_t *first;
    size_t size;
};

static inline void stop(const char *what) {
    printf("failed: %s\n", what);
    exit(1);
}

static inline struct field fenced(size_t least) {
    size_t page = (size_t)sysconf(_SC_PAGESIZE);
    struct field f;
    uint8_t *all;
    f.size = (least + page - 1) / page * page;
    all = mmap(NULL, f.size + 2 * page, PROT_NONE, MAP_PRIVATE | MAP_ANONYMOUS, -1, 0);
    if (all == MAP_FAILED) stop("no memory");
    f.first = all + page;
    if (mprotect(f.first, f.size, PROT_READ | PROT_WRITE) != 0) stop("no fences");
    return f;
}

/* The bytes beside a buffer of n bytes that are looked at too, as far as the fences. */
#define BESIDE 64

static inline const uint8_t *begin_beside(struct field f, const uint8_t *at) {
    return at < f.first + BESIDE ? f.first : at - BESIDE;
}

static inline const uint8_t *end_beside(struct field f, const uint8_t *at, size_t n) {
    const uint8_t *end = f.first + f.size;
    return at + n + BESIDE > end ? end : at + n + BESIDE;
}

/* A buffer of n bytes at one fence or the other, full of a pattern as what is beside it. */
static inline void *lent(struct field f, size_t n, int upper) {
    uint8_t *at = upper ? f.first + f.size - n : f.first;
    uint8_t *begin = f.first + (begin_beside(f, at) - f.first);
    memset(begin, PATTERN, (size_t)(end_beside(f, at, n) - begin));
    return at;
}

/* Whether of a buffer of n bytes and what is beside it only the first bytes were written. */
static inline int kept_but(struct field f, const void *buffer, size_t n, size_t written) {
    const uint8_t *p, *at = buffer, *end = end_beside(f, at, n);
    for (p = begin_beside(f, at); p < at; p++) {
        if (*p != PATTERN) return 0;
    }
    for (p = at + written; p < end; p++) {
        if (*p != PATTERN) return 0;
    }
    return 1;
}

/* A copy of n bytes at one fence or the other, for a call that only reads it. */
static inline void *lent_copy(struct field f, const void *bytes, size_t n, int upper) {
    return memcpy(lent(f, n, upper), bytes, n);
}

/* Whether such a copy and what is beside it are unchanged. */
static inline int unchanged(struct field f, const void *copy, const void *bytes, size_t n) {
    return memcmp(copy, bytes, n) == 0 && kept_but(f, copy, n, n);
}

/* xorshift64: the same numbers on every machine. */
static uint64_t state = 88172645463325252u;

static inline uint64_t random_below(uint64_t n) {
    state ^= state << 13;
    state ^= state >> 7;
    state ^= state << 17;
    return (state >> 11) % n;
}

/* FNV-1a, of 64 bits. */
static uint64_t digest = 0xcbf29ce484222325u;

static inline void add(const void *bytes, size_t n) {
    const uint8_t *p = bytes;
    size_t i;
    for (i = 0; i < n; i++) digest = (digest ^ p[i]) * 0x100000001b3u;
}

static inline void add_number(uint64_t n) {
    add(&n, sizeof n);
}

/* A line of the replayed list: `NOW|PHRASE`, where \xHH in the phrase is one byte. A now of another form stands for zeros, an invalid
 * moment. The list has no milliseconds: a now gets random ones. */
#define MOST_PHRASE 1024
struct line {
    struct fuzzy_moment now;
    char phrase[MOST_PHRASE];
    size_t length;
};

static inline int is_now(const char *text, size_t n) {
    static const char form[] = "0000-00-00 00:00:00";
    size_t i;
    for (i = 0; i < n && i < sizeof form - 1; i++) {
        if (form[i] == '0' ? !isdigit((unsigned char)text[i]) : text[i] != form[i]) return 0;
    }
    return n == sizeof form - 1;
}

/* A now as the list has it, with random milliseconds. */
static inline struct fuzzy_moment take_now(const char *text, size_t n) {
    struct fuzzy_moment now = {0, 0, 0, 0, 0, 0, 0};
    if (is_now(text, n)) {
        sscanf(text, "%" SCNu32 "-%" SCNu32 "-%" SCNu32 " %" SCNu32 ":%" SCNu32 ":%" SCNu32, &now.year, &now.month, &now.day, &now.hour,
               &now.minute, &now.second);
    }
    now.millisecond = (uint32_t)random_below(1000);
    return now;
}

static inline void take_line(const char *text, struct line *l) {
    const char *p = strchr(text, '|');
    unsigned byte;
    if (p == NULL) stop("a line of the list");
    l->now = take_now(text, (size_t)(p - text));
    l->length = 0;
    for (p++; *p != '\0' && *p != '\n'; l->length++) {
        if (l->length == MOST_PHRASE) stop("a line of the list is too long");
        if (p[0] == '\\' && p[1] == 'x' && isxdigit((unsigned char)p[2]) && isxdigit((unsigned char)p[3])) {
            sscanf(p + 2, "%2x", &byte);
            l->phrase[l->length] = (char)byte;
            p += 4;
        } else {
            l->phrase[l->length] = *p++;
        }
    }
}

#endif
