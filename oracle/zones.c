/* Makes the calls of oracle/zones.py's lines, which says what a line is, and writes their answers: zones < LINES. The file, what is read
 * or run and both buffers stand at a fence, by turns at the upper and the lower one; nothing beside the buffers may be written, and
 * nothing of them by a refusal. */
#define _DEFAULT_SOURCE
#include "fuzzy.h"
#include "lent.h"

#include <inttypes.h>

#define MOST_LINE ((size_t)1 << 17)
#define MOST_FILE 65600
#define MOST_READ 4096

static struct field files, texts, dues, locals;
static uint8_t file[MOST_FILE];
static size_t size;
static uint64_t now;
static uint32_t millisecond;

/* What a call is given: the zone's file, a phrase or a ready phrase, and the buffers for the second and for what the clocks show. */
struct lent_to {
    const uint8_t *zone, *text;
    uint8_t *due, *local;
};

static struct lent_to lend(const uint8_t *text, size_t length) {
    struct lent_to l;
    uint8_t *zone = lent(files, size, (int)random_below(2)), *copy = lent(texts, length, (int)random_below(2));
    memcpy(zone, file, size);
    memcpy(copy, text, length);
    l.zone = zone;
    l.text = copy;
    l.due = lent(dues, sizeof(int64_t), (int)random_below(2));
    l.local = lent(locals, sizeof(struct fuzzy_local), (int)random_below(2));
    return l;
}

static void write_answer(uint64_t answer) {
    if (answer == 0) printf("0");
    else printf("%u %lu %lu", fuzzy_number(answer), (unsigned long)fuzzy_place(answer), (unsigned long)fuzzy_length(answer));
}

/* The answer, and what was written: sevens for what was not. */
static void write_lent(uint64_t answer, struct lent_to l) {
    int64_t due = 7;
    uint32_t local[FUZZY_LOCAL_NUMBERS] = {7, 7, 7, 7, 7, 7, 7, 7, 7};
    size_t i, given = answer == 0;
    if (!kept_but(dues, l.due, sizeof due, given * sizeof due)) stop("something beside the second was written, or it by a refusal");
    if (!kept_but(locals, l.local, sizeof local, given * sizeof local)) stop("something beside a moment was written, or it by a refusal");
    if (given) {
        memcpy(&due, l.due, sizeof due);
        memcpy(local, l.local, sizeof local);
    }
    write_answer(answer);
    printf(" %" PRIu64, (uint64_t)due);
    for (i = 0; i < FUZZY_LOCAL_NUMBERS; i++) printf(" %" PRIu32, local[i]);
}

static void read_in_zone(uint32_t reading, const char *phrase, size_t length, uint64_t second) {
    struct lent_to l = lend((const uint8_t *)phrase, length);
    write_lent(fuzzy_read_in_zone(reading, (const char *)l.text, length, l.zone, size, (int64_t)second, millisecond,
                                  (int64_t *)(void *)l.due, (struct fuzzy_local *)(void *)l.local), l);
}

static void run_in_zone(const uint8_t *ready, size_t length) {
    struct lent_to l = lend(ready, length);
    write_lent(fuzzy_run_in_zone(l.text, length, l.zone, size, (int64_t)now, millisecond, (int64_t *)(void *)l.due,
                                 (struct fuzzy_local *)(void *)l.local), l);
}

static void run_made(uint32_t reading, const char *phrase, size_t length) {
    uint8_t ready[FUZZY_READY_SIZE];
    uint64_t made = fuzzy_make_ready(reading, phrase, length, ready);
    if (fuzzy_ok(made)) run_in_zone(ready, fuzzy_length(made));
    else write_answer(made);
}

/* The bytes of hexadecimal digits at a place: how many. */
static size_t take_bytes(const char *text, uint8_t *to, size_t room) {
    unsigned byte;
    size_t n = 0;
    while (sscanf(text + 2 * n, "%2x", &byte) == 1) {
        if (n == room) stop("a line of bytes is too long");
        to[n++] = (uint8_t)byte;
    }
    return n;
}

static void run_records(const char *text) {
    uint8_t records[MOST_READ];
    run_in_zone(records, take_bytes(text, records, sizeof records));
}

static void walk(uint64_t second) {
    int k;
    for (k = 0; k < 3; k++) {
        if (k > 0) printf("|");
        read_in_zone(FUZZY_FIRST, "now", 3, second + (uint64_t)k);
    }
}

/* What a call is made on changed; 0 where the line is a call. */
static int change(char kind, const char *rest, uint64_t n) {
    size_t at = (size_t)(n / 256);
    switch (kind) {
    case 'Z': size = take_bytes(rest, file, MOST_FILE); return 1;
    case 'A': size += take_bytes(rest, file + size, MOST_FILE - size); return 1;
    case 'S': file[at % MOST_FILE] = (uint8_t)n; return 1;
    case 'T': size = (size_t)n % MOST_FILE; return 1;
    case 'F':
        if (at < size || at > MOST_FILE) stop("a file is filled up too far");
        memset(file + size, (int)(n % 256), at - size);
        size = at;
        return 1;
    case '@': now = n; return 1;
    case 'M': millisecond = (uint32_t)n; return 1;
    default: return 0;
    }
}

static void take(const char *line, size_t length) {
    const char *rest = line + 1;
    if (length == 0 || change(line[0], rest, strtoull(rest, NULL, 16))) return;
    if (line[0] == 'W') walk(strtoull(rest, NULL, 16));
    else if (line[0] == 'R') run_records(rest);
    else if (line[0] <= '9') read_in_zone((uint32_t)(line[0] - '0'), rest, length - 1, now);
    else run_made((uint32_t)(line[0] - 'a' + 1), rest, length - 1);
    printf("\n");
}

int main(void) {
    static char line[MOST_LINE];
    files = fenced(MOST_FILE);
    texts = fenced(MOST_READ);
    dues = fenced(1);
    locals = fenced(1);
    while (fgets(line, sizeof line, stdin) != NULL) {
        size_t length = strlen(line);
        if (length > 0 && line[length - 1] == '\n') line[--length] = '\0';
        take(line, length);
    }
    return 0;
}
