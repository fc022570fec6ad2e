/* Reads, makes ready and runs every phrase of a reading's list, and so many random ones at random nows; prints one digest of all answers
 * and all bytes written: digest READING LIST ANSWERS COUNT. The answers to the list are compared with those of the file ANSWERS. Every
 * buffer that a call gets, phrase and now too, stands at a fence, by turns at the upper and the lower one, and nothing else of its pages
 * may change. */
#define _DEFAULT_SOURCE
#include "fuzzy.h"
#include "lent.h"

#define MOST_LINES 20000
#define MOST_TEXT 8192

static struct field phrases, nows, moments, readies;
static struct line lines[MOST_LINES];
static size_t listed, moments_read;
static uint32_t reading;

/* The buffer for a moment holds one after a success, and else nothing new; it is copied. */
static struct fuzzy_moment taken(uint64_t answer, const struct fuzzy_moment *moment) {
    size_t written = fuzzy_ok(answer) ? sizeof *moment : 0;
    if (!kept_but(moments, moment, sizeof *moment, written)) stop("something else than the moment was written");
    add_number(answer);
    add(moment, written);
    return *moment;
}

static uint64_t read_at(const char *phrase, size_t n, const struct fuzzy_moment *at, int upper, struct fuzzy_moment *given) {
    struct fuzzy_moment *now = lent_copy(nows, at, sizeof *at, upper), *moment = lent(moments, sizeof *moment, upper);
    uint64_t answer = fuzzy_read(reading, phrase, n, now, moment);
    if (!unchanged(nows, now, at, sizeof *at)) stop("a now was changed");
    *given = taken(answer, moment);
    return answer;
}

static uint64_t run_at(const uint8_t *ready, size_t n, const struct fuzzy_moment *at, int upper, struct fuzzy_moment *given) {
    struct fuzzy_moment *now = lent_copy(nows, at, sizeof *at, upper), *moment = lent(moments, sizeof *moment, upper);
    uint64_t answer = fuzzy_run(ready, n, now, moment);
    if (!unchanged(nows, now, at, sizeof *at)) stop("a now was changed");
    *given = taken(answer, moment);
    return answer;
}

/* A phrase keeps now's second and millisecond, or it states a time: then both are 0. */
static int kept_or_stated(const struct fuzzy_moment *now, const struct fuzzy_moment *m) {
    return (m->second == now->second && m->millisecond == now->millisecond) || (m->second == 0 && m->millisecond == 0);
}

/* Runs what was made ready, which gives what reading gave, and runs it damaged, which gives anything. */
static void run_both(uint8_t *ready, size_t n, const struct fuzzy_moment *now, int upper, uint64_t answer,
                     const struct fuzzy_moment *given) {
    struct fuzzy_moment again;
    if (run_at(ready, n, now, upper, &again) != answer) stop("running answers otherwise than reading");
    if (memcmp(&again, given, sizeof again) != 0) stop("running gives another moment than reading");
    ready[random_below(n)] ^= (uint8_t)(1 + random_below(255));
    run_at(ready, n - random_below(2), now, upper, &again);
}

/* One phrase at one now, by all three functions, and its moment. */
static uint64_t answered(const char *bytes, size_t n, const struct fuzzy_moment *now, struct fuzzy_moment *given) {
    int upper = (int)random_below(2);
    const char *phrase = lent_copy(phrases, bytes, n, upper);
    uint64_t answer = read_at(phrase, n, now, upper, given), made;
    uint8_t *ready = lent(readies, FUZZY_READY_SIZE, upper);
    size_t length;
    if (fuzzy_ok(answer) && !kept_or_stated(now, given)) stop("second and millisecond are neither now's nor 0");

    made = fuzzy_make_ready(reading, phrase, n, ready);
    if (!unchanged(phrases, phrase, bytes, n)) stop("a phrase was changed");
    length = fuzzy_ok(made) ? fuzzy_length(made) : 0;
    if (!kept_but(readies, ready, FUZZY_READY_SIZE, length)) stop("something else than the ready phrase was written");
    add_number(made);
    add(ready, length);
    if (length == 0) {
        if (made != answer) stop("making ready refuses otherwise than reading");
        return answer;
    }

    if (upper) ready = memmove(ready + FUZZY_READY_SIZE - length, ready, length);
    run_both(ready, length, now, upper, answer, given);
    return answer;
}

/* The answer as the replayed list has it, after the last bar of its line, without milliseconds. */
static void compare(const char *expected, uint64_t answer, const struct fuzzy_moment *m) {
    const char *bar = strrchr(expected, '|');
    unsigned place = fuzzy_place(answer), length = fuzzy_length(answer);
    char text[80];
    if (fuzzy_ok(answer)) {
        snprintf(text, sizeof text, "%04u-%02u-%02u %02u:%02u:%02u\n", (unsigned)m->year, (unsigned)m->month, (unsigned)m->day,
                 (unsigned)m->hour, (unsigned)m->minute, (unsigned)m->second);
        moments_read++;
    } else {
        snprintf(text, sizeof text, "refused %u at %u to %u\n", (unsigned)fuzzy_number(answer), place, place + length);
    }
    if (strcmp(bar == NULL ? expected : bar + 1, text) != 0) {
        printf("expected %sgot      %s", expected, text);
        stop("an answer of the list");
    }
}

static void replay(const char *list, const char *answers) {
    static char text[MOST_TEXT], expected[MOST_TEXT];
    FILE *in = fopen(list, "r"), *out = fopen(answers, "r");
    struct fuzzy_moment moment;
    if (in == NULL || out == NULL) stop("no list");
    while (fgets(text, sizeof text, in) != NULL && fgets(expected, sizeof expected, out) != NULL) {
        struct line *l = &lines[listed++];
        if (listed == MOST_LINES) stop("too many lines");
        take_line(text, l);
        compare(expected, answered(l->phrase, l->length, &l->now, &moment), &moment);
    }
    fclose(in);
    fclose(out);
}

/* A phrase that begins as one of the list and ends as another, with up to three bytes changed. */
static size_t random_phrase(char *phrase) {
    const struct line *a = &lines[random_below(listed)], *b = &lines[random_below(listed)];
    size_t begin = a->length == 0 || random_below(2) == 0 ? a->length : random_below(a->length);
    size_t rest = b->length == 0 || random_below(2) == 0 ? 0 : random_below(b->length);
    size_t i, changes = random_below(4), n = begin;
    memcpy(phrase, a->phrase, begin);
    if (begin < a->length || random_below(4) == 0) {
        phrase[n++] = ' ';
        memcpy(phrase + n, b->phrase + b->length - rest, rest);
        n += rest;
    }
    for (i = 1; i < changes && n > 0; i++) phrase[random_below(n)] = "0123456789 -,:/."[random_below(16)];
    if (random_below(16) == 0 && n > 0) phrase[random_below(n)] = (char)random_below(256);
    return n;
}

/* Mostly a valid moment, at times any numbers. */
static struct fuzzy_moment random_now(void) {
    static const uint32_t most[FUZZY_MOMENT_NUMBERS] = {9999, 12, 28, 24, 60, 60, 1000};
    uint32_t numbers[FUZZY_MOMENT_NUMBERS];
    struct fuzzy_moment now;
    size_t i;
    for (i = 0; i < FUZZY_MOMENT_NUMBERS; i++) numbers[i] = (uint32_t)random_below(most[i]) + (i < 3);
    if (random_below(8) == 0) numbers[2] = (uint32_t)(29 + random_below(3));
    if (random_below(32) == 0) numbers[random_below(FUZZY_MOMENT_NUMBERS)] = (uint32_t)random_below((uint64_t)1 << 32);
    memcpy(&now, numbers, sizeof now);
    return now;
}

int main(int count, char **arguments) {
    static char phrase[2 * MOST_PHRASE + 1];
    struct fuzzy_moment now, moment;
    unsigned long i, rounds;
    if (count != 5) stop("usage: digest READING LIST ANSWERS COUNT");
    reading = (uint32_t)strtoul(arguments[1], NULL, 10);
    phrases = fenced(sizeof phrase);
    nows = fenced(sizeof now);
    moments = fenced(sizeof moment);
    readies = fenced(FUZZY_READY_SIZE);
    replay(arguments[2], arguments[3]);
    rounds = strtoul(arguments[4], NULL, 10);
    for (i = 0; i < rounds; i++) {
        size_t n = random_phrase(phrase);
        now = random_now();
        if (fuzzy_ok(answered(phrase, n, &now, &moment))) moments_read++;
    }
    printf("reading %u: %zu listed and %lu random phrases, %zu moments: digest %016" PRIx64 "\n", (unsigned)reading, listed, rounds,
           moments_read, digest);
    return 0;
}
