/* Reads so many phrases of a list, by turns in both readings, at random instants in a zone whose file has random bytes changed, and runs
 * them made ready; prints one digest of all answers and all bytes written: zones LIST ZONE COUNT. Where an instant is given, "now" at it
 * must show the same. Every buffer that a call gets, phrase and file too, stands at a fence, by turns at the upper and the lower one, and
 * nothing else of its pages may change. */
#define _DEFAULT_SOURCE
#include "fuzzy.h"
#include "lent.h"

#define MOST_LINES 20000
#define MOST_TEXT 8192
#define MOST_ZONE 65536

struct instant {
    int64_t second;
    uint32_t millisecond;
};

static struct field phrases, zones, readies, dues, locals;
static struct line lines[MOST_LINES];
static size_t listed, zone_length, answers_by_number[32];
static uint8_t whole[MOST_ZONE];

/* What a call in a zone answered and wrote. */
struct located {
    uint64_t answer;
    int64_t due;
    struct fuzzy_local local;
};

/* Keeps an answer with what was written, which is an instant and what the clocks show then, or nothing. */
static struct located taken(uint64_t answer, const int64_t *due, const struct fuzzy_local *local) {
    struct located l = {0, 0, {{0, 0, 0, 0, 0, 0, 0}, 0, 0}};
    size_t given = fuzzy_ok(answer);
    if (!kept_but(dues, due, sizeof *due, given * sizeof *due)) stop("something else than the instant was written");
    if (!kept_but(locals, local, sizeof *local, given * sizeof *local)) stop("something else than what the clocks show was written");
    l.answer = answer;
    if (given) {
        l.due = *due;
        l.local = *local;
    }
    return l;
}

static struct located read_in(uint32_t reading, const char *phrase, size_t n, const uint8_t *zone, struct instant now, int upper) {
    int64_t *due = lent(dues, sizeof *due, upper);
    struct fuzzy_local *local = lent(locals, sizeof *local, upper);
    return taken(fuzzy_read_in_zone(reading, phrase, n, zone, zone_length, now.second, now.millisecond, due, local), due, local);
}

static struct located run_in(const uint8_t *ready, size_t n, const uint8_t *zone, struct instant now, int upper) {
    int64_t *due = lent(dues, sizeof *due, upper);
    struct fuzzy_local *local = lent(locals, sizeof *local, upper);
    return taken(fuzzy_run_in_zone(ready, n, zone, zone_length, now.second, now.millisecond, due, local), due, local);
}

static int alike(const struct located *a, const struct located *b) {
    return a->answer == b->answer && a->due == b->due && memcmp(&a->local, &b->local, sizeof a->local) == 0;
}

/* The same by running what is made ready, where that can be; else the refusal is that of making ready. */
static void run_again(uint32_t reading, const char *phrase, size_t n, const uint8_t *zone, struct instant now, int upper,
                      const struct located *read) {
    uint8_t *ready = lent(readies, FUZZY_READY_SIZE, upper);
    uint64_t made = fuzzy_make_ready(reading, phrase, n, ready);
    struct located run;
    if (!fuzzy_ok(made)) {
        if (read->answer != made) stop("reading in a zone refuses otherwise than making ready");
        return;
    }
    run = run_in(ready, fuzzy_length(made), zone, now, upper);
    if (!alike(&run, read)) stop("running in a zone gives something else than reading");
}

/* One phrase at one instant in one zone, by both calls. */
static void answered(uint32_t reading, const struct line *l, const uint8_t *file, struct instant now) {
    int upper = (int)random_below(2);
    const char *phrase = lent_copy(phrases, l->phrase, l->length, upper);
    const uint8_t *zone = lent_copy(zones, file, zone_length, upper);
    struct located read = read_in(reading, phrase, l->length, zone, now, upper);
    run_again(reading, phrase, l->length, zone, now, upper, &read);
    if (fuzzy_ok(read.answer)) {
        struct instant due = {read.due, read.local.moment.millisecond};
        struct located again = read_in(reading, "now", 3, zone, due, upper);
        if (!alike(&again, &read)) stop("at the instant that is given the clocks show something else");
    }
    if (!unchanged(phrases, phrase, l->phrase, l->length)) stop("a phrase was changed");
    if (!unchanged(zones, zone, file, zone_length)) stop("a zone was changed");
    answers_by_number[fuzzy_number(read.answer) % 32]++;
    add_number(read.answer);
    add_number((uint64_t)read.due);
    add(&read.local, sizeof read.local);
}

/* Any second, most often one of few bits. */
static int64_t random_second(void) {
    int64_t unit = (int64_t)1 << random_below(40);
    uint64_t high = random_below((uint64_t)1 << 32);
    return (int64_t)(high << 32 | random_below((uint64_t)1 << 32)) / unit;
}

/* Mostly near a transition of New York's file, else in the years 1900 to 2030, at times any; mostly with milliseconds of a second. */
static struct instant random_instant(void) {
    static const int64_t transitions[4] = {1767225600, 1772953200, 1793512800, 1805007600};
    struct instant now;
    size_t kind = random_below(16);
    if (kind < 10) {
        now.second = transitions[random_below(4)] - 15000;
        now.second += (int64_t)random_below(20000);
    } else if (kind < 15) {
        now.second = (int64_t)random_below(4102444800u) - 2208988800;
    } else {
        now.second = random_second();
    }
    now.millisecond = (uint32_t)random_below(random_below(32) == 0 ? (uint64_t)1 << 32 : 1000);
    return now;
}

/* The file, in half of all cases with up to three bytes of its second header and block changed, of any value or by one. */
static void random_file(uint8_t *file) {
    size_t i, changes = random_below(2) == 0 ? 0 : 1 + random_below(3);
    memcpy(file, whole, zone_length);
    for (i = 0; i < changes; i++) {
        uint8_t *byte = &file[zone_length / 3 + random_below(zone_length - zone_length / 3)];
        *byte = (uint8_t)(random_below(2) == 0 ? random_below(256) : *byte + 1u);
    }
}

static void take_files(const char *list, const char *name) {
    static char text[MOST_TEXT];
    FILE *in = fopen(list, "r"), *file = fopen(name, "rb");
    if (in == NULL || file == NULL) stop("no list or no zone");
    while (listed < MOST_LINES && fgets(text, sizeof text, in) != NULL) take_line(text, &lines[listed++]);
    zone_length = fread(whole, 1, sizeof whole, file);
    fclose(in);
    fclose(file);
}

int main(int count, char **arguments) {
    static uint8_t file[MOST_ZONE];
    unsigned long i, rounds;
    if (count != 4) stop("usage: zones LIST ZONE COUNT");
    take_files(arguments[1], arguments[2]);
    phrases = fenced(MOST_PHRASE);
    zones = fenced(zone_length);
    readies = fenced(FUZZY_READY_SIZE);
    dues = fenced(sizeof(int64_t));
    locals = fenced(sizeof(struct fuzzy_local));
    rounds = strtoul(arguments[3], NULL, 10);
    for (i = 0; i < rounds; i++) {
        const struct line *l = &lines[random_below(listed)];
        random_file(file);
        answered(1 + (uint32_t)(i % 2), l, file, random_instant());
    }
    printf("zones: %lu phrases, %zu instants, %zu refused with 21, %zu with 22, %zu with 23: digest %016" PRIx64 "\n", rounds,
           answers_by_number[0], answers_by_number[21], answers_by_number[22], answers_by_number[23], digest);
    return 0;
}
