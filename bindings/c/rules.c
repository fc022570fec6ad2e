/* Lists the rules of a list from their starts on, and so many random ones, and asks each which occurrence comes next; prints one digest of
 * all answers and all numbers written: rules LIST ANSWERS COUNT. The answers to the list are compared with those of the file ANSWERS. Every
 * buffer that a call gets, rule and start too, stands at a fence, by turns at the upper and the lower one, and nothing else of its pages
 * may change. */
#define _DEFAULT_SOURCE
#include "fuzzy.h"
#include "lent.h"

#define MOST_LINES 4000
#define MOST_RULE 512
#define MOST_MOMENTS 1024
#define MOMENT_SIZE sizeof(struct fuzzy_moment)

/* A line of the list: `YYYY-MM-DD HH:MM:SS mmmm nnnn RULE`, a start with its milliseconds, so many numbers of room, and a rule of any
 * bytes. */
struct listing {
    struct fuzzy_moment start;
    size_t room;
    char rule[MOST_RULE];
    size_t length;
};

#define HEAD 30

static struct field rules, starts, rows, askeds, nexts;
static struct listing listings[MOST_LINES];
static size_t listed;
static uint64_t rows_listed, nexts_found;

/* Lists a rule; the moments are copied, and the answer is their count or a refusal. The room is counted in numbers: it need not be one of
 * moments. */
static uint64_t answered(const struct listing *l, struct fuzzy_moment moments[MOST_MOMENTS]) {
    int upper = (int)random_below(2);
    size_t size = l->room * sizeof(uint32_t), written;
    const char *rule = lent_copy(rules, l->rule, l->length, upper);
    const struct fuzzy_moment *start = lent_copy(starts, &l->start, MOMENT_SIZE, upper);
    uint32_t *numbers = lent(rows, size, upper);
    uint64_t answer = fuzzy_list_in(rule, l->length, start, numbers, l->room);
    written = fuzzy_ok(answer) ? fuzzy_length(answer) * MOMENT_SIZE : 0;
    if (!unchanged(rules, rule, l->rule, l->length)) stop("a rule was changed");
    if (!unchanged(starts, start, &l->start, MOMENT_SIZE)) stop("a start was changed");
    if (written > size || !kept_but(rows, numbers, size, written)) stop("something else than moments was written");
    memcpy(moments, numbers, written);
    add_number(answer);
    add(numbers, written);
    rows_listed += written / MOMENT_SIZE;
    return answer;
}

/* Asks a rule; the moment of the answer is copied. */
static uint64_t asked(const struct listing *l, const struct fuzzy_moment *at, struct fuzzy_moment *next) {
    int upper = (int)random_below(2);
    const char *rule = lent_copy(rules, l->rule, l->length, upper);
    const struct fuzzy_moment *start = lent_copy(starts, &l->start, MOMENT_SIZE, upper);
    const struct fuzzy_moment *asked_at = lent_copy(askeds, at, MOMENT_SIZE, upper);
    struct fuzzy_moment *moment = lent(nexts, MOMENT_SIZE, upper);
    uint64_t answer = fuzzy_next(rule, l->length, start, asked_at, moment);
    size_t written = fuzzy_ok(answer) ? MOMENT_SIZE : 0;
    if (!unchanged(rules, rule, l->rule, l->length)) stop("a rule was changed");
    if (!unchanged(starts, start, &l->start, MOMENT_SIZE)) stop("a start was changed");
    if (!unchanged(askeds, asked_at, at, MOMENT_SIZE)) stop("an asked moment was changed");
    if (!kept_but(nexts, moment, MOMENT_SIZE, written)) stop("something else than a moment was written");
    memcpy(next, moment, written);
    add_number(answer);
    add(moment, written);
    nexts_found += fuzzy_ok(answer);
    return answer;
}

/* Asks at a moment that was listed, which is then the answer, and at the start of another line, which may be invalid. */
static void ask(const struct listing *l, uint64_t answer, const struct fuzzy_moment *moments) {
    struct fuzzy_moment next;
    if (fuzzy_ok(answer) && fuzzy_length(answer) > 0) {
        const struct fuzzy_moment *row = &moments[random_below(fuzzy_length(answer))];
        if (!fuzzy_ok(asked(l, row, &next)) || memcmp(&next, row, sizeof next) != 0) stop("a listed moment does not come next at itself");
    }
    asked(l, &listings[random_below(listed)].start, &next);
}

/* The answer as the list has it: number, count, the first six moments and the last six; the number after them is judged by the fence. */
static void compare(const char *expected, uint64_t answer, const struct fuzzy_moment *moments) {
    static char text[8192];
    size_t count = fuzzy_ok(answer) ? fuzzy_length(answer) : 0, i;
    int n = sprintf(text, "%u %zu", (unsigned)fuzzy_number(answer), count);
    for (i = 0; i < count; i++) {
        const struct fuzzy_moment *m = &moments[i];
        if (i >= 6 && count - i > 6) continue;
        n += sprintf(text + n, "|%u %u %u %u %u %u %u", (unsigned)m->year, (unsigned)m->month, (unsigned)m->day, (unsigned)m->hour,
                     (unsigned)m->minute, (unsigned)m->second, (unsigned)m->millisecond);
    }
    sprintf(text + n, "|7\n");
    if (strcmp(expected, text) != 0) {
        printf("expected %sgot      %s", expected, text);
        stop("an answer of the list");
    }
}

/* One line of n bytes, without its line feed. */
static void take_listing(const char *text, size_t n, struct listing *l) {
    struct fuzzy_moment *s = &l->start;
    unsigned room = 0;
    if (n - HEAD > MOST_RULE ||
        sscanf(text, "%4" SCNu32 "-%2" SCNu32 "-%2" SCNu32 " %2" SCNu32 ":%2" SCNu32 ":%2" SCNu32 " %4" SCNu32 " %4u", &s->year, &s->month,
               &s->day, &s->hour, &s->minute, &s->second, &s->millisecond, &room) != 8) {
        stop("a line of the list");
    }
    l->room = room;
    l->length = n - HEAD;
    memcpy(l->rule, text + HEAD, l->length);
}

/* Every line that is long enough; the others only fill the list up. */
static void replay(const char *list, const char *answers, struct fuzzy_moment moments[MOST_MOMENTS]) {
    static char text[1 << 18], expected[8192];
    FILE *in = fopen(list, "r"), *out = fopen(answers, "r");
    char *at = text, *end;
    uint64_t answer;
    size_t n;
    if (in == NULL || out == NULL) stop("no list");
    n = fread(text, 1, sizeof text - 1, in);
    for (; (end = memchr(at, '\n', (size_t)(text + n - at))) != NULL; at = end + 1) {
        if (end - at < HEAD) continue;
        if (listed == MOST_LINES || fgets(expected, sizeof expected, out) == NULL) stop("too many lines");
        take_listing(at, (size_t)(end - at), &listings[listed]);
        answer = answered(&listings[listed], moments);
        compare(expected, answer, moments);
        listed++;
        ask(&listings[listed - 1], answer, moments);
    }
    if (fgets(expected, sizeof expected, out) != NULL) stop("too few lines");
    fclose(in);
    fclose(out);
}

/* A rule that begins as one of the list and at a place between two parts goes on as another, at times with a byte changed; from a start of
 * the list on, with room for up to 12 moments. */
static void random_listing(struct listing *l) {
    const struct listing *a = &listings[random_below(listed)], *b = &listings[random_below(listed)];
    size_t begin = random_below(a->length + 1), rest = random_below(b->length + 1);
    while (begin < a->length && a->rule[begin] != ';') begin++;
    while (rest < b->length && b->rule[rest] != ';') rest++;
    *l = listings[random_below(listed)];
    l->room = random_below(12 * FUZZY_MOMENT_NUMBERS + 1);
    if (begin + b->length - rest > MOST_RULE) rest = b->length;
    memcpy(l->rule, a->rule, begin);
    memcpy(l->rule + begin, b->rule + rest, b->length - rest);
    l->length = begin + b->length - rest;
    if (l->length > 0 && random_below(4) == 0) l->rule[random_below(l->length)] = "0123456789;,=+TZ"[random_below(16)];
}

int main(int count, char **arguments) {
    static struct fuzzy_moment moments[MOST_MOMENTS];
    static struct listing l;
    unsigned long i, rounds;
    if (count != 4) stop("usage: rules LIST ANSWERS COUNT");
    rules = fenced(MOST_RULE);
    starts = fenced(MOMENT_SIZE);
    rows = fenced(sizeof moments);
    askeds = fenced(MOMENT_SIZE);
    nexts = fenced(MOMENT_SIZE);
    replay(arguments[1], arguments[2], moments);
    rounds = strtoul(arguments[3], NULL, 10);
    for (i = 0; i < rounds; i++) {
        random_listing(&l);
        ask(&l, answered(&l, moments), moments);
    }
    printf("rules: %zu listed and %lu random ones, %" PRIu64 " rows, %" PRIu64 " that come next: digest %016" PRIx64 "\n", listed, rounds,
           rows_listed, nexts_found, digest);
    return 0;
}
