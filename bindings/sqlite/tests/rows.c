/* Writes so many rows for SQLite and PostgreSQL to a file, reads each phrase at its now, and prints what both must come to: rows COUNT
 * FILE LIST.. prints the rows, the moments, and the sums of their seconds and milliseconds. A row is a number, a reading, a now and a
 * phrase, with tabs between them; a list has a phrase after the bar of each line, as crates/test_replay/stdin. The same rows come out on
 * every machine. */
#include "../moments.h"

#include <inttypes.h>
#include <stdlib.h>

#define MOST_LISTED 20000
#define MOST_LINE 1024

static char *listed[MOST_LISTED];
static size_t listed_count;
static uint64_t state = 88172645463325252u;

static void stop(const char *what) {
    fprintf(stderr, "rows: %s\n", what);
    exit(1);
}

/* xorshift64. */
static size_t random_below(size_t n) {
    state ^= state << 13;
    state ^= state >> 7;
    state ^= state << 17;
    return (size_t)((state >> 11) % n);
}

/* Whether a phrase can stand in a row as it is, for both servers: letters, digits and marks of ASCII that neither takes for its own. */
static int is_plain(const char *phrase) {
    for (; *phrase != '\0'; phrase++) {
        if (*phrase < ' ' || *phrase > '~' || *phrase == '\\' || *phrase == '"') return 0;
    }
    return 1;
}

static void take_list(const char *name) {
    static char line[MOST_LINE];
    FILE *list = fopen(name, "r");
    if (list == NULL) stop("no such list");
    while (fgets(line, sizeof line, list) != NULL) {
        char *bar = strchr(line, '|');
        line[strcspn(line, "\n")] = '\0';
        if (bar == NULL || !is_plain(bar + 1)) continue;
        if (listed_count == MOST_LISTED) stop("too many lines");
        listed[listed_count] = malloc(strlen(bar));
        if (listed[listed_count] == NULL) stop("no memory");
        strcpy(listed[listed_count++], bar + 1);
    }
    fclose(list);
}

/* A phrase of the lists, or the front of one with the end of another. */
static void random_phrase(char *phrase) {
    const char *a = listed[random_below(listed_count)], *b = listed[random_below(listed_count)];
    size_t front = random_below(4) > 0 ? strlen(a) : random_below(strlen(a) + 1);
    memcpy(phrase, a, front);
    strcpy(phrase + front, front < strlen(a) ? b + random_below(strlen(b) + 1) : "");
}

/* Mostly of our years, at times of any. */
static struct fuzzy_moment random_now(void) {
    struct fuzzy_moment now;
    now.year = (uint32_t)(random_below(4) > 0 ? 1990 + random_below(80) : 1 + random_below(9999));
    now.month = (uint32_t)(1 + random_below(12));
    now.day = (uint32_t)(1 + random_below(28));
    now.hour = (uint32_t)random_below(24);
    now.minute = (uint32_t)random_below(60);
    now.second = (uint32_t)random_below(60);
    now.millisecond = (uint32_t)(random_below(2) * random_below(1000));
    return now;
}

int main(int count, char **arguments) {
    static char phrase[2 * MOST_LINE];
    unsigned long row, rows = count < 4 ? 0 : strtoul(arguments[1], NULL, 10), moments = 0;
    int64_t seconds = 0, milliseconds = 0;
    FILE *file = rows == 0 ? NULL : fopen(arguments[2], "w");
    if (file == NULL) stop("usage: rows COUNT FILE LIST..");
    for (; count > 3; count--) take_list(arguments[count - 1]);
    for (row = 1; row <= rows; row++) {
        struct fuzzy_moment now = random_now();
        struct fuzzy_stamp read = {now, 0, 0};
        uint32_t reading = (uint32_t)(1 + random_below(2));
        char text[MOMENT_SIZE];
        random_phrase(phrase);
        fprintf(file, "%lu\t%" PRIu32 "\t%.*s\t%s\n", row, reading, (int)write_moment(&now, text), text, phrase);
        if (!fuzzy_ok(fuzzy_read(reading, phrase, strlen(phrase), &now, &read.moment))) continue;
        moments++;
        seconds += second_of(&read);
        milliseconds += read.moment.millisecond;
    }
    if (fclose(file) != 0) stop("the rows cannot be written");
    printf("%lu|%lu|%" PRId64 "|%" PRId64 "\n", rows, moments, seconds, milliseconds);
    return 0;
}
