/* Reads the phrases of a file, or runs them made ready, so many times: zones PHRASES CALL ROUNDS [ZONE]. CALL is `read` or `run`. With a
 * zone's file each call is at 2026-02-11T14:30:15.250Z there, without one at 2026-02-11 09:30:15.250, which New York's clocks show then.
 * It fails where one is refused. */
#include "fuzzy.h"
#include "page.h"

#include <stdio.h>
#include <stdlib.h>
#include <string.h>

#define SECOND 1770820215
#define MILLISECOND 250
#define MOST 64

/* A phrase, and the same made ready. */
struct phrase {
    char text[256];
    uint8_t ready[FUZZY_READY_SIZE];
    size_t length, ready_length;
};

static const struct fuzzy_moment now = {2026, 2, 11, 9, 30, 15, 250};
static struct phrase phrases[MOST];
static uint8_t zone[65536];
static size_t count, zone_length;

static void take_phrases(FILE *from) {
    char line[258];
    for (; count < MOST && fgets(line, sizeof line, from) != NULL; count++) {
        struct phrase *p = &phrases[count];
        p->length = strcspn(line, "\n");
        memcpy(p->text, line, p->length);
        p->ready_length = fuzzy_length(fuzzy_make_ready(FUZZY_FIRST, p->text, p->length, p->ready));
    }
}

static uint64_t call(const struct phrase *p, int run, int zoned) {
    struct fuzzy_moment moment;
    struct fuzzy_local local;
    int64_t due;
    if (!zoned) {
        if (run) return fuzzy_run(p->ready, p->ready_length, &now, &moment);
        return fuzzy_read(FUZZY_FIRST, p->text, p->length, &now, &moment);
    }
    if (run) return fuzzy_run_in_zone(p->ready, p->ready_length, zone, zone_length, SECOND, MILLISECOND, &due, &local);
    return fuzzy_read_in_zone(FUZZY_FIRST, p->text, p->length, zone, zone_length, SECOND, MILLISECOND, &due, &local);
}

static int make_calls(int words, char **word) {
    FILE *from = words < 4 ? NULL : fopen(word[1], "r"), *file = words < 5 ? NULL : fopen(word[4], "rb");
    int run = words > 2 && strcmp(word[2], "run") == 0;
    unsigned long rounds;
    size_t i;
    if (from == NULL || (words > 4 && file == NULL)) return 2;
    take_phrases(from);
    if (file != NULL) zone_length = fread(zone, 1, sizeof zone, file);
    for (rounds = strtoul(word[3], NULL, 10); rounds > 0; rounds--) {
        for (i = 0; i < count; i++) {
            if (!fuzzy_ok(call(&phrases[i], run, file != NULL))) return 1;
        }
    }
    return count == 0;
}

int main(int words, char **word) {
    return on_a_page(make_calls, words, word);
}
