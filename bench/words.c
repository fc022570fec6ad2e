/* Looks the words of a file up in reading 1, so many times: words WORDS ROUNDS. It fails where one is not found. */
#include "fuzzy.h"
#include "page.h"

#include <stdio.h>
#include <stdlib.h>
#include <string.h>

#define MOST 256
#define MOST_WORD 32

static char words[MOST][MOST_WORD];
static size_t lengths[MOST], count;

static void take_words(FILE *from) {
    for (; count < MOST && fgets(words[count], MOST_WORD, from) != NULL; count++) lengths[count] = strcspn(words[count], "\n");
}

static int is_found(size_t i) {
    uint32_t found[FUZZY_FOUND_NUMBERS];
    return fuzzy_ok(fuzzy_find_word(FUZZY_FIRST, words[i], lengths[i], found)) && found[0] != 0;
}

static int look_up(int given, char **arguments) {
    FILE *from = given == 3 ? fopen(arguments[1], "r") : NULL;
    unsigned long rounds;
    size_t i;
    if (from == NULL) return 2;
    take_words(from);
    for (rounds = strtoul(arguments[2], NULL, 10); rounds > 0; rounds--) {
        for (i = 0; i < count; i++) {
            if (!is_found(i)) return 1;
        }
    }
    return count == 0;
}

int main(int given, char **arguments) {
    return on_a_page(look_up, given, arguments);
}
