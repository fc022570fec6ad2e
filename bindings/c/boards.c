/* Makes the calls of a list on one board, and so many random ones on memory that no call made, and prints one digest of all answers and all
 * that was written: boards CALLS ANSWERS ROUNDS. The answers to the list are compared with those of the file ANSWERS. Board, phrase, now,
 * moment and slots stand at a fence, by turns at the upper and the lower one; nothing else of their pages may change, and nothing of a
 * board by a refused call. */
#define _DEFAULT_SOURCE
#include "fuzzy.h"
#include "lent.h"

#define MOST_TEXT ((size_t)1 << 25)
#define MOST_CALL 1024
#define MOMENT_SIZE sizeof(struct fuzzy_moment)

static struct field boards, phrases, nows, moments, orders;
static struct fuzzy_board *board, before;
static uint64_t calls_made, refused;

/* The board moved to one fence or the other, with what it holds. */
static void move_board(void) {
    if (board != NULL) before = *board;
    board = lent(boards, sizeof *board, (int)random_below(2));
    *board = before;
}

/* After each call: of the board's pages only the board was written, and not even that by a refused call or by one that asks. */
static uint64_t answered(uint64_t answer, int asks) {
    if (!kept_but(boards, board, sizeof *board, sizeof *board)) stop("something beside a board was written");
    if ((asks || !fuzzy_ok(answer)) && memcmp(board, &before, sizeof before) != 0) stop("a board was written by refusing, or by asking");
    add_number(answer);
    calls_made++;
    refused += !fuzzy_ok(answer);
    return answer;
}

static uint64_t make(const struct fuzzy_moment *at) {
    const struct fuzzy_moment *now = lent_copy(nows, at, MOMENT_SIZE, (int)(calls_made % 2));
    uint64_t answer;
    before = *board;
    answer = answered(fuzzy_board_make(board, now), 0);
    if (!unchanged(nows, now, at, MOMENT_SIZE)) stop("a now was changed");
    return answer;
}

static uint64_t again(const struct fuzzy_moment *at) {
    const struct fuzzy_moment *now = lent_copy(nows, at, MOMENT_SIZE, (int)(calls_made % 2));
    uint64_t answer;
    before = *board;
    answer = answered(fuzzy_board_again(board, now), 0);
    if (!unchanged(nows, now, at, MOMENT_SIZE)) stop("a now was changed");
    return answer;
}

static uint64_t take_out(uint32_t slot) {
    before = *board;
    return answered(fuzzy_board_remove(board, slot), 0);
}

static uint64_t put_in(uint32_t reading, const char *text, size_t n) {
    const char *phrase = lent_copy(phrases, text, n, (int)random_below(2));
    uint64_t answer;
    before = *board;
    answer = answered(fuzzy_board_add(board, reading, phrase, n), 0);
    if (!unchanged(phrases, phrase, text, n)) stop("a phrase was changed");
    return answer;
}

/* The head; its moment is copied, sevens where there is none. */
static uint64_t head(struct fuzzy_moment *given) {
    static const struct fuzzy_moment sevens = {7, 7, 7, 7, 7, 7, 7};
    struct fuzzy_moment *moment = lent(moments, MOMENT_SIZE, (int)random_below(2));
    uint64_t answer;
    size_t written;
    before = *board;
    answer = answered(fuzzy_board_head(board, moment), 1);
    written = fuzzy_ok(answer) ? MOMENT_SIZE : 0;
    if (!kept_but(moments, moment, MOMENT_SIZE, written)) stop("something else than a moment was written");
    *given = fuzzy_ok(answer) ? *moment : sevens;
    add(moment, written);
    return answer;
}

/* The order; its slots are copied. */
static uint64_t order(uint32_t given[FUZZY_BOARD_SLOTS]) {
    size_t size = FUZZY_BOARD_SLOTS * sizeof *given, written;
    uint32_t *slots = lent(orders, size, (int)random_below(2));
    uint64_t answer;
    before = *board;
    answer = answered(fuzzy_board_order(board, slots), 1);
    written = fuzzy_length(answer) * sizeof *slots;
    if (!fuzzy_ok(answer) || written > size || !kept_but(orders, slots, size, written)) stop("something else than slots was written");
    memcpy(given, slots, written);
    add(slots, written);
    return answer;
}

/* The now of a line `YYYY-MM-DD HH:MM:SS mmmm`. */
static struct fuzzy_moment take_moment(const char *text) {
    struct fuzzy_moment m;
    if (sscanf(text, "%4" SCNu32 "-%2" SCNu32 "-%2" SCNu32 " %2" SCNu32 ":%2" SCNu32 ":%2" SCNu32 " %4" SCNu32, &m.year, &m.month, &m.day,
               &m.hour, &m.minute, &m.second, &m.millisecond) != FUZZY_MOMENT_NUMBERS) {
        stop("a now of the list");
    }
    return m;
}

/* `M` or `N` and a now, `R` and a slot, a digit and a phrase, `H`, `O`: as crates/test_board has it. The answer as text. */
static void call(const char *line, size_t n, char *text) {
    uint32_t numbers[FUZZY_BOARD_SLOTS];
    struct fuzzy_moment moment;
    size_t i, count = 0, after = 0;
    uint64_t answer;
    switch (line[0]) {
    case 'M':
        moment = take_moment(line + 2);
        move_board();
        answer = make(&moment);
        break;
    case 'N':
        moment = take_moment(line + 2);
        answer = again(&moment);
        break;
    case 'R': answer = take_out((uint32_t)strtoul(line + 2, NULL, 10)); break;
    case 'H':
        answer = head(&moment);
        count = FUZZY_MOMENT_NUMBERS;
        memcpy(numbers, &moment, sizeof moment);
        break;
    case 'O':
        answer = order(numbers);
        count = fuzzy_length(answer);
        after = count < FUZZY_BOARD_SLOTS;
        break;
    default: answer = put_in((uint32_t)(line[0] - '0'), line + 2, n - 2); break;
    }
    text += sprintf(text, "%u %u %u", (unsigned)fuzzy_number(answer), (unsigned)fuzzy_place(answer), (unsigned)fuzzy_length(answer));
    for (i = 0; i < count; i++) text += sprintf(text, " %u", (unsigned)numbers[i]);
    strcpy(text, after ? " 7\n" : "\n");
}

/* Every line that is not empty; the others only fill the list up. */
static void replay(const char *list, const char *answers) {
    static char text[MOST_TEXT], expected[8192], found[8192];
    FILE *in = fopen(list, "r"), *out = fopen(answers, "r");
    char *at = text, *end;
    size_t n;
    if (in == NULL || out == NULL) stop("no list");
    n = fread(text, 1, sizeof text - 1, in);
    for (; (end = memchr(at, '\n', (size_t)(text + n - at))) != NULL; at = end + 1) {
        if (end == at) continue;
        if (end - at > MOST_CALL || fgets(expected, sizeof expected, out) == NULL) stop("a line of the list");
        call(at, (size_t)(end - at), found);
        if (strcmp(expected, found) != 0) {
            printf("call     %.*s\nexpected %sgot      %s", (int)(end - at), at, expected, found);
            stop("an answer of the list");
        }
    }
    if (fgets(expected, sizeof expected, out) != NULL) stop("too few lines");
    fclose(in);
    fclose(out);
}

/* Memory that no call made: a board of the calls with some numbers of its parts changed, or all of a part. */
static void random_memory(void) {
    uint8_t *bytes = (uint8_t *)board;
    size_t kind = random_below(4), changed = 1 + random_below(40), i;
    if (kind == 0) {
        for (i = 0; i < sizeof *board; i++) bytes[i] = (uint8_t)random_below(256);
    }
    for (i = 0; i < changed; i++) {
        board->keys[random_below(FUZZY_BOARD_SLOTS)] = random_below((uint64_t)1 << 53) * 2048u + random_below(2048);
        board->lengths[random_below(FUZZY_BOARD_SLOTS)] = (uint32_t)(kind < 2 ? random_below((uint64_t)1 << 32) : 16 * random_below(26));
        board->ready[random_below(sizeof board->ready)] ^= (uint8_t)random_below(256);
    }
    if (kind != 3) {
        board->state[random_below(FUZZY_MOMENT_NUMBERS + 1)] = (uint32_t)random_below(random_below(2) == 0 ? 300 : (uint64_t)1 << 32);
    }
}

/* Whether an answer has one of three numbers. */
static int is_one(uint64_t answer, unsigned a, unsigned b, unsigned c) {
    return fuzzy_number(answer) == a || fuzzy_number(answer) == b || fuzzy_number(answer) == c;
}

/* One call on whatever the board holds. */
static void random_call(void) {
    static const char *const texts[] = {"next friday", "an hour ago", "a year from now", "2 months before 3 weeks after tomorrow at 5:00",
                                        "5/2"};
    struct fuzzy_moment now = {1, 1, 1, 0, 0, 0, 0}, moment, same;
    uint32_t slots[FUZZY_BOARD_SLOTS];
    const char *text = texts[random_below(5)];
    uint64_t answer;
    size_t i;
    now.year += (uint32_t)random_below(9999);
    now.month += (uint32_t)random_below(13);
    switch (random_below(5)) {
    case 0:
        answer = put_in(1 + (uint32_t)random_below(2), text, strlen(text));
        if (!is_one(answer, 0, FUZZY_LEFT_OVER, FUZZY_FULL_BOARD)) stop("adding to any memory");
        if (fuzzy_ok(answer) && fuzzy_length(answer) >= FUZZY_BOARD_SLOTS) stop("a slot of any memory");
        break;
    case 1:
        if (!is_one(take_out((uint32_t)random_below(258)), 0, FUZZY_EMPTY_SLOT, 0)) stop("removing from any memory");
        break;
    case 2:
        if (!is_one(again(&now), 0, FUZZY_INVALID_MOMENT, 0)) stop("running any memory again");
        break;
    case 3:
        answer = head(&moment);
        if (!is_one(answer, 0, FUZZY_NOTHING_DUE, 0) || fuzzy_length(answer) >= FUZZY_BOARD_SLOTS) stop("a head of any memory");
        if (fuzzy_ok(answer) && !fuzzy_ok(fuzzy_read(1, "now", 3, &moment, &same))) stop("a head that is not a valid moment");
        break;
    default:
        answer = order(slots);
        for (i = 0; i < fuzzy_length(answer); i++) {
            if (slots[i] >= FUZZY_BOARD_SLOTS) stop("an order of any memory");
        }
    }
}

int main(int count, char **arguments) {
    static struct fuzzy_board empty;
    unsigned long rounds, i, k;
    if (count != 4) stop("usage: boards CALLS ANSWERS ROUNDS");
    boards = fenced(sizeof empty);
    phrases = fenced(MOST_CALL);
    nows = fenced(MOMENT_SIZE);
    moments = fenced(MOMENT_SIZE);
    orders = fenced(FUZZY_BOARD_SLOTS * sizeof(uint32_t));
    before = empty;
    move_board();
    replay(arguments[1], arguments[2]);
    rounds = strtoul(arguments[3], NULL, 10);
    for (i = 0; i < rounds; i++) {
        move_board();
        random_memory();
        for (k = 0; k < 20; k++) random_call();
        add(board, sizeof *board);
    }
    printf("boards: %" PRIu64 " calls, %" PRIu64 " refused, %lu times on memory that no call made: digest %016" PRIx64 "\n", calls_made,
           refused, rounds, digest);
    return 0;
}
