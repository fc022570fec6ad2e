/* The functions of fuzzydate.Calls over fuzzy.h. Arrays are copied in and out, so that the buffers of a call never overlap, and nothing is
 * kept between calls, so that they may run in any thread. An array that is null or too short, and a copy that there is no memory for, leave
 * one exception, and then nothing is called. A board is the memory of a direct buffer, which is not copied: calls on one board may not run
 * at the same time. */
#include "fuzzy.h"

#include <jni.h>
#include <stdlib.h>

/* The header that `javac -h` writes has the sizes of Calls; where it is included, they must be those of fuzzy.h. */
#ifdef fuzzydate_Calls_READY_SIZE
#if fuzzydate_Calls_MOMENT_NUMBERS != FUZZY_MOMENT_NUMBERS || fuzzydate_Calls_STAMP_NUMBERS != FUZZY_STAMP_NUMBERS || \
    fuzzydate_Calls_FOUND_NUMBERS != FUZZY_FOUND_NUMBERS || fuzzydate_Calls_READY_SIZE != FUZZY_READY_SIZE || \
    fuzzydate_Calls_STAMP_SIZE != FUZZY_STAMP_SIZE || fuzzydate_Calls_PHRASE_SIZE != FUZZY_PHRASE_SIZE || \
    fuzzydate_Calls_LOCAL_NUMBERS != FUZZY_LOCAL_NUMBERS || fuzzydate_Calls_BOARD_SLOTS != FUZZY_BOARD_SLOTS
#error "Calls.java and fuzzy.h have different sizes"
#endif
typedef char board_size[fuzzydate_Calls_BOARD_SIZE == sizeof(struct fuzzy_board) ? 1 : -1];
#endif

/* A native method of fuzzydate.Calls. */
#define METHOD(type, name) JNIEXPORT type JNICALL Java_fuzzydate_Calls_##name

static void raise_exception(JNIEnv *env, const char *name, const char *words) {
    jclass found = (*env)->FindClass(env, name);
    if (found == NULL) return; /* FindClass left an exception of its own */
    (*env)->ThrowNew(env, found, words);
}

/* Whether an array is there and has room for so many; else an exception is left. */
static int has_room(JNIEnv *env, jarray array, jsize count) {
    if (array == NULL) {
        raise_exception(env, "java/lang/NullPointerException", "an array is null");
        return 0;
    }
    if ((*env)->GetArrayLength(env, array) < count) {
        raise_exception(env, "java/lang/ArrayIndexOutOfBoundsException", "an array is too short");
        return 0;
    }
    return 1;
}

/* Copies the first numbers of an array to a struct of as many; 0 with an exception where it has fewer. */
static int take_numbers(JNIEnv *env, jintArray array, jsize count, void *numbers) {
    if (!has_room(env, array, count)) return 0;
    (*env)->GetIntArrayRegion(env, array, 0, count, numbers);
    return !(*env)->ExceptionCheck(env);
}

static int take_moment(JNIEnv *env, jintArray array, struct fuzzy_moment *moment) {
    return take_numbers(env, array, FUZZY_MOMENT_NUMBERS, moment);
}

/* A copy of an array's bytes: a text, a ready phrase or a zone. */
struct bytes {
    void *first;
    uint64_t length;
};

/* Copies all bytes of an array, to be freed; 0 with an exception and nothing to be freed where it is null or there is no memory. */
static int take_bytes(JNIEnv *env, jbyteArray array, struct bytes *bytes) {
    jsize n;
    if (!has_room(env, array, 0)) return 0;
    n = (*env)->GetArrayLength(env, array);
    bytes->length = (uint64_t)n;
    bytes->first = malloc(n > 0 ? (size_t)n : 1);
    if (bytes->first == NULL) {
        raise_exception(env, "java/lang/OutOfMemoryError", "no memory for a copy of the bytes");
        return 0;
    }
    (*env)->GetByteArrayRegion(env, array, 0, n, bytes->first);
    if ((*env)->ExceptionCheck(env)) {
        free(bytes->first);
        return 0;
    }
    return 1;
}

/* Copies all bytes of two arrays, to be freed; 0 with an exception and nothing to be freed where that is left of one. */
static int take_both(JNIEnv *env, jbyteArray one, struct bytes *first, jbyteArray other, struct bytes *second) {
    if (!take_bytes(env, one, first)) return 0;
    if (take_bytes(env, other, second)) return 1;
    free(first->first);
    return 0;
}

/* The board that a direct buffer is, else NULL with an exception. */
static struct fuzzy_board *take_board(JNIEnv *env, jobject buffer) {
    void *board;
    jlong capacity;
    if (buffer == NULL) {
        raise_exception(env, "java/lang/NullPointerException", "a board is null");
        return NULL;
    }
    board = (*env)->GetDirectBufferAddress(env, buffer);
    capacity = (*env)->GetDirectBufferCapacity(env, buffer);
    if (board != NULL && capacity == (jlong)sizeof(struct fuzzy_board) && (uintptr_t)board % sizeof(uint64_t) == 0) return board;
    raise_exception(env, "java/lang/IllegalArgumentException", "a board is not a direct buffer of its size");
    return NULL;
}

/* The answer of a call that gives numbers, which go to the array where there is no refusal. */
static jlong give_numbers(JNIEnv *env, uint64_t answer, jintArray array, jsize count, const void *numbers) {
    if (fuzzy_ok(answer)) (*env)->SetIntArrayRegion(env, array, 0, count, numbers);
    return (jlong)answer;
}

static jlong give_moment(JNIEnv *env, uint64_t answer, jintArray array, const struct fuzzy_moment *moment) {
    return give_numbers(env, answer, array, FUZZY_MOMENT_NUMBERS, moment);
}

/* The answer of a call that gives an instant's second and what the clocks show, which go to their arrays where there is no refusal. */
static jlong give_local(JNIEnv *env, uint64_t answer, jlongArray due, int64_t second, jintArray array,
                        const struct fuzzy_local *local) {
    jlong given = (jlong)second;
    if (!fuzzy_ok(answer)) return (jlong)answer;
    (*env)->SetLongArrayRegion(env, due, 0, 1, &given);
    if ((*env)->ExceptionCheck(env)) return 0;
    return give_numbers(env, answer, array, FUZZY_LOCAL_NUMBERS, local);
}

/* The answer of a call that gives as many bytes as it says, which go to the array where there is no refusal. */
static jlong give_bytes(JNIEnv *env, uint64_t answer, jbyteArray array, const void *bytes) {
    if (fuzzy_ok(answer)) (*env)->SetByteArrayRegion(env, array, 0, (jsize)fuzzy_length(answer), bytes);
    return (jlong)answer;
}

/* The room of an array for a text, and no more than any text needs. */
static uint64_t room_of(JNIEnv *env, jbyteArray text, uint64_t most) {
    uint64_t room = (uint64_t)(*env)->GetArrayLength(env, text);
    return room < most ? room : most;
}

METHOD(jlong, read)(JNIEnv *env, jclass calls, jint reading, jbyteArray phrase, jintArray now, jintArray moment) {
    struct fuzzy_moment n, m;
    struct bytes p;
    uint64_t answer;
    (void)calls;
    if (!take_moment(env, now, &n) || !has_room(env, moment, FUZZY_MOMENT_NUMBERS) || !take_bytes(env, phrase, &p)) return 0;
    answer = fuzzy_read((uint32_t)reading, p.first, p.length, &n, &m);
    free(p.first);
    return give_moment(env, answer, moment, &m);
}

METHOD(jlong, makeReady)(JNIEnv *env, jclass calls, jint reading, jbyteArray phrase, jbyteArray ready) {
    uint8_t r[FUZZY_READY_SIZE];
    struct bytes p;
    uint64_t answer;
    (void)calls;
    if (!has_room(env, ready, FUZZY_READY_SIZE) || !take_bytes(env, phrase, &p)) return 0;
    answer = fuzzy_make_ready((uint32_t)reading, p.first, p.length, r);
    free(p.first);
    return give_bytes(env, answer, ready, r);
}

METHOD(jlong, run)(JNIEnv *env, jclass calls, jbyteArray ready, jintArray now, jintArray moment) {
    struct fuzzy_moment n, m;
    struct bytes r;
    uint64_t answer;
    (void)calls;
    if (!take_moment(env, now, &n) || !has_room(env, moment, FUZZY_MOMENT_NUMBERS) || !take_bytes(env, ready, &r)) return 0;
    answer = fuzzy_run(r.first, r.length, &n, &m);
    free(r.first);
    return give_moment(env, answer, moment, &m);
}

METHOD(jlong, readStamp)(JNIEnv *env, jclass calls, jbyteArray text, jintArray stamp) {
    struct fuzzy_stamp s;
    struct bytes t;
    uint64_t answer;
    (void)calls;
    if (!has_room(env, stamp, FUZZY_STAMP_NUMBERS) || !take_bytes(env, text, &t)) return 0;
    answer = fuzzy_read_stamp(t.first, t.length, &s);
    free(t.first);
    return give_numbers(env, answer, stamp, FUZZY_STAMP_NUMBERS, &s);
}

METHOD(jlong, writeStamp)(JNIEnv *env, jclass calls, jintArray stamp, jbyteArray text) {
    struct fuzzy_stamp s;
    char t[FUZZY_STAMP_SIZE];
    uint64_t answer;
    (void)calls;
    if (!take_numbers(env, stamp, FUZZY_STAMP_NUMBERS, &s) || !has_room(env, text, 0)) return 0;
    answer = fuzzy_write_stamp(&s, t, room_of(env, text, sizeof t));
    return give_bytes(env, answer, text, t);
}

METHOD(jlong, findWord)(JNIEnv *env, jclass calls, jint reading, jbyteArray word, jintArray found) {
    uint32_t f[FUZZY_FOUND_NUMBERS];
    struct bytes w;
    uint64_t answer;
    (void)calls;
    if (!has_room(env, found, FUZZY_FOUND_NUMBERS) || !take_bytes(env, word, &w)) return 0;
    answer = fuzzy_find_word((uint32_t)reading, w.first, w.length, f);
    free(w.first);
    return give_numbers(env, answer, found, FUZZY_FOUND_NUMBERS, f);
}

METHOD(jlong, writePhrase)(JNIEnv *env, jclass calls, jintArray moment, jbyteArray text) {
    struct fuzzy_moment m;
    char t[FUZZY_PHRASE_SIZE];
    uint64_t answer;
    (void)calls;
    if (!take_moment(env, moment, &m) || !has_room(env, text, 0)) return 0;
    answer = fuzzy_write_phrase(&m, t, room_of(env, text, sizeof t));
    return give_bytes(env, answer, text, t);
}

METHOD(jlong, listIn)(JNIEnv *env, jclass calls, jbyteArray rule, jintArray start, jintArray moments) {
    struct fuzzy_moment s;
    uint32_t *m;
    struct bytes r;
    size_t room;
    uint64_t answer;
    (void)calls;
    if (!take_moment(env, start, &s) || !has_room(env, moments, 0) || !take_bytes(env, rule, &r)) return 0;
    room = (size_t)(*env)->GetArrayLength(env, moments);
    m = calloc(room > 0 ? room : 1, sizeof *m);
    if (m == NULL) {
        free(r.first);
        raise_exception(env, "java/lang/OutOfMemoryError", "no memory for a copy of the moments");
        return 0;
    }
    answer = fuzzy_list_in(r.first, r.length, &s, m, (uint64_t)room);
    free(r.first);
    give_numbers(env, answer, moments, (jsize)(FUZZY_MOMENT_NUMBERS * fuzzy_length(answer)), m);
    free(m);
    return (jlong)answer;
}

METHOD(jlong, next)(JNIEnv *env, jclass calls, jbyteArray rule, jintArray start, jintArray asked, jintArray moment) {
    struct fuzzy_moment s, a, m;
    struct bytes r;
    uint64_t answer;
    (void)calls;
    if (!take_moment(env, start, &s) || !take_moment(env, asked, &a)) return 0;
    if (!has_room(env, moment, FUZZY_MOMENT_NUMBERS) || !take_bytes(env, rule, &r)) return 0;
    answer = fuzzy_next(r.first, r.length, &s, &a, &m);
    free(r.first);
    return give_moment(env, answer, moment, &m);
}

METHOD(jlong, runInZone)(JNIEnv *env, jclass calls, jbyteArray ready, jbyteArray zone, jlong second, jint millisecond, jlongArray due,
                         jintArray local) {
    struct fuzzy_local l;
    int64_t d = 0;
    struct bytes r, z;
    uint64_t answer;
    (void)calls;
    if (!has_room(env, due, 1) || !has_room(env, local, FUZZY_LOCAL_NUMBERS) || !take_both(env, ready, &r, zone, &z)) return 0;
    answer = fuzzy_run_in_zone(r.first, r.length, z.first, z.length, (int64_t)second, (uint32_t)millisecond, &d, &l);
    free(r.first);
    free(z.first);
    return give_local(env, answer, due, d, local, &l);
}

METHOD(jlong, readInZone)(JNIEnv *env, jclass calls, jint reading, jbyteArray phrase, jbyteArray zone, jlong second, jint millisecond,
                          jlongArray due, jintArray local) {
    struct fuzzy_local l;
    int64_t d = 0;
    struct bytes p, z;
    uint64_t answer;
    (void)calls;
    if (!has_room(env, due, 1) || !has_room(env, local, FUZZY_LOCAL_NUMBERS) || !take_both(env, phrase, &p, zone, &z)) return 0;
    answer = fuzzy_read_in_zone((uint32_t)reading, p.first, p.length, z.first, z.length, (int64_t)second, (uint32_t)millisecond, &d, &l);
    free(p.first);
    free(z.first);
    return give_local(env, answer, due, d, local, &l);
}

METHOD(jlong, boardMake)(JNIEnv *env, jclass calls, jobject board, jintArray now) {
    struct fuzzy_moment n;
    struct fuzzy_board *b = take_board(env, board);
    (void)calls;
    if (b == NULL || !take_moment(env, now, &n)) return 0;
    return (jlong)fuzzy_board_make(b, &n);
}

METHOD(jlong, boardAdd)(JNIEnv *env, jclass calls, jobject board, jint reading, jbyteArray phrase) {
    struct fuzzy_board *b = take_board(env, board);
    struct bytes p;
    uint64_t answer;
    (void)calls;
    if (b == NULL || !take_bytes(env, phrase, &p)) return 0;
    answer = fuzzy_board_add(b, (uint32_t)reading, p.first, p.length);
    free(p.first);
    return (jlong)answer;
}

METHOD(jlong, boardRemove)(JNIEnv *env, jclass calls, jobject board, jint slot) {
    struct fuzzy_board *b = take_board(env, board);
    (void)calls;
    return b == NULL ? 0 : (jlong)fuzzy_board_remove(b, (uint32_t)slot);
}

METHOD(jlong, boardAgain)(JNIEnv *env, jclass calls, jobject board, jintArray now) {
    struct fuzzy_moment n;
    struct fuzzy_board *b = take_board(env, board);
    (void)calls;
    if (b == NULL || !take_moment(env, now, &n)) return 0;
    return (jlong)fuzzy_board_again(b, &n);
}

METHOD(jlong, boardHead)(JNIEnv *env, jclass calls, jobject board, jintArray moment) {
    struct fuzzy_moment m;
    struct fuzzy_board *b = take_board(env, board);
    (void)calls;
    if (b == NULL || !has_room(env, moment, FUZZY_MOMENT_NUMBERS)) return 0;
    return give_moment(env, fuzzy_board_head(b, &m), moment, &m);
}

METHOD(jlong, boardOrder)(JNIEnv *env, jclass calls, jobject board, jintArray slots) {
    uint32_t s[FUZZY_BOARD_SLOTS];
    struct fuzzy_board *b = take_board(env, board);
    uint64_t answer;
    (void)calls;
    if (b == NULL || !has_room(env, slots, FUZZY_BOARD_SLOTS)) return 0;
    answer = fuzzy_board_order(b, s);
    return give_numbers(env, answer, slots, (jsize)fuzzy_length(answer), s);
}

METHOD(jint, number)(JNIEnv *env, jclass calls, jlong answer) {
    (void)env;
    (void)calls;
    return (jint)fuzzy_number((uint64_t)answer);
}

METHOD(jint, place)(JNIEnv *env, jclass calls, jlong answer) {
    (void)env;
    (void)calls;
    return (jint)fuzzy_place((uint64_t)answer);
}

METHOD(jint, length)(JNIEnv *env, jclass calls, jlong answer) {
    (void)env;
    (void)calls;
    return (jint)fuzzy_length((uint64_t)answer);
}

METHOD(jstring, words)(JNIEnv *env, jclass calls, jint number) {
    (void)calls;
    return (*env)->NewStringUTF(env, fuzzy_words((uint32_t)number));
}

METHOD(jint, version)(JNIEnv *env, jclass calls) {
    (void)env;
    (void)calls;
    return (jint)fuzzy_version();
}
