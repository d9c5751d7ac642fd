/* The kit's calls for Java. Byte arrays are copied in and, of a done call, what it writes back; direct byte buffers are
 * given as they are. No critical region is held and nothing is kept between calls. Nothing is judged here. */
#include <stdint.h>
#include <stdlib.h>

#include <nutrameza.h>

#include "nutrameza_KitNative.h"
#include "thrown.h"

enum { MOST_BUFFERS = 5, MOST_NUMBERS = 4, CALLS = 17 };

/* A buffer of a call: a byte array (at is the copy) or a direct byte buffer (at is its own place). */
typedef struct {
    jobject holder;
    jint from, len;
    int written, direct;
    uint8_t *at;
} buffer;

typedef struct {
    buffer b[MOST_BUFFERS];
    uint64_t n[MOST_NUMBERS];
    jsize buffers, numbers;
    uint8_t *copies;
} arguments;

/* How many buffers and numbers each call takes, in the order of Call. */
static const struct {
    jsize buffers, numbers;
} taken[CALLS] = {
    {1, 0}, {2, 0}, {2, 0}, {2, 0}, {2, 0}, {2, 0}, {2, 1}, {2, 2}, {5, 4},
    {5, 2}, {3, 2}, {2, 3}, {5, 2}, {3, 0}, {3, 0}, {3, 0}, {5, 4},
};

JNIEXPORT jint JNICALL Java_nutrameza_KitNative_version(JNIEnv *env, jclass class)
{
    (void)env;
    (void)class;
    return (jint)nutrameza_version();
}

/* The arguments as they came from Java; 0 where an exception is pending. */
static int taken_apart(JNIEnv *env, arguments *a, jobjectArray buffers, jintArray ranges, jint kinds)
{
    jint range[2 * MOST_BUFFERS];
    (*env)->GetIntArrayRegion(env, ranges, 0, 2 * a->buffers, range);
    if ((*env)->ExceptionCheck(env))
        return 0;
    for (jsize k = 0; k < a->buffers; k++) {
        buffer *b = &a->b[k];
        b->from = range[2 * k];
        b->len = range[2 * k + 1];
        b->written = kinds >> k & 1;
        b->direct = kinds >> (8 + k) & 1;
        b->at = NULL;
        b->holder = (*env)->GetObjectArrayElement(env, buffers, k);
        if (b->holder == NULL)
            return 0;
        if (b->direct && b->len > 0) {
            uint8_t *start = (*env)->GetDirectBufferAddress(env, b->holder);
            if (start == NULL) {
                wrong(env, "a direct byte buffer has no address");
                return 0;
            }
            b->at = start + b->from;
        }
    }
    return 1;
}

/* Whether two buffers share a byte. */
static int shared(JNIEnv *env, const buffer *one, const buffer *two)
{
    if (one->len == 0 || two->len == 0 || one->direct != two->direct)
        return 0;
    if (one->direct)
        return (uintptr_t)one->at < (uintptr_t)two->at + (size_t)two->len &&
               (uintptr_t)two->at < (uintptr_t)one->at + (size_t)one->len;
    return one->from < two->from + two->len && two->from < one->from + one->len &&
           (*env)->IsSameObject(env, one->holder, two->holder);
}

/* The kit asks that what it writes is no part of another buffer. */
static int apart(JNIEnv *env, const arguments *a)
{
    for (jsize k = 0; k < a->buffers; k++)
        for (jsize j = 0; j < k; j++)
            if ((a->b[k].written || a->b[j].written) && shared(env, &a->b[k], &a->b[j])) {
                wrong(env, "two buffers of a call share bytes, and it writes one of them");
                return 0;
            }
    return 1;
}

/* Copies the byte arrays; 0 where an exception is pending. */
static int copied_in(JNIEnv *env, arguments *a)
{
    size_t total = 0, at = 0;
    for (jsize k = 0; k < a->buffers; k++)
        total += a->b[k].direct ? 0 : (size_t)a->b[k].len;
    if (total == 0)
        return 1;
    a->copies = malloc(total);
    if (a->copies == NULL) {
        no_memory(env);
        return 0;
    }
    for (jsize k = 0; k < a->buffers; k++) {
        buffer *b = &a->b[k];
        if (b->direct || b->len == 0)
            continue;
        b->at = a->copies + at;
        at += (size_t)b->len;
        (*env)->GetByteArrayRegion(env, b->holder, b->from, b->len, (jbyte *)b->at);
        if ((*env)->ExceptionCheck(env))
            return 0;
    }
    return 1;
}

/* Copies back what a done call wrote. */
static void copied_out(JNIEnv *env, const arguments *a)
{
    for (jsize k = 0; k < a->buffers; k++) {
        const buffer *b = &a->b[k];
        if (!b->written || b->direct || b->len == 0)
            continue;
        (*env)->SetByteArrayRegion(env, b->holder, b->from, b->len, (const jbyte *)b->at);
        if ((*env)->ExceptionCheck(env))
            return;
    }
}

#define B(k) b[k].at, (size_t)b[k].len

static uint64_t on_image(jint call, const buffer *b)
{
    switch (call) {
    case 0: return nutrameza_check(B(0));
    case 1: return nutrameza_loop(B(0), B(1));
    case 2: return nutrameza_tidy(B(0), B(1));
    case 3: return nutrameza_table(B(0), B(1));
    case 4: return nutrameza_turn(B(0), B(1));
    default: return nutrameza_unturn(B(0), B(1));
    }
}

static uint64_t on_ledger(jint call, const buffer *b, const uint64_t *n)
{
    switch (call) {
    case 6: return nutrameza_open(B(0), B(1), n[0]);
    case 7: return nutrameza_close(B(0), B(1), n[0], n[1]);
    case 8: return nutrameza_ask(B(0), B(1), n[0], n[1], B(2), B(3), n[2], n[3], B(4));
    case 9: return nutrameza_short_ask(B(0), B(1), n[0], n[1], B(2), B(3), B(4));
    case 10: return nutrameza_show(B(0), B(1), n[0], n[1], B(2));
    case 11: return nutrameza_explain(B(0), B(1), n[0], n[1], n[2]);
    case 12: return nutrameza_obstacle(B(0), B(1), n[0], n[1], B(2), B(3), B(4));
    case 13: return nutrameza_stopped(B(0), B(1), B(2));
    case 14: return nutrameza_widen(B(0), B(1), B(2));
    case 15: return nutrameza_narrow(B(0), B(1), B(2));
    default: return nutrameza_clauses(B(0), B(1), n[0], n[1], B(2), B(3), n[2], n[3], B(4));
    }
}

static jlong made(JNIEnv *env, jint call, arguments *a)
{
    uint64_t returned = call < 6 ? on_image(call, a->b) : on_ledger(call, a->b, a->n);
    if (nutrameza_is_done(returned))
        copied_out(env, a);
    return (jlong)returned;
}

JNIEXPORT jlong JNICALL Java_nutrameza_KitNative_call(JNIEnv *env, jclass class, jint call, jobjectArray buffers,
                                                     jintArray ranges, jint kinds, jlongArray numbers)
{
    arguments a = {.copies = NULL};
    jlong returned = 0, given[MOST_NUMBERS];
    (void)class;
    a.buffers = (*env)->GetArrayLength(env, buffers);
    a.numbers = (*env)->GetArrayLength(env, numbers);
    if (call < 0 || call >= CALLS || taken[call].buffers != a.buffers || taken[call].numbers != a.numbers) {
        wrong(env, "no such call, or other arguments than it takes");
        return 0;
    }
    (*env)->GetLongArrayRegion(env, numbers, 0, a.numbers, given);
    if ((*env)->ExceptionCheck(env))
        return 0;
    for (jsize k = 0; k < a.numbers; k++)
        a.n[k] = (uint64_t)given[k];
    if (taken_apart(env, &a, buffers, ranges, kinds) && apart(env, &a) && copied_in(env, &a))
        returned = made(env, call, &a);
    free(a.copies);
    return returned;
}
