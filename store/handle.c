/* A handle: connection, one use at a time, transactions, the image that it keeps, and words for numbers. */
#define _POSIX_C_SOURCE 200809L
#include <stdio.h>
#include <stdlib.h>
#include <string.h>
#include <unistd.h>

#include "store.h"

enum outcome nms_run(nutrameza_store *s, int statement, const cell *in, int count, on_row each, void *context)
{
    enum outcome outcome = s->engine->queue(s->engine, statement, in, count, each, context);
    return outcome == FINE ? s->engine->flush(s->engine) : outcome;
}

static uint64_t number_of(nutrameza_store *s, enum outcome outcome)
{
    snprintf(s->words, sizeof s->words, "%s", s->engine->words);
    switch (outcome) {
    case FINE: return 0;
    case RETRY:
    case BUSY: return NUTRAMEZA_STORE_BUSY;
    case UNKNOWN: return NUTRAMEZA_STORE_UNKNOWN;
    case UNFIT: return NUTRAMEZA_STORE_UNFIT;
    case NO_SCHEMA: return NUTRAMEZA_STORE_SCHEMA + 256 * (uint64_t)s->engine->schema;
    default: return NUTRAMEZA_STORE_FAILED;
    }
}

/* Ends a transaction without effect. */
uint64_t nms_stop(nutrameza_store *s, uint64_t returned)
{
    s->engine->rollback(s->engine);
    return returned;
}

uint64_t nms_fail(nutrameza_store *s, enum outcome outcome) { return nms_stop(s, number_of(s, outcome)); }

uint64_t nms_damaged(nutrameza_store *s, const char *what, uint64_t extra)
{
    if (extra == 0)
        snprintf(s->words, sizeof s->words, "damaged: %s", what);
    else
        snprintf(s->words, sizeof s->words, "damaged: %s of user %d", what, (int)extra - 1);
    return nms_stop(s, NUTRAMEZA_STORE_DAMAGED + 256 * extra);
}

/* The image of a version, judged once as it is loaded. Rows of policies never change, so the handle keeps it. */
uint64_t nms_load(nutrameza_store *s, uint64_t version)
{
    policy *p = &s->policy;
    if (p->version == version && p->len > 0)
        return 0;
    p->len = 0;
    enum outcome outcome = RUN(s, IMAGE, nms_take_image, p, nms_num(s->id), nms_num(version));
    if (outcome != FINE)
        return nms_fail(s, outcome);
    if (p->len == 0 || nutrameza_check(p->image, p->len) != 0) {
        p->len = 0;
        return nms_damaged(s, "a policy image", 0);
    }
    p->version = version;
    return 0;
}

static void exchange(void *one, void *two, size_t count)
{
    for (uint8_t *a = one, *b = two; count > 0; count--, a++, b++) {
        uint8_t kept = *a;
        *a = *b;
        *b = kept;
    }
}

/* Exchanges the ward in use for the one that is named; where that was not kept, for the one that was left first. */
static void turn_to(nutrameza_store *s, const char *ward)
{
    kept_ward *k = NULL;
    for (size_t at = 0; at < KEPT && k == NULL; at++)
        if (strcmp(s->kept[at].ward, ward) == 0)
            k = &s->kept[at];
    if (k == NULL) {
        k = &s->kept[s->next++ % KEPT];
        memcpy(k->ward, ward, strlen(ward) + 1);
        k->id = 0;
        k->policy.len = 0;
    }
    exchange(k->ward, s->ward, sizeof s->ward);
    exchange(&k->id, &s->id, sizeof s->id);
    exchange(&k->policy, &s->policy, sizeof s->policy);
}

/* One use of a handle at a time, in the process that connected it; the lines of the last call are forgotten. */
uint64_t nms_enter(nutrameza_store *s, const char *ward)
{
    if (s == NULL || ward == NULL || s->engine == NULL || strlen(ward) >= sizeof s->ward)
        return NUTRAMEZA_STORE_USAGE;
    if (s->process != (int64_t)getpid() || __sync_lock_test_and_set(&s->in_use, 1))
        return NUTRAMEZA_STORE_USAGE;
    s->words[0] = 0;
    memset(&s->lines, 0, sizeof s->lines);
    if (!s->usable)
        return nms_leave(s, NUTRAMEZA_STORE_USAGE);
    if (strcmp(s->ward, ward) != 0)
        turn_to(s, ward);
    return 0;
}

uint64_t nms_leave(nutrameza_store *s, uint64_t returned)
{
    __sync_lock_release(&s->in_use);
    return returned;
}

/* Begins, and learns the ward's number if it is not known. */
uint64_t nms_start(nutrameza_store *s, enum mode mode)
{
    ward_row w = {0, 0, 0, 0, 0, 0};
    enum outcome outcome = s->engine->begin(s->engine, mode);
    if (outcome == FINE && s->id != 0)
        return 0;
    if (outcome == FINE)
        outcome = RUN(s, WARD, nms_take_ward, &w, nms_text(s->ward));
    if (outcome != FINE)
        return nms_fail(s, outcome);
    if (!w.found)
        return nms_stop(s, NUTRAMEZA_STORE_WARD);
    s->id = w.id;
    return 0;
}

/* Where tokens start that are made for the host. */
static int random_start(uint8_t *token)
{
    FILE *source = fopen("/dev/urandom", "rb");
    size_t got = source == NULL ? 0 : fread(token, 1, TOKEN_BYTES, source);
    if (source != NULL)
        fclose(source);
    return got == TOKEN_BYTES;
}

static enum outcome engine_for(const char *name, engine **out)
{
#ifndef NUTRAMEZA_STORE_WITHOUT_SQLITE
    if (strncmp(name, "sqlite:", 7) == 0 && name[7] != 0)
        return nms_sqlite(name + 7, out);
#endif
#ifndef NUTRAMEZA_STORE_WITHOUT_POSTGRESQL
    if (strncmp(name, "postgresql://", 13) == 0 || strncmp(name, "postgres://", 11) == 0)
        return nms_postgresql(name, out);
#endif
    *out = NULL;
    return FAILED;
}

static uint64_t refused(nutrameza_store *s, uint64_t number, const char *words)
{
    snprintf(s->words, sizeof s->words, "%s", words);
    return number;
}

uint64_t nutrameza_store_connect(const char *name, const char *host, nutrameza_store **out)
{
    if (out == NULL)
        return NUTRAMEZA_STORE_USAGE;
    nutrameza_store *s = *out = calloc(1, sizeof *s);
    if (s == NULL)
        return NUTRAMEZA_STORE_FAILED;
    if (name == NULL || host == NULL || *host == 0 || strlen(host) >= sizeof s->host)
        return refused(s, NUTRAMEZA_STORE_USAGE, "a name and a host of 1 to 63 bytes are needed");
    memcpy(s->host, host, strlen(host) + 1);
    s->process = (int64_t)getpid();
    if (!random_start(s->token))
        return refused(s, NUTRAMEZA_STORE_FAILED, "no random numbers: /dev/urandom can't be read");
    enum outcome outcome = engine_for(name, &s->engine);
    if (s->engine == NULL)
        return refused(s, NUTRAMEZA_STORE_USAGE, "this build has no engine for the name: sqlite:PATH, postgresql://..");
    s->usable = outcome == FINE;
    s->unmade = outcome == NO_SCHEMA;
    return number_of(s, outcome);
}

uint64_t nutrameza_store_make(nutrameza_store *s)
{
    if (s == NULL || s->engine == NULL || s->process != (int64_t)getpid() || __sync_lock_test_and_set(&s->in_use, 1))
        return NUTRAMEZA_STORE_USAGE;
    if (!s->usable && !s->unmade) /* not connected, or unfit */
        return nms_leave(s, NUTRAMEZA_STORE_USAGE);
    enum outcome outcome = s->usable ? FINE : s->engine->make(s->engine);
    s->usable = outcome == FINE;
    return nms_leave(s, number_of(s, outcome));
}

/* In a child of fork the connection is the parent's: it is left alone. */
void nutrameza_store_disconnect(nutrameza_store *s)
{
    if (s != NULL && s->engine != NULL && s->process == (int64_t)getpid())
        s->engine->finish(s->engine);
    free(s);
}

const char *nutrameza_store_error(const nutrameza_store *s) { return s == NULL ? "no memory" : s->words; }

const char *nutrameza_store_word_of(unsigned number)
{
    static const char *const words[] = {
        "busy, try again", "storage failed, nothing changed", "outcome unknown, repeat with the same token",
        "ward not there, or there already", "token of another request", "window gone", "overtaken",
        "policy stops users", "policy has fewer users", "damaged", "wrong use", "no tables, or of another version",
        "unfit storage", "ended"};
    if (number < NUTRAMEZA_STORE_BUSY)
        return nutrameza_word_of(number);
    number -= NUTRAMEZA_STORE_BUSY;
    return number < sizeof words / sizeof *words ? words[number] : "unknown";
}
