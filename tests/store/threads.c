/* Threads, forks and memory. */
#define _DEFAULT_SOURCE
#include <pthread.h>
#include <sys/resource.h>

#include "common.h"

typedef struct {
    nutrameza_store *handle;
    const char *ward;
    uint64_t user;
    int calls, done, used;
} work;

static void *working(void *context)
{
    work *w = context;
    uint8_t low[SET] = {8}, up[SET] = {EVERY};
    nutrameza_store_reply r, r2;
    for (int k = 0; k < w->calls; k++) {
        uint64_t returned = nutrameza_store_open(w->handle, w->ward, w->user, NULL, &r);
        w->used += returned == NUTRAMEZA_STORE_USAGE;
        if (nutrameza_number_of(returned) != 0)
            continue;
        returned = nutrameza_store_short_ask(w->handle, w->ward, w->user, r.window, low, up, NULL, &r2);
        w->used += returned == NUTRAMEZA_STORE_USAGE;
        w->done += returned == 0;
        while (nutrameza_store_close(w->handle, w->ward, w->user, r.window, NULL, NULL) == NUTRAMEZA_STORE_USAGE)
            w->used++;
    }
    return NULL;
}

static void in_threads(work *w, int count)
{
    pthread_t threads[8];
    for (int k = 0; k < count; k++)
        pthread_create(&threads[k], NULL, working, &w[k]);
    for (int k = 0; k < count; k++)
        pthread_join(threads[k], NULL);
}

/* threads CALLS: a handle each, on both wards */
int test_threads(char **words)
{
    work w[4];
    for (int k = 0; k < 4; k++)
        w[k] = (work){another("thread"), k % 2 ? "free" : "limited", (uint64_t)(k / 2 + 8), atoi(words[0]), 0, 0};
    in_threads(w, 4);
    for (int k = 0; k < 4; k++) {
        IS((uint64_t)w[k].done, w[k].calls);
        IS((uint64_t)w[k].used, 0);
        nutrameza_store_disconnect(w[k].handle);
    }
    connect_as("threads", 0);
    settled("free");
    settled("limited");
    hang_up();
    return wrong;
}

/* one_handle CALLS: in four threads at once; who comes second is told, and nothing else happens */
int test_one_handle(char **words)
{
    work w[4];
    connect_as("one", 0);
    clear("free");
    for (int k = 0; k < 4; k++)
        w[k] = (work){store, "free", (uint64_t)(k + 8), atoi(words[0]), 0, 0};
    in_threads(w, 4);
    int used = 0, done = 0;
    for (int k = 0; k < 4; k++) {
        used += w[k].used;
        done += w[k].done;
    }
    printf("%d done, %d told that the handle is in use\n", done, used);
    MUST(used > 0 && done > 0);
    clear("free");
    settled("free");
    hang_up();
    return wrong;
}

static void from_within(void *context, const nutrameza_store_session *s)
{
    *(uint64_t *)context = nutrameza_store_show(store, "free", s->user, s->window, NULL);
}

/* fork: a child is refused and leaves the parent's connection alone; a callback is refused too */
int test_fork(char **words)
{
    uint64_t within = 0;
    (void)words;
    connect_as("fork", 0);
    uint64_t window = open_window("free", 9);
    fflush(stdout);
    if (fork() == 0) {
        IS(nutrameza_store_open(store, "free", 9, NULL, NULL), NUTRAMEZA_STORE_USAGE);
        IS(nutrameza_store_make(store), NUTRAMEZA_STORE_USAGE);
        hang_up();
        fflush(stdout);
        _exit(wrong);
    }
    IS((uint64_t)all_well(1), 0);
    IS(nutrameza_store_sessions(store, "free", from_within, &within), 0);
    IS(within, NUTRAMEZA_STORE_USAGE);
    IS(nutrameza_store_close(store, "free", 9, window, NULL, NULL), 0);
    hang_up();
    return wrong;
}

/* memory CALLS: no memory grows over so many calls */
int test_memory(char **words)
{
    struct rusage before, after;
    nutrameza_store_reply r;
    connect_as("memory", 0);
    clear("free");
    uint64_t window = open_window("free", 10);
    for (long k = 0; k < atol(words[0]); k++) {
        if (k == atol(words[0]) / 5)
            getrusage(RUSAGE_SELF, &before);
        uint64_t returned = k % 10 == 0 ? nutrameza_store_show(store, "free", 10, window, &r)
                                        : short_ask("free", 10, window, k % 2 ? 1 : 8, &r);
        MUST(returned == 0);
    }
    getrusage(RUSAGE_SELF, &after);
    printf("%ld KB, then %ld KB\n", before.ru_maxrss, after.ru_maxrss);
    MUST(after.ru_maxrss - before.ru_maxrss < 3000);
    clear("free");
    hang_up();
    return wrong;
}
