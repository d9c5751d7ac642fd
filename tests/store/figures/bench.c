/* Figures of the store: calls a second, p50 and p99, for so many clients over so many wards.
 *
 *     bench STORE WARDS LIMITS CLIENTS SECONDS
 *     bench STORE verify WARD
 *
 * Each client is a process with a handle and a window of its own, and makes short asks with new tokens; client c works
 * in ward c modulo WARDS as the user c / WARDS. Linked against without_kit.c in place of the kit it makes
 * the same transactions with the kit left out. */
#define _DEFAULT_SOURCE
#include <stdio.h>
#include <stdlib.h>
#include <string.h>
#include <sys/mman.h>
#include <sys/wait.h>
#include <time.h>
#include <unistd.h>

#include "nutrameza_store.h"

enum { STAFF = 16, ROLES = 4, PERMISSIONS = 6, MOST = 1000000 };

static double now(void)
{
    struct timespec t;
    clock_gettime(CLOCK_MONOTONIC, &t);
    return (double)t.tv_sec + 1e-9 * (double)t.tv_nsec;
}

static size_t ward_image(uint8_t *image, int limits)
{
    uint32_t w[200];
    size_t n = 0;
    w[n++] = nutrameza_head_word(STAFF, ROLES, PERMISSIONS);
    for (uint32_t u = 0; u < STAFF; u++)
        for (uint32_t r = 0; r < ROLES; r++)
            w[n++] = nutrameza_assignment_word(u, r);
    for (uint32_t r = 0; r < ROLES; r++) {
        w[n++] = nutrameza_grant_word(r, r);
        w[n++] = nutrameza_grant_word(r, 5);
    }
    w[n++] = nutrameza_exclusion_word(NUTRAMEZA_MS_DMER, 2, 2);
    w[n++] = nutrameza_member_word(0);
    w[n++] = nutrameza_member_word(1);
    if (limits)
        w[n++] = nutrameza_limit_word(2, 3);
    w[n] = nutrameza_end_word(w, n);
    nutrameza_write_words(image, w, n + 1);
    return 4 * (n + 1);
}

static nutrameza_store *connected(const char *name, int client)
{
    char host[40];
    nutrameza_store *store = NULL;
    snprintf(host, sizeof host, "bench-%d-%d", client, (int)getpid());
    uint64_t returned = nutrameza_store_connect(name, host, &store);
    if (returned == NUTRAMEZA_STORE_SCHEMA)
        returned = nutrameza_store_make(store);
    if (returned == 0)
        return store;
    fprintf(stderr, "%s: %s\n", name, nutrameza_store_error(store));
    exit(1);
}

static const char *ward_name(int limits, int number)
{
    static char name[40];
    snprintf(name, sizeof name, "%s-%d", limits ? "limited" : "free", number);
    return name;
}

typedef struct {
    const char *name;
    int wards, limits, clients;
    double seconds;
    volatile long *counts; /* ready, calls, failures */
    float *took;
} bench;

/* One call, timed. */
static void timed(const bench *b, nutrameza_store *store, const char *ward, uint64_t user, uint64_t window, int k)
{
    uint8_t lower[NUTRAMEZA_SET_BYTES] = {0}, upper[NUTRAMEZA_SET_BYTES] = {63};
    double began = now();
    lower[0] = k % 2 ? 1 : 8;
    uint64_t returned = nutrameza_store_short_ask(store, ward, user, window, lower, upper, NULL, NULL);
    if (returned != 0) {
        __sync_fetch_and_add(b->counts + 2, 1);
        fprintf(stderr, "%u %s\n", nutrameza_number_of(returned), nutrameza_store_error(store));
    }
    long at = __sync_fetch_and_add(b->counts + 1, 1);
    if (at < MOST)
        b->took[at] = (float)(now() - began);
}

static void client(const bench *b, int number)
{
    nutrameza_store *store = connected(b->name, number);
    nutrameza_store_reply reply;
    char ward[40];
    uint64_t user = (uint64_t)(number / b->wards % STAFF);
    snprintf(ward, sizeof ward, "%s", ward_name(b->limits, number % b->wards));
    if (nutrameza_number_of(nutrameza_store_open(store, ward, user, NULL, &reply)) != 0)
        exit(1);
    uint64_t window = reply.window;
    __sync_fetch_and_add(b->counts, 1);
    while (*b->counts < b->clients)
        usleep(200);
    double end = now() + b->seconds;
    for (int k = 0; now() < end; k++)
        timed(b, store, ward, user, window, k);
    nutrameza_store_close(store, ward, user, window, NULL, NULL);
    nutrameza_store_disconnect(store);
    exit(0);
}

static int by_time(const void *a, const void *b)
{
    float one = *(const float *)a, two = *(const float *)b;
    return one < two ? -1 : one > two;
}

static void make_wards(const bench *b)
{
    uint8_t image[1000];
    size_t len = ward_image(image, b->limits);
    nutrameza_store *store = connected(b->name, -1);
    for (int k = 0; k < b->wards; k++)
        nutrameza_store_create(store, ward_name(b->limits, k), image, len, NULL, 0);
    nutrameza_store_disconnect(store);
}

static int verified(const char *name, const char *ward)
{
    nutrameza_store_report report;
    nutrameza_store *store = connected(name, -2);
    double began = now();
    uint64_t returned = nutrameza_store_verify(store, ward, &report);
    printf("%s, %s: verify %u, %lu entries in %.2f s\n", *name == 's' ? "lite" : "post", ward,
           nutrameza_number_of(returned), (unsigned long)report.calls, now() - began);
    nutrameza_store_disconnect(store);
    return returned != 0;
}

int main(int argc, char **argv)
{
    if (argc == 4 && strcmp(argv[2], "verify") == 0)
        return verified(argv[1], argv[3]);
    if (argc != 6)
        return 2;
    bench b = {argv[1], atoi(argv[2]), atoi(argv[3]), atoi(argv[4]), atof(argv[5]), NULL, NULL};
    size_t bytes = 64 + MOST * sizeof(float);
    char *memory = mmap(NULL, bytes, PROT_READ | PROT_WRITE, MAP_SHARED | MAP_ANONYMOUS, -1, 0);
    b.counts = (volatile long *)(void *)memory;
    b.took = (float *)(void *)(memory + 64);
    make_wards(&b);
    for (int k = 0; k < b.clients; k++)
        if (fork() == 0)
            client(&b, k);
    int status = 0, bad = 0;
    while (wait(&status) > 0)
        bad |= status != 0;
    size_t count = b.counts[1] < MOST ? (size_t)b.counts[1] : MOST;
    if (bad || count == 0 || b.counts[2] != 0)
        return 1;
    qsort(b.took, count, sizeof *b.took, by_time);
    printf("%.0f calls/s, p50 %.2f ms, p99 %.1f ms\n", (double)b.counts[1] / b.seconds, 1e3 * (double)b.took[count / 2],
           1e3 * (double)b.took[count * 99 / 100]);
    return 0;
}
