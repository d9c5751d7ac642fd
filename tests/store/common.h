/* What the tests of the store share: a ward's image, a handle, requests that are logged, and what is expected. */
#ifndef STORE_COMMON_H
#define STORE_COMMON_H

#include <stdio.h>
#include <stdlib.h>
#include <string.h>
#include <sys/mman.h>
#include <sys/wait.h>
#include <unistd.h>

#include "store.h"

/* Role r carries permission r, and all of them permission 5; Doctor and Data_Manager exclude each other over all
 * windows of a user; under limits fewer than three windows hold Head. */
enum { STAFF = 16, DOCTOR = 0, MANAGER, HEAD, NURSE, ROLES, PERMISSIONS = 6, EVERY = 63, NOBODY = 99 };

typedef struct {
    uint8_t token[16];
    uint64_t call, user, window, lower, returned;
    uint8_t answer[ANSWER];
} record;

extern const char *name;       /* of the store */
extern nutrameza_store *store; /* this process's handle */
extern uint8_t image[NUTRAMEZA_MAX_IMAGE_BYTES];
extern int wrong;              /* how many expectations failed */

uint64_t random64(void);
void new_token(uint8_t *token);
double now(void);
void nap(double seconds);
void connect_as(const char *what, int n);
void connect_named(const char *host);
void hang_up(void);
nutrameza_store *another(const char *host);
size_t make_image(int limits, unsigned without, unsigned users, size_t words);
void make_ward(const char *ward, int limits);
uint64_t issue(const char *ward, const record *r, nutrameza_store_reply *reply);
uint64_t insist(const char *ward, const record *r, nutrameza_store_reply *reply);
uint64_t open_window(const char *ward, uint64_t user);
uint64_t short_ask(const char *ward, uint64_t user, uint64_t window, uint64_t lower, nutrameza_store_reply *reply);
long entries(const char *ward);
long entries_of_token(const char *ward, const uint8_t *token);
long entries_near(const char *ward, const record *r, uint64_t order);
void clear(const char *ward);
void settled(const char *ward);
void sql(const char *format, ...);
volatile long *shared(void);
int all_well(int count);
void must(const char *file, int line, int so, const char *what);
void is(const char *file, int line, uint64_t got, uint64_t wanted, const char *what);

#define MUST(so) must(__FILE__, __LINE__, so, #so)
#define IS(got, wanted) is(__FILE__, __LINE__, got, (uint64_t)(wanted), #got)

/* The tests by name; each takes the words behind it. */
int test_stress(char **words);
int test_kill(char **words);
int test_audit(char **words);
int test_race(char **words);
int test_limit(char **words);
int test_twice(char **words);
int test_flip(char **words);
int test_rivals(char **words);
int test_usage(char **words);
int test_repeats(char **words);
int test_windows(char **words);
int test_policy(char **words);
int test_damage(char **words);
int test_import(char **words);
int test_journal(char **words);
int test_cut(char **words);
int test_schema(char **words);
int test_steps(char **words);
int test_stopped(char **words);
int test_changed(char **words);
int test_server(char **words);
int test_cuts(char **words);
int test_pool(char **words);
int test_rolled(char **words);
int test_unfit(char **words);
int test_durable(char **words);
int test_full(char **words);
int test_threads(char **words);
int test_one_handle(char **words);
int test_fork(char **words);
int test_memory(char **words);

#endif
