/* Long and deep asks, their clause texts, their obstacles, the longest moves and the calls over the image alone, on a
 * thread whose stack is 64 KiB: users of 16 roles, 64 roles in 16 chains of seniors, 256 permissions, 32 exclusions, a
 * limit for each role; asks, their texts and obstacles in every window under each pair of aims, and the ledger of all
 * 64 users carried back and over. Prints 'done' if every call is answered as it should be. */
#define _POSIX_C_SOURCE 200809L
#include <pthread.h>
#include <stdio.h>
#include <stdlib.h>
#include <string.h>

#include "nutrameza.h"

enum { STACK_BYTES = 65536, OWN = 16, USERS = NUTRAMEZA_MAX_USERS, LAST = USERS - 1 };

static uint8_t image[NUTRAMEZA_MAX_IMAGE_BYTES];
static size_t image_len;
static uint8_t ledger[USERS * NUTRAMEZA_LINE_BYTES], again[USERS * NUTRAMEZA_LINE_BYTES];
static uint8_t old_ledger[USERS * NUTRAMEZA_OLD_LINE_BYTES];
static uint8_t *text;
static int answered;

/* The roles from 4k up to 4k + 3 form a chain. A user has the first roles of four chains, and so may activate the roles
 * below 16; role k of them is granted the permissions k, k + 16, .., up to 255, the first one twice. No two of the
 * exclusions are the same; the last one of the tidy image has this n, and the others allow all that a user may
 * activate. */
static void make_image(uint32_t last_n) {
    static uint32_t words[NUTRAMEZA_MAX_WORDS];
    size_t n = 0;
    words[n++] = nutrameza_head_word(USERS, 64, 256);
    for (uint32_t role = 0; role < 64; role++) {
        for (uint32_t user = 0; role % 4 == 0 && role < OWN && user < USERS; user++) {
            words[n++] = nutrameza_assignment_word(user, role);
        }
        if (role % 4 != 3) {
            words[n++] = nutrameza_senior_word(role, role + 1);
        }
    }
    for (uint32_t permission = 0; permission < 256; permission++) {
        words[n++] = nutrameza_grant_word(permission % OWN, permission);
    }
    words[n++] = nutrameza_grant_word(0, 0);
    for (uint32_t k = 0; k < NUTRAMEZA_MAX_EXCLUSIONS; k++) {
        words[n++] = k == 0 ? nutrameza_exclusion_word(NUTRAMEZA_MS_HMER, last_n, 64) : nutrameza_exclusion_word(k % 3, 64 - k, 64);
        for (uint32_t role = 0; role < 64; role++) {
            words[n++] = nutrameza_member_word(role);
        }
    }
    for (uint32_t role = 0; role < 64; role++) {
        words[n++] = nutrameza_limit_word(role, NUTRAMEZA_MAX_LIMIT);
    }
    words[n] = nutrameza_end_word(words, n);
    n++;
    nutrameza_write_words(image, words, n);
    image_len = n * NUTRAMEZA_WORD_BYTES;
}

/* The clause text of such an ask; 1 if it is written, with a newline last. */
static int write_clauses(uint64_t session, const uint8_t *lower, const uint8_t *upper, uint64_t first, uint64_t second) {
    uint64_t returned = nutrameza_clauses(image, image_len, ledger, sizeof ledger, LAST, session, lower, NUTRAMEZA_SET_BYTES, upper,
                                          NUTRAMEZA_SET_BYTES, first, second, text, NUTRAMEZA_MAX_CLAUSES_BYTES);
    return nutrameza_is_done(returned) && text[nutrameza_extra_of(returned) - 1] == '\n';
}

/* What stands in the way of such an ask; 1 if that is something exactly if the ask is told that there is no set. */
static int obstructed(uint64_t session, const uint8_t *lower, const uint8_t *upper, unsigned asked) {
    uint8_t roles[NUTRAMEZA_OBSTACLE_BYTES];
    uint64_t returned = nutrameza_obstacle(image, image_len, ledger, sizeof ledger, LAST, session, lower, NUTRAMEZA_SET_BYTES, upper,
                                           NUTRAMEZA_SET_BYTES, roles, sizeof roles);
    return nutrameza_number_of(returned) == (asked == NUTRAMEZA_DONE ? NUTRAMEZA_REFUSED_NONE : NUTRAMEZA_DONE);
}

/* An ask of the last user for the permissions below `needed` with these aims, and its clause text; 1 if its number is
 * the expected one. */
static int ask(uint32_t needed, uint32_t allowed, uint64_t first, uint64_t second, unsigned expected) {
    uint64_t session = (3 * first + second) % NUTRAMEZA_SESSIONS;
    uint8_t lower[NUTRAMEZA_SET_BYTES] = {0}, upper[NUTRAMEZA_SET_BYTES] = {0}, answer[NUTRAMEZA_ANSWER_BYTES];
    for (uint32_t permission = 0; permission < 256; permission++) {
        if (permission < needed) {
            nutrameza_add_permission(lower, permission);
        }
        if (permission < allowed) {
            nutrameza_add_permission(upper, permission);
        }
    }
    if (!write_clauses(session, lower, upper, first, second)) {
        printf("clauses %u %u %u %u\n", needed, allowed, (unsigned)first, (unsigned)second);
        return 0;
    }
    if (!obstructed(session, lower, upper, expected)) {
        printf("obstacle %u %u\n", needed, allowed);
        return 0;
    }
    uint64_t returned = nutrameza_ask(image, image_len, ledger, sizeof ledger, LAST, session, lower, sizeof lower, upper,
                                      sizeof upper, first, second, answer, sizeof answer);
    if (nutrameza_number_of(returned) != expected) {
        printf("ask %u %u %u %u: %u\n", needed, allowed, (unsigned)first, (unsigned)second, nutrameza_number_of(returned));
    }
    return nutrameza_number_of(returned) == expected;
}

/* The ledger carried back, refused by the last user's upper windows until they are closed, and over again; 1 if all is
 * as it should be. */
static int moves(void) {
    uint64_t refused = nutrameza_narrow(image, image_len, ledger, sizeof ledger, old_ledger, sizeof old_ledger);
    int good = refused == NUTRAMEZA_REFUSED_UPPER_SESSIONS + 256 * LAST;
    for (uint64_t session = NUTRAMEZA_OLD_SESSIONS; session < NUTRAMEZA_SESSIONS; session++) {
        good &= nutrameza_is_done(nutrameza_close(image, image_len, ledger, sizeof ledger, LAST, session));
    }
    good &= nutrameza_is_done(nutrameza_narrow(image, image_len, ledger, sizeof ledger, old_ledger, sizeof old_ledger));
    good &= nutrameza_is_done(nutrameza_widen(image, image_len, old_ledger, sizeof old_ledger, again, sizeof again));
    return good && memcmp(ledger, again, sizeof ledger) == 0;
}

/* The tidy image of the image, and of that again, which is the same; 1 if it is so. */
static int tidied(void) {
    static uint8_t tidy[NUTRAMEZA_MAX_IMAGE_BYTES], twice[NUTRAMEZA_MAX_IMAGE_BYTES];
    uint64_t first = nutrameza_tidy(image, image_len, tidy, sizeof tidy);
    size_t length = (size_t)nutrameza_extra_of(first) * NUTRAMEZA_WORD_BYTES;
    uint64_t second = nutrameza_tidy(tidy, length, twice, length);
    return nutrameza_is_done(first) && length < image_len && second == first && memcmp(tidy, twice, length) == 0;
}

/* The grant table of the image, turned and turned back; 1 if it is the same. */
static int turned(void) {
    static uint8_t table[NUTRAMEZA_TABLE_BYTES], by_permission[NUTRAMEZA_TABLE_BYTES], back[NUTRAMEZA_TABLE_BYTES];
    int done = nutrameza_is_done(nutrameza_table(image, image_len, table, sizeof table)) &&
               nutrameza_is_done(nutrameza_turn(table, sizeof table, by_permission, sizeof by_permission)) &&
               nutrameza_is_done(nutrameza_unturn(by_permission, sizeof by_permission, back, sizeof back));
    return done && memcmp(table, back, sizeof table) == 0 && nutrameza_table_has(table, 0, 3) && nutrameza_turned_roles(by_permission, 3) == 15;
}

/* Under an image whose last exclusion is in the way: every permission, which takes four roles, and four that come in
 * 256 ways by four roles each, so that each search goes through all of them; 1 if that exclusion is named with its
 * members, of which none is counted. */
static int hindered(void) {
    static uint8_t fresh[USERS * NUTRAMEZA_LINE_BYTES];
    uint8_t all[NUTRAMEZA_SET_BYTES], four[NUTRAMEZA_SET_BYTES] = {0}, roles[NUTRAMEZA_OBSTACLE_BYTES];
    int good = 1;
    make_image(4);
    memset(all, 255, sizeof all);
    for (uint32_t chain = 0; chain < 4; chain++) {
        nutrameza_add_permission(four, 4 * chain + 3);
    }
    good &= nutrameza_is_done(nutrameza_open(image, image_len, fresh, sizeof fresh, LAST));
    for (int narrow = 0; narrow < 2; narrow++) {
        uint64_t returned = nutrameza_obstacle(image, image_len, fresh, sizeof fresh, LAST, 0, narrow ? four : all, sizeof all, all,
                                               sizeof all, roles, sizeof roles);
        good &= nutrameza_is_done(returned) && nutrameza_obstacle_kind_of(returned) == NUTRAMEZA_OBSTACLE_EXCLUSION;
        good &= nutrameza_obstacle_which(returned) == NUTRAMEZA_MS_HMER && nutrameza_obstacle_n(returned) == 4;
        good &= nutrameza_obstacle_first(roles) == 0 && nutrameza_obstacle_second(roles) == UINT64_MAX;
    }
    return good;
}

static void *work(void *unused) {
    (void)unused;
    answered = 1;
    for (uint64_t session = 0; session < NUTRAMEZA_SESSIONS; session++) {
        answered &= nutrameza_open(image, image_len, ledger, sizeof ledger, LAST) == 256 * session;
    }
    for (uint64_t aims = 0; aims < 9; aims++) {
        answered &= ask(0, 256, aims / 3, aims % 3, NUTRAMEZA_DONE);
        answered &= ask(8, 256, aims / 3, aims % 3, NUTRAMEZA_DONE);
        answered &= ask(256, 256, aims / 3, aims % 3, NUTRAMEZA_DONE);
        answered &= ask(255, 255, aims / 3, aims % 3, NUTRAMEZA_REFUSED_NONE);
    }
    answered &= moves();
    answered &= tidied();
    answered &= turned();
    answered &= hindered();
    return NULL;
}

int main(void) {
    pthread_attr_t attributes;
    pthread_t thread;
    make_image(64);
    text = malloc(NUTRAMEZA_MAX_CLAUSES_BYTES);
    if (text == NULL || pthread_attr_init(&attributes) != 0 || pthread_attr_setstacksize(&attributes, STACK_BYTES) != 0 ||
        pthread_create(&thread, &attributes, work, NULL) != 0 || pthread_join(thread, NULL) != 0) {
        return 1;
    }
    if (answered) {
        puts("done");
    }
    return !answered;
}
