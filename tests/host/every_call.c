/* Every call of the header from C, done and refused, each buffer an allocation of exactly its bytes, for runs under
   sanitizers and valgrind: a byte read or written outside a buffer, or used before it is written, is theirs to tell.
   Prints how many answers were as expected, and each that was not. */
#include <stdio.h>
#include <stdlib.h>
#include <string.h>

#include "nutrameza.h"

enum { USERS = 2, ROLES = 3, PERMISSIONS = 9, WORDS = 16 };

static int right, wrong;
static uint8_t *image, *looped, *ledger, *lower, *upper;
static size_t image_len, looped_len;
static const size_t ledger_len = USERS * NUTRAMEZA_LINE_BYTES;

/* So many bytes, none of them written yet. */
static uint8_t *room(size_t bytes) {
    uint8_t *buffer = (uint8_t *)malloc(bytes);
    if (buffer == NULL) {
        exit(2);
    }
    return buffer;
}

static uint8_t *zeros(size_t bytes) {
    return (uint8_t *)memset(room(bytes), 0, bytes);
}

static void expect(const char *what, uint64_t returned, unsigned number, uint64_t extra) {
    if (nutrameza_number_of(returned) == number && nutrameza_extra_of(returned) == extra) {
        right++;
    } else {
        wrong++;
        printf("%s: %u (%llu), expected %u (%llu)\n", what, nutrameza_number_of(returned), (unsigned long long)nutrameza_extra_of(returned),
               number, (unsigned long long)extra);
    }
}

static void holds(const char *what, int so) {
    if (so) {
        right++;
    } else {
        wrong++;
        printf("%s\n", what);
    }
}

/* Words as an image of their own, with an end; the number of bytes. */
static size_t write_image(uint8_t **to, uint32_t *words, size_t count) {
    words[count] = nutrameza_end_word(words, count);
    *to = room(NUTRAMEZA_WORD_BYTES * (count + 1));
    nutrameza_write_words(*to, words, count + 1);
    return NUTRAMEZA_WORD_BYTES * (count + 1);
}

/* User 0 has role 0, over role 1, and role 2; user 1 has role 1. Roles 0 and 2 exclude each other over windows; role 1
   has a limit. */
static void make_images(void) {
    uint32_t words[WORDS], n = 0;
    words[n++] = nutrameza_head_word(USERS, ROLES, PERMISSIONS);
    words[n++] = nutrameza_grant_word(2, 8);
    words[n++] = nutrameza_assignment_word(0, 0);
    words[n++] = nutrameza_assignment_word(0, 2);
    words[n++] = nutrameza_assignment_word(1, 1);
    words[n++] = nutrameza_grant_word(0, 0);
    words[n++] = nutrameza_grant_word(1, 3);
    words[n++] = nutrameza_senior_word(0, 1);
    words[n++] = nutrameza_limit_word(1, 2);
    words[n++] = nutrameza_exclusion_word(NUTRAMEZA_MS_DMER, 2, 2);
    words[n++] = nutrameza_member_word(0);
    words[n++] = nutrameza_member_word(2);
    image_len = write_image(&image, words, n);
    words[n++] = nutrameza_senior_word(1, 0);
    looped_len = write_image(&looped, words, n);
}

static void over_images(void) {
    uint8_t *chain = room(NUTRAMEZA_CHAIN_BYTES), *out = room(image_len), *short_out = room(image_len - 1);
    expect("check", nutrameza_check(image, image_len), NUTRAMEZA_DONE, 0);
    expect("check of nothing", nutrameza_check(NULL, 0), NUTRAMEZA_REFUSED_LENGTH, 0);
    expect("check, cut", nutrameza_check(image, image_len - 1), NUTRAMEZA_REFUSED_LENGTH, 0);
    expect("check, without its end", nutrameza_check(image, image_len - 4), NUTRAMEZA_REFUSED_KIND, 11);
    expect("check of a loop", nutrameza_check(looped, looped_len), NUTRAMEZA_REFUSED_LOOP, 0);
    expect("loop", nutrameza_loop(looped, looped_len, chain, NUTRAMEZA_CHAIN_BYTES), NUTRAMEZA_DONE, 2);
    holds("the chain", chain[0] == 1 && chain[1] == 0 && chain[2] == 0 && chain[63] == 0);
    expect("loop, none", nutrameza_loop(image, image_len, chain, NUTRAMEZA_CHAIN_BYTES), NUTRAMEZA_REFUSED_NONE, 0);
    expect("loop, a short chain", nutrameza_loop(looped, looped_len, chain, NUTRAMEZA_CHAIN_BYTES - 1), NUTRAMEZA_REFUSED_ROOM, 0);
    expect("tidy", nutrameza_tidy(image, image_len, out, image_len), NUTRAMEZA_DONE, image_len / NUTRAMEZA_WORD_BYTES);
    expect("check of the tidy image", nutrameza_check(out, image_len), NUTRAMEZA_DONE, 0);
    holds("the tidy image has the same head", memcmp(out, image, NUTRAMEZA_WORD_BYTES) == 0 && memcmp(out, image, image_len) != 0);
    expect("tidy, too small", nutrameza_tidy(image, image_len, short_out, image_len - 1), NUTRAMEZA_REFUSED_ROOM, 0);
    free(chain);
    free(out);
    free(short_out);
}

static void tables(void) {
    uint8_t *table = room(NUTRAMEZA_TABLE_BYTES), *turned = room(NUTRAMEZA_TABLE_BYTES), *back = room(NUTRAMEZA_TABLE_BYTES);
    expect("table", nutrameza_table(image, image_len, table, NUTRAMEZA_TABLE_BYTES), NUTRAMEZA_DONE, 0);
    holds("role 0 carries what role 1 does", nutrameza_table_has(table, 0, 3) && nutrameza_table_has(table, 1, 3) && !nutrameza_table_has(table, 1, 0));
    expect("table, too large", nutrameza_table(image, image_len, table, NUTRAMEZA_TABLE_BYTES - 1), NUTRAMEZA_REFUSED_ROOM, 0);
    expect("turn", nutrameza_turn(table, NUTRAMEZA_TABLE_BYTES, turned, NUTRAMEZA_TABLE_BYTES), NUTRAMEZA_DONE, 0);
    holds("permission 3 is carried by roles 0 and 1", nutrameza_turned_roles(turned, 3) == 3);
    expect("turn, cut", nutrameza_turn(table, 1, turned, NUTRAMEZA_TABLE_BYTES), NUTRAMEZA_REFUSED_ROOM, 0);
    expect("unturn", nutrameza_unturn(turned, NUTRAMEZA_TABLE_BYTES, back, NUTRAMEZA_TABLE_BYTES), NUTRAMEZA_DONE, 0);
    holds("turned back it is the same", memcmp(table, back, NUTRAMEZA_TABLE_BYTES) == 0);
    expect("unturn into nothing", nutrameza_unturn(turned, NUTRAMEZA_TABLE_BYTES, NULL, 0), NUTRAMEZA_REFUSED_ROOM, 0);
    free(table);
    free(turned);
    free(back);
}

static uint64_t asked(uint64_t user, uint64_t session, uint8_t *answer, size_t answer_len) {
    return nutrameza_ask(image, image_len, ledger, ledger_len, user, session, lower, NUTRAMEZA_SET_BYTES, upper, NUTRAMEZA_SET_BYTES,
                         NUTRAMEZA_FEWEST, NUTRAMEZA_MOST, answer, answer_len);
}

static uint64_t asked_short(uint64_t user, uint64_t session, uint8_t *answer) {
    return nutrameza_short_ask(image, image_len, ledger, ledger_len, user, session, lower, NUTRAMEZA_SET_BYTES, upper,
                               NUTRAMEZA_SET_BYTES, answer, NUTRAMEZA_ANSWER_BYTES);
}

static uint64_t hindered(uint64_t user, uint64_t session, uint8_t *roles, size_t roles_len) {
    return nutrameza_obstacle(image, image_len, ledger, ledger_len, user, session, lower, NUTRAMEZA_SET_BYTES, upper, NUTRAMEZA_SET_BYTES,
                              roles, roles_len);
}

/* Two windows of user 0 and one of user 1, with the permission that is asked for in the lower bound. */
static void sessions(void) {
    uint8_t *answer = room(NUTRAMEZA_ANSWER_BYTES), *roles = room(NUTRAMEZA_OBSTACLE_BYTES);
    expect("open", nutrameza_open(image, image_len, ledger, ledger_len, 0), NUTRAMEZA_DONE, 0);
    expect("open again", nutrameza_open(image, image_len, ledger, ledger_len, 0), NUTRAMEZA_DONE, 1);
    expect("open of another", nutrameza_open(image, image_len, ledger, ledger_len, 1), NUTRAMEZA_DONE, 0);
    expect("open of nobody", nutrameza_open(image, image_len, ledger, ledger_len, USERS), NUTRAMEZA_REFUSED_PERSON, 0);
    expect("open, ledger cut", nutrameza_open(image, image_len, ledger, ledger_len - 1, 0), NUTRAMEZA_REFUSED_LEDGER, 0);
    holds("the open sessions", nutrameza_open_sessions(ledger, ledger_len, 0) == 3 && nutrameza_is_open(ledger, ledger_len, 1, 0));
    nutrameza_add_permission(lower, 0);
    expect("ask", asked(0, 0, answer, NUTRAMEZA_ANSWER_BYTES), NUTRAMEZA_DONE, 0);
    holds("both roles, and what they carry", nutrameza_answer_roles(answer) == 3 &&
          nutrameza_has_permission(nutrameza_answer_permissions(answer), 3) && !nutrameza_has_permission(nutrameza_answer_permissions(answer), 8));
    expect("ask, a short answer", asked(0, 0, answer, NUTRAMEZA_ANSWER_BYTES - 1), NUTRAMEZA_REFUSED_ROOM, 0);
    expect("show", nutrameza_show(image, image_len, ledger, ledger_len, 0, 0, answer, NUTRAMEZA_ANSWER_BYTES), NUTRAMEZA_DONE, 0);
    expect("show, not open", nutrameza_show(image, image_len, ledger, ledger_len, 0, 7, answer, NUTRAMEZA_ANSWER_BYTES), NUTRAMEZA_REFUSED_CLOSED, 0);
    expect("explain", nutrameza_explain(image, image_len, ledger, ledger_len, 0, 0, 3), NUTRAMEZA_DONE, 64 * 0 + 1);
    expect("explain, not carried", nutrameza_explain(image, image_len, ledger, ledger_len, 0, 0, 8), NUTRAMEZA_REFUSED_NONE, 0);
    expect("explain, no session", nutrameza_explain(image, image_len, ledger, ledger_len, 0, 8, 8), NUTRAMEZA_REFUSED_SESSION, 0);
    lower[0] = 0;
    nutrameza_add_permission(lower, 8);
    expect("short ask, excluded", asked_short(0, 1, answer), NUTRAMEZA_REFUSED_NONE, 0);
    expect("obstacle", hindered(0, 1, roles, NUTRAMEZA_OBSTACLE_BYTES), NUTRAMEZA_DONE,
           NUTRAMEZA_OBSTACLE_EXCLUSION + 8 * (NUTRAMEZA_MS_DMER + 4 * 2));
    holds("its sets", nutrameza_obstacle_first(roles) == 1 && nutrameza_obstacle_second(roles) == 5);
    expect("obstacle, a short buffer", hindered(0, 1, roles, NUTRAMEZA_OBSTACLE_BYTES - 1), NUTRAMEZA_REFUSED_ROOM, 0);
    expect("obstacle of one's own", hindered(1, 0, roles, NUTRAMEZA_OBSTACLE_BYTES), NUTRAMEZA_DONE, NUTRAMEZA_OBSTACLE_OWN + 8 * 8);
    expect("close", nutrameza_close(image, image_len, ledger, ledger_len, 0, 0), NUTRAMEZA_DONE, 0);
    expect("close again", nutrameza_close(image, image_len, ledger, ledger_len, 0, 0), NUTRAMEZA_REFUSED_CLOSED, 0);
    expect("short ask", asked_short(0, 1, answer), NUTRAMEZA_DONE, 0);
    expect("obstacle, none", hindered(0, 1, roles, NUTRAMEZA_OBSTACLE_BYTES), NUTRAMEZA_REFUSED_NONE, 0);
    free(answer);
    free(roles);
}

static uint64_t texted(uint8_t *text, size_t text_len) {
    return nutrameza_clauses(image, image_len, ledger, ledger_len, 0, 1, lower, NUTRAMEZA_SET_BYTES, upper, NUTRAMEZA_SET_BYTES,
                             NUTRAMEZA_FEWEST, NUTRAMEZA_FEWEST, text, text_len);
}

/* A text into a buffer that has room, into one of its length, and not into one byte less. */
static void clauses(void) {
    uint8_t *text = room(NUTRAMEZA_MAX_CLAUSES_BYTES);
    uint64_t returned = texted(text, NUTRAMEZA_MAX_CLAUSES_BYTES);
    size_t length = (size_t)nutrameza_extra_of(returned);
    uint8_t *exact = room(length);
    holds("clauses", nutrameza_is_done(returned) && length > 6 && memcmp(text, "p wcnf ", 7) == 0 && text[length - 1] == '\n');
    expect("clauses, exactly", texted(exact, length), NUTRAMEZA_DONE, length);
    holds("the same text", memcmp(text, exact, length) == 0);
    expect("clauses, a byte too few", texted(exact, length - 1), NUTRAMEZA_REFUSED_ROOM, 0);
    expect("clauses into nothing", texted(NULL, 0), NUTRAMEZA_REFUSED_ROOM, 0);
    free(text);
    free(exact);
}

static void whole_ledgers(void) {
    uint8_t *old = room(USERS * NUTRAMEZA_OLD_LINE_BYTES), *again = room(ledger_len), *users = room(NUTRAMEZA_USERS_BYTES);
    expect("stopped, nobody", nutrameza_stopped(image, image_len, ledger, ledger_len, users, NUTRAMEZA_USERS_BYTES), NUTRAMEZA_DONE, 0);
    expect("narrow", nutrameza_narrow(image, image_len, ledger, ledger_len, old, USERS * NUTRAMEZA_OLD_LINE_BYTES), NUTRAMEZA_DONE, 0);
    expect("widen", nutrameza_widen(image, image_len, old, USERS * NUTRAMEZA_OLD_LINE_BYTES, again, ledger_len), NUTRAMEZA_DONE, 0);
    holds("carried back and over it is the same", memcmp(ledger, again, ledger_len) == 0);
    expect("widen, a short target", nutrameza_widen(image, image_len, old, USERS * NUTRAMEZA_OLD_LINE_BYTES, again, ledger_len - 1),
           NUTRAMEZA_REFUSED_ROOM, 0);
    again[NUTRAMEZA_LINE_BYTES + 1] = 1;
    expect("stopped", nutrameza_stopped(image, image_len, again, ledger_len, users, NUTRAMEZA_USERS_BYTES), NUTRAMEZA_DONE, 1);
    holds("user 1", !nutrameza_has_user(users, 0) && nutrameza_has_user(users, 1));
    expect("stopped, a short set", nutrameza_stopped(image, image_len, again, ledger_len, users, 7), NUTRAMEZA_REFUSED_ROOM, 0);
    expect("narrow, unsound", nutrameza_narrow(image, image_len, again, ledger_len, old, USERS * NUTRAMEZA_OLD_LINE_BYTES), NUTRAMEZA_REFUSED_LINE, 1);
    ledger[0] |= 16;
    expect("narrow, an upper session", nutrameza_narrow(image, image_len, ledger, ledger_len, old, USERS * NUTRAMEZA_OLD_LINE_BYTES),
           NUTRAMEZA_REFUSED_UPPER_SESSIONS, 0);
    free(old);
    free(again);
    free(users);
}

int main(void) {
    make_images();
    ledger = zeros(ledger_len);
    lower = zeros(NUTRAMEZA_SET_BYTES);
    upper = zeros(NUTRAMEZA_SET_BYTES);
    for (uint32_t permission = 0; permission < PERMISSIONS; permission++) {
        nutrameza_add_permission(upper, permission);
    }
    over_images();
    tables();
    sessions();
    clauses();
    whole_ledgers();
    free(image);
    free(looped);
    free(ledger);
    free(lower);
    free(upper);
    printf("%d as expected, %d not\n", right, wrong);
    return wrong != 0;
}
