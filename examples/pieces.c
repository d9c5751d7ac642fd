/* The pieces of code that docs/REFERENCE.md shows, in a program: a ward in which Head stands over Doctor, and a window
 * in which Head is active.
 *
 *     cc -std=c99 -Wall -Wextra -Werror -Iinclude examples/pieces.c target/staticlib/libnutrameza.a -o pieces
 *     ./pieces
 *
 * Prints what each of them finds; the exit status is 1 where a call is refused.
 */
#include <nutrameza.h>

#include <inttypes.h>
#include <stdio.h>
#include <stdlib.h>

enum { HEAD, DOCTOR, ROLES };
enum { SIGN, PRESCRIBE, PERMISSIONS };

static const char *const role_name[] = {"Head", "Doctor"};
static const uint64_t user = 0, session = 0;
static uint8_t image[8 * NUTRAMEZA_WORD_BYTES], ledger[NUTRAMEZA_LINE_BYTES];
static size_t image_len = sizeof image, ledger_len = sizeof ledger;
static uint8_t lower[NUTRAMEZA_SET_BYTES], upper[NUTRAMEZA_SET_BYTES];

/* One user, who is assigned to Head; the assignment stands there twice. */
static void make_image(void)
{
    uint32_t words[8];
    words[0] = nutrameza_head_word(1, ROLES, PERMISSIONS);
    words[1] = nutrameza_assignment_word(0, HEAD);
    words[2] = nutrameza_assignment_word(0, HEAD);
    words[3] = nutrameza_senior_word(HEAD, DOCTOR);
    words[4] = nutrameza_grant_word(HEAD, SIGN);
    words[5] = nutrameza_grant_word(DOCTOR, PRESCRIBE);
    words[6] = nutrameza_limit_word(HEAD, 2);
    words[7] = nutrameza_end_word(words, 7);
    nutrameza_write_words(image, words, 8);
}

/* A window in which Head is active. */
static int open_window(void)
{
    uint8_t answer[NUTRAMEZA_ANSWER_BYTES];
    nutrameza_add_permission(lower, SIGN);
    nutrameza_add_permission(upper, SIGN);
    nutrameza_add_permission(upper, PRESCRIBE);
    return nutrameza_is_done(nutrameza_open(image, image_len, ledger, ledger_len, user)) &&
           nutrameza_is_done(nutrameza_short_ask(image, image_len, ledger, ledger_len, user, session, lower, sizeof lower,
                                                 upper, sizeof upper, answer, sizeof answer));
}

static int tidy(void)
{
    uint8_t out[sizeof image]; /* image_len bytes are always enough */
    uint64_t returned = nutrameza_tidy(image, image_len, out, sizeof out);
    if (nutrameza_is_done(returned)) {
        size_t out_len = (size_t)nutrameza_extra_of(returned) * NUTRAMEZA_WORD_BYTES;
        printf("%zu bytes, tidy %zu\n", image_len, out_len);
    }
    return nutrameza_is_done(returned);
}

static int review(unsigned role)
{
    uint8_t table[NUTRAMEZA_TABLE_BYTES], turned[NUTRAMEZA_TABLE_BYTES];
    int done = nutrameza_is_done(nutrameza_table(image, image_len, table, sizeof table)) &&
               nutrameza_is_done(nutrameza_turn(table, sizeof table, turned, sizeof turned));
    if (done) {
        int may_prescribe = nutrameza_table_has(table, role, PRESCRIBE);  /* does this role carry it? */
        uint64_t prescribers = nutrameza_turned_roles(turned, PRESCRIBE); /* which roles do: role r is bit r */
        printf("%s may prescribe: %d; roles that may: %" PRIx64 "\n", role_name[role], may_prescribe, prescribers);
    }
    return done;
}

static int explain(uint64_t permission)
{
    uint64_t told = nutrameza_explain(image, image_len, ledger, ledger_len, user, session, permission);
    if (nutrameza_is_done(told))
        printf("through %s, granted to %s\n", role_name[nutrameza_explained_role(told)],
               role_name[nutrameza_granting_role(told)]);
    return nutrameza_is_done(told);
}

static int write_clauses(FILE *file)
{
    uint8_t *text = malloc(NUTRAMEZA_MAX_CLAUSES_BYTES);
    if (text == NULL)
        return 0;
    uint64_t told = nutrameza_clauses(image, image_len, ledger, ledger_len, user, session, lower, sizeof lower, upper,
                                      sizeof upper, NUTRAMEZA_FEWEST, NUTRAMEZA_FEWEST, text,
                                      NUTRAMEZA_MAX_CLAUSES_BYTES);
    size_t written = nutrameza_is_done(told) ? fwrite(text, 1, nutrameza_extra_of(told), file) : 0;
    free(text);
    return nutrameza_is_done(told) && written == nutrameza_extra_of(told);
}

int main(void)
{
    make_image();
    return !(open_window() && tidy() && review(HEAD) && explain(PRESCRIBE) && write_clauses(stdout));
}
