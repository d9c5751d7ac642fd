/* A small clinic against include/nutrameza.h: the windows of one doctor under the ward's policy (01, image A), its
 * ledger carried over from four windows and back, its policy compared with another and reviewed.
 *
 *     cc -std=c99 -Wall -Wextra -Werror -Iinclude examples/host.c target/staticlib/libnutrameza.a -o host && ./host
 *
 * Prints what happens at each step and returns non-zero if an answer is not the paper's.
 */
#include "nutrameza.h"

#include <inttypes.h>
#include <stdio.h>
#include <stdlib.h>
#include <string.h>

/* Roles: 0 Doctor, 1 Data_Manager, excluding each other over the open windows of a person. */
static const char *const role_names[] = {"Doctor", "Data_Manager"};
static const char *const permission_names[] = {"Read_id", "Read_health_records", "Prescribe", "Read_prescription", "Send_data"};

enum { READ_ID = 1, READ_HEALTH_RECORDS = 2, SEND_DATA = 16, EVERYTHING = 31 };

/* Image A of 01 as it stands there; build_image makes it from its meaning and compares. */
static const uint32_t paper[] = {0x102080A0, 0x20000000, 0x20010000, 0x30000000, 0x30004000, 0x30008000, 0x3000C000,
                                 0x30404000, 0x30410000, 0x54102000, 0x60000000, 0x60400000, 0xFB0B9F60};

enum { WORDS = sizeof paper / sizeof paper[0], USER = 0, DOCTOR = 0, DATA_MANAGER = 1 };

static uint8_t image[4 * WORDS];
static uint8_t *ledger;
static int wrong;

/* One user with both roles; what each carries; the exclusion over the open windows; the end. */
static void build_image(void)
{
    uint32_t words[WORDS];
    words[0] = nutrameza_head_word(1, 2, 5);
    words[1] = nutrameza_assignment_word(USER, DOCTOR);
    words[2] = nutrameza_assignment_word(USER, DATA_MANAGER);
    for (unsigned permission = 0; permission < 4; permission++)
        words[3 + permission] = nutrameza_grant_word(DOCTOR, permission);
    words[7] = nutrameza_grant_word(DATA_MANAGER, 1);
    words[8] = nutrameza_grant_word(DATA_MANAGER, 4);
    words[9] = nutrameza_exclusion_word(NUTRAMEZA_MS_DMER, 2, 2);
    words[10] = nutrameza_member_word(DOCTOR);
    words[11] = nutrameza_member_word(DATA_MANAGER);
    words[12] = nutrameza_end_word(words, 12);
    if (memcmp(words, paper, sizeof paper) != 0) {
        printf("the image built differs from the paper's\n");
        wrong = 1;
    }
    nutrameza_write_words(image, words, WORDS);
}

/* Says what a call answered, and holds it to the paper's number and extra. */
static int answered(const char *what, uint64_t returned, unsigned number, uint64_t extra)
{
    unsigned seen = nutrameza_number_of(returned);
    printf("%-44s %u %s", what, seen, nutrameza_word_of(seen));
    if (nutrameza_extra_of(returned) != 0)
        printf(" (%" PRIu64 ")", nutrameza_extra_of(returned));
    printf("\n");
    if (seen != number || nutrameza_extra_of(returned) != extra) {
        printf("    the paper answers %u (%" PRIu64 ")\n", number, extra);
        wrong = 1;
    }
    return nutrameza_is_done(returned);
}

/* Prints an answer's roles and permissions by name, and holds them to the paper's. */
static void shown(const uint8_t *answer, uint8_t roles, uint8_t permissions)
{
    uint8_t expected[NUTRAMEZA_ANSWER_BYTES] = {0};
    expected[0] = roles;
    expected[NUTRAMEZA_ROLES_BYTES] = permissions;
    printf("    roles");
    for (unsigned role = 0; role < 2; role++)
        if (answer[0] >> role & 1)
            printf(" %s", role_names[role]);
    printf("; permissions");
    for (unsigned permission = 0; permission < 5; permission++)
        if (answer[NUTRAMEZA_ROLES_BYTES] >> permission & 1)
            printf(" %s", permission_names[permission]);
    printf("\n");
    if (memcmp(answer, expected, sizeof expected) != 0) {
        printf("    the paper names roles %x, permissions %x\n", roles, permissions);
        wrong = 1;
    }
}

/* Asks for some permissions with as few as possible beside them. */
static uint64_t ask(uint64_t session, uint8_t permissions, uint8_t *answer)
{
    uint8_t lower[NUTRAMEZA_SET_BYTES] = {0}, upper[NUTRAMEZA_SET_BYTES] = {0};
    lower[0] = permissions;
    upper[0] = EVERYTHING;
    return nutrameza_ask(image, sizeof image, ledger, NUTRAMEZA_LINE_BYTES, USER, session, lower, sizeof lower, upper,
                         sizeof upper, NUTRAMEZA_FEWEST, NUTRAMEZA_ANY, answer, NUTRAMEZA_ANSWER_BYTES);
}

static uint64_t show(uint64_t session, uint8_t *answer, size_t answer_len)
{
    return nutrameza_show(image, sizeof image, ledger, NUTRAMEZA_LINE_BYTES, USER, session, answer, answer_len);
}

/* What stands in the way of such an ask, and of which roles. */
static uint64_t obstacle(uint64_t session, uint8_t permissions, uint8_t *roles)
{
    uint8_t lower[NUTRAMEZA_SET_BYTES] = {0}, upper[NUTRAMEZA_SET_BYTES] = {0};
    lower[0] = permissions;
    upper[0] = EVERYTHING;
    return nutrameza_obstacle(image, sizeof image, ledger, NUTRAMEZA_LINE_BYTES, USER, session, lower, sizeof lower, upper,
                              sizeof upper, roles, NUTRAMEZA_OBSTACLE_BYTES);
}

static uint64_t explain(uint64_t session, uint64_t permission)
{
    return nutrameza_explain(image, sizeof image, ledger, NUTRAMEZA_LINE_BYTES, USER, session, permission);
}

/* Two windows: treating a patient in the first keeps the disclosure out of the second until the first is closed. */
static void day(void)
{
    uint8_t answer[NUTRAMEZA_ANSWER_BYTES] = {0}, before[NUTRAMEZA_ANSWER_BYTES], roles[NUTRAMEZA_OBSTACLE_BYTES] = {0};

    answered("open a window", nutrameza_open(image, sizeof image, ledger, NUTRAMEZA_LINE_BYTES, USER), NUTRAMEZA_DONE, 0);
    if (answered("  read id and health records there", ask(0, READ_ID | READ_HEALTH_RECORDS, answer), NUTRAMEZA_DONE, 0))
        shown(answer, 1, 0x0f);
    answered("open a second window", nutrameza_open(image, sizeof image, ledger, NUTRAMEZA_LINE_BYTES, USER), NUTRAMEZA_DONE, 1);

    memcpy(before, answer, sizeof before);
    answered("  send health records from there", ask(1, READ_HEALTH_RECORDS | SEND_DATA, answer), NUTRAMEZA_REFUSED_NONE, 0);
    if (memcmp(before, answer, sizeof before) != 0) {
        printf("    the refused ask touched the answer\n");
        wrong = 1;
    }
    if (answered("  what stands in the way", obstacle(1, READ_HEALTH_RECORDS | SEND_DATA, roles), NUTRAMEZA_DONE,
                 NUTRAMEZA_OBSTACLE_EXCLUSION + 8 * (NUTRAMEZA_MS_DMER + 4 * 2)))
        printf("    no 2 of Doctor and Data_Manager over the open windows: another one holds Doctor\n");
    if (nutrameza_obstacle_first(roles) != 1 << DOCTOR || nutrameza_obstacle_second(roles) != (1 << DOCTOR | 1 << DATA_MANAGER)) {
        printf("    the paper counts Doctor, of Doctor and Data_Manager\n");
        wrong = 1;
    }
    if (answered("  what is on in the first window", show(0, answer, sizeof answer), NUTRAMEZA_DONE, 0))
        shown(answer, 1, 0x0f);
    if (answered("  what is on in the second window", show(1, answer, sizeof answer), NUTRAMEZA_DONE, 0))
        shown(answer, 0, 0);

    answered("close the first window", nutrameza_close(image, sizeof image, ledger, NUTRAMEZA_LINE_BYTES, USER, 0),
             NUTRAMEZA_DONE, 0);
    answered("  what stands in the way now", obstacle(1, READ_HEALTH_RECORDS | SEND_DATA, roles), NUTRAMEZA_REFUSED_NONE, 0);
    if (answered("  send health records from the second", ask(1, READ_HEALTH_RECORDS | SEND_DATA, answer), NUTRAMEZA_DONE, 0))
        shown(answer, 2, 0x12);
    uint64_t told = explain(1, 4);
    if (answered("  why may data be sent there", told, NUTRAMEZA_DONE, 64 * DATA_MANAGER + DATA_MANAGER))
        printf("    through %s, granted to %s\n", role_names[nutrameza_explained_role(told)],
               role_names[nutrameza_granting_role(told)]);
    answered("  why may drugs be prescribed there", explain(1, 2), NUTRAMEZA_REFUSED_NONE, 0);
    answered("show the window that is closed", show(0, answer, sizeof answer), NUTRAMEZA_REFUSED_CLOSED, 0);
    answered("show into a buffer that is too small", show(1, answer, 39), NUTRAMEZA_REFUSED_ROOM, 0);
    answered("open for a person beyond the policy",
             nutrameza_open(image, sizeof image, ledger, NUTRAMEZA_LINE_BYTES, UINT64_MAX), NUTRAMEZA_REFUSED_PERSON, 0);
}

static uint64_t narrow(uint8_t *old_ledger)
{
    return nutrameza_narrow(image, sizeof image, ledger, NUTRAMEZA_LINE_BYTES, old_ledger, NUTRAMEZA_OLD_LINE_BYTES);
}

/* Eight windows at most; and a ledger carried back to four windows and over again, which comes out byte for byte. */
static void moving(void)
{
    static const uint64_t next[] = {0, 2, 3, 4, 5, 6, 7};
    uint8_t old_ledger[NUTRAMEZA_OLD_LINE_BYTES] = {0}, again[NUTRAMEZA_LINE_BYTES];

    for (unsigned place = 0; place < sizeof next / sizeof next[0]; place++)
        answered("open one more window", nutrameza_open(image, sizeof image, ledger, NUTRAMEZA_LINE_BYTES, USER), NUTRAMEZA_DONE,
                 next[place]);
    answered("open a ninth window", nutrameza_open(image, sizeof image, ledger, NUTRAMEZA_LINE_BYTES, USER), NUTRAMEZA_REFUSED_FULL, 0);
    answered("carry the ledger back to four windows", narrow(old_ledger), NUTRAMEZA_REFUSED_UPPER_SESSIONS, USER);
    for (uint64_t session = NUTRAMEZA_OLD_SESSIONS; session < NUTRAMEZA_SESSIONS; session++)
        answered("  close a window above the fourth",
                 nutrameza_close(image, sizeof image, ledger, NUTRAMEZA_LINE_BYTES, USER, session), NUTRAMEZA_DONE, 0);
    answered("  carry the ledger back again", narrow(old_ledger), NUTRAMEZA_DONE, 0);
    answered("carry it over to eight windows",
             nutrameza_widen(image, sizeof image, old_ledger, sizeof old_ledger, again, sizeof again), NUTRAMEZA_DONE, 0);
    if (memcmp(ledger, again, sizeof again) != 0) {
        printf("    the ledger did not come out byte for byte\n");
        wrong = 1;
    }
    answered("carry it over into a buffer of the old size",
             nutrameza_widen(image, sizeof image, old_ledger, sizeof old_ledger, again, NUTRAMEZA_OLD_LINE_BYTES), NUTRAMEZA_REFUSED_ROOM, 0);
    answered("carry over what is no old ledger",
             nutrameza_widen(image, sizeof image, ledger, NUTRAMEZA_LINE_BYTES, again, sizeof again), NUTRAMEZA_REFUSED_LEDGER, 0);
}

/* Refusals that a host meets when it loads a policy. */
static void loading(void)
{
    uint8_t damaged[sizeof image], barring[sizeof image];
    memcpy(damaged, image, sizeof image);
    memcpy(barring, image, sizeof image);
    damaged[4 * 9 + 3] ^= 0x04; /* an exclusion over one window, and the balance is off */
    barring[4 * 9 + 2] ^= 0x18; /* n becomes 1, which would bar both roles from everyone */
    answered("check the policy", nutrameza_check(image, sizeof image), NUTRAMEZA_DONE, 0);
    answered("check a policy with its exclusion changed", nutrameza_check(damaged, sizeof damaged), NUTRAMEZA_REFUSED_BALANCE, 12);
    answered("check a policy with an exclusion of one", nutrameza_check(barring, sizeof barring), NUTRAMEZA_REFUSED_RANGE, 9);
    answered("check no policy at all", nutrameza_check(NULL, 0), NUTRAMEZA_REFUSED_LENGTH, 0);
}

/* The policy as another editor saved it, entries in the other order and one of them twice: other bytes, and the same
 * tidy image. */
static void comparing(void)
{
    uint8_t saved[sizeof image + 4], tidy[sizeof image], first[sizeof image];
    uint32_t words[WORDS + 1] = {paper[0], paper[9], paper[11], paper[10]};
    for (unsigned place = 0; place < 8; place++)
        words[4 + place] = paper[8 - place];
    words[12] = paper[3];
    words[13] = nutrameza_end_word(words, 13);
    nutrameza_write_words(saved, words, WORDS + 1);
    answered("tidy the policy", nutrameza_tidy(image, sizeof image, first, sizeof first), NUTRAMEZA_DONE, WORDS);
    answered("tidy it as another editor saved it", nutrameza_tidy(saved, sizeof saved, tidy, sizeof tidy), NUTRAMEZA_DONE, WORDS);
    if (memcmp(first, tidy, sizeof tidy) != 0 || memcmp(first, image, sizeof image) != 0) {
        printf("    the tidy images differ\n");
        wrong = 1;
    }
    answered("tidy it into a buffer that is too small", nutrameza_tidy(saved, sizeof saved, tidy, sizeof tidy - 1), NUTRAMEZA_REFUSED_ROOM, 0);
}

/* A review of who carries what: the table by roles, and turned by permissions. */
static void reviewing(void)
{
    uint8_t table[NUTRAMEZA_TABLE_BYTES], turned[NUTRAMEZA_TABLE_BYTES], back[NUTRAMEZA_TABLE_BYTES];

    answered("fill the table of who carries what", nutrameza_table(image, sizeof image, table, sizeof table), NUTRAMEZA_DONE, 0);
    answered("turn it", nutrameza_turn(table, sizeof table, turned, sizeof turned), NUTRAMEZA_DONE, 0);
    for (unsigned permission = 0; permission < 5; permission++) {
        printf("    %s:", permission_names[permission]);
        for (unsigned role = 0; role < 2; role++) {
            int carries = (int)(nutrameza_turned_roles(turned, permission) >> role & 1);
            printf("%s%s", carries ? " " : "", carries ? role_names[role] : "");
            wrong |= carries != nutrameza_table_has(table, role, permission);
        }
        printf("\n");
    }
    answered("turn it back", nutrameza_unturn(turned, sizeof turned, back, sizeof back), NUTRAMEZA_DONE, 0);
    if (table[0] != 0x0f || table[NUTRAMEZA_SET_BYTES] != 0x12 || memcmp(table, back, sizeof table) != 0) {
        printf("    the table is not the paper's\n");
        wrong = 1;
    }
    answered("turn a table that is cut", nutrameza_turn(table, sizeof table - 1, turned, sizeof turned), NUTRAMEZA_REFUSED_ROOM, 0);
}

int main(void)
{
    build_image();
    ledger = calloc(1, NUTRAMEZA_LINE_BYTES);
    if (ledger == NULL)
        return 2;
    loading();
    day();
    moving();
    comparing();
    reviewing();
    free(ledger);
    printf(wrong ? "an answer differs from the paper's\n" : "every answer is the paper's\n");
    return wrong;
}
