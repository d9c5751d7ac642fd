/* The header's inline functions by themselves, with no library: each wrong value is told, and the image of the ward
 * example is written to the file that the first argument names. Compiles as C99, C11 and C++17. */
#include <stdio.h>
#include <string.h>

#include "nutrameza.h"

static int failures = 0;

static void same(const char *what, uint64_t got, uint64_t expected) {
    if (got != expected) {
        printf("%s: %llx, expected %llx\n", what, (unsigned long long)got, (unsigned long long)expected);
        failures++;
    }
}

/* Each kind of word with the largest numbers of its fields, and 0 for one more. */
static void test_words(void) {
    same("head", nutrameza_head_word(1, 2, 5), 0x102080A0u);
    same("head, largest", nutrameza_head_word(64, 64, 256), 0x18102000u);
    same("head, fields full", nutrameza_head_word(127, 127, 511), 0x1FFFFFE0u);
    same("head, users", nutrameza_head_word(128, 1, 1), 0);
    same("head, roles", nutrameza_head_word(1, 128, 1), 0);
    same("head, permissions", nutrameza_head_word(1, 1, 512), 0);
    same("assignment", nutrameza_assignment_word(63, 63), 0x2FFF0000u);
    same("assignment, user", nutrameza_assignment_word(64, 0), 0);
    same("assignment, role", nutrameza_assignment_word(0, 64), 0);
    same("grant", nutrameza_grant_word(63, 255), 0x3FFFC000u);
    same("grant, role", nutrameza_grant_word(64, 0), 0);
    same("grant, permission", nutrameza_grant_word(0, 256), 0);
    same("senior", nutrameza_senior_word(1, 2), 0x40420000u);
    same("senior, senior", nutrameza_senior_word(64, 0), 0);
    same("senior, junior", nutrameza_senior_word(0, 64), 0);
    same("exclusion", nutrameza_exclusion_word(NUTRAMEZA_MS_DMER, 2, 2), 0x54102000u);
    same("exclusion, fields full", nutrameza_exclusion_word(NUTRAMEZA_MS_HMER, 127, 127), 0x5FFFF000u);
    same("exclusion, kind", nutrameza_exclusion_word(4, 1, 1), 0);
    same("exclusion, n", nutrameza_exclusion_word(NUTRAMEZA_SS_DMER, 128, 1), 0);
    same("exclusion, m", nutrameza_exclusion_word(NUTRAMEZA_SS_HMER, 1, 128), 0);
    same("member", nutrameza_member_word(63), 0x6FC00000u);
    same("member, role", nutrameza_member_word(64), 0);
    same("limit", nutrameza_limit_word(1, 2), 0x70404000u);
    same("limit, largest", nutrameza_limit_word(63, NUTRAMEZA_MAX_LIMIT), 0x7FE00000u);
    same("limit, fields full", nutrameza_limit_word(63, 511), 0x7FFFE000u);
    same("limit, role", nutrameza_limit_word(64, 2), 0);
    same("limit, t", nutrameza_limit_word(0, 512), 0);
    same("end of nothing", nutrameza_end_word(NULL, 0), 0xF0000000u);
}

static void test_returned_values(void) {
    same("number", nutrameza_number_of(5u + 256u * 3u), NUTRAMEZA_REFUSED_RANGE);
    same("extra", nutrameza_extra_of(5u + 256u * 3u), 3);
    same("number of done", nutrameza_number_of(256u * 2u), NUTRAMEZA_DONE);
    same("done", (uint64_t)nutrameza_is_done(0), 1);
    same("done with an extra", (uint64_t)nutrameza_is_done(256u * 7u), 1);
    same("done with the largest extra", (uint64_t)nutrameza_is_done(UINT64_MAX - 255u), 1);
    same("refused", (uint64_t)nutrameza_is_done(1), 0);
    same("refused with an extra", (uint64_t)nutrameza_is_done(20u + 256u), 0);
    same("refused by the largest number", (uint64_t)nutrameza_is_done(UINT64_MAX), 0);
    same("largest extra", nutrameza_extra_of(8u + 256u * 4095u), 4095);
    same("explained role", nutrameza_explained_role(256u * (64u * 5u + 9u)), 5);
    same("granting role", nutrameza_granting_role(256u * (64u * 5u + 9u)), 9);
    same("explained role, largest", nutrameza_explained_role(256u * 4095u), 63);
    same("granting role, largest", nutrameza_granting_role(256u * 4095u), 63);
    same("obstacle's kind", nutrameza_obstacle_kind_of(256u * (NUTRAMEZA_OBSTACLE_OWN + 8u * 4u)), NUTRAMEZA_OBSTACLE_OWN);
    same("obstacle's permission", nutrameza_obstacle_permission(256u * (NUTRAMEZA_OBSTACLE_UPPER + 8u * 4u)), 4);
    same("obstacle's permission, largest", nutrameza_obstacle_permission(256u * (NUTRAMEZA_OBSTACLE_LIMIT + 8u * 255u)), 255);
    same("obstacle's exclusion", nutrameza_obstacle_kind_of(256u * (4u + 8u * (1u + 4u * 2u))), NUTRAMEZA_OBSTACLE_EXCLUSION);
    same("obstacle's which", nutrameza_obstacle_which(256u * (4u + 8u * (1u + 4u * 2u))), NUTRAMEZA_MS_DMER);
    same("obstacle's n", nutrameza_obstacle_n(256u * (4u + 8u * (1u + 4u * 2u))), 2);
    same("obstacle's which, largest", nutrameza_obstacle_which(256u * (4u + 8u * (3u + 4u * 64u))), NUTRAMEZA_MS_HMER);
    same("obstacle's n, largest", nutrameza_obstacle_n(256u * (4u + 8u * (3u + 4u * 64u))), 64);
    same("word of 0", (uint64_t)strcmp(nutrameza_word_of(NUTRAMEZA_DONE), "done"), 0);
    same("word of 8", (uint64_t)strcmp(nutrameza_word_of(NUTRAMEZA_REFUSED_BALANCE), "balance"), 0);
    same("word of 14", (uint64_t)strcmp(nutrameza_word_of(NUTRAMEZA_REFUSED_FULL), "full"), 0);
    same("word of 20", (uint64_t)strcmp(nutrameza_word_of(NUTRAMEZA_REFUSED_NONE), "none"), 0);
    same("word of 21", (uint64_t)strcmp(nutrameza_word_of(NUTRAMEZA_REFUSED_SCRIPT), "script"), 0);
    same("word of 22", (uint64_t)strcmp(nutrameza_word_of(NUTRAMEZA_REFUSED_LOOP), "loop"), 0);
    same("word of 23", (uint64_t)strcmp(nutrameza_word_of(NUTRAMEZA_REFUSED_REACH), "reach"), 0);
    same("word of 24", (uint64_t)strcmp(nutrameza_word_of(NUTRAMEZA_REFUSED_UPPER_SESSIONS), "upper sessions"), 0);
    same("word of 25", (uint64_t)strcmp(nutrameza_word_of(25), "unknown"), 0);
    same("number of a move's refusal", nutrameza_number_of(24u + 256u * 63u), NUTRAMEZA_REFUSED_UPPER_SESSIONS);
    same("user of a move's refusal", nutrameza_extra_of(24u + 256u * 63u), 63);
    same("unsound line of the asker", nutrameza_unsound_user(11u, 5), 5);
    same("unsound line of the first user", nutrameza_unsound_user(11u + 256u, 5), 0);
    same("unsound line of the last user", nutrameza_unsound_user(11u + 256u * 64u, 5), 63);
}

/* A line is 16 bytes and 16 for each session. */
static void test_lines(void) {
    same("sessions", NUTRAMEZA_SESSIONS, 8);
    same("bytes of a line", NUTRAMEZA_LINE_BYTES, 16 + 16 * NUTRAMEZA_SESSIONS);
    same("sessions of earlier versions", NUTRAMEZA_OLD_SESSIONS, 4);
    same("bytes of a line of earlier versions", NUTRAMEZA_OLD_LINE_BYTES, 16 + 16 * NUTRAMEZA_OLD_SESSIONS);
}

/* What the head of an image says; fields full, and too few bytes. */
static void test_heads(void) {
    uint8_t image[5];
    memset(image, 0xFF, sizeof image);
    nutrameza_write_word(image, nutrameza_head_word(1, 2, 5));
    same("users", nutrameza_image_users(image, sizeof image), 1);
    same("roles", nutrameza_image_roles(image, sizeof image), 2);
    same("permissions", nutrameza_image_permissions(image, sizeof image), 5);
    same("bytes of a ledger", nutrameza_ledger_bytes(image, 4), 144);
    nutrameza_write_word(image, nutrameza_head_word(64, 63, 256));
    same("users, largest", nutrameza_image_users(image, 4), 64);
    same("roles, one less", nutrameza_image_roles(image, 4), 63);
    same("permissions, largest", nutrameza_image_permissions(image, 4), 256);
    same("bytes of the largest ledger", nutrameza_ledger_bytes(image, 4), 9216);
    memset(image, 0xFF, sizeof image);
    same("users, field full", nutrameza_image_users(image, 4), 127);
    same("roles, field full", nutrameza_image_roles(image, 4), 127);
    same("permissions, field full", nutrameza_image_permissions(image, 4), 511);
    same("users of three bytes", nutrameza_image_users(image, 3), 0);
    same("roles of nothing", nutrameza_image_roles(NULL, 0), 0);
    same("permissions of nothing", nutrameza_image_permissions(NULL, 0), 0);
    same("bytes of a ledger under nothing", nutrameza_ledger_bytes(NULL, 0), 0);
}

/* The open sessions of the second of two lines, and none where there is no line. */
static void test_open_sessions(void) {
    uint8_t ledger[2 * NUTRAMEZA_LINE_BYTES] = {0};
    uint64_t session;
    ledger[NUTRAMEZA_LINE_BYTES] = 0x85;
    ledger[NUTRAMEZA_LINE_BYTES + 1] = 0xFF;
    same("line", (uint64_t)(nutrameza_line(ledger, sizeof ledger, 1) - ledger), NUTRAMEZA_LINE_BYTES);
    same("line beyond", nutrameza_line(ledger, sizeof ledger, 2) == NULL, 1);
    same("line far beyond", nutrameza_line(ledger, sizeof ledger, UINT64_MAX) == NULL, 1);
    same("line that is cut", nutrameza_line(ledger, sizeof ledger - 1, 1) == NULL, 1);
    same("line of nothing", nutrameza_line(NULL, 0, 0) == NULL, 1);
    same("open sessions, none", nutrameza_open_sessions(ledger, sizeof ledger, 0), 0);
    same("open sessions", nutrameza_open_sessions(ledger, sizeof ledger, 1), 0x85);
    same("open sessions beyond", nutrameza_open_sessions(ledger, sizeof ledger, 2), 0);
    for (session = 0; session < 70; session++) {
        same("open", (uint64_t)nutrameza_is_open(ledger, sizeof ledger, 1, session), session == 0 || session == 2 || session == 7);
        same("open, other line", (uint64_t)nutrameza_is_open(ledger, sizeof ledger, 0, session), 0);
        same("open, no line", (uint64_t)nutrameza_is_open(ledger, sizeof ledger, 2, session), 0);
    }
    same("open, largest numbers", (uint64_t)nutrameza_is_open(ledger, sizeof ledger, UINT64_MAX, UINT64_MAX), 0);
}

/* Versions compare as numbers. */
static void test_version(void) {
    char text[64];
    snprintf(text, sizeof text, "%d.%d.%d", NUTRAMEZA_VERSION_MAJOR, NUTRAMEZA_VERSION_MINOR, NUTRAMEZA_VERSION_PATCH);
    same("version", (uint64_t)strcmp(text, NUTRAMEZA_VERSION_STRING), 0);
    same("version as a number", nutrameza_version(), NUTRAMEZA_VERSION);
    same("1.2.3", NUTRAMEZA_VERSION_OF(1, 2, 3), 1002003);
    same("1.2.3 before 1.3.0", NUTRAMEZA_VERSION_OF(1, 2, 3) < NUTRAMEZA_VERSION_OF(1, 3, 0), 1);
}

static void test_sets(void) {
    uint8_t answer[NUTRAMEZA_ANSWER_BYTES] = {0};
    uint8_t *set = answer + 8;
    uint32_t p;
    for (p = 0; p < 300; p += 3) {
        nutrameza_add_permission(set, p);
    }
    for (p = 0; p < 300; p++) {
        same("permission of a set", (uint64_t)nutrameza_has_permission(nutrameza_answer_permissions(answer), p), p < 256 && p % 3 == 0);
    }
    same("roles, still none", nutrameza_answer_roles(answer), 0);
    answer[0] = 1;
    answer[7] = 0x80;
    same("roles 0 and 63", nutrameza_answer_roles(answer), 0x8000000000000001u);
    for (p = 0; p < 80; p++) {
        same("user of a set", (uint64_t)nutrameza_has_user(answer, p), p == 0 || p == 63);
    }
    same("a user far beyond", (uint64_t)nutrameza_has_user(answer, UINT64_C(1) << 32), 0);
    same("bytes of a set of users", NUTRAMEZA_USERS_BYTES, NUTRAMEZA_MAX_USERS / 8);
}

/* The two sets of an obstacle, each in its half. */
static void test_obstacle_sets(void) {
    uint8_t roles[NUTRAMEZA_OBSTACLE_BYTES] = {0};
    same("bytes of an obstacle", NUTRAMEZA_OBSTACLE_BYTES, 2 * NUTRAMEZA_ROLES_BYTES);
    roles[0] = 1;
    roles[7] = 0x80;
    same("first set", nutrameza_obstacle_first(roles), 0x8000000000000001u);
    same("second set, still empty", nutrameza_obstacle_second(roles), 0);
    roles[8] = 2;
    roles[15] = 0x40;
    same("second set", nutrameza_obstacle_second(roles), 0x4000000000000002u);
    same("first set as before", nutrameza_obstacle_first(roles), 0x8000000000000001u);
}

/* One bit of a table and of a turned one, and none for numbers beyond. */
static void test_tables(void) {
    uint8_t table[NUTRAMEZA_TABLE_BYTES] = {0}, turned[NUTRAMEZA_TABLE_BYTES] = {0};
    table[32 * 63 + 31] = 0x80;
    turned[8 * 255 + 7] = 0x80;
    same("last bit of a table", (uint64_t)nutrameza_table_has(table, 63, 255), 1);
    same("the bit before it", (uint64_t)nutrameza_table_has(table, 63, 254), 0);
    same("the row before it", (uint64_t)nutrameza_table_has(table, 62, 255), 0);
    same("a role beyond", (uint64_t)nutrameza_table_has(table, 64, 0), 0);
    same("a permission beyond", (uint64_t)nutrameza_table_has(table, 63, 256), 0);
    same("last row of a turned table", nutrameza_turned_roles(turned, 255), 0x8000000000000000u);
    same("the row before", nutrameza_turned_roles(turned, 254), 0);
    same("a row beyond", nutrameza_turned_roles(turned, 256), 0);
}

/* Image A of 01 by its entries. */
static int write_ward(const char *path) {
    uint32_t words[NUTRAMEZA_MAX_WORDS];
    uint8_t image[NUTRAMEZA_MAX_IMAGE_BYTES];
    size_t n = 0, written;
    uint32_t k;
    FILE *file;
    words[n++] = nutrameza_head_word(1, 2, 5);
    words[n++] = nutrameza_assignment_word(0, 0);
    words[n++] = nutrameza_assignment_word(0, 1);
    for (k = 0; k < 4; k++) {
        words[n++] = nutrameza_grant_word(0, k);
    }
    words[n++] = nutrameza_grant_word(1, 1);
    words[n++] = nutrameza_grant_word(1, 4);
    words[n++] = nutrameza_exclusion_word(NUTRAMEZA_MS_DMER, 2, 2);
    words[n++] = nutrameza_member_word(0);
    words[n++] = nutrameza_member_word(1);
    words[n] = nutrameza_end_word(words, n);
    n++;
    same("end of image A", words[n - 1], 0xFB0B9F60u);
    nutrameza_write_words(image, words, n);
    file = fopen(path, "wb");
    if (file == NULL) {
        return 1;
    }
    written = fwrite(image, 1, n * NUTRAMEZA_WORD_BYTES, file);
    return fclose(file) != 0 || written != n * NUTRAMEZA_WORD_BYTES;
}

int main(int count, char **arguments) {
    test_words();
    test_returned_values();
    test_lines();
    test_heads();
    test_open_sessions();
    test_version();
    test_sets();
    test_obstacle_sets();
    test_tables();
    if (count != 2 || write_ward(arguments[1]) != 0) {
        printf("no image written\n");
        failures++;
    }
    return failures != 0;
}
