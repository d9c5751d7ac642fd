/* Writes the clauses of an ask to standard output, for a PMaxSAT program (docs/CLAUSES.md).
 *
 *     clauses IMAGE LEDGER USER SESSION LOWER UPPER PERMISSION_AIM ROLE_AIM
 *
 * IMAGE is a file, LEDGER too, or the word 'new' for a ledger of zeros in which the user has just opened session 0. The
 * bounds are hex numbers whose bit p is permission p, the other numbers are decimal. A refusal is told on standard
 * error, and the exit status is then 1.
 */
#include <nutrameza.h>

#include <stdio.h>
#include <stdlib.h>
#include <string.h>

static uint8_t image[NUTRAMEZA_MAX_IMAGE_BYTES + 1];
static uint8_t ledger[128 * NUTRAMEZA_LINE_BYTES];

/* The bytes of a file, as many as there is room for; 0 for a file that can't be read, which every call refuses. */
static size_t read_file(const char *path, uint8_t *bytes, size_t room)
{
    FILE *file = fopen(path, "rb");
    if (file == NULL)
        return 0;
    size_t length = fread(bytes, 1, room, file);
    fclose(file);
    return length;
}

/* A bound of a hex number of at most 64 digits; 0 if it is none. */
static size_t read_bound(const char *digits, uint8_t *set)
{
    size_t length = strlen(digits);
    if (length < 1 || length > 64 || strspn(digits, "0123456789abcdefABCDEF") != length)
        return 0;
    memset(set, 0, NUTRAMEZA_SET_BYTES);
    for (size_t place = 0; place < length; place++) {
        char digit[2] = {digits[length - 1 - place], 0};
        unsigned long value = strtoul(digit, NULL, 16);
        for (uint32_t bit = 0; bit < 4; bit++)
            if (value >> bit & 1)
                nutrameza_add_permission(set, (uint32_t)(4 * place) + bit);
    }
    return NUTRAMEZA_SET_BYTES;
}

/* A ledger of zeros in which a user opens a session: its bytes. Where the open is refused, the clause text is too. */
static size_t new_ledger(size_t image_len, uint64_t user)
{
    size_t ledger_len = nutrameza_ledger_bytes(image, image_len);
    uint64_t opened = nutrameza_open(image, image_len, ledger, ledger_len, user);
    if (!nutrameza_is_done(opened))
        fprintf(stderr, "clauses: the open is refused, %s\n", nutrameza_word_of(nutrameza_number_of(opened)));
    return ledger_len;
}

int main(int count, char **words)
{
    if (count != 9) {
        fprintf(stderr, "clauses IMAGE LEDGER USER SESSION LOWER UPPER PERMISSION_AIM ROLE_AIM\n");
        return 2;
    }
    uint64_t user = strtoull(words[3], NULL, 10), session = strtoull(words[4], NULL, 10);
    size_t image_len = read_file(words[1], image, sizeof image);
    size_t ledger_len = strcmp(words[2], "new") == 0 ? new_ledger(image_len, user) : read_file(words[2], ledger, sizeof ledger);
    uint8_t lower[NUTRAMEZA_SET_BYTES], upper[NUTRAMEZA_SET_BYTES];
    size_t lower_len = read_bound(words[5], lower), upper_len = read_bound(words[6], upper);
    uint8_t *text = malloc(NUTRAMEZA_MAX_CLAUSES_BYTES);
    if (text == NULL) {
        fprintf(stderr, "clauses: no memory\n");
        return 1;
    }
    uint64_t returned = nutrameza_clauses(image, image_len, ledger, ledger_len, user, session, lower, lower_len, upper, upper_len,
                                          strtoull(words[7], NULL, 10), strtoull(words[8], NULL, 10), text,
                                          NUTRAMEZA_MAX_CLAUSES_BYTES);
    unsigned number = nutrameza_number_of(returned);
    int good = nutrameza_is_done(returned);
    if (good)
        good = fwrite(text, 1, nutrameza_extra_of(returned), stdout) == nutrameza_extra_of(returned) && fflush(stdout) == 0;
    else
        fprintf(stderr, "clauses: refused, %u %s\n", number, nutrameza_word_of(number));
    free(text);
    return !good;
}
