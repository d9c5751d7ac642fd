/* A ledger is carried from four windows a user to eight, or back (docs/OPERATIONS.md).
 *
 *     cc -std=c99 -Wall -Wextra -Werror -Iinclude examples/carry.c target/staticlib/libnutrameza.a -o carry
 *     ./carry over FOLDER OLD NEW
 *     ./carry back FOLDER OLD NEW
 *
 * The policy, policy.img, and the ledgers OLD and NEW are files of FOLDER; OLD stays as it is. No window lives while it
 * runs, so it closes those above 3 itself; a host that is up asks its users first. The exit status is 0 if NEW is
 * written, 1 if the move is refused or NEW can't be written, 2 for wrong usage.
 */
#define _POSIX_C_SOURCE 200809L
#include <nutrameza.h>

#include <fcntl.h>
#include <inttypes.h>
#include <stdio.h>
#include <string.h>
#include <unistd.h>

/* One byte more than fits, so that a file that is too long is refused. */
enum { MOST = NUTRAMEZA_MAX_USERS * NUTRAMEZA_LINE_BYTES + 1 };

static int folder;
static uint8_t image[NUTRAMEZA_MAX_IMAGE_BYTES + 1], old_ledger[MOST], new_ledger[2 * MOST];
static size_t image_len, old_len, new_len;

/* The bytes of a file of the folder; none where it can't be read, and the calls refuse that. */
static size_t load(const char *name, uint8_t *bytes, size_t most)
{
    int file = openat(folder, name, O_RDONLY);
    if (file < 0)
        return 0;
    size_t length = 0;
    ssize_t got;
    while ((got = read(file, bytes + length, most - length)) > 0)
        length += (size_t)got;
    return close(file) == 0 && got == 0 ? length : 0;
}

/* Puts the new ledger on disk under a name that nothing has, and has the name on disk too; 1 if it is there whole. */
static int save(const char *name)
{
    int file = openat(folder, "ledger.part", O_WRONLY | O_CREAT | O_TRUNC, 0600);
    if (file < 0)
        return 0;
    int good = write(file, new_ledger, new_len) == (ssize_t)new_len && fsync(file) == 0;
    good = close(file) == 0 && good;
    return good && renameat(folder, "ledger.part", folder, name) == 0 && fsync(folder) == 0;
}

/* Makes the move, and says how it went. */
static uint64_t carry(const char *way, int over)
{
    uint64_t returned = over ? nutrameza_widen(image, image_len, old_ledger, old_len, new_ledger, new_len)
                             : nutrameza_narrow(image, image_len, old_ledger, old_len, new_ledger, new_len);
    unsigned number = nutrameza_number_of(returned);
    if (nutrameza_is_done(returned))
        printf("%s: done, %zu bytes\n", way, new_len);
    else
        printf("%s: refused, %u %s (%" PRIu64 ")\n", way, number, nutrameza_word_of(number), nutrameza_extra_of(returned));
    return returned;
}

/* Closes a user's windows above 3 in the copy that is carried back. */
static void close_upper(uint64_t user)
{
    for (uint64_t session = NUTRAMEZA_OLD_SESSIONS; session < NUTRAMEZA_SESSIONS; session++)
        if (nutrameza_is_done(nutrameza_close(image, image_len, old_ledger, old_len, user, session)))
            printf("user %" PRIu64 ": window %" PRIu64 " closed\n", user, session);
}

int main(int count, char **words)
{
    int over = count == 5 && strcmp(words[1], "over") == 0;
    folder = count == 5 ? open(words[2], O_RDONLY | O_DIRECTORY) : -1;
    if (folder < 0 || (!over && strcmp(words[1], "back") != 0)) {
        fprintf(stderr, "carry over|back FOLDER OLD NEW\n");
        return 2;
    }
    image_len = load("policy.img", image, sizeof image);
    old_len = load(words[3], old_ledger, sizeof old_ledger);
    new_len = old_len / (over ? NUTRAMEZA_OLD_LINE_BYTES : NUTRAMEZA_LINE_BYTES) *
              (over ? NUTRAMEZA_LINE_BYTES : NUTRAMEZA_OLD_LINE_BYTES);
    uint64_t returned = carry(words[1], over);
    while (nutrameza_number_of(returned) == NUTRAMEZA_REFUSED_UPPER_SESSIONS) {
        close_upper(nutrameza_extra_of(returned));
        returned = carry(words[1], over);
    }
    return !nutrameza_is_done(returned) || !save(words[4]);
}
