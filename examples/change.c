/* A policy is changed while people work: whom the new image stops, and what is done about it (docs/CHANGING.md).
 *
 *     cc -std=c99 -Wall -Wextra -Werror -Iinclude examples/change.c target/staticlib/libnutrameza.a -o change
 *     ./change OLD NEW LEDGER [close]
 *
 * OLD and NEW are images, LEDGER is a ledger under OLD. Where NEW stops nobody, the ledger is grown by a zero line for
 * each user added and written back, and the site puts NEW in place. Else the users whom it stops are named and nothing
 * is changed; with 'close' their windows are closed under OLD first. The exit status is 0 if NEW may be put in place, 1
 * if it stops somebody, 2 for anything else.
 */
#define _POSIX_C_SOURCE 200809L
#include "nutrameza.h"

#include <fcntl.h>
#include <inttypes.h>
#include <libgen.h>
#include <stdio.h>
#include <string.h>
#include <unistd.h>

enum { MOST_LEDGER = NUTRAMEZA_LINE_BYTES * NUTRAMEZA_MAX_USERS };

struct image {
    const char *name;
    uint8_t bytes[NUTRAMEZA_MAX_IMAGE_BYTES + 1];
    size_t length;
};

static struct image old_image, new_image;
static uint8_t ledger[MOST_LEDGER + 1];

static int failed(const char *name, const char *what)
{
    fprintf(stderr, "%s: %s\n", name, what);
    return 2;
}

/* Reads a file of at most so many bytes and one more; 0 if it can't be read. */
static int read_file(const char *name, uint8_t *bytes, size_t most, size_t *length)
{
    FILE *file = fopen(name, "rb");
    if (file == NULL)
        return 0;
    *length = fread(bytes, 1, most, file);
    return fclose(file) == 0;
}

/* Puts bytes into a file, the old ones or the new ones whole, and has its name on disk too; 1 if they are there. */
static int save(const char *name, const uint8_t *bytes, size_t length)
{
    char part[4096], path[4096];
    if (snprintf(part, sizeof part, "%s.part", name) >= (int)sizeof part)
        return 0;
    int folder = open(dirname(strcpy(path, name)), O_RDONLY | O_DIRECTORY);
    int file = folder < 0 ? -1 : open(part, O_WRONLY | O_CREAT | O_TRUNC, 0600);
    if (file < 0)
        return 0;
    int good = write(file, bytes, length) == (ssize_t)length && fsync(file) == 0;
    good = close(file) == 0 && good;
    good = good && rename(part, name) == 0 && fsync(folder) == 0;
    return close(folder) == 0 && good;
}

/* Reads an image and has it checked: 0, or the exit status. */
static int load(struct image *image, const char *name)
{
    image->name = name;
    if (!read_file(name, image->bytes, sizeof image->bytes, &image->length))
        return failed(name, "can't be read");
    uint64_t returned = nutrameza_check(image->bytes, image->length);
    return nutrameza_is_done(returned) ? 0 : failed(name, nutrameza_word_of(nutrameza_number_of(returned)));
}

/* Says whom the new image stops on the grown ledger; how many they are, or -1 where the call is refused. */
static int tell(uint8_t *users, size_t length)
{
    uint64_t returned = nutrameza_stopped(new_image.bytes, new_image.length, ledger, length, users, NUTRAMEZA_USERS_BYTES);
    if (!nutrameza_is_done(returned))
        return -1;
    if (nutrameza_extra_of(returned) == 0) {
        printf("%s stops nobody\n", new_image.name);
        return 0;
    }
    printf("%s stops %" PRIu64 " of %zu users:", new_image.name, nutrameza_extra_of(returned), length / NUTRAMEZA_LINE_BYTES);
    for (uint64_t user = 0; user < NUTRAMEZA_MAX_USERS; user++)
        if (nutrameza_has_user(users, user))
            printf(" %" PRIu64, user);
    printf("\n");
    return (int)nutrameza_extra_of(returned);
}

/* Closes the open windows of these users under the old image, on the lines that it knows. */
static void close_windows(const uint8_t *users, size_t old_length)
{
    for (uint64_t user = 0; user < nutrameza_image_users(old_image.bytes, old_image.length); user++)
        for (uint64_t session = 0; session < NUTRAMEZA_SESSIONS && nutrameza_has_user(users, user); session++)
            if (nutrameza_is_done(nutrameza_close(old_image.bytes, old_image.length, ledger, old_length, user, session)))
                printf("user %" PRIu64 ": window %" PRIu64 " closed under %s\n", user, session, old_image.name);
}

int main(int argc, char **argv)
{
    uint8_t users[NUTRAMEZA_USERS_BYTES] = {0};
    size_t length;
    if ((argc != 4 && argc != 5) || (argc == 5 && strcmp(argv[4], "close") != 0))
        return failed("usage", "change OLD NEW LEDGER [close]");
    if (load(&old_image, argv[1]) != 0 || load(&new_image, argv[2]) != 0)
        return 2;
    if (!read_file(argv[3], ledger, sizeof ledger, &length) || length != nutrameza_ledger_bytes(old_image.bytes, old_image.length))
        return failed(argv[3], "is no ledger of the old image");
    size_t grown = nutrameza_ledger_bytes(new_image.bytes, new_image.length);
    if (grown < length)
        return failed(new_image.name, "has fewer users: numbers stay, and who leaves keeps a line without roles");
    memset(ledger + length, 0, grown - length);
    int stopped = tell(users, grown);
    if (stopped > 0 && argc == 5) {
        close_windows(users, length);
        stopped = tell(users, grown);
    }
    if (stopped < 0)
        return failed(argv[3], "the stopped call is refused");
    if (stopped > 0) {
        printf("nothing is changed\n");
        return 1;
    }
    if (!save(argv[3], ledger, grown))
        return failed(argv[3], "can't be written");
    printf("%s has %zu lines; put %s in place\n", argv[3], grown / NUTRAMEZA_LINE_BYTES, new_image.name);
    return 0;
}
