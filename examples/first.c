/* A first host: two windows of one doctor under the ward's policy (docs/START.md).
 *
 *     mkdir site && tools/policy build examples/ward.policy -o site/policy.img
 *     cc $(pkg-config --cflags nutrameza-static) examples/first.c $(pkg-config --libs nutrameza-static) -o first &&
 *     ./first site
 *
 * The folder that it is given has the policy, policy.img, and keeps the ledger. The exit status is 1 where the image is
 * missing or refused, or the ledger is not one of it.
 */
#define _POSIX_C_SOURCE 200809L
#include <errno.h>
#include <fcntl.h>
#include <inttypes.h>
#include <stdio.h>
#include <stdlib.h>
#include <string.h>
#include <unistd.h>

#include <nutrameza.h>

/* Numbers follow the declarations of the policy text. */
enum { ANNA, USERS };
enum { READ_ID, READ_HEALTH_RECORDS, PRESCRIBE, READ_PRESCRIPTION, SEND_DATA, PERMISSIONS };

static int folder;
static uint8_t image[NUTRAMEZA_MAX_IMAGE_BYTES + 1]; /* one byte more than fits, so that a file that is too long is refused */
static size_t image_len;
static uint8_t ledger[USERS * NUTRAMEZA_LINE_BYTES];

/* The bytes of a file of the folder, at most so many; -1 where it can't be read. */
static ssize_t load(const char *name, uint8_t *bytes, size_t most)
{
    int file = openat(folder, name, O_RDONLY);
    ssize_t length = file < 0 ? -1 : read(file, bytes, most);
    if (file >= 0)
        close(file);
    return length;
}

/* Reads the policy image and has it judged; 1 if it is accepted. */
static int load_policy(void)
{
    ssize_t length = load("policy.img", image, sizeof image);
    image_len = length < 0 ? 0 : (size_t)length;
    uint64_t checked = nutrameza_check(image, image_len);
    unsigned number = nutrameza_number_of(checked);
    if (!nutrameza_is_done(checked))
        printf("policy: refused, %u %s (%" PRIu64 ")\n", number, nutrameza_word_of(number),
               nutrameza_extra_of(checked));
    return nutrameza_is_done(checked);
}

/* Reads the ledger as it was left; zeros where there never was one. 1 if it is of this policy's length. */
static int load_ledger(void)
{
    uint8_t found[sizeof ledger + 1] = {0};
    ssize_t length = load("ledger", found, sizeof found);
    if (length < 0 && errno == ENOENT)
        length = sizeof ledger;
    if (length != sizeof ledger || nutrameza_ledger_bytes(image, image_len) != sizeof ledger) {
        printf("ledger: can't be read, or is not of this policy\n");
        return 0;
    }
    memcpy(ledger, found, sizeof ledger);
    return 1;
}

/* Puts the ledger on disk, the old one or the new one whole; 1 if the new one is there, 0 if the old one is. */
static int persist(void)
{
    int file = openat(folder, "ledger.part", O_WRONLY | O_CREAT | O_TRUNC, 0600);
    if (file < 0)
        return 0;
    int good = write(file, ledger, sizeof ledger) == (ssize_t)sizeof ledger && fsync(file) == 0;
    good = close(file) == 0 && good;
    if (!good || renameat(folder, "ledger.part", folder, "ledger") != 0)
        return 0;
    if (fsync(folder) != 0) { /* the old one or the new one: nobody knows, so start again from what is there */
        perror("the folder of the ledger");
        exit(1);
    }
    return 1;
}

/* What follows a call that may change the ledger: 1 if it is done and on disk, else the ledger is as before and the
 * user is told. */
static int settled(const char *what, uint64_t returned, const uint8_t *before)
{
    unsigned number = nutrameza_number_of(returned);
    if (!nutrameza_is_done(returned)) {
        printf("%s: refused, %u %s\n", what, number, nutrameza_word_of(number));
        return 0;
    }
    if (!persist()) {
        memcpy(ledger, before, sizeof ledger);
        printf("%s: not saved, nothing changes\n", what);
        return 0;
    }
    return 1;
}

/* A window opens. */
static void open_window(void)
{
    uint8_t before[sizeof ledger];
    memcpy(before, ledger, sizeof ledger);
    uint64_t returned = nutrameza_open(image, image_len, ledger, sizeof ledger, ANNA);
    if (settled("open", returned, before))
        printf("open: window %" PRIu64 "\n", nutrameza_extra_of(returned));
}

/* A window closes. */
static void close_window(uint64_t session)
{
    uint8_t before[sizeof ledger];
    memcpy(before, ledger, sizeof ledger);
    uint64_t returned = nutrameza_close(image, image_len, ledger, sizeof ledger, ANNA, session);
    if (settled("close", returned, before))
        printf("close: window %" PRIu64 "\n", session);
}

/* A button that needs two permissions is pressed in a window. It may have any other permission beside them. */
static void press(const char *button, uint64_t session, uint32_t one, uint32_t other)
{
    uint8_t lower[NUTRAMEZA_SET_BYTES] = {0}, upper[NUTRAMEZA_SET_BYTES] = {0}, answer[NUTRAMEZA_ANSWER_BYTES];
    uint8_t before[sizeof ledger];
    nutrameza_add_permission(lower, one);
    nutrameza_add_permission(lower, other);
    for (uint32_t permission = 0; permission < PERMISSIONS; permission++)
        nutrameza_add_permission(upper, permission);
    memcpy(before, ledger, sizeof ledger);
    uint64_t returned = nutrameza_short_ask(image, image_len, ledger, sizeof ledger, ANNA, session, lower, sizeof lower,
                                            upper, sizeof upper, answer, sizeof answer);
    if (settled(button, returned, before))
        printf("%s: roles %" PRIx64 " go live in window %" PRIu64 "\n", button, nutrameza_answer_roles(answer),
               session);
}

/* The windows of an earlier run are gone; their sessions are closed. */
static void close_left_over(void)
{
    for (uint64_t session = 0; session < NUTRAMEZA_SESSIONS; session++)
        if (nutrameza_is_open(ledger, sizeof ledger, ANNA, session))
            close_window(session);
}

int main(int count, char **words)
{
    folder = open(count == 2 ? words[1] : ".", O_RDONLY | O_DIRECTORY);
    if (!load_policy() || !load_ledger())
        return 1;
    close_left_over();
    open_window();
    press("records", 0, READ_ID, READ_HEALTH_RECORDS);
    open_window();
    press("send", 1, READ_HEALTH_RECORDS, SEND_DATA);
    close_window(0);
    press("send", 1, READ_HEALTH_RECORDS, SEND_DATA);
    return 0;
}
