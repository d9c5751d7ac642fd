/* A host over the store: a ward is made where there is none, a window opened, Read_health_records asked for, the window
 * closed. docs/STORE.md has the lines in the middle.
 *
 *     cc -std=c99 examples/store.c -lnutrameza_store -o store
 *     ./store sqlite:ward.db policy.img
 */
#include <nutrameza_store.h>

#include <inttypes.h>
#include <stdio.h>

static int failed(const nutrameza_store *store, uint64_t returned)
{
    unsigned number = nutrameza_number_of(returned);
    fprintf(stderr, "%u %s: %s\n", number, nutrameza_store_word_of(number), nutrameza_store_error(store));
    return 1;
}

static int day(nutrameza_store *store, const uint8_t *image, size_t image_len)
{
    uint8_t lower[NUTRAMEZA_SET_BYTES] = {0}, upper[NUTRAMEZA_SET_BYTES] = {31};
    nutrameza_store_reply window, reply;
    uint64_t returned;
    nutrameza_add_permission(lower, 1);
    returned = nutrameza_store_create(store, "ward 3", image, image_len, NULL, 0);
    if (returned == 0 || returned == NUTRAMEZA_STORE_WARD) /* made, or there already */
        returned = nutrameza_store_open(store, "ward 3", 0, NULL, &window);
    if (nutrameza_number_of(returned) == NUTRAMEZA_DONE)
        returned = nutrameza_store_short_ask(store, "ward 3", 0, window.window, lower, upper, NULL, &reply);
    if (returned == NUTRAMEZA_STORE_UNKNOWN) /* the same request once more: its token is in the reply */
        returned = nutrameza_store_short_ask(store, "ward 3", 0, window.window, lower, upper, reply.token, &reply);
    if (returned != 0)
        return failed(store, returned);
    printf("roles %" PRIu64 " are on disk and may go live\n", nutrameza_answer_roles(reply.answer));
    returned = nutrameza_store_close(store, "ward 3", 0, window.window, NULL, NULL);
    return returned == 0 ? 0 : failed(store, returned);
}

int main(int argc, char **argv)
{
    static uint8_t image[NUTRAMEZA_MAX_IMAGE_BYTES];
    nutrameza_store *store = NULL;
    FILE *file = argc == 3 ? fopen(argv[2], "rb") : NULL;
    if (file == NULL)
        return 2;
    size_t image_len = fread(image, 1, sizeof image, file);
    fclose(file);
    uint64_t returned = nutrameza_store_connect(argv[1], "desk-7-2026-11-17", &store);
    if (returned == NUTRAMEZA_STORE_SCHEMA) /* a new database: extra 0 */
        returned = nutrameza_store_make(store);
    int status = returned == 0 ? day(store, image, image_len) : failed(store, returned);
    nutrameza_store_disconnect(store);
    return status;
}
