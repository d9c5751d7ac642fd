/* Writes the tidy image of each image file that the arguments name into the folder that the first argument names, under
 * the name of the file; nothing for one that is refused. */
#include <stdio.h>

#include "nutrameza.h"

/* Writes bytes to a file of the folder; 0 if they are there. */
static int write_to(const char *folder, const char *name, const uint8_t *bytes, size_t length) {
    char path[4096];
    if (snprintf(path, sizeof path, "%s/%s", folder, name) >= (int)sizeof path) {
        return 1;
    }
    FILE *file = fopen(path, "wb");
    if (file == NULL) {
        return 1;
    }
    size_t written = fwrite(bytes, 1, length, file);
    return fclose(file) != 0 || written != length;
}

int main(int count, char **arguments) {
    static uint8_t image[2 * NUTRAMEZA_MAX_IMAGE_BYTES], out[NUTRAMEZA_MAX_IMAGE_BYTES];
    for (int k = 2; k < count; k++) {
        FILE *file = fopen(arguments[k], "rb");
        if (file == NULL) {
            return 1;
        }
        size_t length = fread(image, 1, sizeof image, file);
        fclose(file);
        uint64_t returned = nutrameza_tidy(image, length, out, sizeof out);
        size_t tidy = (size_t)nutrameza_extra_of(returned) * NUTRAMEZA_WORD_BYTES;
        if (nutrameza_is_done(returned) && write_to(arguments[1], arguments[k], out, tidy) != 0) {
            return 1;
        }
    }
    return 0;
}
