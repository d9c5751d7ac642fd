/* Prints what the check says of each image file that the arguments name: number, the refusal's word and extra, a line
 * each. */
#include <stdio.h>

#include "nutrameza.h"

int main(int count, char **arguments) {
    static uint8_t image[2 * NUTRAMEZA_MAX_IMAGE_BYTES];
    for (int k = 1; k < count; k++) {
        FILE *file = fopen(arguments[k], "rb");
        if (file == NULL) {
            return 1;
        }
        size_t length = fread(image, 1, sizeof image, file);
        fclose(file);
        uint64_t returned = nutrameza_check(image, length);
        unsigned number = nutrameza_number_of(returned);
        printf("%u %s %llu\n", number, nutrameza_word_of(number), (unsigned long long)nutrameza_extra_of(returned));
    }
    return 0;
}
