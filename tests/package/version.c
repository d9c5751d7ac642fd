/* Prints the version that the program was compiled for and that of the library that it runs with. */
#include <nutrameza.h>
#include <stdio.h>

int main(void) {
    printf("%s %u %u\n", NUTRAMEZA_VERSION_STRING, (unsigned)nutrameza_version(), (unsigned)nutrameza_shared_version());
    return 0;
}
