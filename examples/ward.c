/* The ward in ten lines: while one window holds Doctor, the other can't have Data_Manager. */
#include <stdio.h>

#include <nutrameza.h>

int main(void)
{
    const uint8_t wishes[][NUTRAMEZA_SET_BYTES] = {{1 << 2}, {1 << 4}}; /* Prescribe, then Send_data */
    const uint8_t everything[NUTRAMEZA_SET_BYTES] = {31};
    uint8_t image[NUTRAMEZA_MAX_IMAGE_BYTES], ledger[NUTRAMEZA_LINE_BYTES] = {0}, answer[NUTRAMEZA_ANSWER_BYTES];
    size_t len = fread(image, 1, sizeof image, stdin);
    for (int k = 0; k < 2; k++) {
        uint64_t session = nutrameza_extra_of(nutrameza_open(image, len, ledger, sizeof ledger, 0));
        uint64_t asked = nutrameza_short_ask(image, len, ledger, sizeof ledger, 0, session, wishes[k], sizeof wishes[k],
                                             everything, sizeof everything, answer, sizeof answer);
        unsigned roles = nutrameza_is_done(asked) ? (unsigned)nutrameza_answer_roles(answer) : 0;
        printf("%s %x\n", nutrameza_word_of(nutrameza_number_of(asked)), roles);
    }
}
