/* Includes micro_price_helpers.h alone, in C and in C++. Prints the numbers from 0 to 102 and the largest, each with its text. The
 * exit status is 0, or the number of the first check that fails. */
#include "micro_price_helpers.h"

#include <inttypes.h>
#include <stdio.h>

static void print_message(uint64_t answer) {
    printf("%" PRIu64 " %s\n", answer, micro_price_message(answer));
}

/* The least byte stands first. */
static int reads_words(void) {
    static const uint8_t image[24] = {1, 2, 3, 4, 5, 6, 7, 8, 255, 0, 0, 0, 0, 0, 0, 0, 0, 0, 0, 0, 0, 0, 0, 128};
    return micro_price_image_word(image, 0) == 0x0807060504030201u && micro_price_image_word(image, 1) == 255
        && micro_price_image_word(image, 2) == 0x8000000000000000u;
}

/* IEEE 754: a sign, 11 bits of the exponent plus 1023, 52 bits of the fraction. */
static int makes_floats(void) {
    return micro_price_float(0x3ff8000000000000u) == 1.5 && micro_price_float(0xbfe0000000000000u) == -0.5
        && micro_price_float(0) == 0.0;
}

int main(void) {
    uint64_t answer;
    for (answer = 0; answer <= 102; answer++)
        print_message(answer);
    print_message(UINT64_MAX);
    if (!reads_words())
        return 1;
    if (!makes_floats())
        return 2;
    return 0;
}
