/* quotes::mirror itself (mirror_number.rt.txt): every state of all valid n and s against mirrors.h, numbers that are no state, and
 * n and s that no configuration has. Prints how many n and s there are. */
#include "mirrors.h"

#include <stdint.h>
#include <stdio.h>
#include <stdlib.h>

/* The mirror of a state, or SIZE_MAX if there is no such state. */
size_t mirror_number(uint64_t n, uint64_t s, size_t state);

static void expect(size_t n, size_t s, size_t state, size_t wanted) {
    size_t mirror = mirror_number(n, s, state);
    if (mirror != wanted) {
        fprintf(stderr, "divisions: n = %zu, s = %zu: the mirror of %zu is %zu and not %zu\n", n, s, state, mirror, wanted);
        exit(1);
    }
}

/* Worked out by hand: n, s, state, mirror. */
static const size_t cases[][4] = {
    {3, 2, 0, 2}, {3, 2, 1, 1}, {3, 2, 2, 0}, {3, 2, 3, 5}, {3, 2, 4, 4}, {3, 2, 5, 3}, {3, 2, 6, SIZE_MAX},
    {3, 85, 252, 254}, {3, 85, 253, 253}, {3, 85, 254, 252}, {3, 85, 255, SIZE_MAX}, {255, 1, 0, 254}, {255, 1, 254, 0},
    {3, 2, SIZE_MAX, SIZE_MAX}, {4, 2, 0, SIZE_MAX}, {1, 2, 0, SIZE_MAX}, {3, 0, 0, SIZE_MAX}, {3, 86, 0, SIZE_MAX}, {0, 2, 0, SIZE_MAX},
};

int main(void) {
    size_t n = 3, s = 0;
    int shapes = 0;
    for (size_t i = 0; i < sizeof cases / sizeof cases[0]; i++)
        expect(cases[i][0], cases[i][1], cases[i][2], cases[i][3]);
    for (; next_shape(&n, &s); shapes++) {
        for (size_t state = 0; state < n * s; state++)
            expect(n, s, state, by_remainder(state, n));
        expect(n, s, n * s, SIZE_MAX);
    }
    printf("%d\n", shapes);
    return 0;
}
