/* The mirror of document 01 by a remainder, and every n and s that a configuration may have. */
#ifndef MIRRORS_H
#define MIRRORS_H

#include <stddef.h>

#define MOST_STATES 256

static size_t by_remainder(size_t state, size_t n) {
    return state - state % n + (n - 1 - state % n);
}

/* The shapes, in order: (3, 1), .., (3, 85), (5, 1), .., (255, 1). 0 after the last. */
static int next_shape(size_t *n, size_t *s) {
    *s += 1;
    if (*n * *s > MOST_STATES) {
        *n += 2;
        *s = 1;
    }
    return *n <= MOST_STATES;
}

#endif
