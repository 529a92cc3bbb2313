/* All mirrors of all valid n and s, through save, restore, the fit and the model check: of each n and s counts and a model that these
 * accept only if each state's mirror is that of mirrors.h, and some that they must refuse. Prints how many n and s there are. */
#include "micro_price.h"
#include "mirrors.h"

#include <stdio.h>
#include <stdlib.h>
#include <string.h>

/* Pairs that go from each state to the middle state of the first spread, mirrors included. */
enum { MOVED = 512 };

/* Words of a record and of a row. */
enum { RECORD_PAIRS = 6, ROW_FIRST = 3, ROW_ADJUSTMENT = 4 };

static size_t n, s, states;
static uint64_t config[MICRO_PRICE_CONFIG_WORDS], rec[MICRO_PRICE_RECORD_WORDS];
static uint64_t stay[MICRO_PRICE_CELLS(MOST_STATES)], moved[MICRO_PRICE_CELLS(MOST_STATES)], model[MICRO_PRICE_MODEL(MOST_STATES)];
static int64_t totals[MOST_STATES];
static double scratch[MICRO_PRICE_SCRATCH(MOST_STATES)];
static uint8_t image[MICRO_PRICE_IMAGE(MOST_STATES)];

static void expect(int holds, const char *what) {
    if (!holds) {
        fprintf(stderr, "divisions: n = %zu, s = %zu: %s\n", n, s, what);
        exit(1);
    }
}

static uint64_t save(void) {
    return micro_price_save(config, MICRO_PRICE_CONFIG_WORDS, rec, MICRO_PRICE_RECORD_WORDS, stay, MICRO_PRICE_CELLS(states), moved,
                            MICRO_PRICE_CELLS(states), totals, states, image, MICRO_PRICE_IMAGE(states));
}

static uint64_t restore(void) {
    return micro_price_restore(image, MICRO_PRICE_IMAGE(states), config, MICRO_PRICE_CONFIG_WORDS, rec, MICRO_PRICE_RECORD_WORDS, stay,
                               MICRO_PRICE_CELLS(states), moved, MICRO_PRICE_CELLS(states), totals, states);
}

static uint64_t fit(void) {
    return micro_price_fit_counts(config, MICRO_PRICE_CONFIG_WORDS, rec, MICRO_PRICE_RECORD_WORDS, stay, MICRO_PRICE_CELLS(states),
                                  moved, MICRO_PRICE_CELLS(states), totals, states, scratch, MICRO_PRICE_SCRATCH(states), model,
                                  MICRO_PRICE_MODEL(states));
}

static uint64_t check_model(uint64_t *row) {
    return micro_price_check_model(config, MICRO_PRICE_CONFIG_WORDS, model, MICRO_PRICE_MODEL(states), row);
}

/* Counts that are mirrored if `mirror` has each state's mirror, and not otherwise. The totals of a state and its mirror are one
 * number and its negative, which no other state has. A state that is its own mirror has the total 0, and in its own cell of stay a
 * number that no other has. */
static void fill(const size_t *mirror) {
    const uint64_t words[MICRO_PRICE_CONFIG_WORDS] = {2, n, s, 1, 1000};
    uint64_t own = 0, cells = 0;
    memcpy(config, words, sizeof config);
    memset(rec, 0, sizeof rec);
    memset(stay, 0, sizeof stay);
    memset(moved, 0, sizeof moved);
    for (size_t i = 0; i < states; i++) {
        size_t other = mirror[i];
        totals[i] = i < other ? 2 * (int64_t)(i + 1) : i > other ? -2 * (int64_t)(other + 1) : 0;
        if (i == other) {
            own += 2;
            stay[i * states + i] = own;
            cells += own;
        }
        moved[i * states + n / 2] = MOVED;
        cells += MOVED;
    }
    rec[RECORD_PAIRS] = cells / 2;
}

/* A word of row i, and as a float. */
static uint64_t *word_of(size_t i, size_t word) {
    return &model[MICRO_PRICE_ROW_WORDS * i + word];
}

static double float_of(size_t i, size_t word) {
    double x;
    memcpy(&x, word_of(i, word), sizeof x);
    return x;
}

/* K of a state is its total over MOVED, and 0 of the states to which all move, so that the series adds nothing; the tick is 2. So the
 * adjustments of a state are (K - K of its mirror) / 2, which is K. */
static void accepted(void) {
    size_t mirror[MOST_STATES];
    uint64_t row = 0;
    for (size_t i = 0; i < states; i++)
        mirror[i] = by_remainder(i, n);
    fill(mirror);
    expect(save() == 0, "save refuses mirrored counts");
    memset(stay, 0, sizeof stay);
    expect(restore() == 0, "restore refuses a mirrored image");
    expect(fit() == 0, "the fit refuses mirrored counts");
    for (size_t i = 0; i < states; i++) {
        double k = (double)totals[i] / MOVED;
        expect(float_of(i, ROW_FIRST) == k && float_of(i, ROW_ADJUSTMENT) == k, "an adjustment is not that of state and mirror");
    }
    expect(check_model(&row) == 0, "the check refuses a mirrored model");
}

/* Of two spreads or more, counts whose spreads are mirrored too, and a model in which the adjustments of the first states of two
 * spreads have changed places. */
static void refused(void) {
    size_t mirror[MOST_STATES];
    uint64_t row = 1;
    for (size_t word = ROW_FIRST; word <= ROW_ADJUSTMENT; word++) {
        uint64_t first = *word_of(0, word);
        *word_of(0, word) = *word_of(n, word);
        *word_of(n, word) = first;
    }
    expect(check_model(&row) == MICRO_PRICE_MODEL_ROW && row == 0, "the check takes a model with two adjustments exchanged");
    for (size_t i = 0; i < states; i++)
        mirror[i] = states - 1 - i;
    fill(mirror);
    expect(save() == MICRO_PRICE_TOTALS_UNMIRRORED, "save takes counts with mirrored spreads");
    expect(fit() == MICRO_PRICE_TOTALS_UNMIRRORED, "the fit takes counts with mirrored spreads");
}

int main(void) {
    int shapes = 0;
    for (n = 3, s = 0; next_shape(&n, &s); shapes++) {
        states = n * s;
        accepted();
        if (s >= 2)
            refused();
    }
    printf("%d\n", shapes);
    return 0;
}
