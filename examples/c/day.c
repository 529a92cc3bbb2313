/* A day. The first site counts the morning's quotes and saves. The standby site restores the image, and both count the
 * afternoon's quotes. In the evening the standby fits its counts, and the model answers signals.
 *
 *     gcc -I include examples/c/day.c target/staticlib/libmicro_price.a -o day && ./day
 *
 * Prices are whole units. Here a unit is 0.01: a price of 101.25 is 10125 units, and the tick of 0.25 is 25 units. Adjustments
 * are in units too. tests/example/README.md works out by hand what is printed.
 */
#include <inttypes.h>
#include <stdio.h>
#include <stdlib.h>
#include <string.h>

#include "micro_price.h"
#include "micro_price_env.h"
#include "micro_price_helpers.h"

#define UNITS_IN_1 100
#define COUNT_OF(array) (sizeof(array) / sizeof((array)[0]))

/* The time is in ms. */
struct quote {
    uint64_t time, bid, ask, bid_size, ask_size;
};

/* The memory of a calibrator. */
struct site {
    uint64_t *config, *rec, *stay, *moved;
    int64_t *move_half_ticks;
    size_t states;
};

static const struct quote morning[] = {
    {1000, 10100, 10150, 9, 1},
    {2000, 10125, 10150, 5, 5},
    {3000, 10130, 10150, 9, 1}, /* off the tick */
    {4000, 10150, 10175, 9, 1},
    {5000, 10150, 10175, 5, 5},
};

static const struct quote afternoon[] = {
    {3605000, 10125, 10175, 9, 1}, /* over the largest gap: a skip, and no pair with the morning's last quote */
    {3606000, 10125, 10175, 5, 5},
};

static const struct quote asked[] = {
    {3607000, 10125, 10150, 9, 1},
    {3608000, 10100, 10150, 1, 9},
    {3609000, 10125, 10175, 5, 5}, /* of a Rare state */
    {3610000, 10100, 10175, 9, 1}, /* three ticks wide */
    {3611000, 10150, 10150, 5, 5}, /* the ask is not over the bid */
};

/* Ends the program unless the answer is 0. */
static void check(uint64_t answer, const char *what) {
    if (answer == 0)
        return;
    fprintf(stderr, "%s: %s (%" PRIu64 ")\n", what, micro_price_message(answer), answer);
    exit(1);
}

static void print_quote(const struct quote *q) {
    printf("%" PRIu64 " / %" PRIu64 ", sizes %" PRIu64 " and %" PRIu64 ": ", q->bid, q->ask, q->bid_size, q->ask_size);
}

/* Whether a quote is accepted. Refusals 2 to 5 are the quote's own: they are printed, and the day goes on. */
static int accepted(uint64_t answer, const struct quote *q) {
    if (answer < MICRO_PRICE_OVER_DOMAIN || answer > MICRO_PRICE_EARLIER_TIME) {
        check(answer, "quote");
        return 1;
    }
    print_quote(q);
    printf("refused, %s (%" PRIu64 ")\n", micro_price_message(answer), answer);
    return 0;
}

static void observe(const struct site *site, const struct quote *quotes, size_t count) {
    size_t cells = MICRO_PRICE_CELLS(site->states);
    for (size_t i = 0; i < count; i++) {
        const struct quote *q = &quotes[i];
        uint64_t answer = micro_price_observe(site->config, MICRO_PRICE_CONFIG_WORDS, site->rec, MICRO_PRICE_RECORD_WORDS,
                                              site->stay, cells, site->moved, cells, site->move_half_ticks, site->states,
                                              q->time, q->bid, q->ask, q->bid_size, q->ask_size);
        (void)accepted(answer, q);
    }
}

static void print_counters(const char *when, const uint64_t *rec) {
    printf("%s: pairs %" PRIu64 ", spread skips %" PRIu64 ", gap skips %" PRIu64 ", largest change %" PRIu64 " half ticks\n",
           when, rec[6], rec[7], rec[8], rec[9]);
}

static void save(const struct site *site, uint8_t *image, size_t image_len) {
    size_t cells = MICRO_PRICE_CELLS(site->states);
    check(micro_price_save(site->config, MICRO_PRICE_CONFIG_WORDS, site->rec, MICRO_PRICE_RECORD_WORDS, site->stay, cells,
                           site->moved, cells, site->move_half_ticks, site->states, image, image_len), "save");
}

static void *room(size_t elements, size_t bytes_each) {
    void *memory = malloc(elements * bytes_each);
    if (memory == NULL) {
        fprintf(stderr, "no memory\n");
        exit(1);
    }
    return memory;
}

/* The states that an image says it has, judged so far that memory can be made for them. Restore judges the rest. */
static size_t states_of(const uint8_t *image, size_t image_len) {
    uint64_t states = image_len < MICRO_PRICE_IMAGE_HEADER ? 0 : micro_price_image_word(image, MICRO_PRICE_IMAGE_STATES);
    if (states == 0 || states > MICRO_PRICE_MAX_STATES)
        check(MICRO_PRICE_IMAGE_LAYOUT, "image");
    printf("image: %zu bytes, %" PRIu64 " buckets * %" PRIu64 " spread states = %" PRIu64 " states, tick %" PRIu64 "\n", image_len,
           micro_price_image_word(image, MICRO_PRICE_IMAGE_BUCKETS),
           micro_price_image_word(image, MICRO_PRICE_IMAGE_SPREAD_STATES), states,
           micro_price_image_word(image, MICRO_PRICE_IMAGE_TICK));
    return (size_t)states;
}

/* A site with what an image holds. Its memory needs no clearing: restore writes all of it. */
static struct site restore(const uint8_t *image, size_t image_len) {
    struct site site;
    site.states = states_of(image, image_len);
    size_t cells = MICRO_PRICE_CELLS(site.states);
    site.config = room(MICRO_PRICE_CONFIG_WORDS, sizeof *site.config);
    site.rec = room(MICRO_PRICE_RECORD_WORDS, sizeof *site.rec);
    site.stay = room(cells, sizeof *site.stay);
    site.moved = room(cells, sizeof *site.moved);
    site.move_half_ticks = room(site.states, sizeof *site.move_half_ticks);
    check(micro_price_restore(image, image_len, site.config, MICRO_PRICE_CONFIG_WORDS, site.rec, MICRO_PRICE_RECORD_WORDS,
                              site.stay, cells, site.moved, cells, site.move_half_ticks, site.states), "restore");
    return site;
}

static void release(struct site *site) {
    free(site->config);
    free(site->rec);
    free(site->stay);
    free(site->moved);
    free(site->move_half_ticks);
}

/* The model of a site's counts. */
static uint64_t *fit(const struct site *site) {
    size_t cells = MICRO_PRICE_CELLS(site->states);
    size_t scratch_len = MICRO_PRICE_SCRATCH(site->states);
    size_t model_len = MICRO_PRICE_MODEL(site->states);
    double *scratch = room(scratch_len, sizeof *scratch);
    uint64_t *model = room(model_len, sizeof *model);
    uint32_t was = micro_price_env_set();
    uint64_t answer = micro_price_fit_counts(site->config, MICRO_PRICE_CONFIG_WORDS, site->rec, MICRO_PRICE_RECORD_WORDS,
                                             site->stay, cells, site->moved, cells, site->move_half_ticks, site->states,
                                             scratch, scratch_len, model, model_len);
    micro_price_env_restore(was);
    check(answer, "fit");
    free(scratch);
    return model;
}

static void check_model(const struct site *site, const uint64_t *model) {
    size_t model_len = MICRO_PRICE_MODEL(site->states);
    uint64_t row = 0;
    uint32_t was = micro_price_env_set();
    uint64_t answer = micro_price_check_model(site->config, MICRO_PRICE_CONFIG_WORDS, model, model_len, &row);
    micro_price_env_restore(was);
    if (answer == MICRO_PRICE_MODEL_ROW)
        fprintf(stderr, "row %" PRIu64 "\n", row);
    check(answer, "model check");
}

/* Prints a checked model: each status has a name. */
static void print_model(const struct site *site, const uint64_t *model) {
    static const char *const statuses[] = {"Calibrated", "Rare", "NoPriceMove", "OutsideQuotes"};
    printf("bucket  spread  observations  first adjustment  adjustment   share  status\n");
    for (size_t state = 0; state < site->states; state++) {
        const uint64_t *row = &model[MICRO_PRICE_ROW_WORDS * state];
        printf("%6" PRIu64 "  %6" PRIu64 "  %12" PRIu64 "  %16.4f  %10.4f  %.4f  %s\n", row[0], row[1], row[2],
               micro_price_float(row[3]), micro_price_float(row[4]), micro_price_float(row[5]), statuses[row[6]]);
    }
}

static void print_signal(const struct site *site, const uint64_t *model, const struct quote *q) {
    static const char *const sources[] = {"MicroPrice", "MidFallback, Rare", "MidFallback, NoPriceMove",
                                          "MidFallback, OutsideQuotes", "SpreadOutOfRange"};
    uint64_t out[MICRO_PRICE_SIGNAL_WORDS];
    uint64_t row = 0;
    uint32_t was = micro_price_env_set();
    uint64_t answer = micro_price_signal(site->config, MICRO_PRICE_CONFIG_WORDS, model, MICRO_PRICE_MODEL(site->states), q->time,
                                         q->bid, q->ask, q->bid_size, q->ask_size, out, MICRO_PRICE_SIGNAL_WORDS, &row);
    micro_price_env_restore(was);
    if (!accepted(answer, q))
        return;
    double fair_value = (double)out[1] / 2 + micro_price_float(out[2]);
    print_quote(q);
    printf("fair value %.3f units, a price of %.5f, %s\n", fair_value, fair_value / UNITS_IN_1, sources[out[3]]);
}

int main(void) {
    enum { STATES = 3 * 2, CELLS = MICRO_PRICE_CELLS(STATES) };
    /* Tick, buckets of imbalance, spread states, least observations (1 for so short a day), largest gap in ms. */
    uint64_t config[MICRO_PRICE_CONFIG_WORDS] = {25, 3, 2, 1, 60000};
    uint64_t rec[MICRO_PRICE_RECORD_WORDS], stay[CELLS], moved[CELLS]; /* new fills them: they need no clearing */
    int64_t move_half_ticks[STATES];
    check(micro_price_new(config, MICRO_PRICE_CONFIG_WORDS, rec, MICRO_PRICE_RECORD_WORDS, stay, CELLS, moved, CELLS,
                          move_half_ticks, STATES), "new");
    /* The last five are the quote: time in ms, bid, ask, bid size, ask size. */
    check(micro_price_observe(config, MICRO_PRICE_CONFIG_WORDS, rec, MICRO_PRICE_RECORD_WORDS, stay, CELLS, moved, CELLS,
                              move_half_ticks, STATES, 0, 10100, 10125, 9, 1), "first quote");

    struct site first = {config, rec, stay, moved, move_half_ticks, STATES};
    observe(&first, morning, COUNT_OF(morning));
    print_counters("morning", first.rec);
    uint8_t image[MICRO_PRICE_IMAGE(STATES)], image_of_standby[MICRO_PRICE_IMAGE(STATES)];
    save(&first, image, sizeof image);

    struct site standby = restore(image, sizeof image);
    observe(&first, afternoon, COUNT_OF(afternoon));
    observe(&standby, afternoon, COUNT_OF(afternoon));
    print_counters("evening", standby.rec);
    save(&first, image, sizeof image);
    save(&standby, image_of_standby, sizeof image_of_standby);
    printf("both sites hold the same: %s\n", memcmp(image, image_of_standby, sizeof image) == 0 ? "yes" : "no");

    uint64_t *model = fit(&standby);
    check_model(&standby, model);
    print_model(&standby, model);
    for (size_t i = 0; i < COUNT_OF(asked); i++)
        print_signal(&standby, model, &asked[i]);
    free(model);
    release(&standby);
    return 0;
}
