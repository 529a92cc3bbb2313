/* The chains of refusals.c, and what they share beside lent.h. */
#ifndef REFUSALS_H
#define REFUSALS_H

#include "lent.h"

#define COUNT_OF(array) (sizeof(array) / sizeof((array)[0]))

void chain_of_validate(void);
void chain_of_new(void);
void chain_of_observe(void);
void chain_of_save(void);
void chain_of_restore(void);
void chain_of_fit_counts(void);
void chain_of_fit_counts_with(void);
void chain_of_check_model(void);
void chain_of_signal(void);
void chain_of_window_of(void);
void chain_of_calibrate(void);
void chain_of_replay(void);

/* n = 3, s = 2, tick 5: the configuration of most chains. */
extern const uint64_t small_config[MICRO_PRICE_CONFIG_WORDS];

/* Counts under small_config: one pair, which stays and goes from state 2 to state 1, and its mirror, from 0 to 1. The last quote is
 * that of state 1, at time 2000. */
void put_one_pair(struct counts *c);

/* Makes 6, 9, 10 and 11 hold of counts whose skips, stay(0, 0), moved(0, 1) and totals of states 0 and 1 are zero. */
void break_counts(struct counts *c);

/* Runs with 6, 9, 10 and 11, by each cause. The counts are mended in the end. */
void run_broken_counts(void (*run)(void), struct counts *c, size_t n, size_t states);

/* Makes 8 hold by each of 2, 3 and 4, and runs with each. The quote is mended in the end. */
void break_last_quote(struct counts *c);
void run_broken_last_quote(void (*run)(void), struct counts *c);

/* The image of a configuration and counts with 6 states, from the words of document 01's "The image". */
void make_image(uint8_t *at, const uint64_t *config, const struct counts *c);
void put_word(uint8_t *image, size_t word, uint64_t value);

#endif
