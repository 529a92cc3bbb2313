/* To be compiled and linked with -ffast-math, whose start-up code sets flush to zero: a check and a fit outside of the pair of
 * micro_price_env.h differ from what is proved, and inside it they do not. The exit status is 0 if all holds. */
#include "example.h"
#include "micro_price_env.h"

#include <xmmintrin.h>

/* Of the control word: results and operands that are subnormal are taken as zero; the flags. */
#define FLUSH_TO_ZERO 0x8000u
#define SUBNORMALS_ARE_ZERO 0x0040u
#define FLAGS 0x003fu

/* A chain of states: n = 3, s = LINKS, tick 2. From bucket 0 of each spread one of 2^44 pairs stays at the mid and goes to
 * bucket 0 of the next spread; the others move and end in state 1, which is Rare. The middle buckets have no pairs. Only the
 * moves out of the last spread do not cancel: their total is minus 2^44. The other side mirrors it. */
#define LINKS 25
#define CHAIN (3 * LINKS)
#define OBSERVED ((uint64_t)1 << 44)

static const uint64_t chain_config[MICRO_PRICE_CONFIG_WORDS] = {2, 3, LINKS, 1, 1000};
static uint64_t chain_rec[MICRO_PRICE_RECORD_WORDS];
static uint64_t chain_stay[MICRO_PRICE_CELLS(CHAIN)];
static uint64_t chain_moved[MICRO_PRICE_CELLS(CHAIN)];
static int64_t chain_totals[CHAIN];
static double chain_scratch[MICRO_PRICE_SCRATCH(CHAIN)];
static uint64_t chain_model[MICRO_PRICE_MODEL(CHAIN)];

static void make_chain(void) {
    size_t link;
    for (link = 0; link < LINKS; link++) {
        size_t low = 3 * link;
        size_t high = low + 2;
        uint64_t stays = link + 1 < LINKS ? 1 : 0;
        if (stays) {
            chain_stay[low * CHAIN + low + 3] = 1;
            chain_stay[high * CHAIN + high + 3] = 1;
        }
        chain_moved[low * CHAIN + 1] = OBSERVED - stays;
        chain_moved[high * CHAIN + 1] = OBSERVED - stays;
    }
    chain_totals[CHAIN - 3] = -(int64_t)OBSERVED;
    chain_totals[CHAIN - 1] = (int64_t)OBSERVED;
    /* The pairs: half of all cells. */
    chain_rec[6] = LINKS * OBSERVED;
}

static uint64_t fit_chain(void) {
    return micro_price_fit_counts(SLICE(chain_config), SLICE(chain_rec), SLICE(chain_stay), SLICE(chain_moved), SLICE(chain_totals),
                                  SLICE(chain_scratch), SLICE(chain_model));
}

static uint64_t chain_adjustment(size_t state) {
    return chain_model[MICRO_PRICE_ROW_WORDS * state + ROW_ADJUSTMENT];
}

/* By hand: K is 0 but for the last link, -1 there; Q is 2^-44 from link to link, so G1 of a link that is k before the last is
 * -2^(-44 k), exactly. All that moves ends in a Rare state, so the series adds nothing. The adjustment is
 * (own - mirrored) / 2 * (tick / 2) = G1. At k = 24 that is -2^-1056, a subnormal: bit 18 of the fraction. */
static uint64_t by_hand(size_t before_last) {
    uint64_t power = 44 * before_last;
    return SIGN | (power < 1023 ? (1023 - power) << 52 : LEAST_FLOAT << (1074 - power));
}

static int chain_by_hand(void) {
    size_t link;
    for (link = 0; link < LINKS; link++) {
        uint64_t wanted = by_hand(LINKS - 1 - link);
        if (chain_adjustment(3 * link) != wanted || chain_adjustment(3 * link + 2) != (wanted ^ SIGN))
            return 0;
    }
    return 1;
}

static void check_in_both(void) {
    uint64_t model[MODEL];
    uint64_t row = 77;
    uint32_t was;
    uint64_t answer;
    adjusted(model, 3, LEAST_FLOAT, 5, SIGN | LEAST_FLOAT);
    expect(check(model, &row) == 0, "check_model", "outside of the pair Rare rows adjusted by 2^-1074 are accepted");
    was = micro_price_env_set();
    answer = check(model, &row);
    micro_price_env_restore(was);
    expect(answer == MICRO_PRICE_MODEL_ROW && row == 3, "check_model", "inside the pair they are refused, 13 at row 3");
}

static void fit_chain_in_both(void) {
    uint32_t was;
    uint64_t answer;
    make_chain();
    expect(fit_chain() == 0 && chain_adjustment(0) == 0, "fit_counts", "outside of the pair -2^-1056 is fitted as 0");
    was = micro_price_env_set();
    answer = fit_chain();
    micro_price_env_restore(was);
    expect(answer == 0 && chain_by_hand(), "fit_counts", "inside the pair the chain is fitted as worked out by hand");
}

static void fit_example(void) {
    struct calibrator c;
    uint64_t model[MODEL];
    uint64_t answer;
    uint32_t was;
    memset(model, 0xa5, sizeof model);
    expect(count_quotes(&c, example_quotes, 2) == 0, "observe", "document 01's example is counted");
    was = micro_price_env_set();
    answer = fit(&c, model);
    micro_price_env_restore(was);
    expect(answer == 0 && memcmp(model, example_model, sizeof model) == 0, "fit_counts",
           "inside the pair the fit of document 01's example has its 42 words");
}

static void look_at_the_word(void) {
    uint64_t model[MODEL];
    uint64_t row;
    uint32_t before = _mm_getcsr() & ~FLAGS;
    uint32_t was, inside, raised;
    adjusted(model, 3, LEAST_FLOAT, 5, SIGN | LEAST_FLOAT);
    _mm_setcsr(before);
    was = micro_price_env_set();
    inside = _mm_getcsr();
    check(model, &row);
    raised = _mm_getcsr() & FLAGS;
    micro_price_env_restore(was);
    expect(was == before, "control word", "set answers it as it was");
    expect(inside == 0x1f80, "control word", "it is 0x1f80 inside the pair");
    expect(raised != 0, "control word", "a check of subnormals raises a flag");
    expect(_mm_getcsr() == before, "control word", "after the pair it is what it was before, without the flag");
}

int main(void) {
    uint32_t flushing = FLUSH_TO_ZERO | SUBNORMALS_ARE_ZERO;
    expect((_mm_getcsr() & flushing) == flushing, "control word", "a program linked with -ffast-math has flush to zero");
    check_in_both();
    fit_chain_in_both();
    fit_example();
    look_at_the_word();
    return failed;
}
