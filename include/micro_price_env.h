/* The floating-point environment that five functions of micro_price.h rest on, for callers in C (x86-64).
 *
 * micro_price_fit_counts, micro_price_fit_counts_with, micro_price_calibrate, micro_price_check_model and micro_price_signal rest
 * on binary64 rounded to nearest, subnormals kept, floating-point exceptions masked, as a process starts with. A caller needs this
 * pair if the program, or a shared library that it loads, is linked with -ffast-math or -Ofast, whose start-up code may set flush
 * to zero, or if anything in the process changes the rounding or unmasks exceptions. The other functions need nothing of it.
 *
 *     uint32_t was = micro_price_env_set();
 *     uint64_t answer = micro_price_check_model(config, MICRO_PRICE_CONFIG_WORDS, model, model_len, &row);
 *     micro_price_env_restore(was);
 *
 * The control word is each thread's own: the pair stands on the thread that makes the call. Exception flags that are raised
 * inside are dropped, and those of before come back. Only calls of the library belong inside: the compiler may move the
 * caller's own float arithmetic over either end. It moves no call of the library over them, as they are asm statements that
 * clobber memory; the intrinsics of <xmmintrin.h> are not documented to do so.
 */
#ifndef MICRO_PRICE_ENV_H
#define MICRO_PRICE_ENV_H

#ifndef __x86_64__
#error "micro_price_env.h sets the control word of x86-64"
#endif

#include <stdint.h>

/* To nearest, subnormals kept, all exceptions masked, no flag raised. */
#define MICRO_PRICE_ENV_WORD 0x1f80u

/* Puts back the control word that micro_price_env_set answered. */
static inline void micro_price_env_restore(uint32_t was) {
    __asm__ __volatile__("ldmxcsr %0" : : "m"(was) : "memory");
}

/* Sets the control word, and answers what it was. */
static inline uint32_t micro_price_env_set(void) {
    uint32_t was;
    __asm__ __volatile__("stmxcsr %0" : "=m"(was) : : "memory");
    micro_price_env_restore(MICRO_PRICE_ENV_WORD);
    return was;
}

#endif
