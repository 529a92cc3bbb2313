/* Helpers for callers of micro_price.h: a text for each answer, the words of an image, and floats of their bits. */
#ifndef MICRO_PRICE_HELPERS_H
#define MICRO_PRICE_HELPERS_H

#include <stddef.h>
#include <stdint.h>
#include <string.h>

#include "micro_price.h"

/* A text for an answer, and for any other number the text that it is none. */
static inline const char *micro_price_message(uint64_t answer) {
    switch (answer) {
    case 0: return "nothing is refused";
    case MICRO_PRICE_CONFIGURATION: return "the configuration is not valid";
    case MICRO_PRICE_OVER_DOMAIN: return "a price or a size is over 1,000,000,000";
    case MICRO_PRICE_BAD_QUOTE: return "the quote is crossed or empty";
    case MICRO_PRICE_OFF_TICK: return "a price is off the tick";
    case MICRO_PRICE_EARLIER_TIME: return "the quote is earlier than the last one";
    case MICRO_PRICE_COUNT_LIMIT: return "a count passes its limit";
    case MICRO_PRICE_SLICE_LENGTH: return "a slice has a wrong length";
    case MICRO_PRICE_LAST_QUOTE_BROKEN: return "the last quote is broken";
    case MICRO_PRICE_TOTALS_UNMIRRORED: return "move totals do not match their mirrors";
    case MICRO_PRICE_CELLS_UNMIRRORED: return "counts do not match their mirrors";
    case MICRO_PRICE_CELLS_NOT_TWICE_PAIRS: return "the counts are not twice the pairs";
    case MICRO_PRICE_IMAGE_LAYOUT: return "the image is not laid out as an image is";
    case MICRO_PRICE_MODEL_ROW: return "a row of the model is bad";
    case MICRO_PRICE_RECORDING_UNSORTED: return "the recording is not in order of time";
    case MICRO_PRICE_WINDOW_BACKWARD: return "the window is backward";
    case MICRO_PRICE_NO_CALIBRATED_STATE: return "no state is calibrated";
    case MICRO_PRICE_SINGULAR_TRANSITIONS: return "the transitions are singular";
    case MICRO_PRICE_NOT_CONVERGED: return "the series does not converge";
    case MICRO_PRICE_UNREPRESENTABLE: return "an adjustment is not representable";
    case MICRO_PRICE_ROUNDS_OUT_OF_RANGE: return "the rounds of a fit are out of range";
    case MICRO_PRICE_BAD_ENCODING: return "the words are not encoded as micro_price.h says";
    case MICRO_PRICE_OTHER_CONFIGURATION: return "the image has another configuration";
    default: return "no function answers this number";
    }
}

/* A word of an image, as MICRO_PRICE_IMAGE_STATES. The image has at least 8 * (word + 1) bytes. */
static inline uint64_t micro_price_image_word(const uint8_t *image, size_t word) {
    uint64_t value = 0;
    size_t byte;
    for (byte = 8; byte > 0; byte--)
        value = value << 8 | image[8 * word + byte - 1];
    return value;
}

/* The float of bits, as in a model's row or a signal. */
static inline double micro_price_float(uint64_t bits) {
    double value;
    memcpy(&value, &bits, sizeof value);
    return value;
}

#endif
