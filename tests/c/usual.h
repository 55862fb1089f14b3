/* The limits that the programs of tests/c pass: the default limits, or the default limits with some numbers changed. If
 * capn.h gets a new limit, these programs pass the default of that limit. */
#ifndef CAPN_TESTS_USUAL_H
#define CAPN_TESTS_USUAL_H
#include "capn.h"

static const capn_limits usual = CAPN_USUAL_LIMITS;

static inline capn_limits limits_of(uint32_t message_words, uint32_t budget, uint32_t depth, uint32_t tariff) {
    capn_limits limits = usual;
    limits.message_words = message_words;
    limits.budget = budget;
    limits.depth = depth;
    limits.tariff = tariff;
    return limits;
}
#endif
