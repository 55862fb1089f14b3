/* The functions of capn.h. Each passes its arguments to a proved (formally verified) function of the same name, which
 * `make linked` renames to proved_capn_* and hides. Null pointers are replaced first: `limits` by the default limits,
 * and `report` or `which` by the address of a local variable. If no argument is null, the checks for null take two
 * comparisons and a jump. The code of this file isn't proved. It keeps no state, and reads and writes only its
 * arguments. */
#include "capn.h"

static const capn_limits usual = CAPN_USUAL_LIMITS;

#if !defined(__GNUC__)
#error "this needs the attributes of GCC or Clang"
#endif
#define HIDDEN __attribute__((visibility("hidden")))
#define SELDOM __attribute__((cold, noinline))

/* Defines a call that takes limits and a report. The arguments of the macro are the call's name, its parameters, and
 * the names of its parameters. */
#define WITH_LIMITS(name, parameters, passed) \
    HIDDEN capn_status proved_##name parameters; \
    static SELDOM capn_status name##_by_default parameters { \
        capn_report unwanted; \
        if (!limits) limits = &usual; \
        if (!report) report = &unwanted; \
        return proved_##name passed; \
    } \
    capn_status name parameters { \
        if (__builtin_expect(!limits | !report, 0)) return name##_by_default passed; \
        return proved_##name passed; \
    }

/* Defines a call that takes a report, but no limits. */
#define WITH_REPORT(name, parameters, passed) \
    HIDDEN capn_status proved_##name parameters; \
    static SELDOM capn_status name##_by_default parameters { \
        capn_report unwanted; \
        report = &unwanted; \
        return proved_##name passed; \
    } \
    capn_status name parameters { \
        if (__builtin_expect(!report, 0)) return name##_by_default passed; \
        return proved_##name passed; \
    }

WITH_LIMITS(capn_canonical,
            (uint32_t form, const uint8_t *bytes, size_t size, const capn_limits *limits, uint8_t *out, size_t room,
             capn_report *report),
            (form, bytes, size, limits, out, room, report))
WITH_LIMITS(capn_canonical_with_scratch,
            (uint32_t form, const uint8_t *bytes, size_t size, const capn_limits *limits, void *scratch, size_t words,
             uint8_t *out, size_t room, capn_report *report),
            (form, bytes, size, limits, scratch, words, out, room, report))
WITH_LIMITS(capn_is_canonical,
            (const uint8_t *bytes, size_t size, const capn_limits *limits, capn_report *report),
            (bytes, size, limits, report))
WITH_LIMITS(capn_hash,
            (uint32_t form, const uint8_t *bytes, size_t size, const capn_limits *limits, uint8_t digest[32],
             capn_report *report),
            (form, bytes, size, limits, digest, report))
WITH_LIMITS(capn_check,
            (uint32_t form, const uint8_t *bytes, size_t size, const capn_limits *limits, capn_report *report),
            (form, bytes, size, limits, report))
WITH_REPORT(capn_pack,
            (const uint8_t *bytes, size_t size, uint8_t *out, size_t room, capn_report *report),
            (bytes, size, out, room, report))
WITH_REPORT(capn_unpack,
            (const uint8_t *bytes, size_t size, uint32_t max_words, uint8_t *out, size_t room, capn_report *report),
            (bytes, size, max_words, out, room, report))
WITH_LIMITS(capn_first,
            (const uint8_t *bytes, size_t size, const capn_limits *limits, capn_report *report),
            (bytes, size, limits, report))
WITH_REPORT(capn_unpack_some,
            (const uint8_t *bytes, size_t size, uint8_t *out, size_t room, capn_report *report),
            (bytes, size, out, room, report))
WITH_LIMITS(capn_survey,
            (uint32_t form, const uint8_t *bytes, size_t size, const capn_limits *limits, capn_figures *figures,
             capn_report *report),
            (form, bytes, size, limits, figures, report))
WITH_LIMITS(capn_index,
            (uint32_t form, const uint8_t *bytes, size_t size, const capn_limits *limits, capn_entry *entries,
             size_t most_entries, capn_report *report),
            (form, bytes, size, limits, entries, most_entries, report))
WITH_LIMITS(capn_show,
            (uint32_t form, const uint8_t *bytes, size_t size, const capn_limits *limits, uint32_t style, char *out,
             size_t room, capn_report *report),
            (form, bytes, size, limits, style, out, room, report))
WITH_LIMITS(capn_refusal_way,
            (uint32_t form, const uint8_t *bytes, size_t size, const capn_limits *limits, uint32_t *way,
             size_t most_numbers, capn_report *report),
            (form, bytes, size, limits, way, most_numbers, report))
WITH_LIMITS(capn_departure,
            (uint32_t form, const uint8_t *bytes, size_t size, const capn_limits *limits, capn_departed *departed,
             uint32_t *way, size_t most_numbers, capn_report *report),
            (form, bytes, size, limits, departed, way, most_numbers, report))
WITH_LIMITS(capn_annotate,
            (uint32_t form, const uint8_t *bytes, size_t size, const capn_limits *limits, capn_line *lines,
             size_t most_lines, capn_report *report),
            (form, bytes, size, limits, lines, most_lines, report))

/* Defines a call that takes two messages. The arguments `limits`, `which` and `report` of this call may be null. */
HIDDEN capn_status proved_capn_same(uint32_t form, const uint8_t *a, size_t size_a, const uint8_t *b, size_t size_b,
                                    const capn_limits *limits, uint32_t *which, capn_report *report);
static SELDOM capn_status capn_same_by_default(uint32_t form, const uint8_t *a, size_t size_a, const uint8_t *b,
                                               size_t size_b, const capn_limits *limits, uint32_t *which,
                                               capn_report *report) {
    uint32_t neither;
    capn_report unwanted;
    if (!limits) limits = &usual;
    if (!which) which = &neither;
    if (!report) report = &unwanted;
    return proved_capn_same(form, a, size_a, b, size_b, limits, which, report);
}
capn_status capn_same(uint32_t form, const uint8_t *a, size_t size_a, const uint8_t *b, size_t size_b,
                      const capn_limits *limits, uint32_t *which, capn_report *report) {
    if (__builtin_expect(!limits | !which | !report, 0))
        return capn_same_by_default(form, a, size_a, b, size_b, limits, which, report);
    return proved_capn_same(form, a, size_a, b, size_b, limits, which, report);
}

WITH_LIMITS(capn_canonical_segments,
            (const capn_segment *segments, size_t count, const capn_limits *limits, uint8_t *out, size_t room,
             capn_report *report),
            (segments, count, limits, out, room, report))
WITH_LIMITS(capn_hash_segments,
            (const capn_segment *segments, size_t count, const capn_limits *limits, uint8_t digest[32],
             capn_report *report),
            (segments, count, limits, digest, report))
WITH_LIMITS(capn_check_segments,
            (const capn_segment *segments, size_t count, const capn_limits *limits, capn_report *report),
            (segments, count, limits, report))
WITH_LIMITS(capn_survey_segments,
            (const capn_segment *segments, size_t count, const capn_limits *limits, capn_figures *figures,
             capn_report *report),
            (segments, count, limits, figures, report))
