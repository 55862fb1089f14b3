/* Tests calls with null in place of the limits, the report or the output parameter `which`. Such a call must return and
 * write the same as a call with the default limits and no null pointer. Each line of standard input ends with bytes in
 * hexadecimal. The calls read these bytes in each form (stream, packed and bare). */
#define TEST "defaults"
#include "wanted.h"

enum { ROOM = 1 << 12, ENTRIES = 64, WAY = 128, LINES = 64 };

/* The arguments of a call, and what the call writes. */
struct given {
    uint32_t form;
    const uint8_t *bytes;
    size_t size;
    const capn_limits *limits;
    capn_report *report;
    uint32_t *which;
    uint8_t scratch[ROOM];
    union {
        uint8_t bytes[ROOM];
        char text[ROOM];
        capn_entry entries[ENTRIES];
        capn_figures figures;
        capn_line lines[LINES];
        uint32_t way[WAY];
        struct {
            capn_departed departed;
            uint32_t way[WAY];
        } departs;
    } out;
};

#define CALL(name, ...) static capn_status try_##name(struct given *g) { return capn_##name(__VA_ARGS__); }
#define INPUT g->form, g->bytes, g->size, g->limits
CALL(canonical, INPUT, g->out.bytes, ROOM, g->report)
CALL(canonical_with_scratch, INPUT, g->scratch, ROOM / 8, g->out.bytes, ROOM, g->report)
CALL(is_canonical, g->bytes, g->size, g->limits, g->report)
CALL(hash, INPUT, g->out.bytes, g->report)
CALL(check, INPUT, g->report)
CALL(pack, g->bytes, g->size, g->out.bytes, ROOM, g->report)
CALL(unpack, g->bytes, g->size, ROOM / 8, g->out.bytes, ROOM, g->report)
CALL(first, g->bytes, g->size, g->limits, g->report)
CALL(unpack_some, g->bytes, g->size, g->out.bytes, ROOM, g->report)
CALL(survey, INPUT, &g->out.figures, g->report)
CALL(index, INPUT, g->out.entries, ENTRIES, g->report)
CALL(show, INPUT, CAPN_STYLE_TEXT, g->out.text, ROOM, g->report)
CALL(refusal_way, INPUT, g->out.way, WAY, g->report)
CALL(departure, INPUT, &g->out.departs.departed, g->out.departs.way, WAY, g->report)
CALL(annotate, INPUT, g->out.lines, LINES, g->report)

/* `try_same` compares a message with the first half of its bytes. `try_same_as_itself` compares a message with
 * itself. */
static capn_status try_same(struct given *g) {
    return capn_same(g->form, g->bytes, g->size, g->bytes, g->size / 2, g->limits, g->which, g->report);
}
static capn_status try_same_as_itself(struct given *g) {
    return capn_same(g->form, g->bytes, g->size, g->bytes, g->size, g->limits, g->which, g->report);
}

/* Splits the words of a message into two segments, so that some pointers lead out of their segment. */
#define HALVES {{g->bytes, g->size / 16}, {g->bytes + 8 * (g->size / 16), g->size / 8 - g->size / 16}}
#define HELD(name, ...) \
    static capn_status try_##name##_segments(struct given *g) { \
        const capn_segment segments[2] = HALVES; \
        return capn_##name##_segments(segments, g->form ? 2 : 1, g->limits, __VA_ARGS__); \
    }
HELD(canonical, g->out.bytes, ROOM, g->report)
HELD(hash, g->out.bytes, g->report)
HELD(check, g->report)
HELD(survey, &g->out.figures, g->report)

static const struct {
    const char *name;
    capn_status (*call)(struct given *);
    int of_forms;
} calls[] = {
#define ONE(name, of_forms) {#name, try_##name, of_forms}
    ONE(canonical, 1), ONE(canonical_with_scratch, 1), ONE(is_canonical, 0), ONE(hash, 1), ONE(check, 1), ONE(pack, 0),
    ONE(unpack, 0), ONE(first, 0), ONE(unpack_some, 0), ONE(survey, 1), ONE(index, 1), ONE(show, 1),
    ONE(refusal_way, 1), ONE(departure, 1), ONE(annotate, 1), ONE(same, 1), ONE(same_as_itself, 1),
    ONE(canonical_segments, 1), ONE(hash_segments, 1), ONE(check_segments, 1), ONE(survey_segments, 1)
};
enum { CALLS = sizeof calls / sizeof *calls };

static unsigned long long answered, refused;

/* Makes the same call several times. In the first call, no pointer is null. Each later call has another combination of
 * null pointers. */
static void compare(size_t call, uint32_t form, const uint8_t *bytes, size_t size) {
    static struct given with, without;
    capn_report wanted, got;
    uint32_t wanted_which = 9, which;
    memset(&with, 0x55, sizeof with);
    memset(&wanted, 0x55, sizeof wanted);
    with.form = form, with.bytes = bytes, with.size = size, with.limits = &usual, with.report = &wanted;
    with.which = &wanted_which;
    const capn_status status = calls[call].call(&with);
    if (status == CAPN_OK) answered++;
    else refused++;
    for (int null = 1; null < 8; null++) {
        memset(&without, 0x55, sizeof without);
        memset(&got, 0x55, sizeof got);
        which = 9;
        without.form = form, without.bytes = bytes, without.size = size;
        without.limits = null & 1 ? NULL : &usual;
        without.report = null & 2 ? NULL : &got;
        without.which = null & 4 ? NULL : &which;
        want(calls[call].name, calls[call].call(&without), status);
        if (!(null & 2)) want("its report", memcmp(&got, &wanted, sizeof got) != 0, 0);
        if (!(null & 4)) want("which", which, wanted_which);
        want("what it writes", memcmp(&with.out, &without.out, sizeof with.out) != 0, 0);
    }
}

int main(void) {
    static char line[1 << 20];
    char text[64];
    uint8_t *pages = between_pages();
    while (fgets(line, sizeof line, stdin)) {
        size_t size;
        const uint8_t *bytes = bytes_at_end(line, pages, &size);
        if (!bytes) continue;
        for (size_t call = 0; call < CALLS; call++)
            for (uint32_t form = 0; form < (calls[call].of_forms ? 4 : 1); form++) compare(call, form, bytes, size);
    }
    /* If the report is null, the text of an error doesn't say where the error is. */
    const size_t length = capn_refusal_text(CAPN_RANGE, NULL, text, sizeof text);
    want("the text without a report", strcmp(text, capn_status_text(CAPN_RANGE)), 0);
    want("its length", length, strlen(text));
    printf("c: %zu calls by default: %llu answers and %llu refusals, as with the usual limits and a report\n",
           (size_t)CALLS, answered, refused);
    return failed != 0 || !answered || !refused;
}
