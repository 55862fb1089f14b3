/* Tests capn_canonical_with_scratch, which gets scratch memory from the caller and must never allocate. With enough
 * scratch memory, it has to return and report the same as capn_canonical. With one word less than enough, it has to
 * report how much scratch memory it needs. */

/* Some messages are written by hand. The others are the hexadecimal bytes at the ends of the lines of standard input.
 * These bytes are read in each form (stream, packed and bare) and with some limits. */
#define TEST "scratch"
#include "refusing.h"
#include "wanted.h"

enum { LINE = 1 << 20, MORE = 3, FILL = 0x55 };
static unsigned long long answered, refused, lent;
static uint8_t *bytes_pages, *scratch_pages, *out_pages;

/* The input, the scratch memory and the buffer each end before a page that can't be accessed: directly before it, or
 * one byte earlier. */
struct given {
    uint32_t form;
    const uint8_t *bytes;
    size_t size, words, room, before;
    const capn_limits *limits;
    uint8_t *out;
};

/* Makes one call while every allocation fails. If the call doesn't return CAPN_OK, the buffer must stay unchanged. */
static capn_status call(struct given *g, capn_report *report) {
    const capn_report none = {0, 0, 0, 0, 0, 0};
    const size_t long_words = 8 * g->words + g->before, long_room = g->room + g->before;
    uint8_t *large_scratch = long_words > ALL_PAGES ? malloc(long_words) : NULL;
    uint8_t *large_room = long_room > ALL_PAGES ? malloc(long_room) : NULL;
    uint8_t *scratch = large_scratch ? large_scratch : at_end(scratch_pages, long_words);
    static uint8_t *last;
    free(last);
    last = large_room;
    g->out = large_room ? large_room : at_end(out_pages, long_room);
    memset(g->out, FILL, long_room);
    memset(scratch, FILL, long_words);
    memset(report, FILL, sizeof *report);
    asked = 0, left = 0;
    const capn_status status = capn_canonical_with_scratch(g->form, g->bytes, g->size, g->limits,
                                                           g->words ? scratch : NULL, g->words,
                                                           g->room ? g->out : NULL, g->room, report);
    left = -1;
    want("growths", (uint64_t)asked, 0);
    size_t kept = status == CAPN_OK ? report->length : 0;
    for (; kept < long_room && g->out[kept] == FILL; kept++);
    want("the room", kept, long_room);
    if (g->before) want("the byte after the scratch", scratch[8 * g->words], FILL);
    if (status == CAPN_NO_SCRATCH) {
        capn_report told = none;
        told.at = report->at;
        want("the report of a scratch", memcmp(&told, report, sizeof told) != 0, 0);
    }
    free(large_scratch);
    return status;
}

/* Tries a buffer of exactly the length that capn_canonical reports, smaller buffers, and a larger one. */
static void rooms(struct given *g, const uint8_t *canonical, const capn_report *wanted) {
    capn_report report;
    const size_t length = wanted->length;
    want("exact room", call(g, &report), CAPN_OK);
    want("its report", memcmp(&report, wanted, sizeof report) != 0, 0);
    want("its bytes", memcmp(g->out, canonical, length) != 0, 0);
    for (size_t i = 0; i < 3; i++) {
        const size_t less[] = {length - 1, length / 2, 0};
        g->room = less[i];
        want("less room", call(g, &report), CAPN_NO_ROOM);
        want("its report", memcmp(&report, wanted, sizeof report) != 0, 0);
    }
    g->room = length + MORE;
    want("more room", call(g, &report), CAPN_OK);
    want("its bytes", memcmp(g->out, canonical, length) != 0, 0);
    g->room = length;
}

/* Passes as much scratch memory as the call asks for, until the call has enough. The call may ask for more at most
 * twice. If it gets one word less than it asked for, it has to ask for the same number of words again. */
static void scratches(struct given *g, uint64_t most) {
    capn_report report;
    for (int times = 0; call(g, &report) == CAPN_NO_SCRATCH; times++) {
        const uint64_t needed = report.at;
        want("more scratch than there is", needed > g->words, 1);
        want("no more than is enough", needed <= most, 1);
        want("the scratch of a second frame", times < 2, 1);
        g->words = needed - 1;
        want("a word less", call(g, &report), CAPN_NO_SCRATCH);
        want("the same scratch", report.at, needed);
        g->words = needed;
    }
    if (g->words) lent++;
}

static void compare(uint32_t form, const uint8_t *bytes, size_t size, const capn_limits *limits) {
    capn_report wanted, report;
    uint8_t *canonical = NULL;
    capn_status status = capn_canonical(form, bytes, size, limits, NULL, 0, &wanted);
    if (status == CAPN_NO_ROOM) {
        const size_t room = wanted.length;
        canonical = malloc(room);
        status = capn_canonical(form, bytes, size, limits, canonical, room, &wanted);
    }
    const size_t length = status == CAPN_OK ? wanted.length : 0;
    const uint64_t of_packed = CAPN_PACKED_SCRATCH(limits->message_words);
    const uint64_t most = form == CAPN_BARE ? 0 : form == CAPN_STREAM ? CAPN_STREAM_SCRATCH : of_packed;
    struct given g = {form, bytes, size, 0, length, size % 2, limits, NULL};
    scratches(&g, most);
    for (size_t more = 0; more <= MORE; more += MORE) {
        g.words += more;
        if (status == CAPN_OK) rooms(&g, canonical, &wanted);
        want("the status", call(&g, &report), status);
        want("the report", memcmp(&report, &wanted, sizeof report) != 0, 0);
    }
    if (status == CAPN_OK) answered++;
    else refused++;
    free(canonical);
}

/* ---- messages that are written by hand */

/* Tests how much scratch memory a message of many segments needs. The first segment has a zero word, and the other
 * segments have no words. The message is passed packed and unpacked. */
static void many(size_t segments) {
    const size_t table = 8 * (segments / 2 + 1), size = table + 8;
    const size_t ends = segments > 64 ? segments - 1 : 0;
    uint8_t *frame = calloc(1, size), *text = malloc(2 * size + 16);
    frame[0] = (uint8_t)(segments - 1), frame[1] = (uint8_t)((segments - 1) >> 8), frame[4] = 1;
    capn_report report;
    want("pack", capn_pack(frame, size, text, 2 * size + 16, &report), CAPN_OK);
    const size_t packed = report.length;
    for (int form = 0; form < 2; form++) {
        const uint8_t *bytes = form ? text : frame;
        struct given g = {form ? CAPN_PACKED : CAPN_STREAM, bytes, form ? packed : size, 0, 8, 1, &usual, NULL};
        scratches(&g, CAPN_PACKED_SCRATCH(usual.message_words));
        want("the scratch", g.words, (form ? size / 8 : 0) + ends);
        want("canonical bytes", call(&g, &report), CAPN_OK);
        compare(g.form, bytes, g.size, &usual);
    }
    free(frame);
    free(text);
}

/* Before capn_canonical_with_scratch reads or writes anything, it checks the form, the limits and the counting rule
 * (tariff). */
static void order(void) {
    uint8_t *closed = mmap(NULL, PAGE, PROT_NONE, MAP_PRIVATE | MAP_ANONYMOUS, -1, 0);
    const capn_limits none = limits_of(0, 1, 1, CAPN_STRICT), third = limits_of(1, 1, 1, 2);
    const capn_report blank = {0, 0, 0, 0, 0, 0};
    const struct {
        const char *what;
        uint32_t form;
        const capn_limits *limits;
        capn_status wanted;
    } all[] = {
        {"form 3", 3, &usual, CAPN_BAD_FORM},
        {"no words", 0, &none, CAPN_BAD_LIMITS},
        {"tariff 2", 0, &third, CAPN_BAD_TARIFF},
    };
    if (closed == MAP_FAILED) exit(2);
    for (size_t i = 0; i < sizeof all / sizeof *all; i++) {
        capn_report report;
        memset(&report, FILL, sizeof report);
        want(all[i].what, capn_canonical_with_scratch(all[i].form, closed, PAGE / 4, all[i].limits, closed + PAGE / 4,
                                                      PAGE / 32, closed + PAGE / 2, PAGE / 2, &report),
             all[i].wanted);
        want("its report", memcmp(&report, &blank, sizeof report) != 0, 0);
    }
    munmap(closed, PAGE);
    want("the call is there", CAPN_HAS_SCRATCH, 1);
    want("a report and limits that are null",
         capn_canonical_with_scratch(CAPN_BARE, bytes_pages, 8, NULL, NULL, 0, out_pages, 8, NULL), CAPN_OK);
}

int main(void) {
    static char line[LINE];
    const capn_limits poor = limits_of(1 << 20, 4, 64, CAPN_PLAIN), flat = limits_of(1 << 20, 1 << 20, 2, CAPN_STRICT);
    const capn_limits small = limits_of(5, 1 << 20, 64, CAPN_STRICT);
    const capn_limits *const all[] = {&usual, &poor, &flat, &small};
    bytes_pages = between_pages(), scratch_pages = between_pages(), out_pages = between_pages();
    const size_t counts[] = {1, 2, 63, 64, 65, 66, 4095, 4096};
    for (size_t i = 0; i < sizeof counts / sizeof *counts; i++) many(counts[i]);
    order();
    while (fgets(line, sizeof line, stdin)) {
        size_t size;
        const uint8_t *bytes = bytes_at_end(line, bytes_pages, &size);
        if (!bytes) continue;
        for (uint32_t form = 0; form < 3; form++)
            for (size_t i = 0; i < sizeof all / sizeof *all; i++) compare(form, bytes, size, all[i]);
    }
    printf("c: %llu answers and %llu refusals without memory, as with it, %llu of them by scratch that was asked for\n",
           answered, refused, lent);
    return failed != 0 || !answered || !refused || !lent;
}
