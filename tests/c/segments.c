/* Tests the calls that take a message as segments. For example, capn_check_segments must return the same as capn_check,
 * which takes a stream. Other tests use segments that no stream can have, or make calls while every allocation
 * fails. */

/* Each line of standard input ends with the bytes of a stream, in hexadecimal. The test uses these streams. It also
 * uses copies of them, in which some bytes are changed. The changes come from a fixed seed. Each segment is copied to
 * memory of its own, at an aligned or an unaligned address. The last segment ends before a page that can't be
 * accessed. */
#define TEST "segments"
#include "refusing.h"
#include "wanted.h"

enum { MOST = 4096, ROUNDS = 40 };
static uint8_t *guarded;
static unsigned long long held_messages, accepted_messages, several;

/* A `_segments` call must return the same status, the same report and the same bytes as the call for a stream. */
static void same(const char *what, capn_status status, capn_status wanted, const capn_report *report,
                 const capn_report *told, const void *left, const void *right, size_t size) {
    want(what, status, wanted);
    want("its report", memcmp(report, told, sizeof *report) != 0, 0);
    want("its answer", size && memcmp(left, right, size) != 0, 0);
}

/* Compares the results of each `_segments` call with those of the call for a stream. */
static void compare(const capn_segment *segments, size_t count, const uint8_t *frame, size_t size,
                    const capn_limits *limits) {
    capn_report report, told;
    memset(&report, 0x55, sizeof report);
    capn_status status = capn_check_segments(segments, count, limits, &report);
    capn_status wanted = capn_check(CAPN_STREAM, frame, size, limits, &told);
    same("check", status, wanted, &report, &told, NULL, NULL, 0);
    accepted_messages += status == CAPN_OK;

    capn_figures figures, sister;
    memset(&figures, 0x55, sizeof figures);
    memset(&sister, 0x55, sizeof sister);
    status = capn_survey_segments(segments, count, limits, &figures, &report);
    wanted = capn_survey(CAPN_STREAM, frame, size, limits, &sister, &told);
    same("survey", status, wanted, &report, &told, &figures, &sister, sizeof figures);

    uint8_t digest[2][32];
    memset(digest, 0x55, sizeof digest);
    status = capn_hash_segments(segments, count, limits, digest[0], &report);
    wanted = capn_hash(CAPN_STREAM, frame, size, limits, digest[1], &told);
    same("hash", status, wanted, &report, &told, digest[0], digest[1], 32);

    status = capn_canonical_segments(segments, count, limits, NULL, 0, &report);
    wanted = capn_canonical(CAPN_STREAM, frame, size, limits, NULL, 0, &told);
    same("a length", status, wanted, &report, &told, NULL, NULL, 0);
    size_t room = status == CAPN_NO_ROOM ? told.length : 8;
    uint8_t *out = malloc(room), *other = malloc(room);
    for (int round = 0; round < 3 && room; round++) {
        memset(out, 0x55, room);
        memset(other, 0x55, room);
        status = capn_canonical_segments(segments, count, limits, out, room, &report);
        wanted = capn_canonical(CAPN_STREAM, frame, size, limits, other, room, &told);
        same("canonical", status, wanted, &report, &told, out, other, room);
        if (status > CAPN_NO_ROOM) break;
        /* in the second round the buffer has exactly the needed length, and in the third round it is one byte
         * shorter */
        room = round ? told.length - 1 : told.length;
    }
    free(out);
    free(other);
}

static uint32_t number(const uint8_t *at) {
    return at[0] | (uint32_t)at[1] << 8 | (uint32_t)at[2] << 16 | (uint32_t)at[3] << 24;
}

/* If the bytes are exactly one message, copies each segment of the message to memory of its own. Then compares the
 * calls on the segments with the calls on the bytes. */
static void held(const uint8_t *frame, size_t size, const capn_limits *limits) {
    if (size < 8 || number(frame) >= MOST) return;
    const size_t count = (size_t)number(frame) + 1, head = 8 * (count / 2 + 1);
    if (size < head) return;
    static capn_segment segments[MOST];
    static uint8_t *blocks[MOST];
    size_t at = head, made = 0;
    for (; made < count; made++) {
        const size_t words = number(frame + 4 + 4 * made);
        if (8 * words > size - at) break;
        const int last = made + 1 == count && 8 * words <= ALL_PAGES;
        const size_t off = made % 8;
        blocks[made] = last ? NULL : malloc(off + 8 * words);
        uint8_t *to = last ? at_end(guarded, 8 * words) : blocks[made] + off;
        if (words) memcpy(to, frame + at, 8 * words);
        segments[made].words = words ? to : NULL;
        segments[made].count = words;
        at += 8 * words;
    }
    if (made == count && at == size) {
        held_messages++;
        several += count > 1;
        compare(segments, count, frame, size, limits);
        capn_limits few = *limits;
        few.message_words = limits->message_words > 1 ? 1 : 2;
        compare(segments, count, frame, size, &few);
    }
    for (size_t i = 0; i < made; i++) free(blocks[i]);
}

/* Makes the `_segments` calls on no segments, on as many segments as a message may have, on one segment more, on
 * segments that share their words, and on segments with too many words. */
static void borders(void) {
    static const uint8_t words[8 * 1024];
    static capn_segment segments[MOST + 1];
    capn_report report;
    capn_figures figures;
    uint8_t out[32];
    const struct {
        const char *what;
        size_t count, each;
        capn_status status;
        uint64_t at;
    } cases[] = {
        {"no segments", 0, 0, CAPN_FRAME_EMPTY, 0},
        {"4,097 segments", MOST + 1, 0, CAPN_TOO_MANY_SEGMENTS, MOST + 1},
        {"4,097 segments of too many words", MOST + 1, 1024, CAPN_TOO_MANY_SEGMENTS, MOST + 1},
        {"4,096 segments without words", MOST, 0, CAPN_NO_ROOT, 0},
        {"words that are shared", MOST, 1024, CAPN_OK, 0},
        {"too many words", MOST, 1024, CAPN_TOO_MANY_WORDS, (uint64_t)MOST * 1024},
    };
    for (size_t i = 0; i < sizeof cases / sizeof *cases; i++) {
        for (size_t k = 0; k < cases[i].count; k++) {
            segments[k].words = cases[i].each ? words : NULL;
            segments[k].count = cases[i].each;
        }
        capn_limits limits = usual;
        if (cases[i].status == CAPN_TOO_MANY_WORDS) limits.message_words = MOST * 1024 - 1;
        if (cases[i].status == CAPN_OK) limits.message_words = MOST * 1024;
        const capn_segment *all = cases[i].count ? segments : NULL;
        const capn_status wanted = cases[i].status;
        want(cases[i].what, capn_check_segments(all, cases[i].count, &limits, &report), wanted);
        want("at", report.at, cases[i].at);
        want(cases[i].what, capn_survey_segments(all, cases[i].count, &limits, &figures, &report), wanted);
        want(cases[i].what, capn_hash_segments(all, cases[i].count, &limits, out, &report), wanted);
        want(cases[i].what, capn_canonical_segments(all, cases[i].count, &limits, out, 32, &report), wanted);
        want("at", report.at, cases[i].at);
        want(cases[i].what, capn_canonical_segments(all, cases[i].count, &limits, NULL, 0, &report),
             wanted == CAPN_OK ? CAPN_NO_ROOM : wanted);
    }
    const capn_limits none = limits_of(0, 1, 1, CAPN_STRICT), other = limits_of(1, 1, 1, 2);
    want("no limits", capn_check_segments(segments, 1, &none, &report), CAPN_BAD_LIMITS);
    want("no limits", capn_survey_segments(segments, 1, &none, &figures, &report), CAPN_BAD_LIMITS);
    want("no limits", capn_hash_segments(segments, 1, &none, out, &report), CAPN_BAD_LIMITS);
    want("no limits", capn_canonical_segments(segments, 1, &none, out, 32, &report), CAPN_BAD_LIMITS);
    want("no tariff", capn_check_segments(segments, 1, &other, &report), CAPN_BAD_TARIFF);
    want("no tariff", capn_survey_segments(segments, 1, &other, &figures, &report), CAPN_BAD_TARIFF);
    want("no tariff", capn_hash_segments(segments, 1, &other, out, &report), CAPN_BAD_TARIFF);
    want("no tariff", capn_canonical_segments(segments, 1, &other, out, 32, &report), CAPN_BAD_TARIFF);
}

/* Makes the `_segments` calls while every allocation fails. A pointer in the first segment leads to a struct in the
 * second segment. Only capn_hash_segments allocates, so only this call fails. */
static void without_memory(void) {
    uint8_t far[8] = {2, 0, 0, 0, 1}, object[16] = {0, 0, 0, 0, 1, 0, 0, 0, 5}, out[32];
    const capn_segment segments[] = {{far, 1}, {object, 2}};
    capn_limits limits = usual;
    capn_report report;
    capn_figures figures;
    for (limits.depth = 64; limits.depth <= 256; limits.depth += 192) {
        left = 0;
        asked = 0;
        want("check", capn_check_segments(segments, 2, &limits, &report), CAPN_OK);
        want("survey", capn_survey_segments(segments, 2, &limits, &figures, &report), CAPN_OK);
        want("a length", capn_canonical_segments(segments, 2, &limits, NULL, 0, &report), CAPN_NO_ROOM);
        want("canonical", capn_canonical_segments(segments, 2, &limits, out, 16, &report), CAPN_OK);
        want("it", memcmp(out, object, 16) != 0, 0);
        want("no room", capn_canonical_segments(segments, 2, &limits, out, 15, &report), CAPN_NO_ROOM);
        want("is asked for", (uint64_t)asked, 0);
        want("a digest", capn_hash_segments(segments, 2, &limits, out, &report), CAPN_MEMORY);
        want("words", figures.words, 3);
        want("segments", figures.segments, 2);
        left = -1;
        want("blocks are left", (uint64_t)live, 0);
    }
}

int main(void) {
    guarded = between_pages();
    without_memory();
    borders();
    static char line[1 << 20];
    uint32_t seed = 1;
    while (fgets(line, sizeof line, stdin)) {
        char *digits = strrchr(line, ' ');
        digits = digits ? digits + 1 : line;
        const size_t size = strspn(digits, "0123456789abcdef") / 2;
        uint8_t *bytes = malloc(size + 1), *changed = malloc(size + 1);
        for (size_t i = 0; i < size; i++) {
            unsigned byte;
            sscanf(digits + 2 * i, "%2x", &byte);
            bytes[i] = (uint8_t)byte;
        }
        held(bytes, size, &usual);
        for (int round = 0; round < ROUNDS && size > 8; round++) {
            memcpy(changed, bytes, size);
            for (int k = 0; k < 1 + round % 4; k++) {
                seed = seed * 1664525 + 1013904223;
                changed[8 + (seed >> 8) % (size - 8)] ^= (uint8_t)(1u << (seed >> 28 & 7));
            }
            held(changed, size, &usual);
        }
        free(bytes);
        free(changed);
    }
    printf("c: %llu messages in segments, %llu of them in several, %llu accepted: as their frames\n", held_messages,
           several, accepted_messages);
    if (!several || !accepted_messages) failed++;
    return failed != 0;
}
