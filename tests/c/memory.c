/* Tests each call of capn.h when one of its allocations fails: the first, the second, and so on. The call has to return
 * CAPN_MEMORY, leave the buffer unchanged, set the report to 0, and free everything. A call that needs no allocation
 * has to return its usual result even if every allocation fails. */
#include "refusing.h"
#include "usual.h"
#include <stdio.h>
#include <string.h>

enum { ROOM = 1 << 16, DEPTH = 200, MOST = 8 * (2 * DEPTH) };
static uint8_t deep[MOST], framed[MOST + 16], many[MOST + 8 * 33], text[ROOM];
static _Alignas(8) uint8_t out[ROOM];
static int failed;

static void fail(const char *name, const char *why) {
    failed++;
    printf("memory: %s: %s\n", name, why);
}

/* Writes a message that is a chain of `depth` structs. Each struct has two pointers, and its first pointer refers to
 * the next struct. The last struct has a number. Returns the length in bytes. */
static size_t chain(uint8_t *at, size_t depth) {
    memset(at, 0, 16 * depth);
    at[depth > 1 ? 6 : 4] = depth > 1 ? 2 : 1;
    for (size_t i = 0; i + 1 < depth; i++) {
        at[8 * (1 + 2 * i)] = 4;
        at[8 * (1 + 2 * i) + (i + 2 < depth ? 6 : 4)] = i + 2 < depth ? 2 : 1;
    }
    at[8 * (2 * depth - 1)] = 7;
    return 16 * depth;
}

/* Writes a message with its segment table. Only the first segment has words. Returns the length in bytes. */
static size_t frame(uint8_t *to, uint8_t segments, const uint8_t *words, size_t size) {
    size_t table = 8 * (segments / 2 + 1);
    memset(to, 0, table);
    to[0] = segments - 1;
    to[4] = (uint8_t)(size / 8);
    to[5] = (uint8_t)(size / 8 >> 8);
    memcpy(to + table, words, size);
    return table + size;
}

typedef struct input {
    uint32_t form;
    const uint8_t *bytes;
    size_t size;
    capn_limits limits;
} input;

typedef capn_status call(const input *in, capn_report *report);

static capn_status canonical(const input *in, capn_report *report) {
    return capn_canonical(in->form, in->bytes, in->size, &in->limits, out, ROOM, report);
}
static capn_status measured(const input *in, capn_report *report) {
    return capn_canonical(in->form, in->bytes, in->size, &in->limits, NULL, 0, report);
}
static capn_status hashed(const input *in, capn_report *report) {
    return capn_hash(in->form, in->bytes, in->size, &in->limits, out, report);
}
static capn_status checked(const input *in, capn_report *report) {
    return capn_check(in->form, in->bytes, in->size, &in->limits, report);
}
static capn_status compared(const input *in, capn_report *report) {
    return capn_same(in->form, in->bytes, in->size, in->bytes, in->size, &in->limits, NULL, report);
}
static capn_status judged(const input *in, capn_report *report) {
    return capn_is_canonical(in->bytes, in->size, &in->limits, report);
}
static capn_status packed(const input *in, capn_report *report) {
    return capn_pack(in->bytes, in->size, out, ROOM, report);
}
static capn_status unpacked(const input *in, capn_report *report) {
    return capn_unpack(in->bytes, in->size, 1u << 20, out, ROOM, report);
}
static capn_status first(const input *in, capn_report *report) {
    return capn_first(in->bytes, in->size, &in->limits, report);
}
static capn_status some(const input *in, capn_report *report) {
    return capn_unpack_some(in->bytes, in->size, out, ROOM, report);
}
static capn_status surveyed(const input *in, capn_report *report) {
    return capn_survey(in->form, in->bytes, in->size, &in->limits, (capn_figures *)out, report);
}
static capn_status indexed(const input *in, capn_report *report) {
    return capn_index(in->form, in->bytes, in->size, &in->limits, (capn_entry *)out, ROOM / 24, report);
}
static capn_status led(const input *in, capn_report *report) {
    return capn_refusal_way(in->form, in->bytes, in->size, &in->limits, (uint32_t *)(void *)out, ROOM / 4, report);
}
static capn_status departed(const input *in, capn_report *report) {
    capn_departed *told = (capn_departed *)(void *)out;
    uint32_t *way = (uint32_t *)(void *)(out + sizeof(capn_departed));
    return capn_departure(in->form, in->bytes, in->size, &in->limits, told, way, ROOM / 8, report);
}
static capn_status lined(const input *in, capn_report *report) {
    return capn_annotate(in->form, in->bytes, in->size, &in->limits, (capn_line *)(void *)out, ROOM / 48, report);
}
static capn_status counted(const input *in, capn_report *report) {
    return capn_index(in->form, in->bytes, in->size, &in->limits, NULL, 0, report);
}

/* A call whose allocation fails must write nothing, and every field of its report must be 0. */
static void refused(const char *name, const capn_report *report) {
    for (size_t i = 0; i < ROOM; i++)
        if (out[i] != 0xAA) {
            fail(name, "writes");
            break;
        }
    const capn_report none = {0, 0, 0, 0, 0, 0};
    if (memcmp(report, &none, sizeof none)) fail(name, "reports");
}

/* Repeats a call until the call succeeds. In the first run, every allocation fails. In each later run, one more
 * allocation succeeds before the others fail. The call has to fail at least `least` times. */
static void each(const char *name, call *make, const input *in, int least) {
    capn_report report;
    uint32_t status = CAPN_MEMORY;
    int count = 0;
    for (long allowed = 0; allowed < 100000; allowed++, count++) {
        long before = live;
        memset(out, 0xAA, ROOM);
        memset(&report, 0x55, sizeof report);
        left = allowed;
        status = make(in, &report);
        left = -1;
        if (live != before) fail(name, "leaves blocks");
        if (status != CAPN_MEMORY) break;
        refused(name, &report);
    }
    if (status != CAPN_OK && status != CAPN_NO_ROOM && status != CAPN_NOT_CANONICAL) fail(name, "is refused otherwise");
    if (count < least) fail(name, "needs less memory");
    printf("memory: %s: refused %d times\n", name, count);
}

/* Makes a call twice. In the first run, the call has to allocate `growths` times and return `wanted`. In the second
 * run, every allocation fails. The call then has to return CAPN_MEMORY, or `wanted` if `growths` is 0. */
static void wants(const char *name, call *make, const input *in, long growths, uint32_t wanted) {
    capn_report ample, short_of;
    left = -1;
    asked = 0;
    if (make(in, &ample) != wanted) fail(name, "another status");
    if (asked != growths) fail(name, "another number of growths");
    left = 0;
    uint32_t status = make(in, &short_of);
    left = -1;
    if (status != (growths ? CAPN_MEMORY : wanted)) fail(name, "another status without memory");
    if (!growths && memcmp(&ample, &short_of, sizeof ample)) fail(name, "another report without memory");
}

static void in_turn(void) {
    const capn_limits limits = limits_of(1u << 20, 1u << 20, 256, CAPN_STRICT);
    const input bare = {CAPN_BARE, deep, chain(deep, DEPTH), limits};
    const input stream = {CAPN_STREAM, framed, frame(framed, 2, deep, bare.size), limits};
    const input more = {CAPN_STREAM, many, frame(many, 65, deep, bare.size), limits};
    capn_report report;
    if (capn_pack(many, more.size, text, ROOM, &report) != CAPN_OK) fail("pack", "refuses");
    const input pack = {CAPN_PACKED, text, report.length, limits};
    each("canonical, 65 segments", canonical, &more, 1);
    each("canonical, packed", canonical, &pack, 3);
    each("canonical, packed, no room", measured, &pack, 3);
    each("canonical, 65 segments, no room", measured, &more, 1);
    each("hash, bare", hashed, &bare, 1);
    each("hash, stream", hashed, &stream, 1);
    each("hash, packed", hashed, &pack, 4);
    each("check, 65 segments", checked, &more, 1);
    each("check, packed", checked, &pack, 3);
    each("same, 65 segments", compared, &more, 2);
    each("same, packed", compared, &pack, 5);
    each("pack", packed, &stream, 1);
    each("unpack", unpacked, &pack, 1);
    each("first, 65 segments", first, &more, 1);
    each("survey, 65 segments", surveyed, &more, 1);
    each("survey, packed", surveyed, &pack, 2);
    each("index, 65 segments", indexed, &more, 2);
    each("index, 65 segments, no room", counted, &more, 1);
    each("unpack_some", some, &pack, 1);
    each("refusal_way, 65 segments", led, &more, 1);
    each("refusal_way, packed", led, &pack, 3);
    each("departure, bare", departed, &bare, 1);
    each("departure, 65 segments", departed, &more, 1);
    each("departure, packed", departed, &pack, 3);
    each("annotate, bare", lined, &bare, 1);
    each("annotate, 65 segments", lined, &more, 2);
    each("annotate, packed", lined, &pack, 2);
}

/* Tests how many allocations the calls make for messages of any depth. A message without a segment table, or with at
 * most 64 segments, needs no allocation. For a message of 65 segments, a call needs memory to store where each segment
 * ends. */
static void at_depth(uint32_t most, size_t depth, uint32_t wanted) {
    const capn_limits limits = limits_of(1u << 20, 1u << 20, most, CAPN_STRICT);
    const uint32_t room = wanted == CAPN_OK ? CAPN_NO_ROOM : wanted;
    const input bare = {CAPN_BARE, deep, chain(deep, depth), limits};
    input stream = {CAPN_STREAM, framed, frame(framed, 1, deep, bare.size), limits};
    wants("check, bare", checked, &bare, 0, wanted);
    wants("canonical, bare", canonical, &bare, 0, wanted);
    wants("no room, bare", measured, &bare, 0, room);
    wants("is_canonical", judged, &bare, 0, wanted == CAPN_OK ? CAPN_NOT_CANONICAL : wanted);
    wants("same, bare", compared, &bare, 0, wanted);
    wants("same, one segment", compared, &stream, 0, wanted);
    wants("check, one segment", checked, &stream, 0, wanted);
    if (wanted == CAPN_OK) wants("refusal_way, one segment", led, &stream, 0, wanted);
    wants("survey, bare", surveyed, &bare, 0, wanted);
    wants("survey, one segment", surveyed, &stream, 0, wanted);
    wants("index, bare", indexed, &bare, 0, wanted);
    wants("index, one segment", indexed, &stream, 0, wanted);
    wants("index, no room", counted, &stream, 0, room);
    wants("no room, one segment", measured, &stream, 0, room);
    stream.size = frame(framed, 2, deep, bare.size);
    wants("check, two segments", checked, &stream, 0, wanted);
    wants("canonical, two segments", canonical, &stream, 0, wanted);
    wants("survey, two segments", surveyed, &stream, 0, wanted);
    wants("index, two segments", indexed, &stream, 0, wanted);
    wants("index, two segments, no room", counted, &stream, 0, room);
    const input few = {CAPN_STREAM, many, frame(many, 64, deep, bare.size), limits};
    wants("check, 64 segments", checked, &few, 0, wanted);
    wants("canonical, 64 segments", canonical, &few, 0, wanted);
    if (wanted == CAPN_OK) wants("refusal_way, 64 segments", led, &few, 0, wanted);
    wants("departure, 64 segments", departed, &few, 0, wanted);
    wants("same, 64 segments", compared, &few, 0, wanted);
    wants("survey, 64 segments", surveyed, &few, 0, wanted);
    wants("index, 64 segments", indexed, &few, 0, wanted);
    wants("no room, 64 segments", measured, &few, 0, room);
    const input more = {CAPN_STREAM, many, frame(many, 65, deep, bare.size), limits};
    wants("check, 65 segments", checked, &more, 1, wanted);
    wants("no room, 65 segments", measured, &more, 1, room);
    wants("same, 65 segments", compared, &more, wanted == CAPN_OK ? 2 : 1, wanted);
    wants("survey, 65 segments", surveyed, &more, 1, wanted);
    wants("index, 65 segments", indexed, &more, wanted == CAPN_OK ? 2 : 1, wanted);
}

/* Tests calls that return before they store anything. For 65 segments, such a call needs memory. For each other input,
 * it needs none. The inputs are: an input of 0 bytes; a length that isn't a multiple of 8; packed bytes whose first
 * group is truncated; a segment table that is truncated or announces too much; and segments without words. */
static void unread(void) {
    const uint8_t cut[9] = {255}, head[8] = {1, 0, 0, 0, 1}, count[8] = {255, 255}, whole[16] = {1}, sizes[264] = {64};
    const input nothing = {CAPN_STREAM, NULL, 0, usual}, odd = {CAPN_BARE, cut, 9, usual};
    const input group = {CAPN_PACKED, cut, 9, usual}, table = {CAPN_STREAM, head, 8, usual};
    const input segments = {CAPN_STREAM, count, 8, usual}, trailing = {CAPN_STREAM, whole, 16, usual};
    const input longer = {CAPN_STREAM, sizes, 264, usual};
    wants("pack of nothing", packed, &nothing, 0, CAPN_OK);
    wants("unpack of nothing", unpacked, &nothing, 0, CAPN_OK);
    wants("check of nothing", checked, &nothing, 0, CAPN_FRAME_EMPTY);
    wants("pack of no words", packed, &odd, 0, CAPN_NOT_WHOLE);
    wants("check of no words", checked, &odd, 0, CAPN_NOT_WHOLE);
    wants("unpack of a cut group", unpacked, &group, 0, CAPN_PACKED_CUT);
    wants("check of a cut group", checked, &group, 0, CAPN_PACKED_CUT);
    wants("unpack_some of a cut group", some, &group, 0, CAPN_PACKED_CUT);
    wants("unpack_some of nothing", some, &nothing, 0, CAPN_OK);
    wants("first of a cut table", first, &table, 0, CAPN_FRAME_CUT);
    wants("first of nothing", first, &nothing, 0, CAPN_FRAME_EMPTY);
    wants("first of too many segments", first, &segments, 0, CAPN_TOO_MANY_SEGMENTS);
    wants("first of two segments without words", first, &trailing, 0, CAPN_OK);
    wants("first of 65 segments without words", first, &longer, 1, CAPN_OK);
    wants("check of a cut table", checked, &table, 0, CAPN_FRAME_CUT);
    wants("check of too many segments", checked, &segments, 0, CAPN_TOO_MANY_SEGMENTS);
    wants("check of two segments without words", checked, &trailing, 0, CAPN_NO_ROOT);
    wants("check of 65 segments without words", checked, &longer, 1, CAPN_NO_ROOT);
    wants("survey of two segments without words", surveyed, &trailing, 0, CAPN_NO_ROOT);
}

int main(void) {
    in_turn();
    at_depth(64, 64, CAPN_OK);
    at_depth(64, 65, CAPN_TOO_DEEP);
    at_depth(256, DEPTH, CAPN_OK);
    at_depth(DEPTH - 1, DEPTH, CAPN_TOO_DEEP);
    unread();
    return failed != 0;
}
