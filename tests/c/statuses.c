/* Makes calls with many inputs, so that some call returns each status of capn.h. All calls have to agree on the status
 * of an input. Prints the number of each returned status, in ascending order. `tests/c/run` compares these numbers with
 * those of the header. */
#include "refusing.h"
#include "usual.h"
#include <stdio.h>
#include <string.h>
#include <sys/mman.h>

static int failed, came[256];

/* Fails the test if a number isn't the expected number. */
static void want(const char *what, uint64_t number, uint64_t wanted) {
    if (number == wanted) return;
    failed++;
    fprintf(stderr, "statuses: %s: %llu, wanted %llu\n", what, (unsigned long long)number, (unsigned long long)wanted);
}

/* Fails the test if the returned status isn't the expected status. */
static void is(const char *what, capn_status status, capn_status wanted) {
    if (status < 256) came[status] = 1;
    want(what, status, wanted);
}

/* Makes each call on some bytes. Leaves out capn_index if the bytes are packed. A capability in the message is an error
 * only for capn_hash, capn_same and the calls that return canonical bytes. */
static capn_report each_call(const char *what, uint32_t form, const void *bytes, size_t size, const capn_limits *limits,
                             uint32_t wanted) {
    capn_report checked, report;
    uint8_t out[64];
    is(what, capn_check(form, bytes, size, limits, &checked), wanted == CAPN_CAPABILITY ? CAPN_OK : wanted);
    const capn_status told = wanted == CAPN_CAPABILITY ? CAPN_OK : wanted;
    const capn_status unread = told == CAPN_OK ? CAPN_NO_ROOM : told;
    capn_figures figures;
    is(what, capn_survey(form, bytes, size, limits, &figures, &report), told);
    want("the report of a survey", memcmp(&report, &checked, sizeof report) != 0, 0);
    if (form != CAPN_PACKED) is(what, capn_index(form, bytes, size, limits, NULL, 0, &report), unread);
    is(what, capn_show(form, bytes, size, limits, CAPN_STYLE_LINES, NULL, 0, &report), unread);
    is(what, capn_annotate(form, bytes, size, limits, NULL, 0, &report), unread);
    uint32_t way[8];
    capn_departed departed;
    is(what, capn_departure(form, bytes, size, limits, &departed, way, 8, &report), told);
    is(what, capn_refusal_way(form, bytes, size, limits, way, 8, &report), told);
    report.length = 0;
    want("the report of a way", memcmp(&report, &checked, sizeof report) != 0, 0);
    is(what, capn_hash(form, bytes, size, limits, out, &report), wanted);
    uint32_t which;
    is(what, capn_same(form, bytes, size, bytes, size, limits, &which, &report), wanted);
    want("which is refused", which, 0);
    is(what, capn_canonical(form, bytes, size, limits, out, 64, &report), wanted);
    is(what, capn_canonical(form, bytes, size, limits, NULL, 0, &report), wanted == CAPN_OK ? CAPN_NO_ROOM : wanted);
    /* capn_canonical_with_scratch gets enough scratch memory for the messages of this test, so it succeeds even if
     * allocations fail. */
    uint64_t scratch[128];
    const capn_status lent = wanted == CAPN_MEMORY ? CAPN_OK : wanted;
    is(what, capn_canonical_with_scratch(form, bytes, size, limits, scratch, 128, out, 64, &report), lent);
    return wanted == CAPN_CAPABILITY ? report : checked;
}

/* Makes each call on some words: without a segment table, with a table of one segment, and with a table of two
 * segments. The second segment has no words. The messages with a table are also packed. */
static void walks(const char *what, const uint64_t *words, size_t count, const capn_limits *limits, uint32_t wanted,
                  uint32_t word) {
    uint8_t bytes[32], text[64];
    for (size_t i = 0; i < 8 * count; i++) bytes[i] = (uint8_t)(words[i / 8] >> i % 8 * 8);
    capn_report told = each_call(what, CAPN_BARE, bytes, 8 * count, limits, wanted), judged;
    is(what, capn_is_canonical(bytes, 8 * count, limits, &judged), wanted);
    want(what, told.word, word);
    if (wanted != CAPN_OK) want("the report of is_canonical", memcmp(&told, &judged, sizeof told) != 0, 0);
    for (uint8_t segments = 1; segments <= 2; segments++) {
        uint8_t framed[48] = {(uint8_t)(segments - 1), 0, 0, 0, (uint8_t)count};
        size_t table = segments == 1 ? 8 : 16;
        memcpy(framed + table, bytes, 8 * count);
        capn_report same = each_call(what, CAPN_STREAM, framed, table + 8 * count, limits, wanted);
        want("the report of a frame", memcmp(&told, &same, sizeof told) != 0, 0);
        is(what, capn_pack(framed, table + 8 * count, text, sizeof text, &judged), CAPN_OK);
        same = each_call(what, CAPN_PACKED, text, judged.length, limits, wanted);
        want("the report of a packed frame", memcmp(&told, &same, sizeof told) != 0, 0);
    }
}

/* Tests the errors for invalid pointers, and the error for a capability. */
static void walked(void) {
    const capn_limits shallow = limits_of(3, 100, 1, CAPN_STRICT), poor = limits_of(3, 1, 64, CAPN_STRICT);
    const uint64_t null = 0, capability = 3, reserved = 7, far = 2 | 9ull << 32, beyond = 2 | 9 << 3;
    const uint64_t range = 1ull << 32;
    const uint64_t pad[] = {2 | 1 << 3, 0};
    const uint64_t tag[] = {1 | 15ull << 32, 1, 0}, overrun[] = {1 | 15ull << 32, 2 << 2 | 1ull << 32, 0};
    const uint64_t deep[] = {1ull << 48, 1ull << 32, 5}, holds[] = {1ull << 48, 3 | 8ull << 32};
    walks("no root", &null, 0, &usual, CAPN_NO_ROOT, 0);
    walks("a capability as root", &capability, 1, &usual, CAPN_ROOT_KIND, 0);
    walks("a reserved pointer", &reserved, 1, &usual, CAPN_RESERVED, 0);
    walks("no segment 9", &far, 1, &usual, CAPN_NO_SEGMENT, 0);
    walks("a pad beyond the segment", &beyond, 1, &usual, CAPN_PAD_RANGE, 0);
    walks("a null pad", pad, 2, &usual, CAPN_BAD_PAD, 0);
    walks("a struct beyond the segment", &range, 1, &usual, CAPN_RANGE, 0);
    walks("a tag that is no struct's", tag, 3, &usual, CAPN_BAD_TAG, 0);
    walks("a tag of more rows than there are", overrun, 3, &usual, CAPN_TAG_OVERRUN, 0);
    walks("two structs at depth 1", deep, 3, &shallow, CAPN_TOO_DEEP, 1);
    walks("a budget of 1", deep, 3, &poor, CAPN_OVER_BUDGET, 0);
    walks("a capability", holds, 2, &usual, CAPN_CAPABILITY, 0);
    walks("a null root", &null, 1, &usual, CAPN_OK, 0);
}

/* Tests the errors for invalid packed bytes and for invalid segment tables. Also tests the number in the report of each
 * error. */
static void read_as(const char *what, uint32_t form, const void *bytes, size_t size, const capn_limits *limits,
                    uint32_t wanted, uint64_t at) {
    capn_report told = each_call(what, form, bytes, size, limits, wanted);
    want(what, told.at, at);
}

static void reading(void) {
    const uint8_t message[24] = {0, 0, 0, 0, 1, 0, 0, 0, 0}, many[8] = {0, 16}, packed[3] = {0xff, 1, 2};
    const uint8_t zeros[2] = {0, 255};
    const capn_limits one = limits_of(1, 1, 1, CAPN_STRICT);
    capn_report report;
    uint8_t out[16];
    read_as("7 bytes", CAPN_BARE, message, 7, &usual, CAPN_NOT_WHOLE, 7);
    is("7 bytes packed", capn_pack(message, 7, out, 16, &report), CAPN_NOT_WHOLE);
    read_as("a cut group", CAPN_PACKED, packed, 3, &usual, CAPN_PACKED_CUT, 0);
    is("a cut group", capn_unpack(packed, 3, 9, out, 16, &report), CAPN_PACKED_CUT);
    is("more words than the maximum", capn_unpack(zeros, 2, 255, out, 16, &report), CAPN_PACKED_TOO_LONG);
    read_as("no bytes", CAPN_STREAM, NULL, 0, &usual, CAPN_FRAME_EMPTY, 0);
    read_as("no packed bytes", CAPN_PACKED, NULL, 0, &usual, CAPN_FRAME_EMPTY, 0);
    read_as("4,097 segments", CAPN_STREAM, many, 8, &usual, CAPN_TOO_MANY_SEGMENTS, 4097);
    read_as("2 words", CAPN_STREAM, "\0\0\0\0\2\0\0", 8, &one, CAPN_TOO_MANY_WORDS, 2);
    read_as("a cut frame", CAPN_STREAM, message, 15, &usual, CAPN_FRAME_CUT, 0);
    read_as("bytes after the frame", CAPN_STREAM, message, 24, &usual, CAPN_TRAILING, 16);
    /* The reported offset counts the unpacked bytes. So it is 24, although the packed message has only 8 bytes. */
    read_as("words after a packed frame", CAPN_PACKED, "\x10\2\x10\1\1\5\0", 8, &usual, CAPN_TRAILING, 24);
    read_as("a packed frame of too many segments", CAPN_PACKED, "\3\0\x10", 3, &usual, CAPN_TOO_MANY_SEGMENTS, 4097);
    read_as("a packed frame that is cut", CAPN_PACKED, "\x10\2\x10\1", 4, &usual, CAPN_FRAME_CUT, 0);
    read_as("a packed frame of 2 words", CAPN_PACKED, "\x10\2\0\1", 4, &one, CAPN_TOO_MANY_WORDS, 2);
    is("whole groups, then a cut one", capn_unpack((const uint8_t *)"\1\5\1", 3, 9, out, 16, &report), CAPN_PACKED_CUT);
    want("its offset", report.at, 2);
    is("whole groups, then one too many", capn_unpack((const uint8_t *)"\1\5\1\5", 4, 1, out, 16, &report),
       CAPN_PACKED_TOO_LONG);
    want("its offset", report.at, 2);
}

/* Passes packed bytes that unpack to more words than a message with the longest segment table may have. Also passes
 * more words than a message without a segment table may have. The memory of the words without a segment table can't be
 * accessed. */
static void too_long(void) {
    const capn_limits one = limits_of(1, 1, 1, CAPN_STRICT);
    uint8_t zeros[18];
    for (int i = 0; i < 18; i++) zeros[i] = i % 2 ? 255 : 0; /* these packed bytes unpack to 9 runs of 256 zero words */
    read_as("2,304 packed words", CAPN_PACKED, zeros, 18, &one, CAPN_PACKED_TOO_LONG, 16);
    size_t words = (1u << 28) + 2;
    void *bytes = mmap(NULL, 8 * words, PROT_NONE, MAP_PRIVATE | MAP_ANONYMOUS | MAP_NORESERVE, -1, 0);
    if (bytes == MAP_FAILED) {
        want("the system gives no 2^28 + 2 words", 0, 1);
        return;
    }
    read_as("2^28 + 2 bare words", CAPN_BARE, bytes, 8 * words, &usual, CAPN_BARE_TOO_LONG, words);
    munmap(bytes, 8 * words);
}

/* Tests the errors for invalid arguments, for a buffer that is too small, and for bytes that aren't canonical. */
static void called(void) {
    const uint8_t message[24] = {0, 0, 0, 0, 2, 0, 0, 0, 0, 0, 0, 0, 1, 0, 0, 0, 0};
    const capn_limits none = limits_of(0, 1, 1, CAPN_STRICT), third = limits_of(1, 1, 1, 2);
    capn_report report;
    uint8_t out[16];
    each_call("form 3", 3, message, 24, &usual, CAPN_BAD_FORM);
    each_call("no words allowed", CAPN_STREAM, message, 24, &none, CAPN_BAD_LIMITS);
    is("no words allowed", capn_is_canonical(message, 24, &none, &report), CAPN_BAD_LIMITS);
    each_call("tariff 2", CAPN_STREAM, message, 24, &third, CAPN_BAD_TARIFF);
    is("tariff 2", capn_is_canonical(message, 24, &third, &report), CAPN_BAD_TARIFF);
    is("style 4", capn_show(CAPN_STREAM, message, 24, &usual, 4, NULL, 0, &report), CAPN_BAD_STYLE);
    is("style 4 and tariff 2", capn_show(CAPN_STREAM, message, 24, &third, 4, NULL, 0, &report), CAPN_BAD_TARIFF);
    is("style 4 of no bytes", capn_show(CAPN_STREAM, NULL, 0, &usual, 4, NULL, 0, &report), CAPN_BAD_STYLE);
    is("room for 7 bytes", capn_canonical(CAPN_STREAM, message, 24, &usual, out, 7, &report), CAPN_NO_ROOM);
    want("its length", report.length, 8);
    is("room for no text", capn_pack(message, 24, out, 1, &report), CAPN_NO_ROOM);
    is("room for no words", capn_unpack(message, 2, 1, out, 7, &report), CAPN_NO_ROOM);
    const uint8_t packed[2] = {0, 1};
    is("no scratch", capn_canonical_with_scratch(CAPN_PACKED, packed, 2, &usual, NULL, 0, out, 16, &report),
       CAPN_NO_SCRATCH);
    want("the words that are needed", report.at, 2);
    is("two messages", capn_same(CAPN_BARE, message + 8, 16, message + 16, 8, &usual, NULL, &report), CAPN_DIFFERENT);
    is("a struct with a zero word", capn_is_canonical(message + 8, 16, &usual, &report), CAPN_NOT_CANONICAL);
}

/* Makes calls while every allocation fails. For packed bytes, and for a stream of 65 segments, each call returns
 * CAPN_MEMORY. capn_pack, capn_unpack and capn_show always return CAPN_MEMORY. For a message in one or two segments,
 * capn_canonical and capn_index don't allocate, so they succeed. capn_hash succeeds only if the message itself is
 * canonical. */
static void without_memory(void) {
    const uint8_t many[272] = {64, 0, 0, 0, 1}, two[24] = {1, 0, 0, 0, 1}, packed[9] = {0x10, 1, 0, 0};
    const uint8_t loose[16] = {0, 0, 0, 0, 1};
    capn_report report;
    uint8_t out[64];
    left = 0;
    each_call("65 segments", CAPN_STREAM, many, 272, &usual, CAPN_MEMORY);
    each_call("packed", CAPN_PACKED, packed, 4, &usual, CAPN_MEMORY);
    is("bare words", capn_canonical(CAPN_BARE, two + 8, 8, &usual, out, 64, &report), CAPN_OK);
    is("two segments", capn_canonical(CAPN_STREAM, two, 24, &usual, out, 64, &report), CAPN_OK);
    is("no digest", capn_hash(CAPN_BARE, loose, 16, &usual, out, &report), CAPN_MEMORY);
    is("a digest in place", capn_hash(CAPN_BARE, two + 8, 8, &usual, out, &report), CAPN_OK);
    is("no lines", capn_show(CAPN_BARE, two + 8, 8, &usual, 0, (char *)out, 64, &report), CAPN_MEMORY);
    is("no text", capn_pack(two, 24, out, 64, &report), CAPN_MEMORY);
    is("no words", capn_unpack(packed, 4, 9, out, 64, &report), CAPN_MEMORY);
    is("no groups", capn_unpack_some(packed, 4, out, 64, &report), CAPN_MEMORY);
    is("two ends", capn_first(two, 24, &usual, &report), CAPN_OK);
    is("no table", capn_first(many, 272, &usual, &report), CAPN_MEMORY);
    capn_entry entry;
    is("entries", capn_index(CAPN_BARE, two + 8, 8, &usual, &entry, 1, &report), CAPN_OK);
    capn_line line;
    is("no cover", capn_annotate(CAPN_BARE, two + 8, 8, &usual, &line, 1, &report), CAPN_MEMORY);
    is("no starts", capn_index(CAPN_STREAM, many, 272, &usual, &entry, 1, &report), CAPN_MEMORY);
    left = -1;
}

int main(void) {
    walked();
    reading();
    too_long();
    called();
    without_memory();
    for (int status = 0; status < 256; status++)
        if (came[status]) printf("%d\n", status);
    return failed != 0;
}
