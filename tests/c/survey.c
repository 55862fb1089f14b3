/* Tests capn_survey, which returns statistics of a message. The messages are written by hand, and some are invalid. The
 * results are compared with those of other calls of capn.h. Each message is tried at aligned and at unaligned
 * addresses, next to a page that can't be accessed. */
#define TEST "survey"
#include "wanted.h"

static uint8_t *guarded;

/* Calls capn_survey on some words: without a segment table, with a table of one segment, and with a table of three
 * segments. Two of the three segments have no words. A message of three segments is never canonical. All other
 * statistics have to be the expected ones. */
static void figures(const char *what, const uint64_t *words, uint32_t count, capn_figures wanted) {
    for (uint32_t segments = 0; segments <= 3; segments += segments == 0 ? 1 : 2) {
        size_t table = segments == 0 ? 0 : 8 * (segments / 2 + 1), size = table + 8 * count;
        uint8_t *in = at_end(guarded, size);
        memset(in, 0, table);
        if (segments) {
            in[0] = (uint8_t)(segments - 1);
            in[4] = (uint8_t)count;
        }
        for (size_t i = 0; i < 8 * count; i++) in[table + i] = (uint8_t)(words[i / 8] >> i % 8 * 8);
        const uint32_t form = segments ? CAPN_STREAM : CAPN_BARE;
        capn_figures f;
        capn_report r, checked;
        memset(&f, 0x55, sizeof f);
        memset(&r, 0x55, sizeof r);
        want(what, capn_survey(form, in, size, &usual, &f, &r), CAPN_OK);
        want(what, capn_check(form, in, size, &usual, &checked), CAPN_OK);
        want("the report", memcmp(&r, &checked, sizeof r) != 0, 0);
        want("paid", f.paid, checked.paid);
        want("visits", f.visits, checked.visits);
        want("words", f.words, count);
        want("segments", f.segments, segments ? segments : 1);
        want("depth", f.depth, wanted.depth);
        want("a capability", f.has_capability, wanted.has_capability);
        want("its index", f.capability, wanted.capability);
        want("canonical", f.canonical, segments == 3 ? 0 : wanted.canonical);
        want("as is_canonical says", capn_is_canonical(in + table, size - table, &usual, &checked) == CAPN_OK,
             wanted.canonical);
        for (uint32_t depth = 1; depth <= 6; depth++) {
            const capn_limits lower = limits_of(8388608, 8388608, depth, CAPN_STRICT);
            capn_status status = capn_survey(form, in, size, &lower, &f, &r);
            want("under a lower depth", status, depth < wanted.depth ? CAPN_TOO_DEEP : CAPN_OK);
            want("as check says", capn_check(form, in, size, &lower, &checked), status);
            want("its report", memcmp(&r, &checked, sizeof r) != 0, 0);
        }
        /* Calls capn_survey on the same message in packed form. */
        if (segments) {
            uint8_t text[128];
            capn_figures same = {0, 0, 0, 0, 0, 0, 0, 0};
            want("packing", capn_pack(in, size, text, sizeof text, &checked), CAPN_OK);
            memset(&r, 0x55, sizeof r);
            want("packed", capn_survey(CAPN_PACKED, text, checked.length, &usual, &same, &r), CAPN_OK);
            want("the same", memcmp(&same, &f, sizeof f) != 0, 0);
            want("its report", r.paid != f.paid || r.visits != f.visits || r.length || r.at || r.segment || r.word, 0);
        }
        /* Moves the message to addresses that are 1 to 7 bytes lower, and calls capn_survey on it there. */
        for (size_t off = 1; off < 8; off++) {
            uint8_t *odd = memmove(in - off, in, size);
            capn_figures same = {0, 0, 0, 0, 0, 0, 0, 0};
            want("elsewhere", capn_survey(form, odd, size, &usual, &same, &r), CAPN_OK);
            want("the same", memcmp(&same, &f, sizeof f) != 0, 0);
            memmove(in, odd, size);
        }
    }
}

/* If capn_survey returns an error, it must leave the statistics unchanged. */
static void refused(const char *what, uint32_t form, const void *bytes, size_t size, const capn_limits *limits,
                    capn_status wanted) {
    capn_figures f, was;
    capn_report r, checked;
    memset(&f, 0x55, sizeof f);
    memset(&r, 0x55, sizeof r);
    was = f;
    want(what, capn_survey(form, bytes, size, limits, &f, &r), wanted);
    want("the figures", memcmp(&f, &was, sizeof f) != 0, 0);
    want("as check", capn_check(form, bytes, size, limits, &checked), wanted);
    want("its report", memcmp(&r, &checked, sizeof r) != 0, 0);
}

int main(void) {
    guarded = between_pages();
    const uint64_t null[] = {0}, number[] = {1ull << 32, 5}, zero[] = {1ull << 32, 0}, spare[] = {0, 7};
    const uint64_t two[] = {1ull << 48, 1ull << 32, 5}, holds[] = {2ull << 48, 3 | 8ull << 32, 3 | 9ull << 32};
    const uint64_t three[] = {2ull << 48, 4, 1ull << 48, 1ull << 32, 5};
    figures("a null root", null, 1, (capn_figures){.depth = 0, .canonical = 1});
    figures("a null root and a word", spare, 2, (capn_figures){.depth = 0});
    figures("a number", number, 2, (capn_figures){.depth = 1, .canonical = 1});
    figures("a zero", zero, 2, (capn_figures){.depth = 1});
    figures("two structs", two, 3, (capn_figures){.depth = 2, .canonical = 1});
    figures("three structs", three, 5, (capn_figures){.depth = 3});
    figures("capabilities", holds, 3, (capn_figures){.depth = 1, .has_capability = 1, .capability = 8});
    const capn_limits none = limits_of(0, 1, 1, CAPN_STRICT), third = limits_of(1, 1, 1, 2);
    const capn_limits poor = limits_of(8, 1, 64, CAPN_STRICT);
    refused("a cut group", CAPN_PACKED, "\x10\2\0\0\xff\1", 6, &usual, CAPN_PACKED_CUT);
    refused("a packed frame that is cut", CAPN_PACKED, "\x10\2\x10\1", 4, &usual, CAPN_FRAME_CUT);
    refused("no packed bytes", CAPN_PACKED, NULL, 0, &usual, CAPN_FRAME_EMPTY);
    refused("words after a packed frame", CAPN_PACKED, "\x10\2\x10\1\1\5\0", 8, &usual, CAPN_TRAILING);
    refused("a packed number and a budget of 1", CAPN_PACKED, "\x10\2\x10\1\1\5", 6, &poor, CAPN_OVER_BUDGET);
    refused("form 3", 3, number, 16, &usual, CAPN_BAD_FORM);
    refused("the greatest form", UINT32_MAX, number, 16, &usual, CAPN_BAD_FORM);
    refused("no words allowed", CAPN_BARE, number, 16, &none, CAPN_BAD_LIMITS);
    refused("tariff 2", CAPN_BARE, number, 16, &third, CAPN_BAD_TARIFF);
    refused("a budget of 1", CAPN_BARE, number, 16, &poor, CAPN_OVER_BUDGET);
    refused("no bytes", CAPN_STREAM, NULL, 0, &usual, CAPN_FRAME_EMPTY);
    refused("no words", CAPN_BARE, NULL, 0, &usual, CAPN_NO_ROOT);
    refused("7 bytes", CAPN_BARE, number, 7, &usual, CAPN_NOT_WHOLE);
    refused("a cut struct", CAPN_BARE, number, 8, &usual, CAPN_RANGE);
    refused("after a frame", CAPN_STREAM, "\0\0\0\0\1\0\0\0\0\0\0\0\0\0\0\0\0", 17, &usual, CAPN_TRAILING);
    refused("a cut frame", CAPN_STREAM, "\0\0\0\0\1\0\0\0\0\0\0\0\0\0\0", 15, &usual, CAPN_FRAME_CUT);
    printf("survey: %d failed\n", failed);
    return failed != 0;
}
