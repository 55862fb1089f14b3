/* Tests capn_annotate on hand-written messages. The lines that it has to return are written by hand, too. Each message
 * lies next to a page that can't be accessed, at aligned and at unaligned addresses. The call gets arrays of each
 * length, from 0 to more lines than it returns. If a message has no segment table, it is also tested with a segment
 * table, and in packed form. */
#define TEST "annotate"
#include "wanted.h"

enum { MOST = 8 };
/* A line that capn_annotate has to return. The words of the line are part of an object. The pointer to this object is
 * word `slot` % 256 of segment `slot` / 256. */
#define LINE(offset, segment, word, words, times, slot, cut, not_zero, kind, flags) \
    {offset, segment, word, words, times, (slot) >> 8, (slot) & 255, cut, not_zero, CAPN_LINE_##kind, flags}

static const struct {
    const char *name, *digits;
    uint32_t form, count;
    capn_line lines[MOST];
} messages[] = {
    {"a message with a text",
     " 000000000400000000000000010001000500000000000000010000001a0000006162000000000000",
     CAPN_STREAM, 4,
     {LINE(8, 0, 0, 1, 1, 0, 0, 1, POINTER, 0), LINE(16, 0, 1, 1, 1, 0, 0, 1, DATA, 0),
      LINE(24, 0, 2, 1, 1, 0, 0, 1, POINTER, 0), LINE(32, 0, 3, 1, 1, 2, 0, 1, LIST, 0)}},
    {"a word that nothing reaches", " 0000000000000100050000003200000041646100000000004772616365000000", CAPN_BARE, 4,
     {LINE(0, 0, 0, 1, 1, 0, 0, 1, POINTER, 0), LINE(8, 0, 1, 1, 1, 0, 0, 1, POINTER, 0),
      LINE(16, 0, 2, 1, 0, 0, 0, 1, UNREACHED, 0), LINE(24, 0, 3, 1, 1, 1, 0, 1, LIST, 0)}},
    {"a pad, a shared text and words that are cut",
     " 1101010106110201500103000011091a11051a0000036869",
     CAPN_PACKED, 7,
     {LINE(16, 0, 0, 1, 1, 0, 0, 1, POINTER, 0), LINE(24, 1, 0, 1, 1, 0, 0, 1, PAD, 0),
      LINE(32, 1, 1, 1, 1, 0, 1, 0, DATA, 0), LINE(40, 1, 2, 1, 1, 0, 0, 1, POINTER, 0),
      LINE(48, 1, 3, 1, 1, 0, 0, 1, POINTER, 0), LINE(56, 1, 4, 1, 1, 0, 1, 0, NULL, 0),
      LINE(64, 1, 5, 1, 2, 0x102, 0, 1, LIST, 0)}},
    {"an overlap and slack",
     " 0000000000000200050000001f00000009000000140000000800000001000000"
     "07000000000000000900000000000000ffffffffffffffff",
     CAPN_BARE, 7,
     {LINE(0, 0, 0, 1, 1, 0, 0, 1, POINTER, 0), LINE(8, 0, 1, 1, 1, 0, 0, 1, POINTER, 0),
      LINE(16, 0, 2, 1, 1, 0, 0, 1, POINTER, 0), LINE(24, 0, 3, 1, 1, 1, 0, 1, TAG, 0),
      LINE(32, 0, 4, 1, 1, 1, 0, 1, DATA, 0), LINE(40, 0, 5, 1, 2, 1, 0, 1, DATA, CAPN_LINE_OVERLAP),
      LINE(48, 0, 6, 1, 1, 1, 0, 1, SLACK, 0)}},
    /* A list of 17 bytes. It fills two words and the first byte of a third word. A later byte of the third word isn't
     * zero. */
    {"several words and padding", " 010000008a000000616161616161616100000000000000006100000000000009", CAPN_BARE, 2,
     {LINE(0, 0, 0, 1, 1, 0, 0, 1, POINTER, 0), LINE(8, 0, 1, 3, 1, 0, 0, 2, LIST, CAPN_LINE_PADDING)}},
    {"a null root", " 0000000000000000", CAPN_BARE, 1, {LINE(0, 0, 0, 1, 1, 0, 0, 0, NULL, 0)}},
    {"a capability", " 00000000000001000300000007000000", CAPN_BARE, 2,
     {LINE(0, 0, 0, 1, 1, 0, 0, 1, POINTER, 0), LINE(8, 0, 1, 1, 1, 0, 0, 1, POINTER, 0)}},
};

/* Calls capn_annotate with an array of `room` lines. The array lies at the end of a block, before a page that can't be
 * accessed. */
static void with_room(const char *what, uint32_t form, const uint8_t *in, size_t size, const capn_line *wanted,
                      size_t count, size_t room, uint8_t *pages) {
    capn_line got[MOST + 3];
    capn_line *lines = (capn_line *)(void *)at_end(pages, room * sizeof *lines);
    capn_report r, checked;
    memset(lines, 0x55, room * sizeof *lines);
    memset(got, 0x55, sizeof got);
    memset(&r, 0x55, sizeof r);
    const capn_status status = capn_annotate(form, in, size, &usual, room ? lines : NULL, room, &r);
    want(what, status, room < count ? CAPN_NO_ROOM : CAPN_OK);
    want("check", capn_check(form, in, size, &usual, &checked), CAPN_OK);
    want("bytes", r.length, 48 * count);
    want("paid", r.paid, checked.paid);
    want("visits", r.visits, checked.visits);
    want("no more", r.at | r.segment | r.word, 0);
    if (room >= count) memcpy(got, wanted, count * sizeof *got);
    want(what, memcmp(lines, got, room * sizeof *got) != 0, 0);
    for (size_t i = 0; i < room && i < count && room >= count; i++)
        if (memcmp(&lines[i], &got[i], sizeof *got))
            printf("annotate: %s: %zu: %llu %u:%u %u times %u of %u:%u cut %u not zero %u kind %u flags %u\n", what, i,
                   (unsigned long long)lines[i].offset, lines[i].segment, lines[i].word, lines[i].words, lines[i].times,
                   lines[i].slot_segment, lines[i].slot_word, lines[i].cut, lines[i].not_zero, lines[i].kind,
                   lines[i].flags);
}

/* Tests a message at each alignment. A bare message is also tested with a segment table in front of it. The table adds
 * 8 to each offset. */
static void each_form(size_t m, uint8_t **pages) {
    size_t size;
    const uint32_t form = messages[m].form;
    const size_t count = messages[m].count;
    capn_line wanted[MOST];
    for (size_t off = 0; off < 8; off++) {
        const uint8_t *bytes = bytes_at_end(messages[m].digits, pages[0], &size);
        uint8_t *in = at_end(pages[2], size + off);
        memmove(in, bytes, size);
        memcpy(wanted, messages[m].lines, sizeof wanted);
        for (size_t room = off ? count : 0; room < (off ? count + 1 : count + 3); room++)
            with_room(messages[m].name, form, in, size, wanted, count, room, pages[1]);
        if (form != CAPN_BARE) continue;
        uint8_t *framed = at_end(pages[2], size + 8 + off);
        memset(framed, 0, 8);
        framed[4] = (uint8_t)(size / 8);
        memmove(framed + 8, bytes, size);
        for (size_t i = 0; i < count; i++) wanted[i].offset += 8;
        with_room(messages[m].name, CAPN_STREAM, framed, size + 8, wanted, count, count, pages[1]);
        capn_report packed;
        static uint8_t text[256];
        if (capn_pack(framed, size + 8, text, sizeof text, &packed) == CAPN_OK)
            with_room(messages[m].name, CAPN_PACKED, text, packed.length, wanted, count, count, pages[1]);
    }
}

/* Makes calls that return an error. Such a call must leave the array of lines unchanged. */
static void refused(void) {
    const uint8_t range[8] = {0, 0, 0, 0, 1}, null[8] = {0};
    const capn_limits none = limits_of(0, 1, 1, CAPN_STRICT), third = limits_of(1, 1, 1, 2);
    const capn_limits poor = limits_of(1, 0, 1, CAPN_STRICT);
    capn_line one, was;
    capn_report r;
    memset(&one, 0x55, sizeof one);
    memset(&was, 0x55, sizeof was);
    want("form 3", capn_annotate(3, null, 8, &usual, &one, 1, &r), CAPN_BAD_FORM);
    want("limits", capn_annotate(CAPN_BARE, null, 8, &none, &one, 1, &r), CAPN_BAD_LIMITS);
    want("tariff", capn_annotate(CAPN_BARE, null, 8, &third, &one, 1, &r), CAPN_BAD_TARIFF);
    want("no report", r.length | r.at | r.paid | r.visits | r.segment | r.word, 0);
    want("range", capn_annotate(CAPN_BARE, range, 8, &usual, &one, 1, &r), CAPN_RANGE);
    want("its place", r.segment | r.word | r.length | r.paid, 0);
    want("its visits", r.visits, 1);
    want("over the budget", capn_annotate(CAPN_BARE, (const uint8_t[16]){0, 0, 0, 0, 1}, 16, &poor, &one, 1, &r),
         CAPN_OVER_BUDGET);
    want("no words", capn_annotate(CAPN_BARE, NULL, 0, &usual, &one, 1, &r), CAPN_NO_ROOT);
    want("no frame", capn_annotate(CAPN_STREAM, NULL, 0, &usual, &one, 1, &r), CAPN_FRAME_EMPTY);
    want("no group", capn_annotate(CAPN_PACKED, (const uint8_t *)"\1", 1, &usual, &one, 1, &r), CAPN_PACKED_CUT);
    want("the line", memcmp(&one, &was, sizeof one) != 0, 0);
    want("no limits, no report", capn_annotate(CAPN_BARE, null, 8, NULL, &one, 1, NULL), CAPN_OK);
    want("its kind", one.kind, CAPN_LINE_NULL);
}

int main(void) {
    uint8_t *pages[3] = {between_pages(), between_pages(), between_pages()};
    for (size_t m = 0; m < sizeof messages / sizeof *messages; m++) each_form(m, pages);
    refused();
    printf("annotate: %d failed\n", failed);
    return failed != 0;
}
