/* Tests the index of a hand-written message that has each kind of object. The message has no segment table, or a table
 * of one or three segments. The message lies next to a page that can't be accessed, at aligned and at unaligned
 * addresses. The call gets arrays of each length, from 0 to more entries than it returns. (tests/c/fuzz.c reads the
 * indexes of many messages.) */
#define TEST "index"
#include "wanted.h"

enum { COUNT = 17, WORDS = 26 };

/* `list` returns a list pointer, and `object` returns a struct pointer. The pointer lies at word `from`, and its target
 * begins at word `to`. */
static uint64_t list(uint64_t from, uint64_t to, uint64_t width, uint64_t count) {
    return 1 | (to - from - 1) << 2 | width << 32 | count << 35;
}
static uint64_t object(uint64_t from, uint64_t to, uint64_t words, uint64_t slots) {
    return (to - from - 1) << 2 | words << 32 | slots << 48;
}

/* Writes a message, and the entries of its index. The root is a struct of one word and eleven pointers, one for each
 * kind of object. The list of pointers has two elements. The list of structs has two elements, each with a word and a
 * pointer. The pointer to an empty struct refers to itself. */
static void make(uint64_t *w, capn_entry *e) {
    const uint64_t words[WORDS] = {
        object(0, 1, 1, 11), 7, 0, list(3, 13, 0, 9), list(4, 13, 1, 9), list(5, 14, 2, 3), list(6, 15, 3, 3),
        list(7, 16, 4, 2), list(8, 17, 5, 2), list(9, 19, 6, 2), list(10, 21, 7, 4), 3 | 42ull << 32, 0xfffffffc,
        0x1ff, 0x030201, 0x000300020001, 0x200000001, 5, 6, 0, 0xfffffffc,
        2 << 2 | 1ull << 32 | 1ull << 48, 11, 0, 12, 0};
    const capn_entry entries[COUNT] = {
        {8, 0, 17, 1, 11, CAPN_KIND_STRUCT}, {0, 0, 1, 0, 0, CAPN_KIND_NULL}, {8 * 13, 9, 1, 0, 0, CAPN_KIND_VOID},
        {8 * 13, 9, 1, 0, 0, CAPN_KIND_BITS}, {8 * 14, 3, 1, 0, 0, CAPN_KIND_BYTES},
        {8 * 15, 3, 1, 0, 0, CAPN_KIND_U16}, {8 * 16, 2, 1, 0, 0, CAPN_KIND_U32},
        {8 * 17, 2, 1, 0, 0, CAPN_KIND_U64}, {8 * 19, 2, 3, 0, 0, CAPN_KIND_POINTERS},
        {0, 0, 1, 0, 0, CAPN_KIND_NULL}, {8 * 20, 0, 1, 0, 0, CAPN_KIND_STRUCT}, {8 * 21, 2, 3, 1, 1, CAPN_KIND_ROWS},
        {0, 0, 1, 0, 0, CAPN_KIND_NULL}, {0, 0, 1, 0, 0, CAPN_KIND_NULL}, {0, 42, 1, 0, 0, CAPN_KIND_CAPABILITY},
        {8 * 12, 0, 1, 0, 0, CAPN_KIND_STRUCT}, {0, 0, 0, 0, 0, 0}};
    memcpy(w, words, sizeof words);
    memcpy(e, entries, sizeof entries);
}

int main(void) {
    uint64_t words[WORDS];
    capn_entry wanted[COUNT], got[COUNT + 3];
    uint8_t *const guarded[2] = {between_pages(), between_pages()};
    make(words, wanted);
    wanted[0].span = COUNT - 1;
    for (size_t segments = 0; segments <= 3; segments += segments == 0 ? 1 : 2) {
        /* In a message of three segments, the first segment has only the root pointer. This pointer is a far pointer to
         * the landing pad at the start of the third segment. */
        size_t table = segments == 0 ? 0 : 8 * (segments / 2 + 1), more = segments == 3 ? 8 : 0;
        size_t size = table + more + 8 * WORDS;
        for (size_t off = 0; off < 8; off++) {
            uint8_t *in = at_end(guarded[0], size + off);
            memset(in, 0, table + more);
            if (segments) {
                in[0] = (uint8_t)(segments - 1);
                in[4] = segments == 1 ? WORDS : 1;
                if (segments == 3) {
                    in[12] = WORDS;
                    in[table] = 2;
                    in[table + 4] = 2;
                }
            }
            for (size_t i = 0; i < 8 * WORDS; i++) in[table + more + i] = (uint8_t)(words[i / 8] >> i % 8 * 8);
            const uint32_t form = segments ? CAPN_STREAM : CAPN_BARE;
            for (size_t room = 0; room < COUNT + 3; room++) {
                capn_entry *entries = (capn_entry *)at_end(guarded[1], room * sizeof *entries);
                capn_report r, checked;
                memset(entries, 0x55, room * sizeof *entries);
                memset(&r, 0x55, sizeof r);
                capn_status status = capn_index(form, in, size, &usual, entries, room, &r);
                want("the status", status, room < COUNT - 1 ? CAPN_NO_ROOM : CAPN_OK);
                want("check", capn_check(form, in, size, &usual, &checked), CAPN_OK);
                want("the number of entries", r.visits, COUNT - 1);
                want("as visits", r.visits, checked.visits);
                want("paid", r.paid, checked.paid);
                want("bytes", r.length, 24 * (COUNT - 1));
                want("no more", r.at | r.segment | r.word, 0);
                memset(got, 0x55, sizeof got);
                if (status == CAPN_OK) {
                    memcpy(got, wanted, sizeof *got * (COUNT - 1));
                    for (size_t i = 0; i < COUNT - 1; i++)
                        if (got[i].kind == CAPN_KIND_NULL || got[i].kind == CAPN_KIND_CAPABILITY)
                            got[i].offset = entries[i].offset;
                        else got[i].offset += table + more;
                }
                want("the entries", memcmp(entries, got, room * sizeof *got) != 0, 0);
                for (size_t i = 0; i < room && status == CAPN_OK && i < COUNT - 1; i++)
                    if (memcmp(&entries[i], &got[i], sizeof *got))
                        printf("index: %zu: %llu %u %u %u %u %u\n", i, (unsigned long long)entries[i].offset,
                               entries[i].count, entries[i].span, entries[i].words, entries[i].slots, entries[i].kind);
            }
        }
    }
    capn_report r;
    const capn_limits none = limits_of(0, 1, 1, CAPN_STRICT), third = limits_of(1, 1, 1, 2);
    capn_entry one = {1, 2, 3, 4, 5, 6}, was = one;
    want("packed", capn_index(CAPN_PACKED, (uint8_t *)words, 8, &usual, &one, 1, &r), CAPN_BAD_FORM);
    want("form 3", capn_index(3, (uint8_t *)words, 8, &usual, &one, 1, &r), CAPN_BAD_FORM);
    want("limits", capn_index(CAPN_BARE, (uint8_t *)words, 8, &none, &one, 1, &r), CAPN_BAD_LIMITS);
    want("tariff", capn_index(CAPN_BARE, (uint8_t *)words, 8, &third, &one, 1, &r), CAPN_BAD_TARIFF);
    want("no report", r.length | r.at | r.paid | r.visits | r.segment | r.word, 0);
    want("cut", capn_index(CAPN_BARE, (uint8_t *)words, 8, &usual, &one, 1, &r), CAPN_RANGE);
    want("no words", capn_index(CAPN_BARE, NULL, 0, &usual, &one, 1, &r), CAPN_NO_ROOT);
    want("no frame", capn_index(CAPN_STREAM, NULL, 0, &usual, &one, 1, &r), CAPN_FRAME_EMPTY);
    want("the entry", memcmp(&one, &was, sizeof one) != 0, 0);
    printf("index: %d failed\n", failed);
    return failed != 0;
}
