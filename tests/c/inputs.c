/* Tests each call of capn.h with enough memory. The inputs are valid messages, hostile messages, an input of 0 bytes,
 * numbers out of range, and segment tables that announce too many bytes. Buffers of each size are tried, too. */
#define TEST "inputs"
#include "wanted.h"

/* Tests that a call has set every field of its report to 0. */
static void blank(const char *what, const capn_report *r) {
    want(what, r->length | r->at | r->paid | r->visits | r->segment | r->word, 0);
}

static const uint8_t message[32] = {0, 0, 0, 0, 3, 0, 0, 0, 0, 0, 0, 0, 2, 0, 0, 0, 5};

/* Makes each call of capn.h with enough memory and large buffers. Tests the call's status, its report, and each byte
 * that it writes. */
static void answered(void) {
    const uint8_t canonical[16] = {0, 0, 0, 0, 1, 0, 0, 0, 5}, packed[8] = {0x10, 3, 0x10, 2, 1, 5};
    /* The first bytes of the expected digest. The digest is the SHA-256 of the canonical bytes. */
    const uint8_t sum[4] = {0x6a, 0x3e, 0xfd, 0x90};
    const capn_limits plain = limits_of(8388608, 8388608, 64, CAPN_PLAIN);
    capn_report r;
    uint8_t out[32], digest[32];
    memset(out, 0xAA, 32);
    want("canonical", capn_canonical(CAPN_STREAM, message, 32, &usual, out, 32, &r), CAPN_OK);
    want("its bytes", memcmp(out, canonical, 16) != 0 || out[16] != 0xAA, 0);
    want("its length", r.length, 16);
    want("its price", r.paid, 3);
    want("is_canonical of them", capn_is_canonical(out, 16, &usual, &r), CAPN_OK);
    want("is_canonical of a struct with a zero word", capn_is_canonical(message + 8, 24, &usual, &r),
         CAPN_NOT_CANONICAL);
    want("check", capn_check(CAPN_STREAM, message, 32, &usual, &r), CAPN_OK);
    want("its price", r.paid, 3);
    want("its visits", r.visits, 1);
    want("check by the plain tariff", capn_check(CAPN_STREAM, message, 32, &plain, &r), CAPN_OK);
    want("its price", r.paid, 2);
    uint32_t which = 9;
    want("same", capn_same(CAPN_STREAM, message, 32, message, 32, &usual, &which, &r), CAPN_OK);
    blank("its report", &r);
    want("which", which, 0);
    want("same of another", capn_same(CAPN_BARE, message + 8, 24, message + 24, 8, &usual, &which, &r),
         CAPN_DIFFERENT);
    blank("its report", &r);
    want("hash", capn_hash(CAPN_STREAM, message, 32, &usual, digest, &r), CAPN_OK);
    want("its bytes", memcmp(digest, sum, 4) != 0, 0);
    memset(digest, 0, 32);
    want("hash of a packed text", capn_hash(CAPN_PACKED, packed, 8, &usual, digest, &r), CAPN_OK);
    want("its bytes", memcmp(digest, sum, 4) != 0, 0);
    want("its price", r.paid, 3);
    want("no length", r.length, 0);
    want("check of a packed text", capn_check(CAPN_PACKED, packed, 8, &usual, &r), CAPN_OK);
    want("its price", r.paid, 3);
    want("its visits", r.visits, 1);
    want("pack", capn_pack(message, 32, out, 8, &r), CAPN_OK);
    want("its bytes", memcmp(out, packed, 8) != 0, 0);
    want("its length", r.length, 8);
    want("unpack", capn_unpack(packed, 8, 4, out, 32, &r), CAPN_OK);
    want("its bytes", memcmp(out, message, 32) != 0, 0);
    want("its length", r.length, 32);
}

/* Makes each call of capn.h with a message and buffers at addresses that are 0 to 7 bytes after an aligned address. The
 * message and each buffer end where their allocated blocks end, so that a sanitizer detects an access past the end. */
static void anywhere(void) {
    const uint8_t packed[8] = {0x10, 3, 0x10, 2, 1, 5};
    for (size_t off = 0; off < 8; off++)
        for (size_t to = 0; to < 8; to++) {
            uint8_t *from[2] = {malloc(off + 32), malloc(off + 8)}, *into[2] = {malloc(to + 32), malloc(to + 16)};
            uint8_t *in = from[0] + off, *text = from[1] + off, *out = into[0] + to, *canonical = into[1] + to;
            uint8_t digest[3][32];
            capn_report r;
            memcpy(in, message, 32);
            memcpy(text, packed, 8);
            want("canonical anywhere", capn_canonical(CAPN_STREAM, in, 32, &usual, canonical, 16, &r), CAPN_OK);
            want("is_canonical anywhere", capn_is_canonical(canonical, 16, &usual, &r), CAPN_OK);
            want("is_canonical anywhere, no", capn_is_canonical(in + 8, 24, &usual, &r), CAPN_NOT_CANONICAL);
            want("canonical anywhere, packed", capn_canonical(CAPN_PACKED, text, 8, &usual, canonical, 16, &r),
                 CAPN_OK);
            want("canonical anywhere, bare", capn_canonical(CAPN_BARE, in + 8, 24, &usual, canonical, 16, &r), CAPN_OK);
            want("hash anywhere", capn_hash(CAPN_STREAM, in, 32, &usual, out, &r), CAPN_OK);
            memcpy(digest[0], out, 32);
            want("hash anywhere, packed", capn_hash(CAPN_PACKED, text, 8, &usual, out, &r), CAPN_OK);
            memcpy(digest[1], out, 32);
            want("hash anywhere, bare", capn_hash(CAPN_BARE, canonical, 16, &usual, out, &r), CAPN_OK);
            memcpy(digest[2], out, 32);
            want("one digest", memcmp(digest[0], digest[1], 32) || memcmp(digest[0], digest[2], 32), 0);
            want("same anywhere", capn_same(CAPN_BARE, in + 8, 24, canonical, 16, &usual, NULL, &r), CAPN_OK);
            want("check anywhere", capn_check(CAPN_STREAM, in, 32, &usual, &r), CAPN_OK);
            want("check anywhere, packed", capn_check(CAPN_PACKED, text, 8, &usual, &r), CAPN_OK);
            want("check anywhere, bare", capn_check(CAPN_BARE, in + 8, 24, &usual, &r), CAPN_OK);
            want("unpack anywhere", capn_unpack(text, 8, 4, out, 32, &r), CAPN_OK);
            want("its bytes", memcmp(out, message, 32) != 0, 0);
            want("pack anywhere", capn_pack(in, 32, out, 8, &r), CAPN_OK);
            want("its bytes", memcmp(out, packed, 8) != 0, 0);
            for (int i = 0; i < 2; i++) {
                free(from[i]);
                free(into[i]);
            }
        }
}

/* Makes a message of each allowed number of segments, 1 to 4,096, as a stream and packed. The calls have to accept each
 * message. The first segment of a message has a null root, and the other segments have no words. */
static void segments(void) {
    static uint8_t frame[4 * 4097 + 4 + 8], text[2 * sizeof frame], digest[32];
    capn_report r;
    for (size_t count = 1; count <= 4096; count++) {
        size_t table = 8 * (count / 2 + 1);
        memset(frame, 0, table + 8);
        frame[0] = (uint8_t)(count - 1);
        frame[1] = (uint8_t)((count - 1) >> 8);
        frame[4] = 1;
        want("so many segments", capn_check(CAPN_STREAM, frame, table + 8, &usual, &r), CAPN_OK);
        want("hashed", capn_hash(CAPN_STREAM, frame, table + 8, &usual, digest, &r), CAPN_OK);
        want("canonical", capn_canonical(CAPN_STREAM, frame, table + 8, &usual, digest, 8, &r), CAPN_OK);
        want("packed", capn_pack(frame, table + 8, text, sizeof text, &r), CAPN_OK);
        want("checked packed", capn_check(CAPN_PACKED, text, r.length, &usual, &r), CAPN_OK);
    }
}

static void nothing(void) {
    capn_report r;
    uint8_t digest[32];
    want("canonical of no frame", capn_canonical(CAPN_STREAM, NULL, 0, &usual, NULL, 0, &r), CAPN_FRAME_EMPTY);
    want("canonical of no text", capn_canonical(CAPN_PACKED, NULL, 0, &usual, NULL, 0, &r), CAPN_FRAME_EMPTY);
    want("canonical of no words", capn_canonical(CAPN_BARE, NULL, 0, &usual, NULL, 0, &r), CAPN_NO_ROOT);
    want("hash of no words", capn_hash(CAPN_BARE, NULL, 0, &usual, digest, &r), CAPN_NO_ROOT);
    want("check of no text", capn_check(CAPN_PACKED, NULL, 0, &usual, &r), CAPN_FRAME_EMPTY);
    want("is_canonical of no words", capn_is_canonical(NULL, 0, &usual, &r), CAPN_NO_ROOT);
    want("pack of nothing", capn_pack(NULL, 0, NULL, 0, &r), CAPN_OK);
    blank("its report", &r);
    want("unpack of nothing", capn_unpack(NULL, 0, 5, NULL, 0, &r), CAPN_OK);
    blank("its report", &r);
}

/* This table has the limits that are numbers, with their offsets in capn_limits and their ranges. */
static const struct {
    size_t at;
    uint32_t least, most;
} numbers[] = {
    /* c/limits.txt: ranges in c */
    {offsetof(capn_limits, message_words), 1, 1u << 28},
    {offsetof(capn_limits, budget), 0, 1u << 28},
    {offsetof(capn_limits, depth), 1, 256},
    /* c/limits.txt ends */
};
enum { NUMBERS = sizeof numbers / sizeof *numbers };

/* Returns the given limits, with the value `number` in the field at the offset `at`. */
static capn_limits with(capn_limits limits, size_t at, uint32_t number) {
    memcpy((uint8_t *)&limits + at, &number, sizeof number);
    return limits;
}

static void ranges(void) {
    const capn_limits low = limits_of(1, 1, 1, CAPN_STRICT);
    capn_limits bad[2 * NUMBERS + 1], least = limits_of(1, 1, 1, CAPN_PLAIN), greatest = usual;
    size_t count = 0;
    for (size_t i = 0; i < NUMBERS; i++) {
        if (numbers[i].least) bad[count++] = with(low, numbers[i].at, numbers[i].least - 1);
        bad[count++] = with(low, numbers[i].at, numbers[i].most + 1);
        least = with(least, numbers[i].at, numbers[i].least);
        greatest = with(greatest, numbers[i].at, numbers[i].most);
    }
    /* The last entry has two errors: the bad limit of the entry before it, and a bad counting rule (tariff). */
    bad[count] = bad[count - 1];
    bad[count++].tariff = 9;
    const uint32_t forms[] = {0, 1, 2, 3, 4, UINT32_MAX}, tariffs[] = {2, 3, UINT32_MAX};
    capn_report r;
    uint8_t out[64], digest[32];
    for (size_t f = 0; f < 6; f++)
        for (size_t l = 0; l < count; l++) {
            uint32_t status = forms[f] > 2 ? CAPN_BAD_FORM : CAPN_BAD_LIMITS;
            memset(&r, 0x55, sizeof r);
            want("canonical, bad limits", capn_canonical(forms[f], message, 32, &bad[l], out, 64, &r), status);
            blank("its report", &r);
            want("hash, bad limits", capn_hash(forms[f], message, 32, &bad[l], digest, &r), status);
            want("check, bad limits", capn_check(forms[f], message, 32, &bad[l], &r), status);
        }
    for (size_t l = 0; l < count; l++)
        want("is_canonical, bad limits", capn_is_canonical(message, 32, &bad[l], &r), CAPN_BAD_LIMITS);
    for (size_t t = 0; t < 3; t++) {
        capn_limits limits = usual;
        limits.tariff = tariffs[t];
        memset(&r, 0x55, sizeof r);
        want("canonical, bad tariff", capn_canonical(0, message, 32, &limits, out, 64, &r), CAPN_BAD_TARIFF);
        blank("its report", &r);
        want("hash, bad tariff", capn_hash(0, message, 32, &limits, digest, &r), CAPN_BAD_TARIFF);
        want("check, bad tariff", capn_check(0, message, 32, &limits, &r), CAPN_BAD_TARIFF);
        want("is_canonical, bad tariff", capn_is_canonical(message, 32, &limits, &r), CAPN_BAD_TARIFF);
        want("form before tariff", capn_check(3, message, 32, &limits, &r), CAPN_BAD_FORM);
    }
    want("least limits", capn_check(0, message, 32, &least, &r), CAPN_TOO_MANY_WORDS);
    want("greatest limits", capn_check(0, message, 32, &greatest, &r), CAPN_OK);
}

static void rooms(void) {
    for (size_t room = 0; room <= 24; room++) {
        uint8_t *out = malloc(room ? room : 1);
        capn_report r;
        memset(out, 0xAA, room);
        capn_status status = capn_canonical(CAPN_STREAM, message, 32, &usual, room ? out : NULL, room, &r);
        want("room", status, room < 16 ? CAPN_NO_ROOM : CAPN_OK);
        want("its length", r.length, room ? 16 : 32);
        want("its price", r.paid, 3);
        for (size_t i = room < 16 ? 0 : 16; i < room; i++) want("a byte after the answer", out[i], 0xAA);
        free(out);
    }
}

static void announced(void) {
    /* These segment tables of 8 bytes announce 2^28 words, 2^28 + 1 words, 2^32 segments, 4,096 segments (the most that
     * a message may have), and 4,097 segments. */
    const uint8_t words[8] = {0, 0, 0, 0, 0, 0, 0, 0x10}, more[8] = {0, 0, 0, 0, 1, 0, 0, 0x10};
    const uint8_t all[8] = {255, 255, 255, 255};
    const uint8_t most[8] = {0xff, 0x0f, 0, 0}, above[8] = {0, 0x10, 0, 0};
    const capn_limits greatest = limits_of(1u << 28, 1u << 28, 256, CAPN_PLAIN);
    capn_report r;
    want("2^28 words", capn_check(CAPN_STREAM, words, 8, &greatest, &r), CAPN_FRAME_CUT);
    want("2^28 words, usual limits", capn_check(CAPN_STREAM, words, 8, &usual, &r), CAPN_TOO_MANY_WORDS);
    want("announced", r.at, 1u << 28);
    want("2^28 + 1 words", capn_check(CAPN_STREAM, more, 8, &greatest, &r), CAPN_TOO_MANY_WORDS);
    want("2^32 segments", capn_check(CAPN_STREAM, all, 8, &greatest, &r), CAPN_TOO_MANY_SEGMENTS);
    want("announced", r.at, 1ull << 32);
    want("4,096 segments", capn_check(CAPN_STREAM, most, 8, &greatest, &r), CAPN_FRAME_CUT);
    want("4,097 segments", capn_check(CAPN_STREAM, above, 8, &greatest, &r), CAPN_TOO_MANY_SEGMENTS);
    /* In these packed bytes, each pair of bytes stands for 256 zero words. The call has a limit of 256 words, so the
     * second pair exceeds the limit. */
    static uint8_t zeros[2 * 4096];
    for (size_t i = 0; i < sizeof zeros; i += 2) zeros[i + 1] = 255;
    want("a packed run above its maximum", capn_unpack(zeros, sizeof zeros, 256, NULL, 0, &r), CAPN_PACKED_TOO_LONG);
    want("its offset", r.at, 2);
}

/* Passes more words than a message without a segment table may have. The memory of these words can't be read, so the
 * call has to find the error by the number of words alone. */
static void too_long(void) {
    size_t words = (1u << 28) + 2;
    capn_report r;
    uint8_t *bytes = mmap(NULL, 8 * words, PROT_NONE, MAP_PRIVATE | MAP_ANONYMOUS | MAP_NORESERVE, -1, 0);
    if (bytes == MAP_FAILED) {
        printf("inputs: without 2^28 + 2 words, which the system refuses\n");
        return;
    }
    want("2^28 + 2 bare words", capn_check(CAPN_BARE, bytes, 8 * words, &usual, &r), CAPN_BARE_TOO_LONG);
    want("their number", r.at, words);
    want("2^28 + 2 bare words", capn_is_canonical(bytes, 8 * words, &usual, &r), CAPN_BARE_TOO_LONG);
    want("half a word more", capn_canonical(CAPN_BARE, bytes, 8 * words - 4, &usual, NULL, 0, &r), CAPN_NOT_WHOLE);
    munmap(bytes, 8 * words);
}

static void hostile(void) {
    /* The first message is a struct whose only pointer refers to the struct itself. The second message is a list of two
     * pointers, and both pointers refer to the list. Only a limit ends a traversal of such a message. */
    const uint8_t self[8] = {0xfc, 0xff, 0xff, 0xff, 0, 0, 1, 0};
    const uint8_t twice[24] = {1,    0,    0,  0, 0x16, 0,    0,    0,    0xfd, 0xff, 0xff, 0xff,
                               0x16, 0, 0, 0, 0xf9, 0xff, 0xff, 0xff, 0x16, 0,    0,    0};
    capn_report r;
    uint8_t digest[32];
    memset(digest, 0xAA, 32);
    want("itself", capn_hash(CAPN_BARE, self, 8, &usual, digest, &r), CAPN_TOO_DEEP);
    want("visits", r.visits, 65);
    want("twice itself", capn_hash(CAPN_BARE, twice, 24, &usual, digest, &r), CAPN_TOO_DEEP);
    capn_limits low = limits_of(1, 1000, 256, CAPN_STRICT);
    want("itself, low budget", capn_check(CAPN_BARE, self, 8, &low, &r), CAPN_TOO_DEEP);
    low.budget = 100;
    want("itself, lower budget", capn_canonical(CAPN_BARE, self, 8, &low, NULL, 0, &r), CAPN_OVER_BUDGET);
    want("paid", r.paid, 100);
    for (int i = 0; i < 32; i++) want("a digest that was refused", digest[i], 0xAA);
    /* Makes calls on each prefix of a message. The prefix is unchanged, or one of its bytes is changed. No call may
     * read a byte past the end of the prefix. */
    for (size_t size = 0; size <= 32; size++)
        for (int bit = 0; bit < 256; bit++) {
            uint8_t *bytes = malloc(size ? size : 1), out[8];
            memcpy(bytes, message, size);
            if (size) bytes[(size_t)bit % size] ^= (uint8_t)bit;
            for (uint32_t form = 0; form < 3; form++) {
                uint32_t room = capn_canonical(form, bytes, size, &usual, out, 8, &r);
                uint32_t check = capn_check(form, bytes, size, &usual, &r);
                uint32_t accepted = room == CAPN_NO_ROOM || room == CAPN_CAPABILITY;
                uint32_t agree = room == check || (check == CAPN_OK && accepted);
                want("canonical and check", agree, 1);
            }
            capn_is_canonical(bytes, size, &usual, &r);
            free(bytes);
        }
}

int main(void) {
    answered();
    anywhere();
    segments();
    nothing();
    ranges();
    rooms();
    announced();
    too_long();
    hostile();
    if (!failed) printf("inputs: as they should be\n");
    return failed != 0;
}
