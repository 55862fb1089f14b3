/* Tests capn_first and capn_unpack_some, which take their input in chunks. capn_first gets each prefix of a message.
 * capn_unpack_some gets each prefix of packed bytes, with each size of buffer. The memory lies at aligned and at
 * unaligned addresses, next to a page that can't be accessed. The program also tests the version of the library, and
 * the text of each status. */
#define TEST "pieces"
#include "wanted.h"

static uint8_t *guarded[2];

/* Each status has a text of its own. All numbers that aren't a status share one text. */
static void texts(const char *version) {
    static const capn_status all[] = {
        /* c/statuses.txt: numbers */
        0, 1, 2, 3, 4, 5, 6, 7, 8, 9, 16, 17, 32, 33, 48, 49, 50, 51, 52, 64, 65, 66, 67, 68, 69, 70, 71, 72, 73, 74, 80
        /* c/statuses.txt ends */
    };
    const size_t count = sizeof all / sizeof *all;
    const char *none = capn_status_text(255);
    want("the version", strcmp(capn_version(), version), 0);
    for (uint32_t status = 0; status < 300; status++) {
        int known = 0;
        for (size_t i = 0; i < count; i++) known |= all[i] == status;
        want("a text", strlen(capn_status_text(status)) > 8, 1);
        want("its own", strcmp(capn_status_text(status), none) != 0, known);
    }
    want("the text of the greatest number", strcmp(capn_status_text(UINT32_MAX), none), 0);
    for (size_t i = 0; i < count; i++)
        for (size_t j = 0; j < i; j++)
            want("two texts", strcmp(capn_status_text(all[i]), capn_status_text(all[j])) != 0, 1);
}

/* Writes a message with segments of the given sizes, and returns the message's length. The bytes after the segment
 * table are 1, 2, 3 and so on. */
static size_t frame(uint8_t *out, const uint32_t *sizes, uint32_t count) {
    size_t table = 8 * (count / 2 + 1), words = 0;
    memset(out, 0, table);
    out[0] = (uint8_t)(count - 1);
    for (uint32_t i = 0; i < count; i++) {
        out[4 + 4 * i] = (uint8_t)sizes[i];
        words += sizes[i];
    }
    for (size_t i = 0; i < 8 * words; i++) out[table + i] = (uint8_t)(i + 1);
    return table + 8 * words;
}

static void is_first(const char *what, const uint8_t *bytes, size_t size, capn_status status, uint64_t length) {
    capn_report r;
    memset(&r, 0x55, sizeof r);
    want(what, capn_first(bytes, size, &usual, &r), status);
    want("its length", r.length, length);
    want("no more", r.at | r.paid | r.visits | r.segment | r.word, 0);
}

/* Passes each prefix of a message to capn_first, at aligned and at unaligned addresses. The messages have one to five
 * segments. The call reports how many bytes it needs: 8 for the shortest prefixes, the length of the segment table for
 * longer ones, and then the length of the message. Bytes after a message change nothing. */
static void beginnings(void) {
    static const uint32_t sizes[5] = {2, 0, 3, 1, 4};
    uint8_t bytes[160];
    for (uint32_t count = 1; count <= 5; count++) {
        size_t table = 8 * (count / 2 + 1), all = frame(bytes, sizes, count);
        for (size_t size = 0; size <= all + 9; size++) {
            uint8_t *in = at_end(guarded[0], size);
            memcpy(in, bytes, size);
            uint64_t needs = size < 4 ? 8 : size < table ? table : all;
            capn_status cut = size == 0 ? CAPN_FRAME_EMPTY : CAPN_FRAME_CUT;
            is_first("a beginning", in, size, size < all ? cut : CAPN_OK, needs);
        }
    }
    is_first("no bytes at all", NULL, 0, CAPN_FRAME_EMPTY, 8);
}

/* Tests the errors of capn_first, and how many bytes it needs to find each error. */
static void refused(void) {
    const capn_limits one = limits_of(1, 1, 1, 0), third = limits_of(1, 1, 1, 2);
    const capn_limits bad[] = {limits_of(0, 1, 1, 0), limits_of(1, 1, 0, 0), limits_of(1, 1, 257, 0),
                               limits_of(1, 1u << 29, 1, 0)};
    const uint8_t many[4] = {0, 16}, two[8] = {0, 0, 0, 0, 2}, last[8] = {0, 0, 0, 0, 1};
    capn_report r;
    for (size_t size = 0; size < 4; size++)
        want("4,097 segments, cut", capn_first(many, size, &usual, &r), size ? CAPN_FRAME_CUT : CAPN_FRAME_EMPTY);
    want("4,097 segments", capn_first(many, 4, &usual, &r), CAPN_TOO_MANY_SEGMENTS);
    want("their number", r.at, 4097);
    want("no length", r.length, 0);
    want("2 words", capn_first(two, 8, &one, &r), CAPN_TOO_MANY_WORDS);
    want("their number", r.at, 2);
    want("1 word, cut", capn_first(last, 8, &one, &r), CAPN_FRAME_CUT);
    want("its length", r.length, 16);
    for (int i = 0; i < 4; i++) want("bad limits", capn_first(two, 8, &bad[i], &r), CAPN_BAD_LIMITS);
    want("a bad tariff", capn_first(two, 8, &third, &r), CAPN_BAD_TARIFF);
    want("no report", r.length | r.at, 0);
}

/* `words` has words that are zero, words with one byte that isn't zero, and words with eight such bytes. `text` has the
 * packed bytes of all these words. */
enum { WORDS = 40 };
static uint8_t words[8 * WORDS], text[10 * WORDS];
static size_t text_size;
static void make_words(void) {
    capn_report r;
    for (size_t i = 0; i < WORDS; i++)
        for (size_t j = 0; j < 8; j++) {
            size_t byte = i < 5 ? 0 : i < 10 ? (j == 2 ? i : 0) : i < 20 ? i + j : i * j % 3;
            words[8 * i + j] = (uint8_t)byte;
        }
    want("pack", capn_pack(words, sizeof words, text, sizeof text, &r), CAPN_OK);
    text_size = r.length;
}

/* Passes each prefix of the packed bytes to capn_unpack_some, with each size of buffer. The call has to write a prefix
 * of the words, and nothing else. If the packed bytes that it took are unpacked alone, they have to give the written
 * bytes. */
static void some(void) {
    for (size_t size = 0; size <= text_size; size++)
        for (size_t room = 0; room <= sizeof words + 9; room += room < 64 ? 1 : 7) {
            uint8_t *in = at_end(guarded[0], size), *out = at_end(guarded[1], room), whole[sizeof words];
            capn_report r, all;
            memcpy(in, text, size);
            memset(out, 0xAA, room);
            memset(&r, 0x55, sizeof r);
            capn_status status = capn_unpack_some(in, size, out, room, &r);
            want("no more", r.paid | r.visits | r.segment | r.word, 0);
            want("within", r.length > room || r.at > size || r.length % 8, 0);
            want("words", memcmp(out, words, r.length) != 0, 0);
            for (size_t i = r.length; i < room; i++) want("the rest of the buffer", out[i], 0xAA);
            want("what was taken", capn_unpack(text, r.at, WORDS, whole, sizeof whole, &all), CAPN_OK);
            want("its words", all.length, r.length);
            capn_status next = capn_unpack(text + r.at, size - r.at, (uint32_t)((room - r.length) / 8), whole, 0, &all);
            if (r.at == size) want("the end", status, CAPN_OK);
            else want("what stands next", status, next);
            if (r.at < size) want("at its tag", all.at, 0);
        }
    capn_report r;
    want("nothing", capn_unpack_some(NULL, 0, NULL, 0, &r), CAPN_OK);
    want("no length", r.length | r.at, 0);
}

/* Unpacking in chunks has to give the same words as unpacking at once. The test tries chunks of each length. It also
 * tries each buffer size that is enough for one group of packed bytes. */
static void loops(void) {
    for (size_t piece = 1; piece <= text_size; piece++)
        for (size_t room = 168; room <= 200; room += 8) {
            uint8_t in[sizeof text], out[200], all[sizeof words];
            size_t have = 0, came = 0, made = 0;
            while (came < text_size || have > 0) {
                size_t more = text_size - came < piece ? text_size - came : piece;
                memcpy(in + have, text + came, more);
                came += more;
                have += more;
                capn_report r;
                capn_status status = capn_unpack_some(in, have, out, room, &r);
                if (more == 0 && r.at == 0) {
                    want("it goes on", status, CAPN_OK);
                    break;
                }
                if (made + r.length > sizeof all) {
                    want("too many words", made + r.length, sizeof all);
                    return;
                }
                memcpy(all + made, out, r.length);
                made += r.length;
                have -= r.at;
                memmove(in, in + r.at, have);
            }
            want("all words", made, sizeof words);
            want("the words", memcmp(all, words, sizeof words) != 0, 0);
        }
}

int main(int count, char **args) {
    if (count != 2) return 2;
    for (int i = 0; i < 2; i++) guarded[i] = between_pages();
    texts(args[1]);
    beginnings();
    refused();
    make_words();
    some();
    loops();
    printf("pieces: %d failed\n", failed);
    return failed != 0;
}
