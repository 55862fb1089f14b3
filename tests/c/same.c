/* Tests capn_same, which compares two messages. The status, the report and `which` must follow from the results of
 * capn_canonical. capn_same has to make as many allocations as capn_check for the same messages. The test also makes
 * each of these allocations fail once. */

/* Some messages are written by hand. The others are the hexadecimal bytes at the ends of the lines of standard input.
 * These bytes are read in each form (stream, packed and bare) and with some limits. In the forms stream and bare, with
 * the default limits, each input is compared with every input. */
#define TEST "same"
#include "refusing.h"
#include "wanted.h"

enum { LINE = 1 << 20, MOST = 700, LONGEST = 1 << 12, FILL = 0x55555555 };
static unsigned long long equal, unequal, refused[2];

struct input {
    const uint8_t *bytes;
    size_t size;
    /* These fields have the results of capn_canonical for this input, and the number of allocations that capn_check
     * makes for it. */
    capn_status status;
    capn_report report;
    uint8_t *canonical;
    long growths;
};
static struct input inputs[MOST];
static size_t count;
static uint32_t form;
static const capn_limits *limits;

static void judge(struct input *in) {
    free(in->canonical);
    in->canonical = NULL;
    asked = 0;
    capn_check(form, in->bytes, in->size, limits, &in->report);
    in->growths = asked;
    in->status = capn_canonical(form, in->bytes, in->size, limits, NULL, 0, &in->report);
    if (in->status != CAPN_NO_ROOM) return;
    const size_t room = in->report.length;
    in->canonical = malloc(room);
    in->status = capn_canonical(form, in->bytes, in->size, limits, in->canonical, room, &in->report);
}

/* Returns the status that capn_same must return for the two given inputs. Sets the expected report and the expected
 * `which`. */
static capn_status expected(const struct input *a, const struct input *b, uint32_t *which, capn_report *report) {
    *which = a->status == CAPN_OK && b->status != CAPN_OK;
    const struct input *first = *which ? b : a;
    memset(report, 0, sizeof *report);
    if (first->status != CAPN_OK) {
        *report = first->report;
        return first->status;
    }
    const size_t length = a->report.length;
    const int are = length == b->report.length && !memcmp(a->canonical, b->canonical, length);
    return are ? CAPN_OK : CAPN_DIFFERENT;
}

static capn_status compare(const struct input *a, const struct input *b, uint32_t *which, capn_report *report) {
    *which = FILL;
    memset(report, 0x55, sizeof *report);
    return capn_same(form, a->bytes, a->size, b->bytes, b->size, limits, which, report);
}

static void pair(const struct input *a, const struct input *b) {
    uint32_t which, of;
    capn_report report, told;
    const capn_status wanted = expected(a, b, &of, &told);
    asked = 0;
    want("the status", compare(a, b, &which, &report), wanted);
    want("the growths", (uint64_t)asked, (uint64_t)(a->growths + (a->status == CAPN_OK ? b->growths : 0)));
    want("which", which, of);
    want("the report", memcmp(&report, &told, sizeof told) != 0, 0);
    if (wanted == CAPN_OK) equal++;
    else if (wanted == CAPN_DIFFERENT) unequal++;
    else refused[of]++;
}

/* Repeats a call of capn_same. In each run, one more allocation succeeds before the others fail. The allocations for
 * the first message come before those for the second message. */
static void without_memory(const struct input *a, const struct input *b) {
    uint32_t which, of;
    capn_report report, told;
    const capn_report none = {0, 0, 0, 0, 0, 0};
    const long before = live, growths = a->growths + (a->status == CAPN_OK ? b->growths : 0);
    const capn_status wanted = expected(a, b, &of, &told);
    for (left = 0; left <= growths; left++) {
        const long allowed = left;
        const capn_status status = compare(a, b, &which, &report);
        left = allowed;
        want("with so much memory", status, allowed < growths ? CAPN_MEMORY : wanted);
        want("which", which, allowed < growths ? allowed >= a->growths : of);
        want("the report", memcmp(&report, allowed < growths ? &none : &told, sizeof none) != 0, 0);
        want("blocks are left", (uint64_t)live, (uint64_t)before);
    }
    left = -1;
}

/* ---- messages that are written by hand */

static void put(uint8_t *to, const uint64_t *words, size_t many) {
    for (size_t i = 0; i < 8 * many; i++) to[i] = (uint8_t)(words[i / 8] >> i % 8 * 8);
}

/* Compares two messages in both orders: once without segment tables, and once with tables of one segment. */
static void words(const char *what, const uint64_t *a, size_t many_a, const uint64_t *b, size_t many_b,
                  capn_status wanted) {
    uint8_t one[8 + 128] = {0}, other[8 + 128] = {0};
    capn_report report;
    uint32_t which;
    one[4] = (uint8_t)many_a, other[4] = (uint8_t)many_b;
    put(one + 8, a, many_a);
    put(other + 8, b, many_b);
    for (int bare = 0; bare < 2; bare++) {
        const size_t from = 8 * (size_t)bare, size_a = 8 + 8 * many_a - from, size_b = 8 + 8 * many_b - from;
        const uint32_t of = bare ? CAPN_BARE : CAPN_STREAM;
        want(what, capn_same(of, one + from, size_a, other + from, size_b, &usual, &which, &report), wanted);
        want(what, capn_same(of, other + from, size_b, one + from, size_a, &usual, &which, &report), wanted);
    }
}

#define WORDS(...) (const uint64_t[]){__VA_ARGS__}, sizeof((const uint64_t[]){__VA_ARGS__}) / 8
#define STRUCT(offset, words, slots) ((uint64_t)(offset) << 2 | (uint64_t)(words) << 32 | (uint64_t)(slots) << 48)
#define LIST(offset, code, many) (1 | (uint64_t)(offset) << 2 | (uint64_t)(code) << 32 | (uint64_t)(many) << 35)

static void layouts(void) {
    const capn_status ok = CAPN_OK, not = CAPN_DIFFERENT;
    words("null roots", WORDS(0), WORDS(0, 7), ok);
    words("null, and an empty struct", WORDS(0), WORDS(STRUCT(-1, 0, 0) & 0xffffffff), not);
    words("trailing zero words", WORDS(STRUCT(0, 1, 0), 5), WORDS(STRUCT(0, 3, 0), 5, 0, 0), ok);
    words("trailing null pointers", WORDS(STRUCT(0, 1, 0), 5), WORDS(STRUCT(0, 1, 2), 5, 0, 0), ok);
    words("both", WORDS(STRUCT(0, 1, 0), 5), WORDS(STRUCT(0, 2, 1), 5, 0, 0), ok);
    words("a missing word", WORDS(STRUCT(0, 1, 0), 5), WORDS(STRUCT(0, 2, 0), 5, 1), not);
    words("the first word", WORDS(STRUCT(0, 1, 0), 5), WORDS(STRUCT(0, 1, 0), 6), not);
    words("a missing pointer", WORDS(STRUCT(0, 1, 0), 5), WORDS(STRUCT(0, 1, 1), 5, STRUCT(-1, 0, 0) & 0xffffffff),
          not);
    words("another place", WORDS(STRUCT(0, 1, 0), 5), WORDS(STRUCT(2, 1, 0), 9, 9, 5), ok);
    words("rows of other sizes", WORDS(LIST(0, 7, 2), STRUCT(2, 1, 0), 5, 6),
          WORDS(LIST(0, 7, 4), STRUCT(2, 2, 0), 5, 0, 6, 0), ok);
    words("rows with null pointers", WORDS(LIST(0, 7, 2), STRUCT(2, 1, 0), 5, 6),
          WORDS(LIST(0, 7, 4), STRUCT(2, 1, 1), 5, 0, 6, 0), ok);
    words("the last row", WORDS(LIST(0, 7, 2), STRUCT(2, 1, 0), 5, 6), WORDS(LIST(0, 7, 2), STRUCT(2, 1, 0), 5, 7),
          not);
    words("what the last row has more", WORDS(LIST(0, 7, 2), STRUCT(2, 1, 0), 5, 6),
          WORDS(LIST(0, 7, 4), STRUCT(2, 2, 0), 5, 0, 6, 1), not);
    words("more rows", WORDS(LIST(0, 7, 2), STRUCT(2, 1, 0), 5, 6), WORDS(LIST(0, 7, 1), STRUCT(1, 1, 0), 5), not);
    words("rows of no size", WORDS(LIST(0, 7, 0), STRUCT(3, 0, 0)), WORDS(LIST(0, 7, 3), STRUCT(3, 1, 0), 0, 0, 0),
          ok);
    words("null rows are as many", WORDS(LIST(0, 7, 0), STRUCT(3, 0, 0)), WORDS(LIST(0, 7, 0), STRUCT(2, 0, 0)), not);
    words("rows, and a list of words", WORDS(LIST(0, 7, 2), STRUCT(2, 1, 0), 5, 6), WORDS(LIST(0, 5, 2), 5, 6), not);
    words("bits beyond the last", WORDS(LIST(0, 1, 3), 5), WORDS(LIST(0, 1, 3), 0xfd), ok);
    words("the last bit", WORDS(LIST(0, 1, 3), 5), WORDS(LIST(0, 1, 3), 1), not);
    words("bytes beyond the last", WORDS(LIST(0, 2, 3), 0x636261), WORDS(LIST(0, 2, 3), 0xff636261), ok);
    words("the last byte", WORDS(LIST(0, 2, 3), 0x636261), WORDS(LIST(0, 2, 3), 0x646261), not);
    words("another width", WORDS(LIST(0, 2, 2), 0x6261), WORDS(LIST(0, 3, 2), 0x6261), not);
    words("an empty list, and null", WORDS(LIST(0, 2, 0)), WORDS(0), not);
    words("null elements", WORDS(LIST(0, 6, 2), 0, 0), WORDS(LIST(0, 6, 1), 0), not);
    words("elements", WORDS(LIST(0, 6, 2), 0, STRUCT(0, 1, 0), 5), WORDS(LIST(0, 6, 2), 0, STRUCT(0, 2, 0), 5, 0), ok);
    words("the last element", WORDS(LIST(0, 6, 2), 0, STRUCT(0, 1, 0), 5), WORDS(LIST(0, 6, 2), 0, STRUCT(0, 1, 0), 6),
          not);
    words("voids", WORDS(LIST(0, 0, 9)), WORDS(LIST(0, 0, 8)), not);
    words("an object that two pointers lead to", WORDS(STRUCT(0, 0, 2), STRUCT(1, 1, 0), STRUCT(0, 1, 0), 5),
          WORDS(STRUCT(0, 0, 2), STRUCT(1, 1, 0), STRUCT(1, 1, 0), 5, 5), ok);
}

/* Compares a message in one segment with the same message in two segments. */
static void segments(void) {
    uint8_t one[24] = {0}, two[48] = {0};
    capn_report report;
    uint32_t which = FILL;
    put(one, WORDS(2ull << 32, STRUCT(0, 1, 0), 5));
    put(two, WORDS(1 | 1ull << 32, 2, 2 | 1ull << 32, STRUCT(0, 1, 0), 5));
    want("two segments", capn_same(CAPN_STREAM, one, 24, two, 40, &usual, &which, &report), CAPN_OK);
    two[32] = 6;
    want("two other segments", capn_same(CAPN_STREAM, one, 24, two, 40, &usual, &which, &report), CAPN_DIFFERENT);
    want("which of neither", which, 0);
}

/* Tests that capn_same doesn't read the second message if the first message is rejected. Also tests that a caller may
 * pass one buffer as the first message and as the second. */
static void order(void) {
    static const uint8_t null[16] = {0, 0, 0, 0, 1};
    uint8_t holds[16];
    void *closed = mmap(NULL, PAGE, PROT_NONE, MAP_PRIVATE | MAP_ANONYMOUS, -1, 0);
    const capn_limits none = limits_of(0, 1, 1, CAPN_STRICT), third = limits_of(1, 1, 1, 2);
    capn_report report;
    uint32_t which = FILL;
    put(holds, WORDS(STRUCT(0, 0, 1), 3 | 8ull << 32));
    for (uint32_t of = 0; of < 3; of++) {
        want("a first one that is cut", capn_same(of, null, 7, closed, PAGE, &usual, &which, &report),
             of == CAPN_STREAM ? CAPN_FRAME_CUT : of == CAPN_BARE ? CAPN_NOT_WHOLE : CAPN_PACKED_CUT);
        want("which", which, 0);
        which = FILL;
    }
    want("a first one with a capability", capn_same(CAPN_BARE, holds, 16, closed, PAGE, &usual, &which, &report),
         CAPN_CAPABILITY);
    want("which", which, 0);
    want("its index", report.at, 8);
    want("a second one with a capability", capn_same(CAPN_BARE, null + 8, 8, holds, 16, &usual, &which, &report),
         CAPN_CAPABILITY);
    want("which", which, 1);
    want("its index", report.at, 8);
    want("a second one of nothing", capn_same(CAPN_STREAM, null, 16, NULL, 0, &usual, &which, &report),
         CAPN_FRAME_EMPTY);
    want("which", which, 1);
    want("one message", capn_same(CAPN_STREAM, null, 16, null, 16, &usual, &which, &report), CAPN_OK);
    want("which", which, 0);
    which = FILL;
    want("form 3", capn_same(3, closed, PAGE, closed, PAGE, &usual, &which, &report), CAPN_BAD_FORM);
    want("which", which, 0);
    which = FILL;
    want("no words", capn_same(0, closed, PAGE, closed, PAGE, &none, &which, &report), CAPN_BAD_LIMITS);
    want("which", which, 0);
    want("tariff 2", capn_same(0, closed, PAGE, closed, PAGE, &third, &which, &report), CAPN_BAD_TARIFF);
    munmap(closed, PAGE);
}

/* ---- stored bytes */

static void store(const char *line, uint8_t *pages) {
    size_t size;
    const uint8_t *bytes = bytes_at_end(line, pages, &size);
    if (!bytes || size > LONGEST || count == MOST) return;
    for (size_t i = 0; i < count; i++)
        if (inputs[i].size == size && (!size || !memcmp(inputs[i].bytes, bytes, size))) return;
    uint8_t *kept = malloc(size ? size : 1);
    memcpy(kept, bytes, size);
    inputs[count++] = (struct input){kept, size, 0, {0, 0, 0, 0, 0, 0}, NULL, 0};
}

/* Copies the bytes of an input to the end of the block `pages`. The returned input has the address of this copy. */
static struct input moved(const struct input *in, uint8_t *pages) {
    struct input out = *in;
    uint8_t *to = at_end(pages, in->size);
    if (in->size) memcpy(to, in->bytes, in->size);
    out.bytes = to;
    return out;
}

int main(void) {
    static char line[LINE];
    const capn_limits poor = limits_of(1 << 20, 4, 64, CAPN_PLAIN), flat = limits_of(1 << 20, 1 << 20, 2, CAPN_STRICT);
    const capn_limits *const all[] = {&usual, &poor, &flat};
    uint8_t *pages = between_pages(), *others = between_pages();
    layouts();
    segments();
    order();
    while (fgets(line, sizeof line, stdin)) store(line, pages);
    for (form = 0; form < 3; form++)
        for (size_t i = 0; i < sizeof all / sizeof *all; i++) {
            limits = all[i];
            for (size_t k = 0; k < count; k++) judge(&inputs[k]);
            for (size_t k = 0; k < count; k++) {
                const size_t many = i || form == CAPN_PACKED ? 16 : count;
                for (size_t n = 0; n < many; n++) pair(&inputs[k], &inputs[(k + n) % count]);
                const struct input a = moved(&inputs[k], pages), b = moved(&inputs[(k + 1) % count], others);
                pair(&a, &b);
                pair(&b, &a);
                pair(&a, &a);
                without_memory(&a, &b);
                without_memory(&a, &a);
                if (a.status != CAPN_OK) continue;
                /* capn_same has to find that a message has the same value as the message's canonical bytes. */
                if (form == CAPN_BARE) {
                    const struct input own = {a.canonical, a.report.length, CAPN_OK, a.report, a.canonical, 0};
                    pair(&a, &own);
                    pair(&own, &a);
                }
            }
        }
    printf("c: %zu messages, compared with each other: %llu the same, %llu not, %llu and %llu refused, as by their "
           "canonical bytes, each growth refused in turn\n", count, equal, unequal, refused[0], refused[1]);
    return failed != 0 || !equal || !unequal || !refused[0] || !refused[1];
}
