/* Tests capn_refusal_way, which finds the path to an error, and capn_departure, which finds the first difference from
 * the canonical form. Each call gets an array of the right length, a longer array, a shorter array, or no array. The
 * test also makes each allocation fail once. */

/* Each line of standard input is a call, and ends with bytes in hexadecimal. The argument says what the program does:
 *   - `answers` prints a line for each call that has limits: the path or the difference for the bytes, or `?` if the
 *     bytes aren't one message
 *   - `agrees` reads the bytes in each form (stream, packed and bare) and with some limits, and compares the results
 *     with those of capn_check, capn_survey and capn_canonical */
#define TEST "ways"
#include "refusing.h"
#include "wanted.h"

enum { LINE = 1 << 20, MOST = CAPN_LONGEST_PATH, FILL = 0x55555555 };
static uint8_t *pages;
static uint32_t way[MOST + 1];
static unsigned long long ways, departures;

struct input {
    uint32_t form;
    const uint8_t *bytes;
    size_t size;
    capn_limits limits;
};

static uint8_t *of_digits(const char *digits, size_t *size) {
    *size = strspn(digits, "0123456789abcdef") / 2;
    uint8_t *bytes = *size <= ALL_PAGES ? at_end(pages, *size) : malloc(*size);
    for (size_t i = 0; i < *size; i++) {
        unsigned byte;
        sscanf(digits + 2 * i, "%2x", &byte);
        bytes[i] = (uint8_t)byte;
    }
    return bytes;
}

/* ---- the calls; the memory that they may write is filled before */

typedef capn_status call(const struct input *in, capn_departed *departed, size_t most, capn_report *report);

static void fill(capn_departed *departed, capn_report *report) {
    memset(way, 0x55, sizeof way);
    memset(departed, 0x55, sizeof *departed);
    memset(report, 0x55, sizeof *report);
}

static capn_status refusal(const struct input *in, capn_departed *departed, size_t most, capn_report *report) {
    fill(departed, report);
    return capn_refusal_way(in->form, in->bytes, in->size, &in->limits, most ? way : NULL, most, report);
}

static capn_status departure(const struct input *in, capn_departed *departed, size_t most, capn_report *report) {
    fill(departed, report);
    return capn_departure(in->form, in->bytes, in->size, &in->limits, departed, most ? way : NULL, most, report);
}

/* Tests that the array for the path is unchanged from the element `from` on. */
static void kept(const char *what, size_t from) {
    for (size_t i = from; i <= MOST; i++)
        if (way[i] != FILL) {
            want(what, way[i], FILL);
            return;
        }
}

/* Tests arrays of several sizes. The call writes a path only if it fits into the array. The status and the report must
 * not depend on the size of the array. */
static void rooms(call *make, const struct input *in, capn_status status, const capn_report *told, size_t numbers) {
    static uint32_t all[MOST];
    capn_departed first, other;
    capn_report report;
    want("with room", make(in, &first, MOST, &report), status);
    kept("what follows a way", numbers);
    memcpy(all, way, 4 * numbers);
    const size_t room[] = {numbers, numbers + 1, numbers ? numbers - 1 : 0, 0, 1};
    for (size_t i = 0; i < sizeof room / sizeof *room; i++) {
        want("with another room", make(in, &other, room[i], &report), status);
        want("its report", memcmp(&report, told, sizeof report) != 0, 0);
        want("its departure", memcmp(&first, &other, sizeof first) != 0, 0);
        const size_t placed = room[i] < numbers ? 0 : numbers;
        want("the way", memcmp(way, all, 4 * placed) != 0, 0);
        kept("the rest of the room", placed);
    }
}

/* Repeats a call until the call has enough memory. In each run, one more allocation succeeds before the others fail. */
static void refuse_each(call *make, const struct input *in, capn_status wanted) {
    capn_status status = CAPN_MEMORY;
    const capn_report none = {0, 0, 0, 0, 0, 0};
    const long before = live;
    for (long growths = 0; status == CAPN_MEMORY && growths < 64; growths++) {
        capn_departed departed, was;
        capn_report report;
        memset(&was, 0x55, sizeof was);
        left = growths;
        status = make(in, &departed, MOST, &report);
        left = -1;
        want("blocks are left", (uint64_t)live, (uint64_t)before);
        if (status != CAPN_MEMORY) break;
        want("no memory is reported", memcmp(&report, &none, sizeof none) != 0, 0);
        want("nothing is told", memcmp(&departed, &was, sizeof was) != 0, 0);
        kept("nothing is written", 0);
    }
    want("with enough memory", status, wanted);
}

/* ---- comparisons with the other calls */

static uint64_t word_at(const uint8_t *bytes, size_t word) {
    uint64_t number = 0;
    for (int i = 7; i >= 0; i--) number = number << 8 | bytes[8 * word + i];
    return number;
}

/* Compares the result of capn_departure with capn_survey. If the message has one segment, also tests which word is
 * reported as the first that differs from the canonical bytes. */
static void compare(const struct input *in, const capn_departed *d) {
    capn_figures f;
    capn_report r;
    want("surveyed", capn_survey(in->form, in->bytes, in->size, &in->limits, &f, &r), CAPN_OK);
    want("canonical", d->kind == CAPN_DEPARTS_NOT, f.canonical);
    want("of segments", d->kind == CAPN_DEPARTS_SEGMENTS, f.segments > 1);
    want("of a capability", d->kind == CAPN_DEPARTS_CAPABILITY, f.segments == 1 && f.has_capability);
    want("its zero", d->zero, 0);
    const uint32_t count = d->kind == CAPN_DEPARTS_SEGMENTS ? f.segments : f.segments == 1 ? f.capability : 0;
    want("the count", d->count, count);
    want("an owner", d->owner != CAPN_OWNER_NONE, d->kind == CAPN_DEPARTS_WORD);
    want("an owner's number", d->owner <= CAPN_OWNER_LAST_WORD, 1);
    if (d->kind < CAPN_DEPARTS_WORD) {
        want("no word", d->word | d->is | d->canonical, 0);
        return;
    }
    if (in->form == CAPN_PACKED) return;
    const uint8_t *words = in->bytes + (in->form == CAPN_STREAM ? 8 : 0);
    want("its length", capn_canonical(in->form, in->bytes, in->size, &in->limits, NULL, 0, &r), CAPN_NO_ROOM);
    const size_t room = r.length;
    uint8_t *bytes = malloc(room);
    want("its bytes", capn_canonical(in->form, in->bytes, in->size, &in->limits, bytes, room, &r), CAPN_OK);
    want("a word of both", d->kind == CAPN_DEPARTS_WORD, 8 * (size_t)d->word < r.length);
    want("the words before it", memcmp(words, bytes, 8 * (size_t)d->word) != 0, 0);
    want("the word", d->is, word_at(words, d->word));
    if (d->kind == CAPN_DEPARTS_WORD) {
        want("the canonical word", d->canonical, word_at(bytes, d->word));
        want("they differ", d->is != d->canonical, 1);
    } else {
        want("the end", 8 * (size_t)d->word, r.length);
        want("no other word", d->canonical, 0);
    }
    free(bytes);
}

static void agrees(uint32_t form, const uint8_t *bytes, size_t size, const capn_limits *limits) {
    const struct input in = {form, bytes, size, *limits};
    capn_report checked, told, same;
    capn_departed departed, was;
    memset(&was, 0x55, sizeof was);
    const capn_status status = capn_check(form, bytes, size, limits, &checked);
    want("the status of a way", refusal(&in, &departed, MOST, &told), status);
    same = told;
    same.length = 0;
    want("its report", memcmp(&same, &checked, sizeof same) != 0, 0);
    want("whole numbers", told.length % 4, 0);
    want("few of them", told.length <= 8 * (uint64_t)limits->depth || !told.length, 1);
    want("no way", !told.length || status >= CAPN_NO_ROOT, 1);
    want("no way to the root", !told.length || checked.visits > 1, 1);
    rooms(refusal, &in, status, &told, told.length / 4);
    refuse_each(refusal, &in, status);
    if (status >= CAPN_NO_ROOT) ways++;

    want("the status of a departure", departure(&in, &departed, MOST, &told), status);
    same = told;
    same.length = 0;
    want("its report", memcmp(&same, &checked, sizeof same) != 0, 0);
    if (status == CAPN_OK) {
        want("its numbers", told.length, 4 * (uint64_t)departed.numbers);
        want("few of them", departed.numbers <= 2 * limits->depth, 1);
        compare(&in, &departed);
        departures++;
    } else {
        want("no length", told.length, 0);
        want("no departure", memcmp(&departed, &was, sizeof was) != 0, 0);
    }
    rooms(departure, &in, status, &told, told.length / 4);
    refuse_each(departure, &in, status);
}

/* ---- what the calls report, as text */

static void write_way(size_t numbers) {
    if (!numbers) printf("root");
    for (size_t i = 0; i < numbers; i++) printf(i ? ".%u" : "%u", way[i]);
    printf("\n");
}

static void write_word(uint64_t word) {
    for (int i = 0; i < 8; i++) printf("%02x", (unsigned)(word >> 8 * i & 255));
}

static void answer(const struct input *in) {
    static const char *const owners[] = {"", "the pointer at", "the tag of", "the last word of"};
    capn_departed d;
    capn_report report;
    capn_status status = refusal(in, &d, MOST, &report);
    if (status == CAPN_NO_ROOT) {
        printf("no root\n");
        return;
    }
    if (status >= CAPN_NO_ROOT) {
        printf("way ");
        write_way(report.length / 4);
        return;
    }
    status = departure(in, &d, MOST, &report);
    if (status != CAPN_OK) printf("?\n");
    else if (d.kind == CAPN_DEPARTS_NOT) printf("yes\n");
    else if (d.kind == CAPN_DEPARTS_SEGMENTS) printf("%u segments\n", d.count);
    else if (d.kind == CAPN_DEPARTS_CAPABILITY) {
        printf("capability %u at ", d.count);
        write_way(d.numbers);
    } else {
        printf("byte %llu ", 8ull * d.word + (in->form == CAPN_BARE ? 0 : 8));
        write_word(d.is);
        if (d.kind == CAPN_DEPARTS_AFTER) {
            printf(" nothing\n");
            return;
        }
        printf(" ");
        write_word(d.canonical);
        printf(" %s ", owners[d.owner & 3]);
        write_way(d.numbers);
    }
}

/* Returns whether a line is a call that has limits. If so, sets the input to the bytes and limits of the call. */
static int is_call(const char *from, struct input *in) {
    char what[16], form[16];
    int at = 0;
    in->limits = usual;
    if (!strncmp(from, "plain ", 6)) in->limits.tariff = CAPN_PLAIN, from += 6;
    if (sscanf(from, "%15s %15s %u %u %u %n", what, form, &in->limits.message_words, &in->limits.budget,
               &in->limits.depth, &at) < 5) return 0;
    if (strcmp(what, "canonicalise") && strcmp(what, "survey")) return 0;
    in->form = form[0] == 's' ? CAPN_STREAM : form[0] == 'p' ? CAPN_PACKED : CAPN_BARE;
    in->bytes = of_digits(from + at, &in->size);
    return 1;
}

int main(int count, char **words) {
    static char line[LINE];
    const capn_limits none = limits_of(0, 1, 1, CAPN_STRICT), third = limits_of(1, 1, 1, 2);
    const capn_limits poor = limits_of(1 << 20, 2, 64, CAPN_PLAIN);
    const capn_limits flat = limits_of(1 << 20, 1 << 20, 2, CAPN_STRICT);
    const capn_limits *const all[] = {&usual, &poor, &flat, &none, &third};
    pages = between_pages();
    const int is_answers = count == 2 && !strcmp(words[1], "answers");
    while (fgets(line, sizeof line, stdin)) {
        struct input in;
        if (is_answers) {
            if (is_call(line, &in)) answer(&in);
            continue;
        }
        size_t size;
        const char *digits = strrchr(line, ' ');
        const uint8_t *bytes = of_digits(digits ? digits + 1 : line, &size);
        for (uint32_t form = 0; form < 4; form++)
            for (size_t i = 0; i < sizeof all / sizeof *all; i++) agrees(form, bytes, size, all[i]);
    }
    if (is_answers) return failed != 0;
    printf("c: %llu ways to refusals, and %llu departures, as the other calls say, each growth refused in turn\n", ways,
           departures);
    return failed != 0 || !ways || !departures;
}
