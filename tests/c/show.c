/* Tests capn_show. Each line of standard input ends with bytes in hexadecimal. The argument says what the program does:
 *   - `answers` reads test cases that run `capn show`, and prints the output of capn_show for their bytes in the format
 *     of the expected outputs
 *   - `agrees` compares capn_show with capn_check on the bytes, in each form (stream, packed and bare) and style, and
 *     makes each allocation of capn_show fail once */
#define TEST "show"
#include "refusing.h"
#include "wanted.h"

enum { LINE = 1 << 20 };
static uint8_t *pages;
static unsigned long long shown, refused;

static uint8_t *of_digits(const char *digits, size_t *size) {
    *size = strspn(digits, "0123456789abcdef") / 2;
    uint8_t *bytes = *size <= ALL_PAGES ? at_end(pages, *size) : malloc(*size);
    for (size_t i = 0; i < *size; i++) {
        unsigned byte;
        sscanf(digits + 2 * i, "%2x", &byte);
        bytes[i] = (uint8_t)byte;
    }
    return bytes;
}

struct input {
    uint32_t form;
    const uint8_t *bytes;
    size_t size;
    capn_limits limits;
    uint32_t style;
};

static capn_status show(const struct input *in, char *out, size_t room, capn_report *report) {
    memset(report, 0x55, sizeof *report);
    return capn_show(in->form, in->bytes, in->size, &in->limits, in->style, out, room, report);
}

static int is_untouched(const char *out, size_t size) {
    for (size_t i = 0; i < size; i++)
        if (out[i] != 0x55) return 0;
    return 1;
}

/* Returns the dump of a message, or NULL if the message is rejected. Calls capn_show with a buffer of size 0, with a
 * buffer of exactly the dump's length, and with buffers that are one byte longer and one byte shorter. */
static char *text_of(const struct input *in, size_t *length, capn_status *status, capn_report *report) {
    *status = show(in, NULL, 0, report);
    if (*status != CAPN_NO_ROOM) {
        char kept[8];
        capn_report told;
        memset(kept, 0x55, sizeof kept);
        want("a refusal with room", show(in, kept, sizeof kept, &told), *status);
        want("its report", memcmp(&told, report, sizeof told) != 0, 0);
        want("a refusal touches nothing", is_untouched(kept, sizeof kept), 1);
        return NULL;
    }
    capn_report told;
    *length = report->length;
    char *text = malloc(*length + 1);
    memset(text, 0x55, *length + 1);
    want("a byte less", show(in, text, *length - 1, &told), CAPN_NO_ROOM);
    want("its report", memcmp(&told, report, sizeof told) != 0, 0);
    want("nothing is written", is_untouched(text, *length), 1);
    *status = show(in, text, *length, report);
    want("all of it", *status, CAPN_OK);
    want("its report", memcmp(&told, report, sizeof told) != 0, 0);
    want("the byte after it", (uint8_t)text[*length], 0x55);
    char *more = malloc(*length + 1);
    memset(more, 0x55, *length + 1);
    want("a byte more", show(in, more, *length + 1, &told), CAPN_OK);
    want("the same", memcmp(more, text, *length + 1) != 0, 0);
    free(more);
    return text;
}

/* Repeats a call of capn_show. In each run, one more allocation succeeds before the others fail. When no allocation
 * fails, the call has to return `wanted`. */
static void refuse_each(const struct input *in, capn_status wanted) {
    capn_status status = CAPN_MEMORY;
    const long before = live;
    static char out[1 << 16];
    for (long growths = 0; status == CAPN_MEMORY && growths < 64; growths++) {
        capn_report report, none = {0, 0, 0, 0, 0, 0};
        memset(out, 0x55, 64);
        left = growths;
        status = show(in, out, sizeof out, &report);
        left = -1;
        want("blocks are left", (uint64_t)live, (uint64_t)before);
        if (status != CAPN_MEMORY) break;
        want("no memory is reported", memcmp(&report, &none, sizeof none) != 0, 0);
        want("nothing is written", is_untouched(out, 64), 1);
    }
    want("with enough memory", status, wanted);
}

static void agrees(uint32_t form, const uint8_t *bytes, size_t size, const capn_limits *limits) {
    capn_report checked, report;
    const capn_status status = capn_check(form, bytes, size, limits, &checked);
    for (uint32_t style = 0; style <= 5; style++) {
        const struct input in = {form, bytes, size, *limits, style};
        const int is_bad = style > CAPN_STYLE_JSON_TEXT && (status == CAPN_OK || status >= CAPN_MEMORY);
        capn_status told;
        size_t length = 0;
        char *text = text_of(&in, &length, &told, &report);
        want("the status", told, is_bad ? CAPN_BAD_STYLE : status);
        capn_report same = report;
        same.length = 0;
        if (!is_bad) want("the report", memcmp(&same, &checked, sizeof same) != 0, 0);
        if (text && style >= CAPN_STYLE_JSON) want("one line", memchr(text, '\n', length) == text + length - 1, 1);
        if (text) shown++;
        else refused++;
        free(text);
        if (length < 1 << 16 && !is_bad) refuse_each(&in, status);
    }
}

/* Computes the status, the output and the error that a run of `capn show` has to give. Prints them, with the output in
 * hexadecimal. The output has the dumps of all messages. */
static void answer(char *line) {
    char *word[16], text[128];
    int count = 0;
    for (char *w = strtok(line, " \n"); w && count < 16; w = strtok(NULL, " \n")) word[count++] = w;
    size_t size, length, taken;
    struct input in = {CAPN_STREAM, of_digits(word[count - 1], &size), size, CAPN_USUAL_LIMITS, CAPN_STYLE_LINES};
    for (int i = 3; i + 1 < count; i++) {
        const char *value = word[i + 1];
        if (!strcmp(word[i], "--text")) in.style |= CAPN_STYLE_TEXT;
        if (!strcmp(word[i], "--json")) in.style |= CAPN_STYLE_JSON;
        if (!strcmp(word[i], "--budget")) in.limits.budget = (uint32_t)strtoul(value, NULL, 10);
        if (!strcmp(word[i], "--form")) in.form = *value == 'p' ? CAPN_PACKED : *value == 'b' ? CAPN_BARE : CAPN_STREAM;
    }
    const uint8_t *all = in.bytes;
    uint8_t *unpacked = NULL;
    char *texts = malloc(1);
    size_t texts_length = 0;
    capn_status status = CAPN_OK;
    capn_report report;
    /* capn_show takes only one packed message. If the packed bytes have several messages, they are unpacked first. */
    if (in.form == CAPN_PACKED && show(&in, NULL, 0, &report) == CAPN_TRAILING) {
        capn_unpack(in.bytes, size, 1u << 20, NULL, 0, &report);
        size = report.length;
        all = unpacked = malloc(size);
        want("unpacked", capn_unpack(in.bytes, in.size, 1u << 20, unpacked, size, &report), CAPN_OK);
        in.form = CAPN_STREAM;
    }
    for (size_t from = 0; from < size || (in.form == CAPN_BARE && !from); from += taken ? taken : 1) {
        taken = size;
        if (in.form == CAPN_STREAM) {
            status = capn_first(all + from, size - from, &in.limits, &report);
            if (status != CAPN_OK) break;
            taken = report.length;
        }
        in.bytes = all + from;
        in.size = taken;
        char *one = text_of(&in, &length, &status, &report);
        if (status != CAPN_OK) break;
        texts = realloc(texts, texts_length + length + 1);
        memcpy(texts + texts_length, one, length);
        texts_length += length;
        free(one);
    }
    printf("status %d, ", status != CAPN_OK);
    if (!texts_length) printf("-");
    for (size_t i = 0; i < texts_length; i++) printf("%02x", (uint8_t)texts[i]);
    if (status != CAPN_OK) {
        capn_refusal_text(status, &report, text, sizeof text);
        printf(", capn: %s", text);
    }
    printf("\n");
    free(unpacked);
    free(texts);
}

int main(int count, char **words) {
    static char line[LINE];
    const capn_limits none = limits_of(0, 1, 1, CAPN_STRICT), third = limits_of(1, 1, 1, 2);
    const capn_limits poor = limits_of(1 << 20, 2, 64, CAPN_PLAIN);
    const capn_limits *const all[] = {&usual, &poor, &none, &third};
    pages = between_pages();
    const int is_answers = count == 2 && !strcmp(words[1], "answers");
    while (fgets(line, sizeof line, stdin)) {
        if (is_answers) {
            answer(line);
            continue;
        }
        size_t size;
        const char *digits = strrchr(line, ' ');
        const uint8_t *bytes = of_digits(digits ? digits + 1 : line, &size);
        for (uint32_t form = 0; form < 4; form++)
            for (size_t i = 0; i < sizeof all / sizeof *all; i++) agrees(form, bytes, size, all[i]);
    }
    if (is_answers) return failed != 0;
    printf("c: %llu texts, and %llu refusals, as capn_check says, each growth refused in turn\n", shown, refused);
    return failed != 0 || !shown || !refused;
}
