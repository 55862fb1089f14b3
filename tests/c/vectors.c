/* Reads calls from standard input, makes them, and prints the results in the format of the expected answers. The calls
 * are `canonicalise`, `is_canonical`, `survey`, `pack`, `unpack` and `run N hash`. Bytes are in hexadecimal, and `-`
 * stands for no bytes. */
#include "examples/each.h"
#include <stdio.h>
#include <stdlib.h>
#include <string.h>

static uint8_t *of_digits(const char *digits, size_t *size) {
    *size = strcmp(digits, "-") ? strlen(digits) / 2 : 0;
    /* This block has exactly the size of the decoded bytes, so that a sanitizer detects a read past the end. */
    uint8_t *bytes = *size ? malloc(*size) : NULL;
    for (size_t i = 0; i < *size; i++) {
        unsigned byte;
        sscanf(digits + 2 * i, "%2x", &byte);
        bytes[i] = (uint8_t)byte;
    }
    return bytes;
}

static void digits(const uint8_t *bytes, size_t size) {
    if (!size) printf("-");
    for (size_t i = 0; i < size; i++) printf("%02x", bytes[i]);
}

/* Prints the text of an error. If packing or unpacking failed, the name of the form is left out. */
static void refusal(capn_status status, const capn_report *r, int of_packing) {
    char text[128];
    if (capn_refusal_text(status, r, text, sizeof text) >= sizeof text) printf("a text that is too long: ");
    const char *form = of_packing ? strstr(text, ": ") : NULL;
    printf("%s", form ? form + 2 : text);
}

static uint32_t form_of(const char *word) {
    return !strcmp(word, "packed") ? CAPN_PACKED : !strcmp(word, "bare") ? CAPN_BARE : CAPN_STREAM;
}

static void fail(const char *why) {
    printf("broken: %s", why);
}

/* Makes a call that writes to a buffer. One buffer has the size 0, one has exactly the needed length, and one is a byte
 * shorter. */
typedef capn_status into(const void *call, uint8_t *out, size_t room, capn_report *report);

static void with_rooms(into *make, const void *call, int is_measured, int is_priced) {
    capn_report none, all, less;
    capn_status status = make(call, NULL, 0, &none);
    if (status != CAPN_NO_ROOM && !(status == CAPN_OK && !none.length)) {
        refusal(status, &none, !is_priced);
        return;
    }
    size_t room = none.length;
    uint8_t *out = malloc(room ? room : 1);
    if (make(call, out, room, &all) != CAPN_OK) fail("refused with room");
    size_t length = all.length;
    if (is_measured ? length > room : length != room) fail("another length");
    if (is_measured && (none.length != 8 * ((uint64_t)none.paid + 1) || none.paid != all.paid)) fail("another measure");
    uint8_t *exact = malloc(length ? length : 1);
    if (make(call, exact, length, &all) != CAPN_OK || memcmp(out, exact, length)) fail("another answer");
    if (length) {
        memset(exact, 0x55, length);
        if (make(call, exact, length - 1, &less) != CAPN_NO_ROOM) fail("no room was found");
        if (length > 1 && less.length != length) fail("an inexact length");
        for (size_t i = 0; i < length; i++)
            if (exact[i] != 0x55) { fail("written without room"); break; }
    }
    if (all.at || all.visits || all.segment || all.word) fail("a field is not 0");
    if (is_priced) printf("paid %u, ", all.paid);
    digits(out, length);
    free(exact);
    free(out);
}

struct call {
    uint32_t form, most;
    capn_limits limits;
    const uint8_t *bytes;
    size_t size;
};

static capn_status canonical(const void *at, uint8_t *out, size_t room, capn_report *report) {
    const struct call *call = at;
    return capn_canonical(call->form, call->bytes, call->size, &call->limits, out, room, report);
}

static capn_status packed(const void *at, uint8_t *out, size_t room, capn_report *report) {
    const struct call *call = at;
    return capn_pack(call->bytes, call->size, out, room, report);
}

static capn_status unpacked(const void *at, uint8_t *out, size_t room, capn_report *report) {
    const struct call *call = at;
    return capn_unpack(call->bytes, call->size, call->most, out, room, report);
}

/* Computes the status, the output and the error that a run of `capn hash` has to give. Prints them, with the output in
 * hexadecimal. A stream can have several messages, and the output has the digest of each message. Packed bytes, and
 * bytes without a segment table, must be one message. */
static void hashed(const struct call *call) {
    char *lines = calloc(call->size + 1, 65);
    size_t lines_length = 0, taken;
    capn_status status = CAPN_OK;
    capn_report report;
    uint8_t digest[32];
    int is_bare = call->form == CAPN_BARE;
    for (size_t from = 0; from < call->size || (is_bare && !lines_length); from += taken) {
        taken = call->size;
        if (call->form != CAPN_STREAM)
            status = capn_hash(call->form, call->bytes, call->size, &call->limits, digest, &report);
        else status = first_digest(call->bytes + from, call->size - from, &call->limits, digest, &taken, &report);
        if (status != CAPN_OK) break;
        for (int i = 0; i < 32; i++) lines_length += (size_t)sprintf(lines + lines_length, "%02x", digest[i]);
        lines[lines_length++] = '\n';
    }
    printf("status %d, ", status != CAPN_OK);
    digits((uint8_t *)lines, lines_length);
    if (status != CAPN_OK) {
        printf(", capn: ");
        refusal(status, &report, 0);
    }
    free(lines);
}

static void answer(char *line) {
    char *word[16];
    int count = 0;
    for (char *w = strtok(line, " \n"); w && count < 16; w = strtok(NULL, " \n")) word[count++] = w;
    char **w = word;
    struct call call = {0, 0, CAPN_USUAL_LIMITS, NULL, 0};
    if (!strcmp(w[0], "plain")) { call.limits.tariff = CAPN_PLAIN; w++; count--; }
    uint8_t *bytes = of_digits(w[count - 1], &call.size);
    call.bytes = bytes;
    if (!strcmp(w[0], "run")) call.form = form_of(w[4]);
    if (!strcmp(w[0], "canonicalise") || !strcmp(w[0], "survey") || !strcmp(w[0], "is_canonical")) {
        if (w[0][0] != 'i') call.form = form_of(w[1]);
        char **from = w + (w[0][0] == 'i' ? 1 : 2);
        call.limits.message_words = (uint32_t)strtoul(from[0], NULL, 10);
        call.limits.budget = (uint32_t)strtoul(from[1], NULL, 10);
        call.limits.depth = (uint32_t)strtoul(from[2], NULL, 10);
    }
    capn_report report;
    if (!strcmp(w[0], "canonicalise")) with_rooms(canonical, &call, 1, 1);
    else if (!strcmp(w[0], "pack")) with_rooms(packed, &call, 0, 0);
    else if (!strcmp(w[0], "unpack")) {
        call.most = (uint32_t)strtoul(w[1], NULL, 10);
        with_rooms(unpacked, &call, 0, 0);
    } else if (!strcmp(w[0], "run")) hashed(&call);
    else if (!strcmp(w[0], "survey")) {
        capn_status status = capn_check(call.form, call.bytes, call.size, &call.limits, &report);
        if (status == CAPN_OK) printf("paid %u, visits %u", report.paid, report.visits);
        else refusal(status, &report, 0);
    } else {
        capn_status status = capn_is_canonical(call.bytes, call.size, &call.limits, &report);
        if (status == CAPN_OK || status == CAPN_NOT_CANONICAL) printf(status == CAPN_OK ? "true" : "false");
        else refusal(status, &report, 0);
    }
    printf("\n");
    free(bytes);
}

int main(void) {
    enum { LINE = 1 << 22 };
    char *line = malloc(LINE);
    while (line && fgets(line, LINE, stdin)) answer(line);
    free(line);
    return 0;
}
