/* Compares pairs of messages with the C library. Two consecutive messages on standard input are a pair. Prints `same`
 * or `different` if the canonical bytes agree with all results of capn_same, and otherwise prints which result is
 * wrong. capn_same is called on the two messages as streams in each order, packed, and in canonical form without a
 * table. */
#include "capn.h"

#include <stdint.h>
#include <stdio.h>
#include <stdlib.h>
#include <string.h>

struct text {
    uint8_t *bytes;
    size_t size;
};

static void stop(const char *why, capn_status status) {
    fprintf(stderr, "same: %s: status %u\n", why, (unsigned)status);
    exit(3);
}

static struct text room_for(size_t size) {
    struct text made = {malloc(size + 1), size};
    if (!made.bytes) stop("no memory", 0);
    return made;
}

static struct text standard_input(void) {
    struct text read = room_for(1 << 20);
    size_t most = read.size, got;
    read.size = 0;
    while ((got = fread(read.bytes + read.size, 1, most - read.size, stdin)) > 0) {
        read.size += got;
        if (read.size < most) continue;
        most *= 2;
        read.bytes = realloc(read.bytes, most);
        if (!read.bytes) stop("no memory", 0);
    }
    return read;
}

static struct text canonical(struct text message) {
    capn_report report;
    struct text made = room_for(message.size);
    capn_status status = capn_canonical(CAPN_STREAM, message.bytes, message.size, NULL, made.bytes, made.size, &report);
    if (status != CAPN_OK) stop("canonical bytes", status);
    made.size = report.length;
    return made;
}

static struct text packed(struct text message) {
    capn_report report;
    struct text made = room_for(2 * message.size);
    capn_status status = capn_pack(message.bytes, message.size, made.bytes, made.size, &report);
    if (status != CAPN_OK) stop("packed", status);
    made.size = report.length;
    return made;
}

/* Prints an error if capn_same returns a wrong result. */
static int is_wrong(const char *what, uint32_t form, struct text a, struct text b, capn_status wanted) {
    static const capn_report nothing;
    capn_report report;
    uint32_t which = 9;
    memset(&report, 9, sizeof report);
    capn_status status = capn_same(form, a.bytes, a.size, b.bytes, b.size, NULL, &which, &report);
    if (status == wanted && which == 0 && memcmp(&report, &nothing, sizeof report) == 0) return 0;
    printf("%s: status %u, which %u\n", what, (unsigned)status, (unsigned)which);
    return 1;
}

static void compare(struct text a, struct text b) {
    struct text bare_a = canonical(a), bare_b = canonical(b), packed_a = packed(a), packed_b = packed(b);
    int is_same = bare_a.size == bare_b.size && memcmp(bare_a.bytes, bare_b.bytes, bare_a.size) == 0;
    capn_status wanted = is_same ? CAPN_OK : CAPN_DIFFERENT;
    if (!is_wrong("stream", CAPN_STREAM, a, b, wanted) && !is_wrong("in turn", CAPN_STREAM, b, a, wanted)
        && !is_wrong("packed", CAPN_PACKED, packed_a, packed_b, wanted)
        && !is_wrong("bare", CAPN_BARE, bare_a, bare_b, wanted) && !is_wrong("itself", CAPN_STREAM, a, a, CAPN_OK))
        puts(is_same ? "same" : "different");
    free(bare_a.bytes);
    free(bare_b.bytes);
    free(packed_a.bytes);
    free(packed_b.bytes);
}

static struct text first(uint8_t *bytes, size_t size) {
    capn_report report;
    capn_status status = capn_first(bytes, size, NULL, &report);
    if (status != CAPN_OK) stop("a frame", status);
    return (struct text){bytes, report.length};
}

int main(void) {
    struct text all = standard_input();
    for (size_t at = 0; at < all.size;) {
        struct text a = first(all.bytes + at, all.size - at);
        at += a.size;
        struct text b = first(all.bytes + at, all.size - at);
        at += b.size;
        compare(a, b);
    }
    free(all.bytes);
    return 0;
}
