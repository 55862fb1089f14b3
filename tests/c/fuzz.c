/* Passes arbitrary bytes to each call of capn.h, in each form (stream, packed and bare). The results of the calls must
 * agree with one another, and no call may read beyond the given bytes. Each line of standard input ends with bytes in
 * hexadecimal. The program passes these bytes to each call. It also passes copies of them, in which some bytes are
 * changed. The changes come from a fixed seed. */

/* A fuzzer calls the function LLVMFuzzerTestOneInput of this file. This command builds the fuzzer:
 *
 *     clang -DFUZZER -fsanitize=fuzzer,address -I c tests/c/fuzz.c build/libcapn.a */
#include "usual.h"
#include <stdio.h>
#include <stdlib.h>
#include <string.h>

static capn_limits limits;

static void need(int holds, const char *what, const uint8_t *bytes, size_t size) {
    if (holds) return;
    printf("fuzz: not so: %s:", what);
    for (size_t i = 0; i < size; i++) printf(" %02x", bytes[i]);
    printf("\n");
    abort();
}

/* Tests a message that capn_check accepts. capn_canonical, capn_hash and capn_is_canonical have to agree on its
 * canonical bytes and on its cost. */
static void accepted(uint32_t form, const uint8_t *bytes, size_t size, const capn_report *checked, size_t enough) {
    uint8_t *out = malloc(enough), digest[2][32];
    capn_report report;
    capn_status status = capn_canonical(form, bytes, size, &limits, out, enough, &report);
    need(status == CAPN_OK && report.paid == checked->paid, "room that is enough", bytes, size);
    size_t length = report.length;
    uint8_t *again = malloc(length);
    status = capn_canonical(CAPN_BARE, out, length, &limits, again, length, &report);
    need(status == CAPN_OK && report.length == length && !memcmp(out, again, length), "own form", bytes, size);
    need(capn_is_canonical(out, length, &limits, &report) == CAPN_OK, "is canonical", bytes, size);
    need(capn_hash(form, bytes, size, &limits, digest[0], &report) == CAPN_OK, "hash", bytes, size);
    need(capn_hash(CAPN_BARE, out, length, &limits, digest[1], &report) == CAPN_OK, "hash again", bytes, size);
    need(!memcmp(digest[0], digest[1], 32), "one digest", bytes, size);
    need(capn_same(form, bytes, size, bytes, size, &limits, NULL, &report) == CAPN_OK, "same", bytes, size);
    if (form == CAPN_BARE) {
        int is_own = length == size && !memcmp(out, bytes, length);
        status = capn_is_canonical(bytes, size, &limits, &report);
        need(status == (is_own ? CAPN_OK : CAPN_NOT_CANONICAL), "is canonical only if it is", bytes, size);
        status = capn_same(form, bytes, size, out, length, &limits, NULL, &report);
        need(status == CAPN_OK, "same as its canonical bytes", bytes, size);
    }
    free(out);
    free(again);
}

/* Returns the size of an object's content in bytes, computed from the object's index entry. */
static uint64_t content(const capn_entry *e) {
    const uint64_t object = 8 * ((uint64_t)e->words + e->slots);
    switch (e->kind) {
    case CAPN_KIND_STRUCT: return object;
    case CAPN_KIND_BITS: return ((uint64_t)e->count + 7) / 8;
    case CAPN_KIND_BYTES: return e->count;
    case CAPN_KIND_U16: return 2 * (uint64_t)e->count;
    case CAPN_KIND_U32: return 4 * (uint64_t)e->count;
    case CAPN_KIND_U64: case CAPN_KIND_POINTERS: return 8 * (uint64_t)e->count;
    case CAPN_KIND_ROWS: return 8 + e->count * object;
    default: return 0;
    }
}

/* Tests entry i of an index, and the entries of the pointers in the object of entry i. The content of this object must
 * lie within the bytes of the message. The entries of the pointers must follow one another, up to the end of the span
 * of entry i. A null pointer must have a null entry. */
static void entry(const capn_entry *all, size_t count, size_t i, const uint8_t *bytes, size_t size) {
    const capn_entry *e = &all[i];
    need(e->span >= 1 && e->span <= count - i, "a span", bytes, size);
    need(e->offset <= size && content(e) <= size - e->offset, "within the bytes", bytes, size);
    need(e->kind <= CAPN_KIND_CAPABILITY, "a kind", bytes, size);
    size_t next = i + 1, rows = e->kind == CAPN_KIND_ROWS ? e->count : 1;
    const uint8_t *at = bytes + e->offset + (e->kind == CAPN_KIND_ROWS ? 8 : 0);
    size_t slots = e->kind == CAPN_KIND_POINTERS ? e->count : e->slots;
    for (size_t row = 0; row < rows && slots; row++, at += 8 * slots) {
        at += 8 * (size_t)e->words;
        for (size_t slot = 0; slot < slots; slot++) {
            uint64_t word;
            need(next < i + e->span, "an entry of a slot", bytes, size);
            memcpy(&word, at + 8 * slot, 8);
            need((word == 0) == (all[next].kind == CAPN_KIND_NULL), "null", bytes, size);
            entry(all, count, next, bytes, size);
            next += all[next].span;
        }
    }
    need(next == i + e->span, "the end of a span", bytes, size);
}

/* For a stream or a bare message, capn_survey and capn_index must report the same as capn_check. */
static void indexed(uint32_t form, const uint8_t *bytes, size_t size, capn_status check, const capn_report *checked) {
    capn_figures figures;
    capn_report report;
    need(capn_survey(form, bytes, size, &limits, &figures, &report) == check, "survey as check", bytes, size);
    need(!memcmp(&report, checked, sizeof report), "its report", bytes, size);
    if (check != CAPN_OK) {
        need(capn_index(form, bytes, size, &limits, NULL, 0, &report) == check, "index as check", bytes, size);
        need(!memcmp(&report, checked, sizeof report), "its report", bytes, size);
        return;
    }
    capn_limits lower = limits;
    lower.depth = figures.depth;
    need(!lower.depth || capn_check(form, bytes, size, &lower, &report) == CAPN_OK, "the depth", bytes, size);
    lower.depth--;
    need(figures.depth < 2 || capn_check(form, bytes, size, &lower, &report) == CAPN_TOO_DEEP, "less", bytes, size);
    const size_t count = checked->visits;
    need(figures.visits == count && figures.paid == checked->paid, "the figures", bytes, size);
    /* This block has exactly the size of the array of entries, so that a sanitizer detects an access past the end. */
    capn_entry *all = malloc(count * sizeof *all);
    for (size_t room = count - 1; room <= count; room++) {
        memset(all, 0x55, count * sizeof *all);
        capn_status status = capn_index(form, bytes, size, &limits, all, room, &report);
        need(status == (room < count ? CAPN_NO_ROOM : CAPN_OK), "the room", bytes, size);
        need(report.visits == count && report.paid == checked->paid, "the number of entries", bytes, size);
        uint32_t kind = room < count ? 0x55555555 : all[0].kind;
        need(report.length == 24 * count && all[0].kind == kind, "as it was", bytes, size);
    }
    need(all[0].span == count, "all entries", bytes, size);
    entry(all, count, 0, bytes, size);
    free(all);
}

/* The calls that report the path to an error must report the same error as capn_check. */
static void led(uint32_t form, const uint8_t *bytes, size_t size, capn_status check, const capn_report *checked) {
    static uint32_t way[2 * 256];
    capn_departed departed;
    capn_report report;
    need(capn_refusal_way(form, bytes, size, &limits, way, 2 * 256, &report) == check, "a way as check", bytes, size);
    need(report.length <= 8 * (uint64_t)limits.depth, "its length", bytes, size);
    report.length = 0;
    need(!memcmp(&report, checked, sizeof report), "its report", bytes, size);
    const capn_status status = capn_departure(form, bytes, size, &limits, &departed, way, 2 * 256, &report);
    need(status == check, "a departure as check", bytes, size);
    need(report.length <= 8 * (uint64_t)limits.depth, "its length", bytes, size);
    report.length = 0;
    need(!memcmp(&report, checked, sizeof report), "its report", bytes, size);
}

/* capn_annotate must report the same as capn_check. Each word of the message must be in exactly one line, and the lines
 * must be in order. For each line, the reported number of words that aren't zero must be right. */
static void lined(uint32_t form, const uint8_t *bytes, size_t size, capn_status check, const capn_report *checked) {
    capn_report report;
    const capn_status status = capn_annotate(form, bytes, size, &limits, NULL, 0, &report);
    need(status == (check == CAPN_OK ? CAPN_NO_ROOM : check), "lines as check", bytes, size);
    const size_t count = report.length / sizeof(capn_line);
    report.length = 0;
    need(!memcmp(&report, checked, sizeof report), "its report", bytes, size);
    if (check != CAPN_OK) return;
    /* This block has exactly the size of the array of lines, so that a sanitizer detects an access past the end. */
    capn_line *all = malloc(count * sizeof *all);
    need(capn_annotate(form, bytes, size, &limits, all, count - 1, &report) == CAPN_NO_ROOM, "room", bytes, size);
    need(capn_annotate(form, bytes, size, &limits, all, count, &report) == CAPN_OK, "lines", bytes, size);
    need(report.length == count * sizeof *all && report.visits == checked->visits, "their number", bytes, size);
    capn_figures figures;
    need(capn_survey(form, bytes, size, &limits, &figures, &report) == CAPN_OK, "a survey", bytes, size);
    const uint64_t table = form == CAPN_BARE ? 0 : 8 * (figures.segments / 2 + 1);
    uint64_t words = 0;
    uint32_t segment = 0, word = 0;
    for (size_t i = 0; i < count; i++) {
        const capn_line *line = &all[i];
        need(line->offset == table + 8 * words && line->words >= 1, "one after another", bytes, size);
        need(line->segment == segment ? line->word == word : line->segment > segment && line->word == 0, "its place",
             bytes, size);
        need(line->cut <= line->words && line->not_zero <= line->words, "its counts", bytes, size);
        need(line->kind <= CAPN_LINE_UNREACHED && line->flags <= 3, "its kind", bytes, size);
        need((line->times == 0) == (line->kind == CAPN_LINE_UNREACHED), "its times", bytes, size);
        uint32_t not_zero = 0;
        for (uint32_t at = 0; at < line->words && form != CAPN_PACKED; at++) {
            uint64_t here;
            need(line->offset + 8 * at + 8 <= size, "within the bytes", bytes, size);
            memcpy(&here, bytes + line->offset + 8 * at, 8);
            not_zero += here != 0;
        }
        need(form == CAPN_PACKED || line->not_zero == not_zero, "what isn't zero", bytes, size);
        segment = line->segment;
        word = line->word + line->words;
        words += line->words;
    }
    need(words == figures.words, "all words", bytes, size);
    free(all);
}

static void message(uint32_t form, const uint8_t *bytes, size_t size) {
    capn_report checked, report;
    uint8_t digest[32];
    capn_status check = capn_check(form, bytes, size, &limits, &checked);
    led(form, bytes, size, check, &checked);
    lined(form, bytes, size, check, &checked);
    capn_status status = capn_canonical(form, bytes, size, &limits, NULL, 0, &report);
    if (form != CAPN_PACKED) indexed(form, bytes, size, check, &checked);
    else {
        capn_figures figures;
        capn_report surveyed;
        need(capn_survey(form, bytes, size, &limits, &figures, &surveyed) == check, "survey as check", bytes, size);
        need(!memcmp(&surveyed, &checked, sizeof surveyed), "its report", bytes, size);
    }
    need(check != CAPN_MEMORY && status != CAPN_MEMORY, "there is memory", bytes, size);
    if (check == CAPN_OK && status == CAPN_NO_ROOM) {
        need(report.length == 8 * ((uint64_t)report.paid + 1), "a length that is enough", bytes, size);
        accepted(form, bytes, size, &checked, report.length);
        return;
    }
    capn_report hashed;
    need(status == (check == CAPN_OK ? CAPN_CAPABILITY : check), "canonical refuses as check", bytes, size);
    need(capn_hash(form, bytes, size, &limits, digest, &hashed) == status, "hash refuses as canonical", bytes, size);
    need(!memcmp(&report, &hashed, sizeof report), "the reports of a refusal", bytes, size);
    uint32_t which;
    const capn_status same = capn_same(form, bytes, size, bytes, size, &limits, &which, &hashed);
    need(same == status && !which, "same refuses as canonical", bytes, size);
    need(!memcmp(&report, &hashed, sizeof report), "the reports of a refusal", bytes, size);
}

/* Unpacks arbitrary bytes as if they were packed. Packs the result, and unpacks it again. */
static void packing(const uint8_t *bytes, size_t size) {
    static uint8_t words[1 << 16], again[1 << 16], text[10 * (1 << 13)];
    capn_report report, other;
    if (capn_unpack(bytes, size, 1 << 13, words, sizeof words, &report) != CAPN_OK) return;
    need(capn_pack(words, report.length, text, sizeof text, &other) == CAPN_OK, "packed", bytes, size);
    need(capn_unpack(text, other.length, 1 << 13, again, sizeof again, &other) == CAPN_OK, "unpacked", bytes, size);
    need(other.length == report.length && !memcmp(words, again, other.length), "there and back", bytes, size);
}

int LLVMFuzzerTestOneInput(const uint8_t *data, size_t size) {
    /* This copy has exactly the size of the input, so that a sanitizer detects a read past the end. */
    uint8_t *bytes = malloc(size ? size : 1);
    if (size) memcpy(bytes, data, size);
    limits = limits_of(1u << 16, 1u << 16, 64, CAPN_STRICT);
    for (uint32_t form = 0; form < 3; form++) message(form, bytes, size);
    packing(bytes, size);
    free(bytes);
    return 0;
}

#ifndef FUZZER
/* The number of changed copies that are tried for each input. */
#ifndef COPIES
#define COPIES 40
#endif
static uint64_t seed = 7;

static uint32_t any(uint32_t below) {
    seed ^= seed << 13;
    seed ^= seed >> 7;
    seed ^= seed << 17;
    return (uint32_t)(seed >> 32) % below;
}

/* Changes one to four bytes of an input, and sometimes cuts off the end of the input. */
static size_t change(uint8_t *bytes, size_t size) {
    const uint8_t special[6] = {0, 1, 2, 7, 0x80, 0xff};
    for (uint32_t times = 1 + any(4); times && size; times--) {
        uint8_t *byte = bytes + any((uint32_t)size);
        *byte = any(2) ? special[any(6)] : (uint8_t)(*byte ^ 1u << any(8));
    }
    return any(8) || !size ? size : any((uint32_t)size);
}

int main(void) {
    enum { LINE = 1 << 22, LONGEST = 1 << 12 };
    static char line[LINE];
    static uint8_t bytes[LONGEST], copy[LONGEST];
    long tried = 0;
    while (fgets(line, LINE, stdin)) {
        char *digits = strrchr(line, ' ');
        size_t size = digits ? strcspn(++digits, "\n") / 2 : 0;
        if (!digits || size > LONGEST) continue;
        for (size_t i = 0; i < size; i++) {
            unsigned byte = 0;
            sscanf(digits + 2 * i, "%2x", &byte);
            bytes[i] = (uint8_t)byte;
        }
        LLVMFuzzerTestOneInput(bytes, size);
        for (int i = 0; i < COPIES; i++, tried++) {
            memcpy(copy, bytes, size);
            LLVMFuzzerTestOneInput(copy, change(copy, size));
        }
    }
    printf("fuzz: %ld changed inputs, on which all calls agree\n", tried);
    return 0;
}
#endif
