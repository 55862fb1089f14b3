/* index FILE: prints the tree of an untrusted message. The program needs no schema, because it uses the index of the
 * message. It prints a line for each pointer. It exits with 1 if the message is invalid, 2 on wrong usage, and 3 if the
 * file cannot be read. */
#include "capn.h"
#include "capn_fields.h"
#include <inttypes.h>
#include <stdio.h>
#include <stdlib.h>

static const char *const kinds[] = {"null", "struct", "void", "bits", "bytes", "u16", "u32", "u64", "pointers", "rows",
                                    "capability"};

/* Prints entry i of the index, and all entries below entry i. `span` is the number of entries from an entry to its next
 * sibling. */
static void print_entry(const capn_entry *all, size_t i, int level, const uint8_t *bytes) {
    const capn_entry *e = &all[i];
    printf("%*s%s", 2 * level, "", kinds[e->kind]);
    if (e->kind == CAPN_KIND_STRUCT || e->kind == CAPN_KIND_ROWS) printf(" %u:%u", e->words, e->slots);
    if (e->kind >= CAPN_KIND_VOID) printf(" %" PRIu32, e->count);
    if (e->kind == CAPN_KIND_STRUCT && e->words) printf(", first byte %u", bytes[e->offset]);
    printf("\n");
    for (size_t next = i + 1; next < i + e->span; next += all[next].span) print_entry(all, next, level + 1, bytes);
}

int main(int count, char **words) {
    /* The program copies the message into its own memory, so that nobody can change the message while the program reads
     * it. The buffer has room for one byte more than the longest accepted message. So the program notices that a
     * message is longer, and rejects it. */
    static uint8_t bytes[(1 << 20) + 1];
    capn_limits limits = CAPN_USUAL_LIMITS;
    limits.message_words = 1 << 17;
    limits.budget = 1 << 18;
    if (count != 2) return 2;
    FILE *file = fopen(words[1], "rb");
    if (!file) return 3;
    const size_t size = fread(bytes, 1, sizeof bytes, file);
    const int is_read = !ferror(file); /* a read error is not the end of the file */
    fclose(file);
    if (!is_read) return 3;

    capn_report report;
    size_t entries; /* the number of entries of the index, at most budget + 1 */
    capn_status status = capn_count_entries(CAPN_STREAM, bytes, size, &limits, &entries, &report);
    if (status == CAPN_OK) {
        capn_entry *all = malloc(entries * sizeof *all);
        status = all ? capn_index(CAPN_STREAM, bytes, size, &limits, all, entries, &report) : CAPN_MEMORY;
        if (status == CAPN_OK) print_entry(all, 0, 0, bytes);
        free(all);
    }
    if (status == CAPN_OK) return 0;
    char text[128];
    capn_refusal_text(status, &report, text, sizeof text);
    fprintf(stderr, "rejected: %s\n", text);
    return 1;
}
