/* calls OPERATION STEPS < MESSAGE: does an operation of the C library STEPS times, on a message with its segment table.
 * The program prints the length of the message in bytes. It allocates all buffers before the first operation.
 * bench/count uses this program to count the instructions of one operation. */
#include "capn.h"
#include <stdio.h>
#include <stdlib.h>
#include <string.h>

enum { MOST = 1 << 25 };
static uint8_t bytes[MOST];

int main(int count, char **words) {
    const capn_limits limits = CAPN_USUAL_LIMITS;
    const size_t size = fread(bytes, 1, sizeof bytes, stdin);
    capn_report report;
    capn_figures figures;
    uint8_t digest[32];
    if (count != 3) return 2;
    if (capn_canonical(CAPN_STREAM, bytes, size, &limits, NULL, 0, &report) != CAPN_NO_ROOM) return 3;
    const size_t room = report.length;
    uint8_t *out = calloc(room, 1);
    if (capn_index(CAPN_STREAM, bytes, size, &limits, NULL, 0, &report) != CAPN_NO_ROOM) return 3;
    const size_t entries = report.visits;
    capn_entry *index = calloc(entries, sizeof *index);
    if (!out || !index) return 4;
    for (int step = atoi(words[2]); step > 0; step--) {
        const char *name = words[1];
        const uint32_t form = CAPN_STREAM;
        capn_status status = CAPN_BAD_FORM;
        if (!strcmp(name, "check")) status = capn_check(form, bytes, size, &limits, &report);
        if (!strcmp(name, "canonical")) status = capn_canonical(form, bytes, size, &limits, out, room, &report);
        if (!strcmp(name, "hash")) status = capn_hash(form, bytes, size, &limits, digest, &report);
        if (!strcmp(name, "survey")) status = capn_survey(form, bytes, size, &limits, &figures, &report);
        if (!strcmp(name, "index")) status = capn_index(form, bytes, size, &limits, index, entries, &report);
        if (status != CAPN_OK) return 5;
    }
    printf("%zu\n", size);
    return 0;
}
