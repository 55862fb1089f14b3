/* canonical FILE: writes the canonical bytes of a message to standard output. The file must have exactly one message.
 * The program exits with 1 if the message is invalid, 2 on wrong usage, and 3 if reading, writing or an allocation
 * fails. */
#include "capn.h"
#include <stdio.h>
#include <stdlib.h>

/* Returns all bytes of a file, or null if reading or an allocation fails. The caller frees the bytes. */
static uint8_t *read_all(const char *name, size_t *size) {
    FILE *file = fopen(name, "rb");
    if (!file) return NULL;
    size_t room = 4096, have = 0, got;
    uint8_t *bytes = malloc(room);
    while (bytes && (got = fread(bytes + have, 1, room - have, file)) > 0) {
        have += got;
        if (have < room) continue;
        uint8_t *more = realloc(bytes, room *= 2);
        if (!more) free(bytes);
        bytes = more;
    }
    if (bytes && ferror(file)) { /* fread returns 0 at the end of the file, and also after a read error */
        free(bytes);
        bytes = NULL;
    }
    fclose(file);
    *size = have;
    return bytes;
}

int main(int count, char **words) {
    if (count != 2) return 2;
    size_t size;
    uint8_t *bytes = read_all(words[1], &size);
    if (!bytes) {
        perror(words[1]);
        return 3;
    }

    /* With a buffer of size 0, capn_canonical only checks the message. It reports a length that is enough for the
     * canonical bytes. */
    capn_limits limits = CAPN_USUAL_LIMITS;
    capn_report report;
    capn_status status = capn_canonical(CAPN_STREAM, bytes, size, &limits, NULL, 0, &report);
    uint8_t *out = NULL;
    if (status == CAPN_NO_ROOM) {
        size_t room = report.length;
        out = malloc(room);
        status = out ? capn_canonical(CAPN_STREAM, bytes, size, &limits, out, room, &report) : CAPN_MEMORY;
    }
    int is_written = 1;
    if (status == CAPN_OK) is_written = fwrite(out, 1, report.length, stdout) == report.length && !fflush(stdout);
    else {
        char text[128]; /* the text of the error, with the place of the error */
        capn_refusal_text(status, &report, text, sizeof text);
        fprintf(stderr, "rejected: %s\n", text);
    }
    if (!is_written) perror("standard output");
    free(out);
    free(bytes);
    if (status == CAPN_OK) return is_written ? 0 : 3;
    return status == CAPN_MEMORY ? 3 : 1;
}
