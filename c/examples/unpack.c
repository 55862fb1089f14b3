/* unpack: unpacks packed bytes of any length from standard input to standard output, in chunks.
 * It exits with 1 if the packed bytes are truncated, and 2 if reading, writing or an allocation fails. */
#include "capn.h"
#include <stdio.h>
#include <string.h>

int main(void) {
    static uint8_t in[1 << 16], out[1 << 16]; /* a group has at most 2,050 packed bytes, or 2,048 unpacked bytes */
    size_t have = 0, came;
    capn_report report;
    do {
        came = fread(in + have, 1, sizeof in - have, stdin);
        have += came;
        capn_status status;
        do {
            status = capn_unpack_some(in, have, out, sizeof out, &report);
            if (status == CAPN_MEMORY) {
                fprintf(stderr, "unpack: %s\n", capn_status_text(status));
                return 2;
            }
            if (fwrite(out, 1, report.length, stdout) != report.length) {
                perror("standard output");
                return 2;
            }
            have -= report.at;
            memmove(in, in + report.at, have);
        } while (status == CAPN_PACKED_TOO_LONG);
    } while (came > 0);
    if (ferror(stdin)) { /* a read error is not the end of the input */
        perror("standard input");
        return 2;
    }
    if (fflush(stdout)) {
        perror("standard output");
        return 2;
    }
    if (have == 0) return 0;
    fprintf(stderr, "unpack: %s\n", capn_status_text(CAPN_PACKED_CUT));
    return 1;
}
