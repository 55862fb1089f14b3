/* stream: prints the digest of each message of a stream on standard input, in hexadecimal. The stream may have any
 * length. `capn_first` says how many bytes the current message needs, so the program reads no byte after this message.
 * For an invalid message, the program prints the number of the message, its offset and the error to standard error. It
 * then continues with the next message. It exits with 1 if a message is invalid or the stream is truncated, and 2 if
 * reading fails. */
#include "capn.h"
#include <errno.h>
#include <stdio.h>
#include <stdlib.h>
#include <unistd.h>

static void print_error(uint64_t number, uint64_t offset, capn_status status, const capn_report *report) {
    char text[128];
    capn_refusal_text(status, report, text, sizeof text);
    fprintf(stderr, "message %llu at %llu: %s\n", (unsigned long long)number, (unsigned long long)offset, text);
}

int main(void) {
    const capn_limits limits = CAPN_USUAL_LIMITS;
    uint8_t *bytes = NULL, digest[32];
    size_t have = 0, room = 0;
    uint64_t number = 1, offset = 0; /* the number and the offset of the message that begins in `bytes` */
    int is_valid = 1;
    capn_report report;
    capn_status status;
    for (;;) {
        status = capn_first(bytes, have, &limits, &report);
        if (status == CAPN_FRAME_EMPTY || status == CAPN_FRAME_CUT) {
            /* The buffer grows as bytes arrive. Even if a segment table announces a great length, the buffer doesn't
             * grow to that length at once. */
            const size_t need = report.length;
            if (have == room) {
                room = room ? 2 * room : 4096;
                uint8_t *more = realloc(bytes, room);
                if (!more) {
                    status = CAPN_MEMORY;
                    break;
                }
                bytes = more;
            }
            const ssize_t came = read(STDIN_FILENO, bytes + have, (need < room ? need : room) - have);
            if (came == 0) break; /* the end of the stream */
            if (came > 0) have += (size_t)came;
            if (came > 0 || errno == EINTR) continue;
            perror("stream"); /* a read error is not the end of the stream */
            free(bytes);
            return 2;
        }
        if (status != CAPN_OK) break; /* the segment table is invalid, so nothing says where the next message begins */
        status = capn_hash(CAPN_STREAM, bytes, have, &limits, digest, &report);
        if (status == CAPN_MEMORY) break;
        if (status == CAPN_OK) {
            for (int i = 0; i < 32; i++) printf("%02x", digest[i]);
            printf("\n");
        } else {
            print_error(number, offset, status, &report);
            is_valid = 0;
        }
        number++;
        offset += have;
        have = 0;
    }
    free(bytes);
    /* The stream has ended here. Either no bytes are left, or the last message is truncated. */
    if (status != CAPN_FRAME_EMPTY) {
        print_error(number, offset, status, &report);
        is_valid = 0;
    }
    return is_valid ? 0 : 1;
}
