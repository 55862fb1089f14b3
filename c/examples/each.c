/* each FILE: prints the digest of each message of a stream, in hexadecimal. For an invalid message, the program prints
 * the number of the message, its offset and the error to standard error. It then continues with the next message. It
 * exits with 1 if a message is invalid, 2 on wrong usage, and 3 if the file cannot be read. */
#include "each.h"
#include <stdio.h>
#include <stdlib.h>

static void print_error(size_t number, size_t offset, capn_status status, const capn_report *report) {
    char text[128];
    capn_refusal_text(status, report, text, sizeof text);
    fprintf(stderr, "message %zu at %zu: %s\n", number, offset, text);
}

int main(int count, char **words) {
    if (count != 2) return 2;
    FILE *file = fopen(words[1], "rb");
    if (!file || fseek(file, 0, SEEK_END)) return 3;
    long length = ftell(file);
    rewind(file);
    uint8_t *bytes = malloc(length > 0 ? (size_t)length : 1);
    if (length < 0 || !bytes || fread(bytes, 1, (size_t)length, file) != (size_t)length) return 3;
    fclose(file);

    const capn_limits limits = CAPN_USUAL_LIMITS;
    const size_t size = (size_t)length;
    int is_valid = 1;
    for (size_t from = 0, taken, number = 1; from < size; from += taken, number++) {
        uint8_t digest[32];
        capn_report report;
        const capn_status status = first_digest(bytes + from, size - from, &limits, digest, &taken, &report);
        if (status == CAPN_OK) {
            for (int i = 0; i < 32; i++) printf("%02x", digest[i]);
            printf("\n");
        } else { /* the segment table is invalid, so nothing says where the next message begins */
            print_error(number, from, status, &report);
            is_valid = 0;
            if (taken == 0) break;
        }
    }
    free(bytes);
    return is_valid ? 0 : 1;
}
