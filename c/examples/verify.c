/* verify FILE DIGEST: exits with 0 if a file is exactly one message, and the SHA-256 of its canonical bytes is DIGEST.
 * It exits with 1 if the file isn't such a message, with 2 on wrong usage, and with 3 if the file cannot be read. The
 * program verifies no signature. Before you run the program, verify the signature of a statement that has the protocol,
 * the type and the digest. */
#include "capn.h"
#include <stdio.h>
#include <string.h>

int main(int count, char **words) {
    static uint8_t bytes[(1 << 20) + 1]; /* one byte more than a message of this protocol may have */
    if (count != 3) return 2;
    FILE *file = fopen(words[1], "rb");
    if (!file) return 3;
    const size_t size = fread(bytes, 1, sizeof bytes, file);
    const int is_read = !ferror(file); /* a read error is not the end of the file */
    fclose(file);
    if (!is_read) return 3;
    if (size == sizeof bytes) return 1;

    /* The limits of the protocol. They bound the cost of reading an untrusted message. */
    capn_limits limits = CAPN_USUAL_LIMITS;
    limits.message_words = 1 << 17;
    limits.budget = 1 << 18;
    limits.depth = 32;
    uint8_t digest[32];
    capn_report report;
    const capn_status status = capn_hash(CAPN_STREAM, bytes, size, &limits, digest, &report);
    if (status != CAPN_OK) { /* bytes after the message are an error, since the file must be exactly one message */
        char text[128];
        capn_refusal_text(status, &report, text, sizeof text);
        fprintf(stderr, "rejected: %s\n", text);
        return 1;
    }
    char digits[65];
    for (int i = 0; i < 32; i++) sprintf(digits + 2 * i, "%02x", digest[i]);
    return strcmp(digits, words[2]) != 0;
}
