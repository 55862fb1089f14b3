/* segments: prints the digest of a message that a builder holds in two segments. The program needs no segment table and
 * no copy of the message. */
#include "capn.h"
#include <stdio.h>

int main(void) {
    /* The root is a far pointer to the second segment. The second segment has a landing pad, and the struct of two
     * words that the landing pad refers to. */
    static const uint8_t first[8] = {2, 0, 0, 0, 1, 0, 0, 0};
    static const uint8_t second[24] = {0, 0, 0, 0, 2, 0, 0, 0, 5};
    const capn_segment segments[] = {{first, sizeof first / 8}, {second, sizeof second / 8}};
    const capn_limits limits = CAPN_USUAL_LIMITS;
    uint8_t digest[32];
    capn_report report;
    const capn_status status = capn_hash_segments(segments, 2, &limits, digest, &report);
    if (status != CAPN_OK) {
        char text[128];
        capn_refusal_text(status, &report, text, sizeof text);
        fprintf(stderr, "rejected: %s\n", text);
        return 1;
    }
    for (int i = 0; i < 32; i++) printf("%02x", digest[i]);
    printf("\n");
    return 0;
}
