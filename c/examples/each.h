/* Reads the messages of a stream that is in memory. The function capn_first reads the segment table of a message, and
 * reports the length of the message. */
#ifndef CAPN_EACH_H
#define CAPN_EACH_H
#include "capn.h"

/* Computes the digest of the first message of a stream. `taken` is the length of that message, even if the message is
 * invalid. If the segment table is invalid, `taken` is 0, because nothing says where the next message begins. */
static inline capn_status first_digest(const uint8_t *bytes, size_t size, const capn_limits *limits, uint8_t digest[32],
                                       size_t *taken, capn_report *report) {
    capn_status status = capn_first(bytes, size, limits, report);
    *taken = status == CAPN_OK ? (size_t)report->length : 0;
    return status == CAPN_OK ? capn_hash(CAPN_STREAM, bytes, *taken, limits, digest, report) : status;
}
#endif
