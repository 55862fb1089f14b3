/* Makes each call of capn.h once. This file can be compiled as C and as C++. All calls get a message with a null root.
 * */
#include "capn.h"

int main(void) {
    const uint8_t null[16] = {0, 0, 0, 0, 1, 0, 0, 0, 0, 0, 0, 0, 0, 0, 0, 0};
    const capn_limits limits = CAPN_USUAL_LIMITS;
    const capn_segment segment = {null + 8, 1};
    capn_figures figures;
    capn_report report;
    char text[16];
    uint32_t way[2];
    capn_departed departed;
    if (CAPN_HAS_SHOW != 1) return 20;
    uint8_t out[16], digest[32];
    if (CAPN_VERSION < 100) return 1;
    if (capn_canonical(CAPN_STREAM, null, 16, &limits, out, 16, &report) != CAPN_OK || report.length != 8) return 2;
    if (capn_is_canonical(out, 8, &limits, &report) != CAPN_OK) return 3;
    if (capn_hash(CAPN_STREAM, null, 16, &limits, digest, &report) != CAPN_OK) return 4;
    if (capn_check(CAPN_BARE, out, 8, &limits, &report) != CAPN_OK || report.visits != 1) return 5;
    if (capn_pack(null, 16, out, 16, &report) != CAPN_OK || report.length != 4) return 6;
    if (capn_unpack(out, 4, 1, out + 8, 8, &report) != CAPN_PACKED_TOO_LONG) return 7;
    if (capn_first(null, 16, &limits, &report) != CAPN_OK || report.length != 16) return 8;
    if (capn_unpack_some(out, 4, out + 8, 8, &report) != CAPN_PACKED_TOO_LONG || report.at != 2) return 9;
    if (capn_survey(CAPN_STREAM, null, 16, &limits, &figures, &report) != CAPN_OK || figures.depth != 0) return 11;
    if (capn_index(CAPN_STREAM, null, 16, &limits, NULL, 0, &report) != CAPN_NO_ROOM || report.visits != 1) return 12;
    if (capn_show(CAPN_BARE, null + 8, 8, &limits, CAPN_STYLE_JSON, text, 16, &report) != CAPN_OK || report.length != 5)
        return 19;
    if (capn_check_segments(&segment, 1, &limits, &report) != CAPN_OK || report.visits != 1) return 13;
    if (capn_hash_segments(&segment, 1, &limits, digest, &report) != CAPN_OK) return 14;
    if (capn_canonical_segments(&segment, 1, &limits, out, 16, &report) != CAPN_OK || report.length != 8) return 15;
    if (capn_survey_segments(&segment, 1, &limits, &figures, &report) != CAPN_OK || figures.words != 1) return 16;
    if (CAPN_HAS_WAYS != 1 || CAPN_LONGEST_PATH != 2 * 256) return 21;
    if (capn_refusal_way(CAPN_BARE, null, 8, &limits, way, 2, &report) != CAPN_RANGE || report.length != 0) return 22;
    if (capn_departure(CAPN_STREAM, null, 16, &limits, &departed, way, 2, &report) != CAPN_OK) return 23;
    if (departed.kind != CAPN_DEPARTS_NOT || departed.owner != CAPN_OWNER_NONE) return 24;
    capn_line line;
    if (CAPN_HAS_ANNOTATE != 1) return 29;
    if (capn_annotate(CAPN_STREAM, null, 16, &limits, &line, 1, &report) != CAPN_OK || report.length != 48) return 30;
    if (line.offset != 8 || line.words != 1 || line.kind != CAPN_LINE_NULL || line.flags) return 31;
    uint32_t which = 2;
    if (CAPN_HAS_SAME != 1) return 25;
    if (capn_same(CAPN_BARE, out, 8, null + 8, 8, &limits, &which, &report) != CAPN_OK || which) return 26;
    if (CAPN_HAS_SCRATCH != 1 || CAPN_STREAM_SCRATCH != 4095 || CAPN_PACKED_SCRATCH(1) != 6145) return 27;
    if (capn_canonical_with_scratch(CAPN_BARE, null, 8, &limits, NULL, 0, out, 16, &report) != CAPN_RANGE) return 28;
    if (CAPN_HAS_SEGMENTS != 1 || capn_refusal_text(CAPN_FRAME_CUT, &report, text, 16) != 10) return 17;
    if (capn_status_name(CAPN_RANGE)[0] != 'R') return 18;
    if (!capn_version()[0] || !capn_status_text(CAPN_OK)[0]) return 10;
    return 0;
}
