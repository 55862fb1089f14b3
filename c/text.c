/* The texts of the library: the version of the library, a text for each status, and a text for an error together with
 * its place. The code of this file isn't proved (formally verified). It keeps no state, and reads and writes only its
 * arguments. */
#include "capn.h"

#ifndef CAPN_VERSION_TEXT
#error "make defines CAPN_VERSION_TEXT, from the file VERSION"
#endif

const char *capn_version(void) { return CAPN_VERSION_TEXT; }

const char *capn_status_text(capn_status status) {
    switch (status) {
    /* c/statuses.txt: texts */
    case CAPN_OK: return "the call succeeded";
    case CAPN_NO_ROOM: return "the buffer is too small";
    case CAPN_BAD_FORM: return "the call doesn't take this form";
    case CAPN_BAD_LIMITS: return "a limit is out of its range";
    case CAPN_BAD_TARIFF: return "no such counting rule (tariff)";
    case CAPN_NOT_CANONICAL: return "the bytes are not canonical";
    case CAPN_BAD_STYLE: return "no such style";
    case CAPN_DIFFERENT: return "the canonical bytes of the two messages differ";
    case CAPN_MEMORY: return "out of memory";
    case CAPN_NO_SCRATCH: return "the scratch is too small";
    case CAPN_NOT_WHOLE: return "the bytes are not whole words";
    case CAPN_BARE_TOO_LONG: return "more words than a bare message may have";
    case CAPN_PACKED_CUT: return "the packed bytes are truncated";
    case CAPN_PACKED_TOO_LONG: return "the packed bytes have more words than fit";
    case CAPN_FRAME_EMPTY: return "there are no bytes";
    case CAPN_TOO_MANY_SEGMENTS: return "more segments are announced than a message may have";
    case CAPN_TOO_MANY_WORDS: return "more words are announced than the limit";
    case CAPN_FRAME_CUT: return "the message is truncated";
    case CAPN_TRAILING: return "bytes follow the message";
    case CAPN_NO_ROOT: return "the first segment has no word for the root";
    case CAPN_ROOT_KIND: return "the root is a capability";
    case CAPN_RESERVED: return "a pointer of a reserved kind";
    case CAPN_NO_SEGMENT: return "a far pointer refers to a segment that doesn't exist";
    case CAPN_PAD_RANGE: return "a landing pad lies outside of its segment";
    case CAPN_BAD_PAD: return "a landing pad is not valid";
    case CAPN_RANGE: return "an object lies outside of its segment";
    case CAPN_BAD_TAG: return "the tag word of a list of structs is not valid";
    case CAPN_TAG_OVERRUN: return "the structs of a list need more words than the list has";
    case CAPN_TOO_DEEP: return "an object lies deeper than the limit";
    case CAPN_OVER_BUDGET: return "reading costs more than the budget";
    case CAPN_CAPABILITY: return "the value has a capability";
    /* c/statuses.txt ends */
    default: return "unknown status";
    }
}

const char *capn_status_name(capn_status status) {
    switch (status) {
    /* c/statuses.txt: names */
    case CAPN_OK: return "Ok";
    case CAPN_NO_ROOM: return "NoRoom";
    case CAPN_BAD_FORM: return "BadForm";
    case CAPN_BAD_LIMITS: return "BadLimits";
    case CAPN_BAD_TARIFF: return "BadTariff";
    case CAPN_NOT_CANONICAL: return "NotCanonical";
    case CAPN_BAD_STYLE: return "BadStyle";
    case CAPN_DIFFERENT: return "Different";
    case CAPN_MEMORY: return "Memory";
    case CAPN_NO_SCRATCH: return "NoScratch";
    case CAPN_NOT_WHOLE: return "NotWhole";
    case CAPN_BARE_TOO_LONG: return "BareTooLong";
    case CAPN_PACKED_CUT: return "PackedCut";
    case CAPN_PACKED_TOO_LONG: return "PackedTooLong";
    case CAPN_FRAME_EMPTY: return "FrameEmpty";
    case CAPN_TOO_MANY_SEGMENTS: return "TooManySegments";
    case CAPN_TOO_MANY_WORDS: return "TooManyWords";
    case CAPN_FRAME_CUT: return "FrameCut";
    case CAPN_TRAILING: return "Trailing";
    case CAPN_NO_ROOT: return "NoRoot";
    case CAPN_ROOT_KIND: return "RootKind";
    case CAPN_RESERVED: return "Reserved";
    case CAPN_NO_SEGMENT: return "NoSegment";
    case CAPN_PAD_RANGE: return "PadRange";
    case CAPN_BAD_PAD: return "BadPad";
    case CAPN_RANGE: return "Range";
    case CAPN_BAD_TAG: return "BadTag";
    case CAPN_TAG_OVERRUN: return "TagOverrun";
    case CAPN_TOO_DEEP: return "TooDeep";
    case CAPN_OVER_BUDGET: return "OverBudget";
    case CAPN_CAPABILITY: return "Capability";
    /* c/statuses.txt ends */
    default: return "Unknown";
    }
}

/* A buffer for a text. If the text doesn't fit, the buffer receives only its beginning. `length` is the length of the
 * whole text. */
struct text {
    char *out;
    size_t room, length;
};

static void put(struct text *text, const char *words) {
    for (; *words; words++, text->length++)
        if (text->length + 1 < text->room) text->out[text->length] = *words;
}

static void put_number(struct text *text, const char *before, uint64_t number, const char *after) {
    char digits[21]; /* 2^64 - 1 has 20 digits */
    char *first = digits + 20;
    *first = 0;
    do *--first = (char)('0' + number % 10);
    while (number /= 10);
    put(text, before);
    put(text, first);
    put(text, after);
}

static void put_refusal(struct text *text, capn_status status, const capn_report *report) {
    switch (status) {
    case CAPN_MEMORY: put(text, "out of memory"); break;
    case CAPN_NOT_WHOLE: put_number(text, "bare: NotWhole(", report->at, ")"); break;
    case CAPN_BARE_TOO_LONG: put_number(text, "bare: TooLong(", report->at, ")"); break;
    case CAPN_PACKED_CUT: put_number(text, "packed: Cut at ", report->at, ""); break;
    case CAPN_PACKED_TOO_LONG: put_number(text, "packed: TooLong at ", report->at, ""); break;
    case CAPN_FRAME_EMPTY: put(text, "frame: Empty"); break;
    case CAPN_TOO_MANY_SEGMENTS: put_number(text, "frame: TooManySegments(", report->at, ")"); break;
    case CAPN_TOO_MANY_WORDS: put_number(text, "frame: TooManyWords(", report->at, ")"); break;
    case CAPN_FRAME_CUT: put(text, "frame: Cut"); break;
    case CAPN_TRAILING: put_number(text, "trailing bytes at ", report->at, ""); break;
    case CAPN_CAPABILITY: put_number(text, "capability ", report->at, ""); break;
    default:
        if (status < CAPN_NO_ROOT || status > CAPN_OVER_BUDGET) {
            put(text, capn_status_text(status));
            break;
        }
        put(text, capn_status_name(status));
        put_number(text, " at ", report->segment, ":");
        put_number(text, "", report->word, ", paid ");
        put_number(text, "", report->paid, ", visits ");
        put_number(text, "", report->visits, "");
    }
}

size_t capn_refusal_text(capn_status status, const capn_report *report, char *out, size_t room) {
    struct text text = {out, room, 0};
    if (report) put_refusal(&text, status, report);
    else put(&text, capn_status_text(status));
    if (room) out[text.length < room ? text.length : room - 1] = 0;
    return text.length;
}
