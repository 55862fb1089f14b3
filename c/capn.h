/* capn: checks, canonicalizes, hashes and packs Cap'n Proto messages, without a schema. The calls are formally verified
 * for callers that keep the rules below.
 *
 * The library does not test these rules. A call can read or write outside of your buffers if you break one:
 *   - The input must not change while a call runs. A call may read a byte twice and rely on the first reading. Copy
 *     memory that another thread, another process or a device can write, such as shared memory or a mapped file.
 *   - Each pointer refers to as many bytes as its type and the size after it say. A pointer with size 0 may be null.
 *     `limits` may be null, which means the default limits. A report and a `which` that you do not want may be null. No
 *     other pointer may be null. (Code in C handles null limits, reports and `which`. It is tested, not proved.)
 *   - Message bytes and scratch may start at any address. Limits, figures, entries, lines, the numbers of a path,
 *     `departed`, `which` and reports are aligned as their types require.
 *   - What a call writes (`out`, `scratch`, `digest`, `figures`, `entries`, `lines`, `way`, `departed`, `which`,
 *     `report`) overlaps no other argument. Nothing else reads or writes it while the call runs.
 *   - No call is made from a signal handler, nor in the child of a `fork` of a process with several threads.
 *   - malloc, realloc and free belong to one allocator. It aligns each block as C requires, up to 16 bytes.
 * Every number is tested: a call returns an error for a form, a limit, a tariff or a style that is out of range.
 *
 * Each call returns a status and fills in its report. A field of the report that the status does not use is 0.
 * The library keeps no state between calls: there is no handle, and nothing to free. Calls may run in any threads at
 * once, also on the same input.
 *
 * Memory comes from malloc, and is freed before the call returns.
 *   - capn_canonical_with_scratch never allocates.
 *   - capn_canonical, capn_check, capn_survey, capn_same, capn_index, capn_first and capn_is_canonical do not allocate
 *     for a single segment without a table, nor for a stream of at most 64 segments.
 *   - capn_hash_segments is the only call whose name ends in `_segments` that allocates.
 *   - Other calls allocate for a packed message, for the table of a stream of more segments, for the bytes that are
 *     hashed, packed or unpacked, for the output of capn_show, for a path, for the canonical bytes that capn_departure
 *     compares, and for the lines of capn_annotate: 16 bytes for each word of the message, and 4 for each segment.
 *
 * A call needs at most 16 KiB of stack, and 304 bytes more for each level of depth that the limits allow. capn_show
 * needs 432 bytes a level, capn_index 560, capn_same 576, and capn_annotate 480. With a depth of 256 that is 92 KiB,
 * and 124 KiB for capn_show, 156 KiB for capn_index, 160 KiB for capn_same and 136 KiB for capn_annotate. These numbers
 * are measured. */
#ifndef CAPN_H
#define CAPN_H

#include <stddef.h>
#include <stdint.h>

/* The version of this header, 1.1.0-dev: 10,000 for each major version, 100 for each minor one, 1 for each patch. */
#define CAPN_VERSION 10100

#ifdef __cplusplus
extern "C" {
#endif

/* The form in which the bytes of a message are encoded. */
enum capn_form {
    CAPN_STREAM = 0, /* a segment table, then the segments */
    CAPN_PACKED = 1, /* the same, packed */
    CAPN_BARE = 2    /* a single segment without a table */
};

/* The rule by which the cost of reading a message is counted. An object costs its words again each time that a pointer
 * to it is followed. */
enum capn_tariff {
    CAPN_STRICT = 0, /* each struct and list costs its size in words, and one word more */
    CAPN_PLAIN = 1   /* its size alone, as in the C++ implementation, whose traversal limit needs 2 words more */
};

/* The format of capn_show. */
enum capn_style {
    CAPN_STYLE_LINES = 0,    /* lines, with lists of bytes in hexadecimal: as `capn show` */
    CAPN_STYLE_TEXT = 1,     /* the same, but with lists of bytes that are texts in quotes: as `capn show --text` */
    CAPN_STYLE_JSON = 2,     /* one line of JSON: as `capn show --json` */
    CAPN_STYLE_JSON_TEXT = 3 /* the same, but with each UTF-8 Text as a string: as `capn show --json --text` */
};

/* The limits of what a call accepts. The root object has depth 1. */
typedef struct capn_limits {
    uint32_t message_words; /* words of a message with a segment table: 1 to 2^28 */
    uint32_t budget;        /* the traversal limit, in words: 0 to 2^28 */
    uint32_t depth;         /* the nesting limit, in levels of objects: 1 to 256 */
    uint32_t tariff;        /* CAPN_STRICT or CAPN_PLAIN */
} capn_limits;

/* The default limits: 64 MiB of message, 64 MiB of reading, a depth of 64, the strict tariff. */
#define CAPN_USUAL_LIMITS { 8388608u, 8388608u, 64u, CAPN_STRICT }

typedef struct capn_report {
    uint64_t length;  /* bytes that were written, or that are enough at CAPN_NO_ROOM; the bytes of a message */
    uint64_t at;      /* the offset, count or index of an error: the status says which */
    uint32_t paid;    /* the cost in words of what was read; set with a result, and by the errors 64 to 74 */
    uint32_t visits;  /* pointers that were followed, null ones too; set by capn_check, capn_survey, capn_index,
                         capn_show, capn_refusal_way, capn_departure and capn_annotate, and by the errors 64 to 74 */
    uint32_t segment; /* the pointer that an error from 64 to 74 is about: its segment, */
    uint32_t word;    /* and its word in that segment */
} capn_report;

/* The summary of a message that capn_survey gives. */
typedef struct capn_figures {
    uint32_t words;          /* of all segments */
    uint32_t segments;       /* 1 to 4,096 */
    uint32_t paid;           /* the cost of reading it, in words */
    uint32_t visits;         /* the pointers that reading it follows */
    uint32_t depth;          /* the least `depth` limit that accepts it: 0 for a null root, else from 1 on */
    uint32_t has_capability; /* 1 if it has a capability, else 0 */
    uint32_t capability;     /* the index of the first one in preorder, else 0 */
    uint32_t canonical;      /* 1 if it has one segment, which is its canonical bytes; else 0 */
} capn_figures;

/* The object that a pointer refers to. */
enum capn_kind {
    CAPN_KIND_NULL = 0,
    CAPN_KIND_STRUCT = 1,   /* `words` data words, then `slots` pointers */
    CAPN_KIND_VOID = 2,     /* a list of `count` elements without size, */
    CAPN_KIND_BITS = 3,     /* of 1 bit each, the least significant bit of a byte first, */
    CAPN_KIND_BYTES = 4,    /* of 1 byte each, */
    CAPN_KIND_U16 = 5,      /* of 2 bytes each, */
    CAPN_KIND_U32 = 6,      /* of 4 bytes each, */
    CAPN_KIND_U64 = 7,      /* of 8 bytes each, the least significant byte first, */
    CAPN_KIND_POINTERS = 8, /* of pointers, */
    CAPN_KIND_ROWS = 9,     /* or of structs, each of `words` data words and `slots` pointers */
    CAPN_KIND_CAPABILITY = 10 /* `count` is its index */
};

/* The longest path, in numbers: two for each level of the greatest `depth`. An array of this length has room for every
 * path that capn_refusal_way and capn_departure report. */
#define CAPN_LONGEST_PATH 512

/* A segment of a message: `count` words of 8 bytes each. `words` may be any address, and null if `count` is 0. The
 * layout is that of kj::ArrayPtr<const capnp::word>. */
typedef struct capn_segment {
    const void *words;
    size_t count;
} capn_segment;

/* An entry of an index: the object that one pointer of the message refers to. */
typedef struct capn_entry {
    uint64_t offset; /* of the content, in `bytes`; for CAPN_KIND_ROWS of the tag word, 8 bytes before the elements */
    uint32_t count;  /* elements of a list; the index of a capability; else 0 */
    uint32_t span;   /* entries of this pointer and of all below it: the next sibling of entry i is entry i + span */
    uint16_t words;  /* data words of a struct, or of each element of a list of structs; else 0 */
    uint16_t slots;  /* pointers of a struct, or of each element of a list of structs; else 0 */
    uint32_t kind;   /* CAPN_KIND_NULL to CAPN_KIND_CAPABILITY */
} capn_entry;

/* The first difference of a valid message from its canonical form. */
enum capn_departure_kind {
    CAPN_DEPARTS_NOT = 0,        /* none: the message has one segment, which is its canonical bytes */
    CAPN_DEPARTS_SEGMENTS = 1,   /* the message has several segments: `count` */
    CAPN_DEPARTS_CAPABILITY = 2, /* the message has a capability; the path leads to the first in preorder, whose index
                                    is `count` */
    CAPN_DEPARTS_WORD = 3,       /* `word` is `is` in the message, and `canonical` in the canonical bytes */
    CAPN_DEPARTS_AFTER = 4       /* the canonical bytes end before `word`, which is `is` */
};

/* The part of the canonical bytes that a word belongs to. The path leads to the pointer. */
enum capn_owner {
    CAPN_OWNER_NONE = 0,     /* the kind is not CAPN_DEPARTS_WORD */
    CAPN_OWNER_POINTER = 1,  /* the word is the pointer itself, */
    CAPN_OWNER_TAG = 2,      /* the tag word of the list of structs that the pointer refers to, */
    CAPN_OWNER_LAST_WORD = 3 /* or the last word of the list of bits, bytes, u16 or u32 that it refers to */
};

/* The first reason why a message is not canonical. Words are counted from the start of its only segment. A field that
 * the kind does not use is 0. */
typedef struct capn_departed {
    uint64_t is;        /* the word in the message, */
    uint64_t canonical; /* and in the canonical bytes */
    uint32_t kind;      /* CAPN_DEPARTS_NOT to CAPN_DEPARTS_AFTER */
    uint32_t owner;     /* CAPN_OWNER_NONE to CAPN_OWNER_LAST_WORD */
    uint32_t word;      /* the number of the word */
    uint32_t count;     /* segments, or the index of a capability */
    uint32_t numbers;   /* of the path */
    uint32_t zero;      /* always 0 */
} capn_departed;

/* The kind of the words of a line. */
enum capn_line_kind {
    CAPN_LINE_POINTER = 0,  /* a pointer that is not null, */
    CAPN_LINE_NULL = 1,     /* null pointers, */
    CAPN_LINE_PAD = 2,      /* a word of a landing pad, which a far pointer refers to, */
    CAPN_LINE_TAG = 3,      /* the tag word of a list of structs, */
    CAPN_LINE_DATA = 4,     /* data words of a struct, or of the elements of a list of structs, */
    CAPN_LINE_LIST = 5,     /* elements of a list of bits, bytes, u16, u32 or u64, and the padding after them, */
    CAPN_LINE_SLACK = 6,    /* words of a list of structs after its elements, */
    CAPN_LINE_UNREACHED = 7 /* or words of no object or landing pad */
};

/* The flags of a line. */
enum capn_line_flag {
    CAPN_LINE_OVERLAP = 1, /* different objects or landing pads overlap in these words */
    CAPN_LINE_PADDING = 2  /* the line has the last word of a list, whose padding is not zero */
};

/* A line of a message: words one after another in one segment that are alike. Each word of a message is in exactly one
 * line. A word belongs to the first object or landing pad that covers it, in the order in which pointers are
 * followed. */
typedef struct capn_line {
    uint64_t offset;       /* of the first word, in `bytes`; for CAPN_PACKED, in the unpacked bytes */
    uint32_t segment;      /* the place of the first word: its segment, */
    uint32_t word;         /* and its number in that segment */
    uint32_t words;        /* 1 or more */
    uint32_t times;        /* how often objects and landing pads cover each of the words; CAPN_LINE_UNREACHED: 0 */
    uint32_t slot_segment; /* the pointer to the object or landing pad that has the words: its segment, */
    uint32_t slot_word;    /* and its word in that segment; both are 0 for the root pointer and CAPN_LINE_UNREACHED */
    uint32_t cut;          /* how many of the words canonical bytes leave out at the end of a struct */
    uint32_t not_zero;     /* how many of the words are not zero */
    uint32_t kind;         /* CAPN_LINE_POINTER to CAPN_LINE_UNREACHED */
    uint32_t flags;        /* the sum of CAPN_LINE_OVERLAP and CAPN_LINE_PADDING, as far as they hold */
} capn_line;

/* The types have the sizes that the library gives them. Otherwise no compiler of C or C++ accepts this. */
#define CAPN_SIZES_AGREE (sizeof(capn_limits) == 16 && sizeof(capn_report) == 32 && sizeof(capn_figures) == 32 \
                          && sizeof(capn_entry) == 24 && offsetof(capn_entry, kind) == 20 \
                          && sizeof(capn_segment) == 16 && offsetof(capn_segment, count) == 8 \
                          && sizeof(capn_departed) == 40 && offsetof(capn_departed, zero) == 36 \
                          && sizeof(capn_line) == 48 && offsetof(capn_line, flags) == 44)
#if defined(__cplusplus) && __cplusplus >= 201103L
static_assert(CAPN_SIZES_AGREE, "as the library lays them out");
#elif !defined(__cplusplus) && defined(__STDC_VERSION__) && __STDC_VERSION__ >= 201112L
_Static_assert(CAPN_SIZES_AGREE, "as the library lays them out");
#else
typedef char capn_sizes_agree[CAPN_SIZES_AGREE ? 1 : -1];
#endif

/* The status that a call returns. Each number from 16 to 127 is, and will be, an error about the message. */
typedef uint32_t capn_status;
enum capn_status_code {
    /* the call */
    CAPN_OK = 0,
    CAPN_NO_ROOM = 1,       /* the result needs `length` bytes; the buffer is unchanged */
    CAPN_BAD_FORM = 2,      /* no such form, or the call doesn't take it */
    CAPN_BAD_LIMITS = 3,    /* a limit is out of its range */
    CAPN_BAD_TARIFF = 4,    /* no such tariff */
    CAPN_NOT_CANONICAL = 5, /* only from capn_is_canonical: the bytes are valid, but not canonical */
    CAPN_BAD_STYLE = 6,     /* only from capn_show: no such style */
    CAPN_DIFFERENT = 7,     /* only from capn_same: both messages have canonical bytes, which differ */
    CAPN_MEMORY = 8,        /* an allocation failed */
    CAPN_NO_SCRATCH = 9,    /* only from capn_canonical_with_scratch; at: how many words are needed */

    /* errors about the message */
    /* the bytes are not whole words */
    CAPN_NOT_WHOLE = 16,     /* at: how many bytes there are */
    CAPN_BARE_TOO_LONG = 17, /* at: how many words there are */
    /* the packed bytes; at: the offset of the group's tag */
    CAPN_PACKED_CUT = 32,
    CAPN_PACKED_TOO_LONG = 33,
    /* the segment table */
    CAPN_FRAME_EMPTY = 48,       /* from capn_first, `length`: how many bytes a message has at least */
    CAPN_TOO_MANY_SEGMENTS = 49, /* at: how many are announced */
    CAPN_TOO_MANY_WORDS = 50,    /* at: how many are announced */
    CAPN_FRAME_CUT = 51,         /* from capn_first, `length`: how many bytes the message has at least */
    CAPN_TRAILING = 52, /* at: the offset of the first byte after the message; of CAPN_PACKED, in the unpacked bytes */
    /* the pointers; `segment` and `word` say which */
    CAPN_NO_ROOT = 64,
    CAPN_ROOT_KIND = 65,
    CAPN_RESERVED = 66,
    CAPN_NO_SEGMENT = 67,
    CAPN_PAD_RANGE = 68,
    CAPN_BAD_PAD = 69,
    CAPN_RANGE = 70,
    CAPN_BAD_TAG = 71,
    CAPN_TAG_OVERRUN = 72,
    CAPN_TOO_DEEP = 73,
    CAPN_OVER_BUDGET = 74,
    /* the value has a capability, so it has no canonical form */
    CAPN_CAPABILITY = 80 /* at: the index of the first in preorder */
};

/* Writes the canonical bytes of one message to `out`.
 * CAPN_NO_ROOM: the buffer is too small, and `length` is the exact length. With a `room` of 0 the call only checks the
 * message, and `length` is enough but not exact: 8 * (paid + 1).
 * CAPN_TRAILING: other bytes follow the message. For CAPN_STREAM, `at` is its length: call again with that size. For
 * CAPN_PACKED, `at` is an offset in the unpacked bytes: unpack them first, by capn_unpack, and go on with CAPN_STREAM.
 * The same holds for capn_hash and capn_check.
 *
 * It allocates for a packed message, and for the table of a stream of more than 64 segments. */
capn_status capn_canonical(uint32_t form, const uint8_t *bytes, size_t size, const capn_limits *limits, uint8_t *out,
                           size_t room, capn_report *report);

/* Whether a single segment without a table is canonical: CAPN_OK, CAPN_NOT_CANONICAL, or an error. With the first two
 * every field of the report is 0. It never allocates.
 *
 * Do not pass a message with a segment table: read as CAPN_BARE, nearly every message of one segment looks canonical.
 * Call capn_survey for these, and read `canonical` of its figures. */
capn_status capn_is_canonical(const uint8_t *bytes, size_t size, const capn_limits *limits, capn_report *report);

/* Writes the SHA-256 of the canonical bytes of one message to `digest`, which is left unchanged on an error.
 * It allocates for the canonical bytes, for the table of a stream of more than 64 segments, and for a packed
 * message. */
capn_status capn_hash(uint32_t form, const uint8_t *bytes, size_t size, const capn_limits *limits, uint8_t digest[32],
                      capn_report *report);

/* Checks that the bytes are one valid message within the limits. The report has its cost, and how many pointers reading
 * it follows. It allocates for the table of a stream of more than 64 segments, and for a packed message. */
capn_status capn_check(uint32_t form, const uint8_t *bytes, size_t size, const capn_limits *limits,
                       capn_report *report);

/* Packs whole words. With CAPN_NO_ROOM `length` is exact. */
capn_status capn_pack(const uint8_t *bytes, size_t size, uint8_t *out, size_t room, capn_report *report);

/* Unpacks packed bytes, to at most max_words words. With CAPN_NO_ROOM `length` is exact. It allocates only if a
 * complete group within that maximum comes first. */
capn_status capn_unpack(const uint8_t *bytes, size_t size, uint32_t max_words, uint8_t *out, size_t room,
                        capn_report *report);

/* The version of the library that runs, as "1.1.0-dev". CAPN_VERSION is that of the header that was compiled. */
const char *capn_version(void);

/* The meaning of a status in a few words, also for a number that is no status. The text is never null, and not to be
 * freed. */
const char *capn_status_text(capn_status status);

/* Finds the end of the first message of a stream, to read a stream in chunks. It reads the segment table and does not
 * look at the contents. All limits must be in their range, and only `message_words` is used.
 * CAPN_OK: the message is complete, and `length` bytes long. More may follow it.
 * CAPN_FRAME_EMPTY, CAPN_FRAME_CUT: the message is not complete. It has at least `length` bytes, which is more than
 * `size`: read up to that many, and call again. `length` is 8, then the length of the table, then that of the message,
 * which is at most 8 * (message_words + 2049). A caller that reads so never reads a byte after the message.
 *
 * It allocates for the table of more than 64 segments, once the message is complete. */
capn_status capn_first(const uint8_t *bytes, size_t size, const capn_limits *limits, capn_report *report);

/* Unpacks the complete groups at the start of packed bytes, as many as fit into `out`, to unpack a stream in chunks.
 * CAPN_OK: all bytes were taken, and the packed bytes may end here.
 * CAPN_PACKED_CUT: a group begins at `at` and is not complete. Keep its bytes, and pass them again before those that
 * follow. If none follow, the packed bytes are truncated.
 * CAPN_PACKED_TOO_LONG: the group at `at` has more words than fit. Pass it again with another buffer.
 * CAPN_MEMORY: nothing was taken, and `out` is unchanged.
 *
 * With the first three, `at` bytes were taken and `length` bytes were written, and the rest of `out` is unchanged. A
 * group has at most 2,050 bytes and 256 words. With a `room` of 2,048 each call therefore takes something, or needs
 * more bytes. It allocates for the words that it writes. */
capn_status capn_unpack_some(const uint8_t *bytes, size_t size, uint8_t *out, size_t room, capn_report *report);

/* Checks one message as capn_check does, and summarizes it; a packed message is summarized unpacked. The report has
 * `paid` and `visits`. The figures are written only with CAPN_OK. It accepts, rejects and allocates as capn_check does.
 * It reads a message that is canonical or has several segments once, and any other twice: use capn_check if its report
 * is enough. */
capn_status capn_survey(uint32_t form, const uint8_t *bytes, size_t size, const capn_limits *limits,
                        capn_figures *figures, capn_report *report);

/* Checks one message as capn_check does, and writes an entry for each pointer of it that reading follows, in preorder:
 * first the root, and after each entry those of the pointers of its object, each a `span` after the one before.
 * CAPN_OK: `visits` entries are at the start of `entries`, and the rest is unchanged.
 * CAPN_NO_ROOM: there are `visits` entries, more than `most_entries`. capn_count_entries of capn_fields.h returns that
 * number.
 * CAPN_BAD_FORM: the form is CAPN_PACKED. Unpack the message first.
 *
 * With the first two, `length` is 24 * visits, the bytes of all entries. The entries are written only with CAPN_OK.
 * An entry never leads outside of `bytes`, also for a hostile message: all the content that its offset, its kind and
 * its numbers describe lies within them. The offset of a null and of a capability has no meaning.
 * It allocates for the table of a stream of more than 64 segments. */
capn_status capn_index(uint32_t form, const uint8_t *bytes, size_t size, const capn_limits *limits, capn_entry *entries,
                       size_t most_entries, capn_report *report);

/* This header declares capn_show. */
#define CAPN_HAS_SHOW 1

/* Writes a message as text: exactly what `capn show` prints of it in that style, with the line `end`. No zero byte ends
 * it. `out` is written only with CAPN_OK. The report has `length`, `paid` and `visits`.
 * CAPN_NO_ROOM: the buffer is too small or has size 0, and `length` is exact.
 *
 * It accepts and rejects what capn_check does. It allocates for the table of more than 64 segments, for a packed
 * message, and for the text of a valid message, also if the buffer is too small. The text of a small message may be
 * long: lower the limits for messages that you do not trust. */
capn_status capn_show(uint32_t form, const uint8_t *bytes, size_t size, const capn_limits *limits, uint32_t style,
                      char *out, size_t room, capn_report *report);

/* This header declares the calls that report paths: capn_refusal_way and capn_departure. */
#define CAPN_HAS_WAYS 1

/* Checks one message as capn_check does, with the same status and report, and also reports the path to the pointer that
 * is wrong. A path lists the numbers that lead from the root to a pointer:
 *   - In a struct a number selects a pointer.
 *   - In a list of pointers it selects an element.
 *   - In a list of structs it selects an element, and the next number selects a pointer of that element.
 *   - The path of the root is empty.
 *
 * With an error from 64 to 74, `length` is 4 * the numbers of the path. If they are at most `most_numbers`, they are at
 * the start of `way`, and the rest is unchanged. Otherwise `way` is unchanged, and only `length` shows it: compare it
 * before you read `way`. 2 * `depth` numbers are always enough, and so are CAPN_LONGEST_PATH. With any other status
 * `way` is unchanged.
 *
 * It allocates as capn_check does, and for the path. It reads an invalid message twice at most. */
capn_status capn_refusal_way(uint32_t form, const uint8_t *bytes, size_t size, const capn_limits *limits, uint32_t *way,
                             size_t most_numbers, capn_report *report);

/* Reports the first difference of a valid message from its canonical form, as `capn explain` does.
 * It returns CAPN_OK for every valid message, canonical or not, and fills in all of `departed`: `kind` says which. With
 * CAPN_DEPARTS_CAPABILITY and CAPN_DEPARTS_WORD there is a path, of `numbers` numbers. It is in `way` if they are at
 * most `most_numbers`; otherwise `way` is unchanged. The report has `length`, which is 4 * `numbers`, `paid` and
 * `visits`. `departed` and `way` are written only with CAPN_OK.
 *
 * It accepts and rejects what capn_check does. It allocates for the table of a stream of more than 64 segments, for a
 * packed message, and, for a message of one segment that is not canonical, for its canonical bytes and for the path. It
 * reads a message several times. */
capn_status capn_departure(uint32_t form, const uint8_t *bytes, size_t size, const capn_limits *limits,
                           capn_departed *departed, uint32_t *way, size_t most_numbers, capn_report *report);

/* This header declares capn_annotate. */
#define CAPN_HAS_ANNOTATE 1

/* Checks one message as capn_check does, and writes a line for each stretch of its words that are alike, as `capn
 * annotate` does: first those of segment 0, each at the word after the line before. The segment table has no line.
 * CAPN_OK: the lines are at the start of `lines`, and the rest is unchanged.
 * CAPN_NO_ROOM: there are more lines than `most_lines`, and `lines` is unchanged.
 *
 * With these two, `length` is 48 * the number of lines, and `paid` and `visits` are set. A message has at most as many
 * lines as words. The lines are written only with CAPN_OK.
 *
 * A line is as long as it can be: its words are of one kind, belong to the same visit of a pointer, and are covered as
 * often as one another. The kinds CAPN_LINE_POINTER, CAPN_LINE_PAD and CAPN_LINE_TAG have one word a line. No reader
 * sees the words of the kinds CAPN_LINE_UNREACHED and CAPN_LINE_SLACK, nor the padding of a list.
 *
 * It accepts and rejects what capn_check does. It allocates for the table of a stream of more than 64 segments, for a
 * packed message, and, for a valid message, 16 bytes for each word and 4 for each segment, also if there is no
 * room. */
capn_status capn_annotate(uint32_t form, const uint8_t *bytes, size_t size, const capn_limits *limits,
                          capn_line *lines, size_t most_lines, capn_report *report);

/* This header declares capn_same. */
#define CAPN_HAS_SAME 1

/* Compares the values of two messages of the same form, without writing their canonical bytes.
 * CAPN_OK: the values are the same. CAPN_DIFFERENT: they differ. With these two every field of the report is 0.
 *
 * Otherwise the status is the error that capn_canonical returns for `a`, or, if `a` has canonical bytes, for `b`. The
 * call looks at `b` only if `a` has canonical bytes. Every call writes `which`, unless it is null: 1 if `b` is rejected
 * or an allocation for it failed, else 0.
 *
 * `a` and `b` may overlap. It allocates as capn_check does. It reads both messages, and then compares them up to the
 * first difference. */
capn_status capn_same(uint32_t form, const uint8_t *a, size_t size_a, const uint8_t *b, size_t size_b,
                      const capn_limits *limits, uint32_t *which, capn_report *report);

/* This header declares capn_canonical_with_scratch. */
#define CAPN_HAS_SCRATCH 1

/* The scratch words that are enough for every message of form CAPN_STREAM. */
#define CAPN_STREAM_SCRATCH 4095
/* The scratch words that are enough for every packed message within a limit on message words. */
#define CAPN_PACKED_SCRATCH(message_words) ((size_t)(message_words) + 6144)

/* Writes the canonical bytes of one message as capn_canonical does, and never allocates. It keeps what it needs
 * meanwhile in `scratch`, which has `words` words of 8 bytes. The scratch may start at any address, and may be null if
 * `words` is 0. Its contents afterwards have no meaning.
 *   - A single segment without a table, and a stream of at most 64 segments, need no scratch.
 *   - Another stream needs a word for each segment but the last.
 *   - A packed message needs the words that it unpacks to, and those of that stream.
 * CAPN_NO_SCRATCH: the scratch is too small, and `at` is how many words are needed: call again with that many. For a
 * packed message the first call may count the unpacked words alone, so that the second asks for more. A third does not.
 * CAPN_NO_ROOM: the buffer is too small or has size 0, and `length` is exact.
 *
 * Every other status is that of capn_canonical. `out` is written only with CAPN_OK. */
capn_status capn_canonical_with_scratch(uint32_t form, const uint8_t *bytes, size_t size, const capn_limits *limits,
                                        void *scratch, size_t words, uint8_t *out, size_t room, capn_report *report);

/* This header declares the calls for a message in segments: those that end in `_segments`. */
#define CAPN_HAS_SEGMENTS 1

/* These calls take a message as an array of its segments, with no table and no copy. There may be 1 to 4,096 segments,
 * which may overlap. Each call does what the call without `_segments` does for the stream of these segments, with the
 * same limits.
 *   - With no segments the error is CAPN_FRAME_EMPTY.
 *   - With more than 4,096 it is CAPN_TOO_MANY_SEGMENTS.
 *   - With more words than `message_words` it is CAPN_TOO_MANY_WORDS. `at` is their number, or 2^64 - 1 if that is
 *     greater.
 *   - CAPN_BAD_FORM and the errors 16 to 33, 51 and 52 do not occur.
 *
 * Only capn_hash_segments allocates, for the canonical bytes. It leaves `digest` unchanged on an error. */
capn_status capn_canonical_segments(const capn_segment *segments, size_t count, const capn_limits *limits, uint8_t *out,
                                    size_t room, capn_report *report);
capn_status capn_hash_segments(const capn_segment *segments, size_t count, const capn_limits *limits,
                               uint8_t digest[32], capn_report *report);
capn_status capn_check_segments(const capn_segment *segments, size_t count, const capn_limits *limits,
                                capn_report *report);
capn_status capn_survey_segments(const capn_segment *segments, size_t count, const capn_limits *limits,
                                 capn_figures *figures, capn_report *report);

/* Writes the text that the program capn prints for an error of a message, with its place, such as `Range at 3:623915,
 * paid 0, visits 1`. It does so for the statuses from 16 on and for CAPN_MEMORY. For other statuses, and without a
 * report, the text is that of capn_status_text. The program does not print `bare: ` for errors of capn_pack.
 * It returns the length of the text without the zero byte at its end. It writes as much of the text as fits, always
 * with a zero byte after it. With a `room` of 0 it writes nothing, and `out` may be null. */
size_t capn_refusal_text(capn_status status, const capn_report *report, char *out, size_t room);

/* The name of a status, such as `Range` for CAPN_RANGE and `NoRoot` for CAPN_NO_ROOT, or `Unknown` for a number that is
 * no status. It is never null, and not to be freed. */
const char *capn_status_name(capn_status status);

#ifdef __cplusplus
}
#endif

#endif
