"""The calls of c/capn.h for cffi, which compiles them over that header: where the two differ, the build fails. Beside
them are those of look.h.

The library is linked into the module, and its names are seen by no other. CAPN_ARCHIVE names another archive than
the one that `make library` leaves; a source distribution has that one and the header beside this file. With
CAPN_SANITIZE the module is compiled with address and undefined-behaviour sanitizers."""
import os
from pathlib import Path

from cffi import FFI

HERE = Path(__file__).resolve().parent
TOP = HERE.parent
IS_ALONE = (HERE / "capn.h").is_file()
HEADER = HERE / "capn.h" if IS_ALONE else TOP / "c" / "capn.h"
LOOK = HERE / "look.h"
OWN = HERE / "libcapn.a" if IS_ALONE else TOP / "build" / "libcapn.a"
ARCHIVE = Path(os.environ.get("CAPN_ARCHIVE", OWN)).resolve()
if not ARCHIVE.is_file():
    raise SystemExit(f"there is no {ARCHIVE}: run `make library` first, or name the archive by CAPN_ARCHIVE")

DECLARED = """
    enum { CAPN_STREAM, CAPN_PACKED, CAPN_BARE, ... };
    enum { CAPN_STRICT, CAPN_PLAIN, ... };
    enum { CAPN_STYLE_LINES, CAPN_STYLE_TEXT, CAPN_STYLE_JSON, CAPN_STYLE_JSON_TEXT, ... };

    // c/limits.txt: cffi
    typedef struct { uint32_t message_words, budget, depth, tariff; } capn_limits;
    // c/limits.txt ends
    typedef struct {
        uint64_t length, at;
        uint32_t paid, visits, segment, word;
    } capn_report;
    typedef struct {
        uint32_t words, segments, paid, visits, depth, has_capability, capability, canonical;
    } capn_figures;
    enum {
        CAPN_KIND_NULL, CAPN_KIND_STRUCT, CAPN_KIND_VOID, CAPN_KIND_BITS, CAPN_KIND_BYTES, CAPN_KIND_U16, CAPN_KIND_U32,
        CAPN_KIND_U64, CAPN_KIND_POINTERS, CAPN_KIND_ROWS, CAPN_KIND_CAPABILITY, ...
    };
    typedef struct {
        uint64_t offset;
        uint32_t count, span;
        uint16_t words, slots;
        uint32_t kind;
    } capn_entry;
    enum {
        CAPN_DEPARTS_NOT, CAPN_DEPARTS_SEGMENTS, CAPN_DEPARTS_CAPABILITY, CAPN_DEPARTS_WORD, CAPN_DEPARTS_AFTER, ...
    };
    enum { CAPN_OWNER_NONE, CAPN_OWNER_POINTER, CAPN_OWNER_TAG, CAPN_OWNER_LAST_WORD, ... };
    typedef struct {
        uint64_t is, canonical;
        uint32_t kind, owner, word, count, numbers, zero;
    } capn_departed;

    enum {
        CAPN_LINE_POINTER, CAPN_LINE_NULL, CAPN_LINE_PAD, CAPN_LINE_TAG, CAPN_LINE_DATA, CAPN_LINE_LIST,
        CAPN_LINE_SLACK, CAPN_LINE_UNREACHED, ...
    };
    enum { CAPN_LINE_OVERLAP, CAPN_LINE_PADDING, ... };
    typedef struct {
        uint64_t offset;
        uint32_t segment, word, words, times, slot_segment, slot_word, cut, not_zero, kind, flags;
    } capn_line;

    typedef uint32_t capn_status;
    enum {
        // c/statuses.txt: cffi
        CAPN_OK, CAPN_NO_ROOM, CAPN_BAD_FORM, CAPN_BAD_LIMITS, CAPN_BAD_TARIFF, CAPN_NOT_CANONICAL, CAPN_BAD_STYLE,
        CAPN_DIFFERENT, CAPN_MEMORY, CAPN_NO_SCRATCH, CAPN_NOT_WHOLE, CAPN_BARE_TOO_LONG, CAPN_PACKED_CUT,
        CAPN_PACKED_TOO_LONG, CAPN_FRAME_EMPTY, CAPN_TOO_MANY_SEGMENTS, CAPN_TOO_MANY_WORDS, CAPN_FRAME_CUT,
        CAPN_TRAILING, CAPN_NO_ROOT, CAPN_ROOT_KIND, CAPN_RESERVED, CAPN_NO_SEGMENT, CAPN_PAD_RANGE, CAPN_BAD_PAD,
        CAPN_RANGE, CAPN_BAD_TAG, CAPN_TAG_OVERRUN, CAPN_TOO_DEEP, CAPN_OVER_BUDGET, CAPN_CAPABILITY, ...
        // c/statuses.txt ends
    };

    capn_status capn_canonical(uint32_t form, const uint8_t *bytes, size_t size, const capn_limits *limits,
                               uint8_t *out, size_t room, capn_report *report);
    capn_status capn_is_canonical(const uint8_t *bytes, size_t size, const capn_limits *limits, capn_report *report);
    capn_status capn_hash(uint32_t form, const uint8_t *bytes, size_t size, const capn_limits *limits,
                          uint8_t *digest, capn_report *report);
    capn_status capn_check(uint32_t form, const uint8_t *bytes, size_t size, const capn_limits *limits,
                           capn_report *report);
    capn_status capn_pack(const uint8_t *bytes, size_t size, uint8_t *out, size_t room, capn_report *report);
    capn_status capn_unpack(const uint8_t *bytes, size_t size, uint32_t max_words, uint8_t *out, size_t room,
                            capn_report *report);
    capn_status capn_first(const uint8_t *bytes, size_t size, const capn_limits *limits, capn_report *report);
    capn_status capn_unpack_some(const uint8_t *bytes, size_t size, uint8_t *out, size_t room, capn_report *report);
    capn_status capn_survey(uint32_t form, const uint8_t *bytes, size_t size, const capn_limits *limits,
                            capn_figures *figures, capn_report *report);
    capn_status capn_index(uint32_t form, const uint8_t *bytes, size_t size, const capn_limits *limits,
                           capn_entry *entries, size_t room, capn_report *report);
    capn_status capn_show(uint32_t form, const uint8_t *bytes, size_t size, const capn_limits *limits, uint32_t style,
                          char *out, size_t room, capn_report *report);
    capn_status capn_refusal_way(uint32_t form, const uint8_t *bytes, size_t size, const capn_limits *limits,
                                 uint32_t *way, size_t most_numbers, capn_report *report);
    capn_status capn_departure(uint32_t form, const uint8_t *bytes, size_t size, const capn_limits *limits,
                               capn_departed *departed, uint32_t *way, size_t most_numbers, capn_report *report);
    capn_status capn_annotate(uint32_t form, const uint8_t *bytes, size_t size, const capn_limits *limits,
                              capn_line *lines, size_t most_lines, capn_report *report);
    capn_status capn_same(uint32_t form, const uint8_t *a, size_t size_a, const uint8_t *b, size_t size_b,
                          const capn_limits *limits, uint32_t *which, capn_report *report);
    const char *capn_version(void);

    typedef struct {
        const void *words;
        size_t count;
    } capn_segment;
    capn_status capn_canonical_segments(const capn_segment *segments, size_t count, const capn_limits *limits,
                                        uint8_t *out, size_t room, capn_report *report);
    capn_status capn_hash_segments(const capn_segment *segments, size_t count, const capn_limits *limits,
                                   uint8_t *digest, capn_report *report);
    capn_status capn_check_segments(const capn_segment *segments, size_t count, const capn_limits *limits,
                                    capn_report *report);
    capn_status capn_survey_segments(const capn_segment *segments, size_t count, const capn_limits *limits,
                                     capn_figures *figures, capn_report *report);

    size_t capn_refusal_text(capn_status status, const capn_report *report, char *out, size_t room);
    const char *capn_status_name(capn_status status);
    const char *capn_status_text(capn_status status);

    typedef struct {
        uint32_t count;
        size_t end, take;
        size_t ends[...];
        size_t takes[...];
    } capn_look;
    capn_status capn_look_at(const uint8_t *bytes, size_t size, const capn_limits *limits, capn_look *look,
                             capn_report *report);
    typedef struct {
        capn_limits limits;
        size_t have, whole;
        uint8_t out[...];
    } capn_raw;
    void capn_read_one(int file, capn_raw *raw);
    capn_status capn_look_at_packed(const uint8_t *text, size_t size, const capn_limits *limits, uint8_t *out,
                                    size_t room, uint32_t most, capn_look *look, capn_report *report);
    typedef struct {
        capn_limits limits;
        uint8_t *out;
        size_t room, length, take, got;
        capn_status status;
        capn_report report;
        ...;
    } capn_packed_one;
    size_t capn_look_on(const uint8_t *text, size_t size, capn_packed_one *one);
    size_t capn_look_at_one(const uint8_t *text, size_t size, capn_packed_one *one);
    typedef struct {
        capn_packed_one one;
        size_t have, whole;
        uint8_t seen[...];
        uint8_t came[...];
        ...;
    } capn_pipe;
    void capn_pipe_begin(capn_pipe *pipe, const capn_limits *limits, uint8_t *out, size_t room);
    void capn_pipe_end(capn_pipe *pipe);
    size_t capn_peek(int file, capn_pipe *pipe);
    void capn_read_packed(int file, capn_pipe *pipe);
"""

SANITIZED = ["-fsanitize=address,undefined", "-fno-sanitize-recover=undefined", "-fno-omit-frame-pointer",
             "-U_FORTIFY_SOURCE", "-g", "-O1"]
SANITIZERS = SANITIZED if os.environ.get("CAPN_SANITIZE") else []

binding = FFI()
binding.cdef(DECLARED)
binding.set_source(
    "capn._capn",
    '#include "look.h"',
    include_dirs=[str(HEADER.parent), str(HERE)],
    extra_objects=[str(ARCHIVE)],
    extra_compile_args=SANITIZERS,
    extra_link_args=["-Wl,--exclude-libs,ALL", *SANITIZERS],
    depends=[str(HEADER), str(LOOK), str(ARCHIVE), __file__],
)
