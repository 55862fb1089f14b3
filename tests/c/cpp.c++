// Tests the calls of capn.hpp on hand-written messages.
//
// The tests cover the results of calls, errors, streams in chunks, fields with defaults, and the types that can be
// passed as bytes.
#include "capn.hpp"
#include <array>
#include <cstdio>
#include <cstdlib>
#include <fcntl.h>
#include <list>
#include <string>
#include <sys/mman.h>
#include <sys/socket.h>
#include <thread>
#include <unistd.h>
#include <vector>

/* The size of the largest allocation by `operator new` so far. */
static std::size_t largest = 0;
void *operator new(std::size_t size) {
    largest = std::max(largest, size);
    void *const out = std::malloc(size ? size : 1);
    return out ? out : throw std::bad_alloc();
}
void operator delete(void *at) noexcept { std::free(at); }
void operator delete(void *at, std::size_t) noexcept { std::free(at); }

static int failed = 0;
static void want(const char *what, bool is) {
    if (is) return;
    failed++;
    std::printf("cpp: %s\n", what);
}
/* Returns the text of the exception that a call throws. */
template <class Thrown, class Call> static std::string thrown(Call call) {
    try {
        call();
    } catch (const Thrown &why) {
        return why.what();
    } catch (const std::exception &other) {
        return std::string("another: ") + other.what();
    }
    return "nothing";
}
/* Returns the bytes of some 64-bit words, in little-endian order. */
static std::string words(std::initializer_list<std::uint64_t> words) {
    std::string out;
    for (const std::uint64_t word : words)
        for (int i = 0; i < 8; i++) out += static_cast<char>(word >> 8 * i);
    return out;
}
static std::string framed(const std::string &words) {
    std::string out(8, '\0');
    out[4] = static_cast<char>(words.size() / 8);
    return out + words;
}

static const std::string one = framed(words({2ull << 32, 5, 0}));
static const std::string cut = one.substr(0, 20);
static const std::string hostile = framed(words({0x10000fffffffc}));
static const std::string digest_of_one = "6a3efd90ef3aebf0decabee51bbe92707bee76bb8f2830efd1bf615b14f61ac2";

static std::string digits(capn::bytes data) {
    std::string out;
    char two[3];
    for (const std::byte it : data) {
        std::snprintf(two, sizeof two, "%02x", std::to_integer<unsigned>(it));
        out += two;
    }
    return out;
}

static void answers() {
    want("canonical", digits(capn::canonical(one)) == "00000000010000000500000000000000");
    want("digest", digits(capn::digest(one)) == digest_of_one);
    want("check", capn::check(one).paid == 3 && capn::check(one).visits == 1);
    want("survey", capn::survey(one).depth == 1 && !capn::survey(one).canonical);
    want("show", capn::show(one) == "struct 2 0\n  word 0000000000000005\n"
                                      "  word 0000000000000000\nend\n");
    const std::string list = words({1 | 26ull << 32, 0x6968});
    const auto shown = [&](capn::style as) { return capn::show(list, capn::form::bare, {}, as); };
    want("show as lines", shown(capn::style::lines) == "bytes 3\n  686900\nend\n");
    want("show as text", shown(capn::style::text) == "bytes 3 \"hi\\0\"\nend\n");
    want("show as JSON", shown(capn::style::json) == "{\"bytes\":\"686900\"}\n");
    want("show as JSON with texts", shown(capn::style::json_text) == "{\"text\":\"hi\"}\n");
    /* capn::show first tries a small buffer. The dump of this message is longer than that buffer. */
    const std::string bits = words({1 | 1ull << 32 | 64000ull << 35}) + std::string(8000, '\xff');
    want("a longer text", capn::show(bits, capn::form::bare).size() == 64018);
    want("pack", digits(capn::pack(one)) == "1003100201050000");
    const capn::buffer packed = capn::pack(one);
    want("unpack", capn::bytes(capn::unpack(packed)).chars() == one);
    want("packed", capn::canonical(packed, capn::form::packed) == capn::canonical(one));
    want("canonical words", capn::is_canonical_words(capn::canonical(one)) && !capn::is_canonical_words(one.substr(8)));
    /* This stream isn't canonical, since the last data word of its root struct is zero. The same bytes are canonical if
     * they are read as a message without a segment table. The word of the segment table is then read as a pointer to a
     * struct. */
    using capn::form;
    const capn::limits few(99, 2, 9);
    const std::string loose = framed(words({2ull << 32 | 1ull << 48, 5, 0, 1 | 0x22ull << 32, 0x636261}));
    const std::string tight = framed(words({1ull << 32, 5}));
    const std::string capability = framed(words({1ull << 48, 3 | 7ull << 32}));
    want("a table, read as words", capn::is_canonical_words(loose) && capn::is_canonical(loose, form::bare));
    want("a message", !capn::is_canonical_message(loose) && capn::is_canonical_message(tight));
    want("a message with limits", !capn::is_canonical_message(loose, form::stream, {99, 10, 9}));
    want("a form", !capn::is_canonical(loose, form::stream) && capn::is_canonical(tight, form::stream));
    want("a packed frame", !capn::is_canonical(packed, form::packed)
                               && capn::is_canonical(capn::pack(tight), form::packed));
    const std::string far = words({1 | 1ull << 32, 2, 2 | 1ull << 32, 1ull << 32, 5});
    want("two segments", !capn::is_canonical(far, form::stream));
    want("limits of words", capn::is_canonical_words(loose, {}) && thrown<capn::refusal>([&] {
                                (void)capn::is_canonical_words(loose, few);
                            }) == "OverBudget at 0:0, paid 0, visits 1");
    /* The following overload of `is_canonical` is deprecated. It has no argument for the form (stream, packed or bare).
     * It reads the bytes as one segment without a segment table. */
#if defined(__GNUC__)
#pragma GCC diagnostic push
#pragma GCC diagnostic ignored "-Wdeprecated-declarations"
#endif
    want("no form", capn::is_canonical(loose) && !capn::is_canonical(one.substr(8)) && capn::is_canonical(loose, {}));
    want("limits without a form", thrown<capn::refusal>([&] { capn::is_canonical(loose, few); })
                                      == "OverBudget at 0:0, paid 0, visits 1");
#if defined(__GNUC__)
#pragma GCC diagnostic pop
#endif
    want("limits and a form", thrown<capn::refusal>([&] { capn::is_canonical(loose, form::stream, few); })
                                  == "OverBudget at 0:0, paid 0, visits 1");
    for (const auto written : {form::stream, form::bare}) {
        const std::string message = written == form::bare ? capability.substr(8) : capability;
        want("a capability", thrown<capn::refusal>([&] { capn::is_canonical(message, written); }) == "capability 7");
    }
    /* Three pointers refer to one object. The canonical bytes have three copies of this object, so they are longer than
     * the message. */
    const std::string shared = framed(words({3ull << 48, 8 | 1ull << 32, 4 | 1ull << 32, 1ull << 32, 7}));
    want("a longer answer", capn::canonical(shared).size() == 56 && shared.size() == 48);
    /* capn::canonical returns a std::vector whose capacity must not be much larger than its length. */
    static_assert(std::is_same_v<decltype(capn::canonical(one)), std::vector<std::byte>>);
    const std::string null_root = std::string("\0\0\0\0\0\0\2\0", 8) + std::string(1 << 20, '\0');
    const std::vector<std::byte> small = capn::canonical(null_root);
    want("no more room than needed", small.size() == 8 && small.capacity() < 128);
    want("no more of a packed one", capn::canonical(capn::pack(one), form::packed).capacity() < 128);
    want("no more of a text", capn::show(null_root).capacity() < 128);
    /* This message has 4 GiB of zeros, which is over the limit. Each call has to reject the message, and must not
     * allocate 4 GiB. The zeros are mapped but never written, so they take no memory. */
    const std::size_t huge = std::size_t{1} << 32;
    void *const pages = mmap(nullptr, huge, PROT_READ, MAP_PRIVATE | MAP_ANONYMOUS | MAP_NORESERVE, -1, 0);
    want("pages", pages != MAP_FAILED);
    const capn::bytes zeros(pages, huge);
    largest = 0;
    for (const auto written : {form::stream, form::packed}) {
        want("no canonical bytes of too much", !capn::try_canonical(zeros, written));
        want("no dump of too much", !capn::try_show(zeros, written));
    }
    want("nothing large is allocated", largest < 1 << 20);
    munmap(pages, huge);
    /* Passes arrays of 64-bit words to calls that take bytes. The size in bytes must be eight times the number of
     * words. */
    const std::vector<std::uint64_t> counted = {2ull << 32, 5, 0};
    want("the bytes of words", capn::as_bytes(counted).size() == 24
                                   && capn::check(capn::as_bytes(counted), form::bare).paid == 3);
}

/* Passes the segments of a message as a vector, an array and a span. Some calls copy the segments before they read
 * them. */
static void pieces() {
    const std::string far = words({2 | 1ull << 32}), rest = words({1ull << 32, 5});
    const std::vector<capn_segment> two = {{far.data(), 1}, {rest.data(), 2}};
    const std::array<capn_segment, 1> tight = {{{rest.data(), 2}}};
    const std::string other = words({1ull << 32, 6}), whole = words({1 | 1ull << 32, 2, 2 | 1ull << 32, 1ull << 32, 5});
    const capn_segment another[] = {{other.data(), 2}}, odd[] = {{nullptr, 0}, {far.data(), 1}, {rest.data(), 2}};
    want("a vector of segments", capn::canonical(two) == capn::canonical(whole));
    want("their size", capn::segments(two).bytes_in_all() == 24 && capn::segments(two).size() == 2);
    want("an array of segments", capn::digest(tight) == capn::digest(two) && capn::check(tight).paid == 2);
#ifdef __cpp_lib_span
    want("a span of segments", capn::digest(std::span<const capn_segment>(two)) == capn::digest(two));
#endif
    want("the same segments", capn::same(two, tight) && !capn::same(two, another));
    want("the dump of segments", capn::show(two) == capn::show(whole));
    want("canonical segments", capn::is_canonical_message(tight) && !capn::is_canonical_message(two));
    want("an index of segments", capn::index::of(two).size() == 1);
    const capn::index index = capn::index::of(two);
    want("a value of segments", index.root().as_struct().get<std::uint64_t>(0) == 5);
    want("the copy", capn::bytes(index.message()).chars() == whole);
    want("an empty segment", thrown<capn::refusal>([&] { (void)capn::index::of(odd); }) == "NoRoot"
                                 || thrown<capn::refusal>([&] { (void)capn::index::of(odd); }).rfind("NoRoot", 0) == 0);
    const std::vector<capn_segment> none, many(4097, two[1]);
    want("no segments", thrown<capn::refusal>([&] { capn::show(none); }) == "frame: Empty");
    want("too many", thrown<capn::refusal>([&] { capn::show(many); }) == "frame: TooManySegments(4097)");
    const capn_segment loop[] = {{hostile.data() + 8, 1}};
    const auto which = [](capn::segments first, capn::segments second) {
        try {
            (void)capn::same(first, second);
        } catch (const capn::refusal &why) {
            return why.name() + std::to_string(why.which());
        }
        return std::string("nothing");
    };
    want("the first one", which(loop, none) == "TooDeep0");
    want("the second one", which(two, loop) == "TooDeep1");
    /* The call has to add up the lengths of the segments before it copies a segment. It has to reject these segments,
     * because the sum is over the limit. */
    const capn_segment long_one[] = {{rest.data(), std::size_t{1} << 60}, {rest.data(), std::size_t{1} << 60}};
    want("too long", thrown<capn::refusal>([&] { capn::show(long_one); }).rfind("frame: TooManyWords", 0) == 0);
    want("too long for bytes", capn::segments(long_one).bytes_in_all() > 8ull << 28);
}

/* Tests capn::canonical_into. The caller passes a buffer for the canonical bytes, and scratch memory. Some messages
 * have few segments, some have many segments, and some are packed. */
static void lent() {
    using capn::form;
    const std::string message = framed(words({1ull << 32, 5})), wanted(capn::bytes(capn::canonical(message)).chars());
    char out[64] = {0}, scratch[8 * 80];
    const capn::filled plain = capn::canonical_into(message, nullptr, 0, out, sizeof out);
    want("canonical_into", plain && plain.length() == wanted.size() && std::string(out, plain.length()) == wanted);
    const capn::filled less = capn::canonical_into(message, nullptr, 0, out, wanted.size() - 1);
    want("too little room", !less && less.status == CAPN_NO_ROOM && less.length() == wanted.size());
    const capn::buffer text = capn::pack(message);
    const capn::filled none = capn::canonical_into(text, nullptr, 0, out, sizeof out, form::packed);
    want("no scratch", !none && none.status == CAPN_NO_SCRATCH && none.scratch() == message.size() / 8);
    want("no length", none.length() == 0 && plain.scratch() == 0);
    const capn::filled packed = capn::canonical_into(text, scratch + 1, none.scratch(), out, sizeof out, form::packed);
    want("packed", packed && std::string(out, packed.length()) == wanted);
    std::string many(8 * 36, '\0');
    many[0] = 69, many[4] = 1;
    many.resize(8 * 36 + 8);
    const capn::filled table = capn::canonical_into(many, scratch, 68, out, sizeof out);
    want("a word less", table.scratch() == 69);
    want("many segments", static_cast<bool>(capn::canonical_into(many, scratch, 69, out, sizeof out)));
    want("refused", capn::canonical_into(message.substr(0, 20), nullptr, 0, out, sizeof out).status == CAPN_FRAME_CUT);
    want("limits", capn::canonical_into(message, nullptr, 0, out, sizeof out, form::stream, {1, 1, 0}).status
                       == CAPN_BAD_LIMITS);
}

/* Tests capn::same on pairs of messages. In some pairs, the two messages have the same value in two layouts. In other
 * pairs, the values are different, or one message is rejected. */
static void comparisons() {
    using capn::form;
    const std::string tight = framed(words({1ull << 32, 5})), other = framed(words({1ull << 32, 6}));
    const std::string far = words({1 | 1ull << 32, 2, 2 | 1ull << 32, 1ull << 32, 5});
    const std::string capability = framed(words({1ull << 48, 3 | 7ull << 32}));
    want("the same", capn::same(one, one) && capn::same(one, tight) && capn::same(tight, one));
    want("in two segments", capn::same(one, far) && capn::same(far, tight));
    want("not the same", !capn::same(one, other) && !capn::same(other, one));
    want("packed", capn::same(capn::pack(one), capn::pack(far), form::packed));
    want("bare", capn::same(one.substr(8), capn::canonical(one), form::bare));
    const auto which = [](capn::bytes first, capn::bytes second) {
        try {
            capn::same(first, second);
        } catch (const capn::refusal &why) {
            return why.name() + std::to_string(why.which());
        }
        return std::string("nothing");
    };
    want("the first is cut", which(cut, one) == "FrameCut0" && which(cut, hostile) == "FrameCut0");
    want("the second is cut", which(one, cut) == "FrameCut1");
    want("the second is hostile", which(one, hostile) == "TooDeep1");
    want("capabilities", which(capability, capability) == "Capability0" && which(one, capability) == "Capability1");
    want("the text of the second", thrown<capn::refusal>([] { capn::same(one, hostile); })
                                       == "TooDeep at 0:0, paid 128, visits 65");
    want("limits", thrown<std::invalid_argument>([] { capn::same(one, one, form::stream, {1, 1, 0}); })
                       == "a limit is out of its range");
}

/* For a rejected message, tests the path to the error. For an accepted message, tests the first difference from the
 * canonical form. */
static void ways() {
    using capn::form;
    /* The root is a struct whose pointer 1 refers to a list of two structs. The second of these structs has a pointer
     * to more bytes than the message has. */
    const std::uint64_t too_long = 1 | 2ull << 32 | 99ull << 35;
    const std::string wrong = framed(words({2ull << 48, 0, 1 | 7ull << 32 | 2ull << 35, 8 | 1ull << 48, 0, too_long}));
    const auto way = capn::refusal_way(wrong);
    want("a way", way && *way == capn::way{1, 1, 0} && capn::way_text(*way) == "1.1.0");
    const auto packed_way = capn::refusal_way(capn::pack(wrong), form::packed);
    want("a way of a packed one", packed_way && *packed_way == *way);
    want("the root's", capn::refusal_way(framed(words({7})), form::stream) == capn::way{});
    want("its text", capn::way_text({}) == "root");
    want("no way", !capn::refusal_way(one) && !capn::refusal_way(cut) && !capn::refusal_way(std::string()));
    want("a deep one", capn::refusal_way(hostile)->size() == 64);
    want("a way within wrong limits", thrown<std::invalid_argument>([] {
                                          capn::refusal_way(one, form::stream, {1, 1, 0});
                                      }) == "a limit is out of its range");

    want("no departure", !capn::departure(capn::canonical(one), form::bare));
    const auto word = capn::departure(one);
    want("a pointer", word && word->why == capn::reason::word && word->owner == capn::owner::pointer && word->to.empty()
                          && word->byte == 8 && word->word == 2ull << 32 && word->canonical_word == 1ull << 32);
    want("of bare words", capn::departure(one.substr(8), form::bare)->byte == 0);
    const auto after = capn::departure(framed(words({1ull << 32, 5, 9})));
    want("a word after them", after && after->why == capn::reason::after && after->byte == 24 && after->word == 9);
    const auto bits = capn::departure(framed(words({1ull << 48, 1 | 1ull << 32 | 3ull << 35, 0xff})));
    want("a last word", bits && bits->owner == capn::owner::last_word && bits->to == capn::way{0} && bits->byte == 24
                            && bits->word == 0xff && bits->canonical_word == 7);
    const auto several = capn::departure(words({1 | 1ull << 32, 2, 2 | 1ull << 32, 1ull << 32, 5}));
    want("segments", several && several->why == capn::reason::segments && several->count == 2 && !several->byte);
    const auto capability = capn::departure(framed(words({1ull << 48, 3 | 7ull << 32})));
    want("a capability", capability && capability->why == capn::reason::capability && capability->count == 7
                             && capability->to == capn::way{0});
    want("none of a refused one", thrown<capn::refusal>([] { capn::departure(cut); }) == "frame: Cut");
}

/* Returns a line of capn::annotate as text. The kind of the line is named as in the output of `capn annotate`. */
static std::string told(const capn::line &line) {
    static const char *const kinds[] = {"pointer", "null", "pad", "tag", "data", "list", "slack", "unreached"};
    const auto of = [](capn::place at) { return std::to_string(at.segment) + ":" + std::to_string(at.word); };
    std::string out = std::to_string(line.offset) + " " + of(line.first) + " " + std::to_string(line.words) + " "
                      + std::to_string(line.times) + " " + kinds[static_cast<std::uint32_t>(line.kind)];
    if (line.slot) out += " of " + of(*line.slot);
    if (line.cut) out += " cut " + std::to_string(line.cut);
    if (line.not_zero != line.words) out += " not zero " + std::to_string(line.not_zero);
    return out + (line.overlap ? " overlap" : "") + (line.padding ? " padding" : "") + "\n";
}
static std::string told(const std::vector<capn::line> &lines) {
    std::string out;
    for (const capn::line &line : lines) out += told(line);
    return out;
}

static void lines() {
    using capn::form;
    const std::string invoice = framed(words({1ull << 32 | 1ull << 48, 5, 1 | 26ull << 32, 0x6261}));
    want("the lines of a text", told(capn::annotate(invoice)) == "8 0:0 1 1 pointer\n16 0:1 1 1 data of 0:0\n"
                                                                 "24 0:2 1 1 pointer of 0:0\n"
                                                                 "32 0:3 1 1 list of 0:2\n");
    /* The writer of this message has set the same text field twice. The message still has the words of the first text,
     * but no pointer leads to them. */
    const std::string twice = words({1ull << 48, 5 | 50ull << 32, 0x616441, 0x6563617247});
    want("what nothing reaches", told(capn::annotate(twice, form::bare)) == "0 0:0 1 1 pointer\n"
                                                                            "8 0:1 1 1 pointer of 0:0\n"
                                                                            "16 0:2 1 0 unreached\n"
                                                                            "24 0:3 1 1 list of 0:1\n");
    const char packed[] = "\x11\x01\x01\x01\x06\x11\x02\x01\x50\x01\x03\x00\x00\x11\x09\x1a\x11\x05\x1a\x00"
                          "\x00\x03\x68\x69";
    want("a pad and what is cut", told(capn::annotate(capn::bytes(packed, sizeof packed - 1), form::packed))
                                      == "16 0:0 1 1 pointer\n24 1:0 1 1 pad of 0:0\n"
                                         "32 1:1 1 1 data of 0:0 cut 1 not zero 0\n40 1:2 1 1 pointer of 0:0\n"
                                         "48 1:3 1 1 pointer of 0:0\n56 1:4 1 1 null of 0:0 cut 1 not zero 0\n"
                                         "64 1:5 1 2 list of 1:2\n");
    const std::string rows =
        words({2ull << 48, 5 | 0x1full << 32, 9 | 0x14ull << 32, 8 | 1ull << 32, 7, 9, ~std::uint64_t{0}});
    want("an overlap and slack", told(capn::annotate(rows, form::bare))
                                     == "0 0:0 1 1 pointer\n8 0:1 1 1 pointer of 0:0\n16 0:2 1 1 pointer of 0:0\n"
                                        "24 0:3 1 1 tag of 0:1\n32 0:4 1 1 data of 0:1\n"
                                        "40 0:5 1 2 data of 0:1 overlap\n48 0:6 1 1 slack of 0:1\n");
    const std::string padded = words({1 | 2ull << 32 | 17ull << 35, 1, 0, 9ull << 56});
    want("padding", told(capn::annotate(padded, form::bare))
                        == "0 0:0 1 1 pointer\n8 0:1 3 1 list of 0:0 not zero 2 padding\n");
    /* capn::annotate first tries a small array of lines. This message needs more lines, since each of its words has a
     * line of its own. */
    std::string wide = words({5000ull << 48});
    for (int i = 0; i < 5000; i++) wide += words({0xfffffffc});
    const auto many = capn::annotate(wide, form::bare);
    want("many lines", many.size() == 5001 && many.back().offset == 40000 && many.back().first == capn::place{0, 5000});
    const std::string halves[] = {words({2 | 1ull << 32}), words({1ull << 32, 5})};
    const capn_segment segments[] = {{halves[0].data(), 1}, {halves[1].data(), 2}};
    want("the lines of segments", told(capn::annotate(segments)) == "16 0:0 1 1 pointer\n24 1:0 1 1 pad of 0:0\n"
                                                                    "32 1:1 1 1 data of 0:0\n");
    want("no lines", thrown<capn::refusal>([] { capn::annotate(hostile); }) == "TooDeep at 0:0, paid 128, visits 65");
    want("no lines of a cut one", thrown<capn::refusal>([] { capn::annotate(cut); }) == "frame: Cut");
    want("no form", thrown<std::invalid_argument>([] { capn::annotate(one, static_cast<form>(3)); })
                        == "the call doesn't take this form");
}

static void refusals() {
    want("a cut one", thrown<capn::refusal>([] { capn::check(cut); }) == "frame: Cut");
    want("none", thrown<capn::refusal>([] { capn::digest(std::string()); }) == "frame: Empty");
    want("two", thrown<capn::refusal>([] { capn::digest(one + one); }) == "trailing bytes at 32");
    want("a cycle", thrown<capn::refusal>([] { capn::canonical(hostile); }) == "TooDeep at 0:0, paid 128, visits 65");
    try {
        capn::check(hostile);
    } catch (const capn::refusal &why) {
        want("its status", why.status() == CAPN_TOO_DEEP && why.report().visits == 65);
        want("its name", std::string(why.name()) == "TooDeep");
        want("its meaning", std::string(why.meaning()) == "an object lies deeper than the limit");
    }
    want("no words", thrown<capn::refusal>([] { capn::pack(std::string(3, 'x')); }) == "NotWhole(3)");
    want("no bare words", thrown<capn::refusal>([] { capn::check(std::string(3, 'x'), capn::form::bare); })
                              == "bare: NotWhole(3)");
    want("no text", thrown<capn::refusal>([] { capn::show(hostile); }) == "TooDeep at 0:0, paid 128, visits 65");
    want("no style", thrown<std::invalid_argument>([] {
                         capn::show(one, capn::form::stream, {}, static_cast<capn::style>(4));
                     }) == "no such style");
    want("limits", thrown<std::invalid_argument>([] { capn::check(one, capn::form::stream, {1, 1, 0}); })
                       == "a limit is out of its range");
    want("a low budget", thrown<capn::refusal>([] { capn::check(one, capn::form::stream, {99, 2, 9}); })
                             == "OverBudget at 0:0, paid 0, visits 1");
    want("the plain tariff", capn::check(one, capn::form::stream, {99, 2, 9, capn::tariff::plain}).paid == 2);
}

static void containers() {
    const std::vector<unsigned char> vector(one.begin(), one.end());
    const capn::buffer made = capn::canonical(vector);
    std::array<char, 32> array;
    std::copy(one.begin(), one.end(), array.begin());
    want("an array", capn::canonical(array) == made);
    want("a view", capn::canonical(std::string_view(one)) == made);
    want("an address", capn::canonical({one.data(), one.size()}) == made);
    static_assert(!std::is_convertible_v<const char (&)[3], capn::bytes>, "a literal has a zero too many");
    static_assert(!std::is_convertible_v<std::vector<int>, capn::bytes> && !std::is_convertible_v<int, capn::bytes>);
    static_assert(!std::is_convertible_v<std::list<char>, capn::bytes>);
#ifdef __cpp_lib_span
    want("a span", capn::canonical(std::as_bytes(std::span(vector))) == made);
    const std::span<const std::byte> span = capn::bytes(vector);
    want("as a span", span.size() == 32);
#endif
}

static void streams() {
    std::size_t count = 0;
    want("two messages", capn::for_each(one + one, [&](capn::bytes message) { count += message.size(); }) == 2);
    want("their sizes", count == 64);
    want("with offsets", capn::for_each(one + one, [&](capn::bytes, std::size_t at) { count += at; }) == 2);
    want("their offsets", count == 64 + 32);
    want("no message", capn::for_each(std::string(), [](capn::bytes) { want("one", false); }) == 0);
    count = 0;
    want("a cut one", thrown<capn::refusal>([&] { capn::for_each(one + cut, [&](capn::bytes) { count++; }); })
                          == "message 2 at 32: frame: Cut");
    want("the first of them", count == 1);

    /* The reader gets its bytes from a function that returns at most `most` bytes at once. On every third call, this
     * function throws an exception. */
    for (std::size_t most = 1; most < 40; most++) {
        const std::string all = one + framed(words({0})) + one;
        std::size_t at = 0, calls = 0, got = 0;
        capn::reader reader([&](std::byte *to, std::size_t room) -> std::size_t {
            if (++calls % 3 == 0) throw calls;
            const std::size_t taken = std::min({room, most, all.size() - at});
            std::memcpy(to, all.data() + at, taken);
            at += taken;
            return taken;
        });
        for (bool more = true; more;) try {
            const auto message = reader.next();
            more = message.has_value();
            if (more) want("a message", message->chars() == (++got == 2 ? framed(words({0})) : one));
        } catch (std::size_t) {
        }
        want("all messages", got == 3 && reader.number() == 3 && reader.offset() == all.size());
    }
    const auto from = [at = std::size_t{0}](std::byte *to, std::size_t room) mutable {
        const std::string all = one + cut;
        const std::size_t taken = std::min(room, all.size() - at);
        std::memcpy(to, all.data() + at, taken);
        at += taken;
        return taken;
    };
    capn::reader reader(from);
    want("the beginning", reader.offset() == 0);
    want("the first one", reader.next().has_value());
    want("where the next one begins", reader.number() == 1 && reader.offset() == 32);
    want("the cut one", thrown<capn::refusal>([&] { reader.next(); }) == "message 2 at 32: frame: Cut");
}

/* A reader gets its bytes from a function of the caller. In this test, the function returns the wrong number. The
 * reader must not report that as an error of the message, and must not read a byte that the function didn't write. */
static void readers() {
    /* The reader gets its bytes from a function. On the second call, this function returns a number of bytes that is
     * too large. The -1 of a failed system call is such a number, because it becomes a very large unsigned number. */
    const std::string all = one + one;
    for (const std::size_t wrong : {static_cast<std::size_t>(-1), std::size_t{25}, std::size_t{1} << 20}) {
        std::size_t at = 0, calls = 0;
        capn::reader reader([&](std::byte *to, std::size_t most) -> std::size_t {
            if (++calls == 2) return wrong;
            const std::size_t taken = std::min(most, all.size() - at);
            std::memcpy(to, all.data() + at, taken);
            at += taken;
            return taken;
        });
        want("more than was asked for", thrown<capn::read_error>([&] { (void)reader.next(); })
                                            == "the function of a reader returned more bytes than it was asked for");
        const auto message = reader.next();
        want("nothing is lost", message && message->chars() == one && reader.next()->chars() == one && !reader.next());
    }
    /* The pipe has 8 bytes. After these bytes are read, the next call of read(2) fails and returns -1. The function
     * that the reader calls returns the -1 as if it were a number of bytes. */
    int ends[2];
    want("a pipe", pipe(ends) == 0 && fcntl(ends[0], F_SETFL, O_NONBLOCK) == 0 && write(ends[1], one.data(), 8) == 8);
    capn::reader forgetful([&](std::byte *to, std::size_t most) {
        return static_cast<std::size_t>(::read(ends[0], to, most));
    });
    want("an error that was forgotten", thrown<capn::read_error>([&] { (void)forgetful.next(); })
                                            != "nothing");
    /* The function that a reader calls for bytes can report an error in three ways: it throws an exception, or it
     * returns an empty std::optional, or it returns the error in a capn::expected. */
    capn::reader careful([&](std::byte *to, std::size_t most) -> std::optional<std::size_t> {
        const ssize_t came = ::read(ends[0], to, most);
        return came < 0 ? std::nullopt : std::optional<std::size_t>(came);
    });
    want("nothing yet", thrown<capn::read_error>([&] { (void)careful.next(); }) == "the function of a reader failed");
    want("the rest", write(ends[1], all.data(), all.size()) == static_cast<ssize_t>(all.size()));
    want("the message", careful.next()->chars() == one);
    close(ends[0]);
    close(ends[1]);
    const auto failing = [](std::byte *, std::size_t) -> capn::expected<std::size_t, int> { return -1; };
    capn::reader failed(failing);
    const auto why = failed.try_next();
    want("an expected", !why && why.error().status() == capn::read_failed && !why.error().is_refusal()
                            && why.error().name() == std::string("ReadFailed")
                            && why.error().meaning() == why.error().text());

    /* Reads a stream that goes on after a rejected message. Compares the number and the offset of each message, and the
     * error of each rejected message, with the expected ones. */
    const std::string mixed = one + hostile + one + hostile + cut;
    const auto from = [&mixed](std::size_t most_at_once) {
        return [&mixed, most_at_once, at = std::size_t{0}](std::byte *to, std::size_t most) mutable {
            const std::size_t taken = std::min({most, most_at_once, mixed.size() - at});
            std::memcpy(to, mixed.data() + at, taken);
            at += taken;
            return taken;
        };
    };
    const std::string wanted = "1 0 good, 2 32 TooDeep at 0:0, paid 128, visits 65, 3 48 good, "
                               "4 80 TooDeep at 0:0, paid 128, visits 65, message 5 at 96: frame: Cut";
    for (const std::size_t most_at_once : {1, 3, 1000}) {
        std::string told, other;
        capn::reader reader(from(most_at_once));
        try {
            for (const capn::stream_message message : reader) {
                told += std::to_string(message.number()) + " " + std::to_string(message.offset()) + " ";
                want("the same number", message.number() == reader.number());
                want("the same place", message.offset() == reader.message_offset()
                                           && reader.offset() == message.offset() + message.size());
                try {
                    capn::check(message);
                    told += "good, ";
                } catch (const capn::refusal &error) {
                    told += error.what() + std::string(", ");
                }
            }
        } catch (const capn::refusal &error) {
            told += error.what();
            want("the place of the cut one", error.number() == 5 && error.offset() == 96
                                                 && error.status() == CAPN_FRAME_CUT);
        }
        want("it goes on", told == wanted);
        want("the last one", reader.number() == 4 && reader.message_offset() == 80 && reader.offset() == 96);
        want("it stays cut", thrown<capn::refusal>([&] { (void)reader.next(); }) == "message 5 at 96: frame: Cut");

        capn::reader again(from(most_at_once));
        for (;;) {
            const auto next = again.try_next();
            if (!next) {
                other += next.error().text();
                break;
            }
            if (!*next) break;
            other += std::to_string((*next)->number()) + " " + std::to_string((*next)->offset()) + " ";
            const auto checked = capn::try_check(**next);
            other += (checked ? "good" : checked.error().text()) + ", ";
        }
        want("it goes on without exceptions", other == wanted);
    }
    std::string told;
    want("in memory", thrown<capn::refusal>([&] {
                          capn::for_each(mixed, [&](capn::stream_message message) {
                              told += std::to_string(message.number()) + " " + std::to_string(message.offset()) + " "
                                      + (capn::try_check(message) ? "good, " : "bad, ");
                          });
                      }) == "message 5 at 96: frame: Cut");
    want("all in memory", told == "1 0 good, 2 32 bad, 3 48 good, 4 80 bad, ");
    /* An invalid segment table ends the stream. Each later call of `next` reports the same error. */
    const std::string damaged = one + std::string(8, '\xff') + one;
    std::size_t at = 0;
    capn::reader ended([&](std::byte *to, std::size_t most) {
        const std::size_t taken = std::min(most, damaged.size() - at);
        std::memcpy(to, damaged.data() + at, taken);
        at += taken;
        return taken;
    });
    want("one message", ended.next().has_value());
    for (int i = 0; i < 2; i++)
        want("a wrong table", thrown<capn::refusal>([&] { (void)ended.next(); })
                                  == "message 2 at 32: frame: TooManySegments(4294967296)");

    /* A reader can't be copied. It can be moved to another variable, even after it has read a part of a stream. */
    static_assert(!std::is_copy_constructible_v<decltype(ended)> && !std::is_copy_assignable_v<decltype(ended)>);
    capn::reader first(from(5));
    const auto message = first.next();
    capn::reader second = std::move(first);
    want("a view stays", message->chars() == one && second.number() == 1 && second.offset() == 32);
    want("it goes on after a move", second.next()->chars() == hostile && second.number() == 2);
    want("nothing of it is left", first.number() == 0 && first.offset() == 0);
}

/* Reads streams of packed messages. In one stream each message is packed alone. In the other stream all messages are
 * packed together, so that a group of packed bytes crosses from one message to the next. */
static void packed_streams() {
    const auto text = [](const std::string &message) { return std::string(capn::bytes(capn::pack(message)).chars()); };
    std::string lengthy = framed(words({1 | 1ull << 32 | 2400ull << 35}));
    lengthy[4] = static_cast<char>(3001 & 255);
    lengthy[5] = static_cast<char>(3001 >> 8);
    lengthy.resize(8 + 8 * 3001);
    lengthy[8] = 1, lengthy[12] = 7;
    for (std::size_t i = 16; i < lengthy.size(); i++) lengthy[i] = static_cast<char>(i % 700 < 300 ? 0 : i * i);
    for (int i = 1; i < 8; i++) lengthy[8 + i] = lengthy[16 + i] = 0;
    const std::vector<std::string> messages = {one, hostile, lengthy, framed(words({0})), one};
    std::string apart, together;
    std::vector<std::size_t> ends;
    for (const std::string &message : messages) {
        apart += text(message);
        together += message;
        ends.push_back(apart.size());
    }
    for (const std::string &stream : {apart, text(together)})
        for (const std::size_t most_at_once : {1, 2, 7, 100000}) {
            std::size_t at = 0, calls = 0, got = 0;
            capn::packed_reader reader([&](std::byte *to, std::size_t most) -> std::size_t {
                if (++calls % 3 == 0) throw calls;
                const std::size_t taken = std::min({most, most_at_once, stream.size() - at});
                std::memcpy(to, stream.data() + at, taken);
                at += taken;
                return taken;
            });
            std::uint64_t offset = 0;
            for (bool more = true; more;) try {
                const auto message = reader.next();
                more = message.has_value();
                if (!more) continue;
                want("a packed message", got < messages.size() && message->chars() == messages[got]);
                want("its place", reader.message_offset() == offset && reader.number() == got + 1);
                if (stream == apart) want("no byte after it", at == ends[got]);
                offset += messages[got++].size();
            } catch (std::size_t) {
            }
            want("all packed messages", got == messages.size() && at == stream.size());
        }
    /* Reads prefixes of the stream, which end at many different places. */
    for (std::size_t size = 0; size < apart.size(); size += 1 + size / 40) {
        std::size_t at = 0, got = 0;
        const std::size_t whole = static_cast<std::size_t>(std::upper_bound(ends.begin(), ends.end(), size)
                                                           - ends.begin());
        const bool is_between = size == 0 || (whole > 0 && ends[whole - 1] == size);
        capn::packed_reader reader([&](std::byte *to, std::size_t most) {
            const std::size_t taken = std::min(most, size - at);
            std::memcpy(to, apart.data() + at, taken);
            at += taken;
            return taken;
        });
        try {
            for (const capn::stream_message message : reader) want("a message before", message.number() == ++got);
            want("nothing is cut", is_between && got == whole);
        } catch (const capn::refusal &error) {
            want("it is cut", !is_between && got == whole && error.number() == whole + 1
                                  && (error.status() == CAPN_FRAME_CUT || error.status() == CAPN_PACKED_CUT));
            if (error.status() == CAPN_PACKED_CUT)
                want("where", error.report().at < size && (whole == 0 || error.report().at >= ends[whole - 1]));
        }
    }
    /* A few packed bytes can unpack to many words. The reader unpacks no more words than the segment table
     * announces. */
    std::string bomb = text(framed(words({0})));
    for (int i = 0; i < 4000; i++) bomb += std::string("\0\xff", 2);
    std::size_t at = 0, asked = 0;
    capn::packed_reader reader([&](std::byte *to, std::size_t most) {
        const std::size_t taken = std::min(most, bomb.size() - at);
        std::memcpy(to, bomb.data() + at, taken);
        at += taken;
        asked = std::max(asked, most);
        return taken;
    }, {16, 16, 4});
    want("the message before", reader.next()->size() == 16);
    want("its packed bytes alone", at == text(framed(words({0}))).size());
    std::size_t zeros = 0;
    while (reader.next()) zeros++;
    want("each null root", zeros == 4000 * 256 && asked < 3000);
    capn::packed_reader wrong([](std::byte *, std::size_t most) { return most + 1; });
    want("too many packed bytes", thrown<capn::read_error>([&] { (void)wrong.next(); })
                                      == "the function of a reader returned more bytes than it was asked for");
    const std::string big = text(framed(words({5, 6, 7, 8})));
    at = 0;
    capn::packed_reader limited([&](std::byte *to, std::size_t most) {
        const std::size_t taken = std::min(most, big.size() - at);
        std::memcpy(to, big.data() + at, taken);
        at += taken;
        return taken;
    }, {3, 3, 3});
    want("a limit", thrown<capn::refusal>([&] { (void)limited.next(); }) == "message 1 at 0: frame: TooManyWords(4)");
    auto moved = std::move(limited);
    want("a packed reader that was moved", thrown<capn::refusal>([&] { (void)moved.next(); })
                                               == "message 1 at 0: frame: TooManyWords(4)");
}

/* Reads messages from a socket whose peer waits for a reply to each message. Once a message is complete, the reader
 * must not wait for more bytes. The reader must not take bytes that follow the last message. */
static void sockets() {
    int ends[2];
    want("a socket", socketpair(AF_UNIX, SOCK_STREAM, 0, ends) == 0);
    std::thread peer([&] {
        char answer;
        for (int i = 0; i < 2; i++) {
            want("sent", write(ends[0], one.data(), one.size()) == 32);
            want("answered", read(ends[0], &answer, 1) == 1);
        }
        want("the rest", write(ends[0], "more", 4) == 4);
    });
    capn::reader reader([&](std::byte *to, std::size_t room) {
        const ssize_t came = read(ends[1], to, room);
        return came < 0 ? throw std::runtime_error("read") : static_cast<std::size_t>(came);
    });
    for (int i = 0; i < 2; i++) {
        want("a message", reader.next()->chars() == one);
        want("an answer", write(ends[1], "a", 1) == 1);
    }
    char rest[5] = "";
    peer.join();
    want("what follows", read(ends[1], rest, 4) == 4 && std::string(rest) == "more");
    close(ends[0]);
    close(ends[1]);
}

/* Tests at compile time that a program can't use bytes after the object that owns them is destroyed. */
template <class T, class = void> constexpr bool has_root = false;
template <class T> constexpr bool has_root<T, std::void_t<decltype(std::declval<T>().root())>> = true;
template <class T, class = void> constexpr bool is_indexed = false;
template <class T> constexpr bool is_indexed<T, std::void_t<decltype(capn::index::of(std::declval<T>()))>> = true;
static_assert(has_root<capn::index &> && has_root<const capn::index &>);
static_assert(!has_root<capn::index> && !has_root<const capn::index>);
static_assert(is_indexed<std::string &> && is_indexed<const std::vector<char> &> && is_indexed<const capn::buffer &>);
static_assert(is_indexed<capn::bytes> && is_indexed<std::string_view> && is_indexed<std::array<char, 8> &>);
static_assert(!is_indexed<std::string> && !is_indexed<std::vector<char>> && !is_indexed<const capn::buffer>);
static_assert(!is_indexed<std::array<char, 8>> && !is_indexed<const std::string>);
#ifdef __cpp_lib_span
static_assert(is_indexed<std::span<const std::byte>>);
#endif

static void fields() {
    /* The root is a struct with one data word and two pointers. Its fields are `x @0 :UInt64 = 7`, a text, and a list
     * in which a newer writer has put structs in place of numbers. */
    const std::string message = framed(words({1ull << 32 | 2ull << 48, 5 ^ 7, 5 | 0x22ull << 32, 5 | 0x17ull << 32,
                                              0x636261, 8 | 1ull << 32, 3, 4}));
    const capn::index index = capn::index::of(message);
    const capn::record root = index.root().as_struct();
    want("a default", root.get<std::uint64_t>(0, 7) == 5);
    want("a default that is not there", root.get<std::uint64_t>(64, 7) == 7 && root.get<bool>(64, true));
    want("a text", root.slot(0).text() == "abc");
    want("no text", root.slot(2).text("none") == "none" && root.slot(2).is_null());
    const auto numbers = root.slot(1).list<std::uint16_t>();
    want("numbers", numbers.size() == 2 && numbers[0] == 3 && numbers[1] == 4);
    want("a number", numbers.at(1) == 4);
    const auto none = root.slot(7).list<std::uint16_t>();
    want("a number that is not there", thrown<capn::mismatch>([&] { numbers.at(2); }) == "there is no such element"
         && thrown<capn::mismatch>([&] { none.at(0); }) == "there is no such element");
    want("a kind", index.root().kind() == capn::kind::structure && root.slot(1).kind() == capn::kind::rows);
    want("no text", thrown<capn::mismatch>([&] { root.slot(1).text(); }) == "there is no text");
    want("no struct", thrown<capn::mismatch>([&] { root.slot(0).as_struct(); }) == "there is no struct");
    want("a packed one", thrown<std::invalid_argument>([&] { capn::index::of(one, capn::form::packed); })
                             == "the call doesn't take this form");
    want("a refused one", thrown<capn::refusal>([] { capn::index::of(cut); }) == "frame: Cut");
    /* capn::index::of first tries a small array of entries. This message has more pointers than that array has
     * entries. */
    std::string many = words({200ull << 48});
    for (int i = 0; i < 200; i++) many += words({0});
    std::string wide(8, '\0');
    wide[4] = static_cast<char>(201);
    const std::string whole = wide + many;
    want("many slots", capn::index::of(whole).size() == 201);
}

/* If every data word in a list of structs is zero, the canonical bytes leave out the data words. If every pointer is
 * null, the canonical bytes leave out the pointers. A caller may read such a list as a list of numbers or of pointers.
 * The caller must get the same zeros or nulls from the canonical bytes as from the original bytes. */
static void canonical_lists() {
    const auto all = [](const capn::numbers<std::uint16_t> &numbers) {
        return std::vector<std::uint16_t>(numbers.begin(), numbers.end());
    };
    const std::string with = framed(words({1ull << 48, 0x1700000001, 0x100000008, 0, 0}));
    const std::string without = framed(words({1ull << 48, 0x700000001, 8}));
    want("one value", capn::same(with, without));
    for (const std::string &message : {with, without}) {
        const capn::index index = capn::index::of(message);
        const capn::value list = index.root().as_struct().slot(0);
        want("zeros", all(list.list<std::uint16_t>()) == std::vector<std::uint16_t>{0, 0});
        want("zeros as wide as a word", list.list<std::uint64_t>().at(1) == 0 && list.list<double>()[0] == 0);
        want("no such zero", !list.list<std::uint8_t>().try_at(2));
        want("structs", list.structs().size() == 2);
        want("no bits", !list.try_list<bool>() && list.try_list<std::uint8_t>());
        std::size_t count = 0;
        for (const capn::record one : list.pointers()) count += one.slot(0).is_null();
        want("nulls", count == 2);
    }
    /* A list of structs can be read as a list of numbers or as a list of pointers. If the structs have no data words,
     * all numbers are zero. If the structs have no pointers, all pointers are null. */
    const std::string pointed = framed(words({1ull << 48, 0x1700000001, 8 | 1ull << 48, 0, 3 | 9ull << 32}));
    const capn::index index = capn::index::of(pointed);
    const capn::rows rows = index.root().as_struct().slot(0).pointers();
    want("a null, and a capability", rows.begin()->slot(0).is_null());
    std::uint32_t last = 0;
    for (const capn::record one : rows)
        if (!one.slot(0).is_null()) last = one.slot(0).capability();
    want("the capability", last == 9);
    want("zeros beside pointers", all(index.root().as_struct().slot(0).list<std::uint16_t>())
                                      == std::vector<std::uint16_t>{0, 0});
    /* A list of numbers can't be read as a list of numbers of another width. */
    const std::string bytes_of_it = framed(words({1ull << 48, 1 | 0x12ull << 32, 0x0201}));
    const capn::index other = capn::index::of(bytes_of_it);
    const capn::value data = other.root().as_struct().slot(0);
    want("bytes aren't 16 bits", !data.try_list<std::uint16_t>() && !data.try_pointers());
    want("no list", !other.root().try_list<std::uint8_t>() && !other.root().try_pointers());
    /* If a list of bytes is read as a list of structs, each struct has only one byte. So a field that is wider than a
     * byte has its default value. */
    const std::string older = framed(words({1ull << 48, 1 | 0xaull << 32, 5}));
    const capn::index of_older = capn::index::of(older);
    std::uint16_t field = 0;
    std::uint8_t narrow = 0;
    for (const capn::record one : of_older.root().as_struct().slot(0).structs()) {
        field = one.get<std::uint16_t>(0, 7);
        narrow = one.get<std::uint8_t>(0, 7);
    }
    want("a wider field has its default", field == 7 && narrow == (5 ^ 7));
}

/* Tests that lists and readers work as ranges of the C++ standard library. */
static void ranges() {
    const std::string message = framed(words({2ull << 48, 5 | 0x23ull << 32, 5 | 0x17ull << 32, 0x0004000300020001,
                                              8 | 1ull << 32, 30, 40}));
    const capn::index index = capn::index::of(message);
    const auto numbers = index.root().as_struct().slot(0).list<std::uint16_t>();
    const auto rows = index.root().as_struct().slot(1).structs();
    auto it = numbers.begin();
    want("forward", it[3] == 4 && *(it + 2) == 3 && *(2 + it) == 3 && numbers.end() - it == 4 && it < numbers.end());
    want("and back", *(it += 3) == 4 && *--it == 3 && *(it -= 1) == 2 && *it++ == 2 && *it-- == 3 && *it == 2);
    auto row = rows.begin();
    want("a row", row++ == rows.begin() && row->get<std::uint64_t>(0) == 40 && ++row == rows.end());
    want("a default one", capn::numbers<int>().empty() && capn::rows().empty() && capn::value().is_null());
    const capn::numbers<std::uint16_t>::iterator singular{}, other{};
    want("iterators by default", singular == other && capn::rows::iterator() == capn::rows::iterator());
    /* clang 14 can't compile the views (std::views) of libstdc++ 12. */
#if defined(__cpp_lib_ranges) && (!defined(__clang__) || __clang_major__ > 15)
    static_assert(std::ranges::random_access_range<capn::numbers<bool>> && std::ranges::view<capn::numbers<float>>);
    static_assert(std::ranges::sized_range<capn::numbers<int>> && std::ranges::borrowed_range<capn::numbers<int>>);
    static_assert(std::ranges::forward_range<capn::rows> && std::ranges::sized_range<capn::rows>);
    static_assert(std::ranges::view<capn::rows> && std::ranges::borrowed_range<capn::rows>);
    static_assert(std::ranges::contiguous_range<capn::bytes> && std::ranges::view<capn::bytes>);
    using function = std::size_t (*)(std::byte *, std::size_t);
    static_assert(std::ranges::input_range<capn::reader<function>>);
    static_assert(std::ranges::input_range<capn::packed_reader<function>>);
    std::uint64_t sum = 0;
    for (const unsigned one : index.root().as_struct().slot(0).list<std::uint16_t>() | std::views::reverse
                                  | std::views::take(2))
        sum = 10 * sum + one;
    const auto first = [](capn::record of) { return of.get<std::uint64_t>(0); };
    for (const std::uint64_t one : rows | std::views::transform(first)) sum += one;
    want("views", sum == 43 + 70 && std::ranges::max(numbers) == 4 && std::ranges::distance(rows) == 2);
    std::size_t at = 0;
    const std::string all = one + one;
    capn::reader reader([&](std::byte *to, std::size_t most) {
        const std::size_t taken = std::min(most, all.size() - at);
        std::memcpy(to, all.data() + at, taken);
        at += taken;
        return taken;
    });
    want("views of a reader", std::ranges::distance(reader | std::views::take(2)) == 2);
#endif
}

/* An object is empty after std::move has moved its content to another object. */
static void moves() {
    capn::index from = capn::index::of(one);
    const capn::index to = std::move(from);
    want("an index", to.size() == 1 && to.root().as_struct().get<std::uint64_t>(0) == 5);
    want("one that was moved from", from.size() == 0 && from.data() == nullptr && from.root().is_null()
                                        && from.message().empty());
    from = capn::index::of(one);
    want("one that is filled again", from.size() == 1 && from.root().kind() == capn::kind::structure);
    capn::index &same = from;
    from = std::move(same);
    want("one that is moved to itself", from.size() == 1);
}

int main() {
    answers();
    pieces();
    canonical_lists();
    ranges();
    moves();
    readers();
    packed_streams();
    lent();
    comparisons();
    ways();
    lines();
    refusals();
    containers();
    streams();
    sockets();
    fields();
    std::printf("cpp: %d failed\n", failed);
    return failed != 0;
}
