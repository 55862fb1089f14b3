// Tests the calls of capn.hpp that don't throw.
//
// Such a call returns its result or an error. This file is also compiled without exceptions.
#include "capn.hpp"
#include <cstdio>
#include <cstring>
#include <string>
#include <system_error>
#include <vector>

static int failed = 0;
static void want(const char *what, bool is) {
    if (is) return;
    failed++;
    std::printf("cpp_expected: %s\n", what);
}
static std::string words(std::initializer_list<std::uint64_t> words) {
    std::string out;
    for (const std::uint64_t word : words)
        for (int i = 0; i < 8; i++) out += static_cast<char>(word >> 8 * i);
    return out;
}
static std::string framed(const std::string &words) {
    std::string out(8, '\0');
    out[4] = static_cast<char>(words.size() / 8);
    return out + words;
}

static const std::string one = framed(words({2ull << 32, 5, 0}));
static const std::string tight = framed(words({1ull << 32, 5}));
static const std::string cut = one.substr(0, 20);
static const std::string hostile = framed(words({0x10000fffffffc}));
static const std::string capability = framed(words({1ull << 48, 3 | 7ull << 32}));
using capn::form;

/* Returns the text of the error in a capn::expected. If the capn::expected has a value, returns "a value". */
template <class T> static std::string text(const capn::expected<T> &of) { return of ? "a value" : of.error().text(); }

static void values() {
    want("canonical", capn::try_canonical(one) && *capn::try_canonical(one) == *capn::try_canonical(tight));
    want("digest", *capn::try_digest(one) == *capn::try_digest(tight) && text(capn::try_digest(cut)) == "frame: Cut");
    want("check", capn::try_check(one).value_or(capn::checked{}).paid == 3);
    want("no check", capn::try_check(cut).value_or(capn::checked{9, 0}).paid == 9);
    const auto figures = capn::try_survey(one);
    want("survey", figures && figures->depth == 1 && text(capn::try_survey(cut)) == "frame: Cut");
    want("same", *capn::try_same(one, tight) && !*capn::try_same(one, framed(words({1ull << 32, 6}))));
    const auto same = capn::try_same(one, hostile);
    want("which isn't", !same && same.error().which() == 1 && same.error().name() == std::string("TooDeep"));
    want("show", capn::try_show(tight).value_or("") == "struct 1 0\n  word 0000000000000005\nend\n");
    want("no such style", text(capn::try_show(one, form::stream, {}, static_cast<capn::style>(4))) == "no such style");
    want("a canonical message", *capn::try_is_canonical_message(tight) && !*capn::try_is_canonical_message(one));
    want("canonical words", *capn::try_is_canonical_words(*capn::try_canonical(one))
                                && !*capn::try_is_canonical_words(one.substr(8)));
    const std::string segment = capability.substr(8);
    want("a capability", text(capn::try_is_canonical_message(capability)) == "capability 7"
                             && text(capn::try_is_canonical_words(segment)) == "capability 7"
                             && text(capn::try_is_canonical_message(segment, form::bare)) == "capability 7");
    const auto packed = capn::try_pack(one);
    want("pack", packed && packed->size() == 8 && capn::bytes(*capn::try_unpack(*packed)).chars() == one);
    want("words alone", text(capn::try_pack(cut)) == "NotWhole(20)");
    want("a limit", text(capn::try_unpack(*packed, 1)) == "packed: TooLong at 2");
    want("a packed one", *capn::try_is_canonical_message(*capn::try_pack(tight), form::packed)
                             && capn::try_check(*packed, form::packed).value_or(capn::checked{}).paid == 3);
    const auto way = capn::try_refusal_way(hostile);
    want("a path", way && *way && (*way)->size() == 64);
    want("no path", capn::try_refusal_way(one) && !*capn::try_refusal_way(one));
    const auto departed = capn::try_departure(one);
    want("a difference", departed && *departed && (*departed)->byte == 8);
    want("none of a cut one", text(capn::try_departure(cut)) == "frame: Cut");
    want("no difference", capn::try_departure(tight) && !*capn::try_departure(tight));
    const auto lines = capn::try_annotate(one);
    want("lines", lines && lines->size() == 2 && lines->at(1).kind == capn::line_kind::data && lines->at(1).cut == 1);
    want("no lines", text(capn::try_annotate(cut)) == "frame: Cut");
}

/* Tests each kind of error: an invalid message, limits out of range, a failed allocation, and a failed read. */
static void errors() {
    const auto deep = capn::try_check(hostile);
    want("a refusal", !deep && deep.error().is_refusal() && deep.error().status() == CAPN_TOO_DEEP
                          && deep.error().report().visits == 65 && deep.error().number() == 0);
    const auto wrong = capn::try_check(one, form::stream, {1, 1, 0});
    want("a limit", !wrong && !wrong.error().is_refusal() && wrong.error().text() == "a limit is out of its range");
    const auto other = static_cast<form>(9);
    want("a form", text(capn::try_check(one, other)) == text(capn::try_canonical(one, other)));
    want("a packed index", capn::index::try_of(one, form::packed).error().status() == CAPN_BAD_FORM);
    capn::expected<std::string, int> number(7), name(std::string("seven"));
    want("another error", !number && number.error() == 7 && name && *name == "seven" && name->size() == 5);
    const std::string moved = *std::move(name);
    want("a value that is moved", moved == "seven" && std::move(number).error() == 7);
    capn::expected<std::size_t, std::error_code> code(std::make_error_code(std::errc::io_error));
    want("a code", !code.has_value() && code.value_or(3) == 3 && code.error() == std::errc::io_error);
}

static void segments() {
    const std::string far = words({2 | 1ull << 32}), rest = words({1ull << 32, 5});
    const std::vector<capn_segment> two = {{far.data(), 1}, {rest.data(), 2}}, none;
    want("canonical", *capn::try_canonical(two) == *capn::try_canonical(one));
    want("digest", *capn::try_digest(two) == *capn::try_digest(one));
    want("check", capn::try_check(two).value_or(capn::checked{}).visits == 1);
    want("figures", capn::try_survey(two).value_or(capn_figures{}).segments == 2);
    want("same and show", *capn::try_same(two, two) && *capn::try_show(two) == *capn::try_show(tight));
    want("no canonical ones", !*capn::try_is_canonical_message(two));
    const auto index = capn::index::try_of(two);
    want("an index", index && (*index->root().try_struct()).get<std::uint64_t>(0) == 5);
    want("no segment", text(capn::try_show(none)) == "frame: Empty");
    want("no segment to read", text(capn::index::try_of(none)) == "frame: Empty");
}

static void fields() {
    const std::string message = framed(words({1ull << 32 | 3ull << 48, 5 ^ 7, 9 | 0x22ull << 32, 9 | 0x17ull << 32,
                                              3 | 7ull << 32, 0x636261, 8 | 1ull << 32, 3, 4}));
    const auto index = capn::index::try_of(message);
    want("an index", index.has_value());
    const auto root = index->root().try_struct();
    want("a struct", root.has_value() && root->get<std::uint64_t>(0, 7) == 5 && root->get<float>(64, 1.5f) == 1.5f);
    want("a text", *root->slot(0).try_text() == "abc" && *root->slot(9).try_text("none") == "none");
    want("no text", !root->slot(1).try_text() && !root->slot(0).try_struct() && !root->slot(1).try_data());
    want("data", (*root->slot(0).try_data()).size() == 4);
    want("what it is instead", root->slot(0).try_struct().error() == capn::kind::bytes);
    const auto numbers = root->slot(1).try_list<std::uint16_t>();
    want("numbers", numbers && numbers->size() == 2 && numbers->try_at(1) == 4 && !numbers->try_at(2));
    want("no numbers", !root->slot(0).try_list<std::uint16_t>() && (*root->slot(9).try_list<bool>()).empty());
    std::uint64_t sum = 0;
    for (const capn::record row : *root->slot(1).try_structs()) sum += row.get<std::uint64_t>(0);
    want("structs", sum == 7 && !root->slot(2).try_structs() && (*root->slot(1).try_pointers()).size() == 2);
    want("a capability", *root->slot(2).try_capability() == 7u && !root->slot(1).try_capability());
}

/* Two readers read a stream that has a rejected message. The first reader gets its bytes from a function that returns a
 * capn::expected. The second reader gets packed bytes from a function that returns a std::optional. */
static void streams() {
    const std::string all = one + hostile + tight + cut;
    std::size_t at = 0;
    bool is_failing = true;
    const auto read = [&](std::byte *to, std::size_t most) -> capn::expected<std::size_t, std::error_code> {
        is_failing = !is_failing;
        if (is_failing) return std::make_error_code(std::errc::interrupted);
        const std::size_t taken = std::min({most, all.size() - at, std::size_t{11}});
        std::memcpy(to, all.data() + at, taken);
        at += taken;
        return taken;
    };
    capn::reader reader(read);
    std::string told;
    for (;;) {
        const auto next = reader.try_next();
        if (!next && next.error().status() == capn::read_failed) continue;
        if (!next) {
            told += next.error().text();
            break;
        }
        if (!*next) break;
        const auto checked = capn::try_check(**next);
        told += std::to_string(reader.number()) + " " + std::to_string(reader.message_offset()) + " "
                + (checked ? "costs " + std::to_string(checked->paid) : checked.error().name()) + ", ";
    }
    want("it goes on", told == "1 0 costs 3, 2 32 TooDeep, 3 48 costs 2, message 4 at 72: frame: Cut");
    std::size_t count = 0;
    const auto in_memory = capn::try_for_each(all, [&](capn::stream_message message) { count += message.number(); });
    want("in memory", count == 6 && !in_memory && in_memory.error().number() == 4 && in_memory.error().offset() == 72);
    want("all of it", *capn::try_for_each(one + tight, [](capn::bytes) {}) == 2);
    const auto packed = capn::try_pack(one + tight);
    at = 0;
    capn::packed_reader unpacked([&](std::byte *to, std::size_t most) -> std::optional<std::size_t> {
        is_failing = !is_failing;
        if (is_failing) return std::nullopt;
        const std::size_t taken = std::min(most, packed->size() - at);
        std::memcpy(to, packed->data() + at, taken);
        at += taken;
        return taken;
    });
    for (count = 0;;) {
        const auto next = unpacked.try_next();
        if (next && !*next) break;
        if (next) count++;
        else want("it failed", next.error().status() == capn::read_failed);
    }
    want("packed messages", count == 2 && unpacked.offset() == one.size() + tight.size());
    capn::reader wrong([](std::byte *, std::size_t most) { return most + 1; });
    want("too many bytes", wrong.try_next().error().status() == capn::read_overrun);
}

int main() {
    values();
    errors();
    segments();
    fields();
    streams();
    std::printf("cpp_expected: %d failed\n", failed);
    return failed != 0;
}
