// Tests that a compiler rejects programs that use capn.hpp in a wrong way, and accepts programs that use it in a right
// way.
//
// Without the macro CASE, this file has only right programs. Each value of CASE adds one wrong program, which a
// compiler has to reject. The wrong program would read bytes after the object that owns them is destroyed, or it
// confuses two numbers, such as a number of words and a number of bytes.
//
// The comment on the line of a case begins with a word and a colon. The compiler's error has to contain this word. Only
// clang warns about the cases whose word is `dangling`. `tests/c/languages` compiles each case.
#include "capn.hpp"
#ifdef WITH_KJ
#include "capn_kj.hpp"
#include <capnp/message.h>
#endif
#include <array>
#include <deque>
#include <memory>
#include <string>
#include <vector>

std::vector<std::byte> make_vector();
std::string make_string();
/* A `packet` has its bytes inside itself, so a copy of a `packet` has bytes of its own. */
struct packet {
    std::byte held[64];
    std::size_t length;
    const std::byte *data() const { return held; }
    std::size_t size() const { return length; }
    const std::byte *begin() const { return held; }
    const std::byte *end() const { return held + length; }
};
packet make_packet();
capn::value some_value();
std::size_t read_some(std::byte *to, std::size_t most);
long signed_read(std::byte *to, std::size_t most);
extern const std::string stored;
extern const std::array<std::uint64_t, 4> words_of_it;

void right() {
    const std::vector<std::byte> message = make_vector();
    const capn::bytes view = message;
    capn::check(view);
    capn::check(make_vector());
    capn::check(make_packet());
    capn::check({message.data(), message.size()});
    (void)capn::same(make_vector(), make_string());
    const capn::index index = capn::index::of(message);
    const capn::value root = index.root();
    const capn_entry *all = index.data();
    (void)all;
    (void)root.text("none");
    (void)root.text(stored);
    (void)root.text({});
    const std::string fallback = make_string();
    const std::string_view name = root.text(fallback);
    const std::string_view other = root.text(std::string_view(fallback));
    (void)name;
    (void)other;
    const capn::bytes of_a_view = std::string_view(stored), of_bytes = capn::bytes(stored);
    const capn::bytes copied = of_a_view, of_array = capn::as_bytes(words_of_it);
    capn::check(of_bytes);
    capn::check(copied);
    capn::check(of_array);
    for (const auto one : root.as_struct().slot(0).list<std::uint16_t>()) (void)one;
    for (const auto one : root.as_struct().slot(1).structs()) (void)one.slot(0).text("none");
    const capn::index of_view = capn::index::of(view);
    const capn::index of_text = capn::index::of(std::string_view(stored));
    const packet held = make_packet();
    const capn::index of_packet = capn::index::of(held);
    const std::vector<capn_segment> pieces;
    const capn::segments several = pieces;
    capn::check(several);
    capn::check(capn::segments(pieces));
    const capn::index of_segments = capn::index::of(several);
    const auto kept = std::make_unique<capn::index>(capn::index::of(message));
    (void)kept->root();
    std::optional<capn::index> later;
    later = capn::index::of(message);
    (void)later->root();
    capn::reader reader(read_some);
    while (const auto next = reader.next()) capn::check(*next);
    capn::reader moved = std::move(reader);
    for (const capn::stream_message one : moved) capn::check(one);
    for (const capn::stream_message one : capn::reader(read_some)) capn::check(one);
    for (const std::byte one : capn::try_canonical(message).value()) (void)one;
    const capn::expected<capn::index> found = capn::index::try_of(message);
    if (found) (void)found->root();
    (void)capn::is_canonical_message(message);
    (void)capn::is_canonical(message, capn::form::stream);
#ifdef __cpp_lib_span
    const capn::index of_span = capn::index::of(std::as_bytes(std::span(message)));
    const capn::bytes bytes_of_span = std::span(message);
    const capn::bytes words_of_span = capn::as_bytes(std::span(words_of_it));
    const capn::segments segments_of_span = std::span(pieces);
    capn::check(bytes_of_span);
    capn::check(words_of_span);
    capn::check(segments_of_span);
#endif
#ifdef WITH_KJ
    capnp::MallocMessageBuilder builder;
    capn::check(builder);
    capn::check(capn::kj_segments(builder));
    const capn::kj_segments segments(builder);
    const capn::segments of_builder = segments;
    capn::check(of_builder);
#endif
}

#if CASE == 1 // deleted: the reader is gone, and the message is in its buffer
const auto wrong = *capn::reader(read_some).next();
#elif CASE == 2 // deleted: so it is without exceptions
const auto wrong = *capn::reader(read_some).try_next();
#elif CASE == 3 // deleted: the packet is gone, although it can be copied as it lies
const auto wrong = capn::index::of(make_packet());
#elif CASE == 4 // deleted: the text that stands for a missing one is gone
const std::string_view wrong = some_value().text(make_string());
#elif CASE == 5 // deleted: so it is without exceptions
const auto wrong = some_value().try_text(make_string());
#elif CASE == 6 // deleted: the index is gone
const capn_entry *wrong = capn::index::of(stored).data();
#elif CASE == 7 // deleted: the index is gone
const capn::value wrong = capn::index::of(stored).root();
#elif CASE == 8 // deleted: the vector is gone
const capn::index wrong = capn::index::of(make_vector());
#elif CASE == 9 // deleted: the string is gone
const auto wrong = capn::index::try_of(make_string());
#elif CASE == 10 // deleted: the index is gone with the expected that has it
const capn::value wrong = capn::index::try_of(stored)->root();
#elif CASE == 11 // deleted: so it is when it is taken out
const capn::value wrong = (*capn::index::try_of(stored)).root();
#elif CASE == 12 // deleted: or taken out with a throw
const capn::value wrong = capn::index::try_of(stored).value().root();
#elif CASE == 13 // static: -1 is no number of bytes
capn::reader wrong(signed_read);
#elif CASE == 14 // static: nor is it one of packed bytes
capn::packed_reader wrong(signed_read);
#elif CASE == 15 // deleted: two readers can't share a stream
void wrong(const capn::reader<decltype(&read_some)> &reader) { auto second = reader; }
#elif CASE == 16 // deprecated: without a form the bytes are a single segment without its table
bool wrong = capn::is_canonical(stored);
#elif CASE == 17 // matching: an array of characters has a zero at its end
auto wrong = capn::check("text");
#elif CASE == 18 // matching: the number of words isn't that of bytes
auto wrong = capn::check(std::vector<std::uint64_t>());
#elif CASE == 19 // matching: the bytes aren't in one piece
auto wrong = capn::check(std::deque<std::byte>());
#elif CASE == 20 // dangling: the vector is gone
const capn::bytes wrong = make_vector();
#elif CASE == 21 // dangling: the vector of segments is gone
const capn::segments wrong = std::vector<capn_segment>();
#elif CASE == 22 // dangling: the vector of words is gone
const capn::bytes wrong = capn::as_bytes(std::vector<std::uint64_t>());
#elif CASE == 30 // deleted: the vector of a builder's segments is gone
capnp::MallocMessageBuilder &builder();
const capn::segments wrong = capn::kj_segments(builder());
#endif
