// Tests capn_kj.hpp on message builders of the reference implementation.
//
// For a builder's segments, capn_kj.hpp has to return the canonical form that the reference implementation returns.
//
//     cpp_builders SEED COUNT   so many builders of two segments or more, and the others that come between them
#include "capn_kj.hpp"
#include <capnp/any.h>
#include <capnp/serialize.h>
#include <cstdio>
#include <cstdlib>
#include <random>

namespace {

std::mt19937_64 source;
int failed = 0;

unsigned below(unsigned most) { return static_cast<unsigned>(source() % most); }

void fill(kj::ArrayPtr<kj::byte> data) {
    for (kj::byte &one : data) one = static_cast<kj::byte>(below(2) ? 0 : source());
}

void make(capnp::AnyPointer::Builder to, int depth);

void make(capnp::AnyStruct::Builder to, int depth) {
    fill(to.getDataSection());
    for (auto pointer : to.getPointerSection()) make(pointer, depth);
}

/* Builds an object of a random kind and size. */
void make(capnp::AnyPointer::Builder to, int depth) {
    const unsigned kind = below(depth > 4 ? 6 : 10);
    if (kind == 0) return;
    if (kind == 1) fill(to.initAs<capnp::Data>(below(40)));
    else if (kind == 2) {
        auto list = to.initAs<capnp::List<bool>>(below(90));
        for (auto i : kj::indices(list)) list.set(i, below(2));
    } else if (kind == 3) {
        auto list = to.initAs<capnp::List<std::uint16_t>>(below(20));
        for (auto i : kj::indices(list)) list.set(i, static_cast<std::uint16_t>(source()));
    } else if (kind == 4) {
        auto list = to.initAs<capnp::List<double>>(below(20));
        for (auto i : kj::indices(list)) list.set(i, below(2) ? 0 : 1.5);
    } else if (kind == 5) {
        if (below(2)) to.initAs<capnp::List<capnp::Void>>(below(9));
        else to.initAs<capnp::List<std::uint32_t>>(below(9));
    } else if (kind == 6) {
        auto list = to.initAs<capnp::List<capnp::Text>>(below(5));
        for (auto i : kj::indices(list)) list.set(i, "a text");
    } else if (kind == 7) {
        auto list = to.initAsListOfAnyStruct(static_cast<std::uint16_t>(below(3)), static_cast<std::uint16_t>(below(3)),
                                             below(5));
        for (auto i : kj::indices(list)) make(list[i], depth + 1);
    } else
        make(to.initAsAnyStruct(static_cast<std::uint16_t>(below(5)), static_cast<std::uint16_t>(below(5))), depth + 1);
}

void want(const char *what, bool is) {
    if (is) return;
    failed++;
    std::printf("cpp_builders: %s\n", what);
}

bool equal(capn::bytes a, capn::bytes b) { return std::equal(a.begin(), a.end(), b.begin(), b.end()); }

/* Tests the calls of capn_kj.hpp on a message builder with random objects. Returns true if the builder has several
 * segments. */
bool try_one() {
    capnp::MallocMessageBuilder message(1 + below(40), below(4) ? capnp::AllocationStrategy::FIXED_SIZE
                                                                : capnp::AllocationStrategy::GROW_HEURISTICALLY);
    make(message.initRoot<capnp::AnyPointer>().initAsAnyStruct(static_cast<std::uint16_t>(below(4)),
                                                               static_cast<std::uint16_t>(1 + below(4))), 0);
    const auto theirs = message.getRoot<capnp::AnyStruct>().asReader().canonicalize();
    const capn::bytes wanted = capn::bytes_of(theirs.asBytes());
    const auto held = message.getSegmentsForOutput();

    const capn::buffer ours = capn::canonical(message);
    want("the canonical bytes of a builder", equal(ours, wanted));
    want("they are canonical", capn::is_canonical_words(ours));
    const capn::digest_bytes digest = capn::digest(message);
    want("the digest of a builder", digest == capn::digest(wanted, capn::form::bare));
    want("the digest of its segments", digest == capn::digest(held));
    const auto flat = capnp::messageToFlatArray(message);
    want("the digest of its frame", digest == capn::digest(capn::bytes_of(flat.asBytes())));
    capnp::FlatArrayMessageReader reader(flat);
    want("the digest of a reader", digest == capn::digest(reader));
    capnp::SegmentArrayMessageReader other(held);
    want("the canonical bytes of a reader", equal(capn::canonical(other), wanted));
    const capn_figures figures = capn::survey(message);
    want("how many segments", figures.segments == held.size());
    want("what it pays", figures.paid == capn::check(message).paid && figures.paid == capn::check(reader).paid);
    const bool is_canonical = held.size() == 1 && equal(capn::bytes_of(held[0].asBytes()), wanted);
    want("which is canonical", figures.canonical == is_canonical);
    std::uint32_t words = 0;
    for (const capn::line &line : capn::annotate(message)) words += line.words;
    want("the lines of a builder", words == figures.words);
    return held.size() > 1;
}

/* Tries a message of three segments. The second segment is a null array. The root pointer is a far pointer to the third
 * segment. */
void try_null_segment() {
    const std::uint64_t first = 2 | 2ull << 32, last[] = {1ull << 32, 5};
    const auto of = [](const std::uint64_t *words, std::size_t count) {
        return kj::arrayPtr(reinterpret_cast<const capnp::word *>(words), count);
    };
    const kj::ArrayPtr<const capnp::word> all[] = {of(&first, 1), nullptr, of(last, 2)};
    const kj::ArrayPtr<const kj::ArrayPtr<const capnp::word>> segments(all, 3);
    capnp::SegmentArrayMessageReader reader(segments);
    want("a null segment of an array", capn::check(segments).paid == 3);
    try {
        want("a null segment of a reader", capn::check(reader).paid == 3);
    } catch (const capn::refusal &why) {
        want(why.what(), false);
    }
}

/* Passes invalid segments, which a message builder doesn't make, to the calls of capn_kj.hpp. Tests the errors that the
 * calls report. */
void try_refused() {
    capnp::MallocMessageBuilder empty;
    try {
        capn::digest(empty);
        want("no segment is refused", false);
    } catch (const capn::refusal &) {
    } catch (const std::invalid_argument &) {
    }
    const std::uint64_t cycle = 0x10000fffffffc;
    const kj::ArrayPtr<const capnp::word> one(reinterpret_cast<const capnp::word *>(&cycle), 1);
    try {
        capn::check(kj::arrayPtr(&one, 1));
        want("a cycle is refused", false);
    } catch (const capn::refusal &why) {
        want("its text", why.what() == std::string("TooDeep at 0:0, paid 128, visits 65"));
        want("its name", why.name() == std::string("TooDeep"));
        want("its place", why.status() == CAPN_TOO_DEEP && why.report().segment == 0 && why.report().word == 0);
    }
}

} // namespace

int main(int count, char **words) {
    if (count != 3) return 2;
    source.seed(std::strtoull(words[1], nullptr, 10));
    long several = 0, one = 0;
    while (several < std::atol(words[2])) (try_one() ? several : one)++;
    try_refused();
    try_null_segment();
    std::printf("cpp_builders: %ld builders of several segments, %ld of one, %d failed\n", several, one, failed);
    return failed != 0;
}
