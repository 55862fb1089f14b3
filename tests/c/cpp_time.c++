// Compares the time of each call of capn.hpp with the time of the same call in C.
//
// Each function of capn.hpp calls functions of capn.h. `cpp_time [MOST]` fails if a function of capn.hpp takes more
// than MOST times as long as the functions of capn.h that it calls. The program compares the shortest times of many
// rounds. In each round, the call of capn.hpp and the calls of capn.h run one after the other.
#include "capn.hpp"
#include <chrono>
#include <cstdio>
#include <cstdlib>

namespace {

double most = 1e9;
bool failed = false;
std::uint64_t sum = 0; /* the sum of all results; it is used, so the compiler can't leave out the calls */

template <class Call> double once(unsigned times, Call call) {
    const auto from = std::chrono::steady_clock::now();
    for (unsigned i = 0; i < times; i++) sum += call();
    const std::chrono::duration<double, std::nano> took = std::chrono::steady_clock::now() - from;
    return took.count() / times;
}
template <class C, class Plus> void beside(const char *name, std::size_t size, C c, Plus plus) {
    /* The rounds are short, so that most of them run without an interruption. If capn.hpp seems slower than the limit
     * allows, the program runs more rounds. */
    const unsigned times = static_cast<unsigned>(1 + 200 / (1 + once(3, c) / 1000));
    double least = 1e18, least_plus = 1e18;
    for (int attempt = 0; attempt < 20 && (attempt == 0 || least_plus > most * least); attempt++)
        for (int round = 0; round < 50; round++) {
            least = std::min(least, once(times, c));
            least_plus = std::min(least_plus, once(times, plus));
        }
    std::printf("%-14s %8zu bytes %12.0f ns, C %12.0f ns, %.2f\n", name, size, least_plus, least, least_plus / least);
    failed |= least_plus > most * least;
}

/* Returns a message whose root is a list. If `bytes` isn't 0, the root is a list of `bytes` bytes. Otherwise the root
 * is a list of `rows` structs. Each struct has a data word and a pointer to a text of 8 bytes. */
std::vector<std::uint64_t> message_of(std::size_t rows, std::size_t bytes) {
    std::vector<std::uint64_t> words = {0};
    if (bytes) {
        words.push_back(1 | 2ull << 32 | static_cast<std::uint64_t>(bytes) << 35);
        words.resize(2 + (bytes + 7) / 8, 0x0102030405060708);
    } else {
        words.push_back(1 | 7ull << 32 | static_cast<std::uint64_t>(2 * rows) << 35);
        words.push_back(rows << 2 | 1ull << 32 | 1ull << 48);
        for (std::size_t i = 0; i < rows; i++) {
            words.push_back(i);
            words.push_back((2 * rows - 2 * i - 2 + i) << 2 | 1 | 2ull << 32 | 8ull << 35);
        }
        words.resize(words.size() + rows, 0x61616161616161);
    }
    words[0] = static_cast<std::uint64_t>(words.size() - 1) << 32;
    return words;
}

void times(const std::vector<std::uint64_t> &words) {
    const capn::bytes message(words.data(), 8 * words.size());
    const auto *data = message.u8();
    const std::size_t size = message.size();
    const capn::limits limits;
    capn_report report;
    std::uint8_t digest[32];
    const capn::buffer canonical = capn::canonical(message);
    const capn::bytes bare(canonical);
    beside("check", size, [&] { return capn_check(CAPN_STREAM, data, size, &limits, &report) + report.paid; },
           [&] { return capn::check(message, capn::form::stream, limits).paid; });
    /* A std::vector is filled with zeros before a call writes into it. For a large message, this takes long.
     * capn::canonical returns a new vector, so the calls in C write into a new vector, too. `canonical_into` needs no
     * new vector. */
    beside("canonical", size,
           [&] {
               capn_canonical(CAPN_STREAM, data, size, &limits, nullptr, 0, &report);
               std::vector<std::uint8_t> out(report.length);
               capn_canonical(CAPN_STREAM, data, size, &limits, out.data(), out.size(), &report);
               return std::uint64_t{out[0]};
           },
           [&] { return std::to_integer<unsigned>(capn::canonical(message, capn::form::stream, limits)[0]); });
    std::vector<std::uint8_t> room(canonical.size());
    beside("canonical_into", size,
           [&] {
               capn_canonical_with_scratch(CAPN_STREAM, data, size, &limits, nullptr, 0, room.data(), room.size(),
                                           &report);
               return report.length + room[0];
           },
           [&] {
               return capn::canonical_into(message, nullptr, 0, room.data(), room.size(), capn::form::stream, limits)
                          .length()
                      + room[0];
           });
    beside("is_canonical", size, [&] { return capn_is_canonical(bare.u8(), bare.size(), &limits, &report); },
           [&] { return capn::is_canonical_words(bare, limits); });
    beside("digest", size, [&] { return capn_hash(CAPN_STREAM, data, size, &limits, digest, &report) + digest[0]; },
           [&] { return std::to_integer<unsigned>(capn::digest(message, capn::form::stream, limits)[0]); });
    beside("survey", size,
           [&] {
               capn_figures figures;
               return capn_survey(CAPN_STREAM, data, size, &limits, &figures, &report) + figures.depth;
           },
           [&] { return capn::survey(message, capn::form::stream, limits).depth; });
    beside("index", size,
           [&] {
               capn_index(CAPN_STREAM, data, size, &limits, nullptr, 0, &report);
               auto *all = static_cast<capn_entry *>(std::malloc(report.visits * sizeof(capn_entry)));
               capn_index(CAPN_STREAM, data, size, &limits, all, report.visits, &report);
               const std::uint64_t first = all[0].count;
               std::free(all);
               return first;
           },
           [&] {
               const capn::index made = capn::index::of(message, capn::form::stream, limits);
               return std::uint64_t{made.data()[0].count};
           });
}

} // namespace

int main(int count, char **words) {
    if (count > 1) most = std::atof(words[1]);
    times(message_of(15, 0));
    times(message_of(40000, 0));
    times(message_of(0, 1000000));
    /* Reads a stream of short messages. */
    std::vector<std::uint64_t> all;
    for (int i = 0; i < 1000; i++)
        for (const std::uint64_t word : message_of(15, 0)) all.push_back(word);
    const capn::bytes stream(all.data(), 8 * all.size());
    const capn::limits limits;
    beside("a stream", stream.size(),
           [&] {
               capn_report report;
               std::uint64_t lengths = 0;
               for (std::size_t from = 0; from < stream.size(); from += report.length) {
                   if (capn_first(stream.u8() + from, stream.size() - from, &limits, &report) != CAPN_OK) break;
                   lengths += report.length;
               }
               return lengths;
           },
           [&] {
               std::uint64_t lengths = 0;
               capn::for_each(stream, limits, [&](capn::bytes message) { lengths += message.size(); });
               return lengths;
           });
    return failed || sum == 0;
}
