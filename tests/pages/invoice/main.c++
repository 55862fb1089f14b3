// Prints which limits a reader in C++ needs in order to read an invoice.
//
//     beside least MESSAGE   the least limits with which each field is read once: words, levels
//     beside long MESSAGE    which readers take a message of more words than the traversal limit
#include "invoice.capnp.h"
#include <capnp/serialize.h>
#include <cstdint>
#include <cstring>
#include <fstream>
#include <iostream>
#include <iterator>
#include <string>

static kj::Array<capnp::word> words_of_file(const char *name) {
    std::ifstream in(name, std::ios::binary);
    const std::string bytes(std::istreambuf_iterator<char>(in), {});
    auto words = kj::heapArray<capnp::word>(bytes.size() / sizeof(capnp::word));
    std::memcpy(words.begin(), bytes.data(), words.size() * sizeof(capnp::word));
    return words;
}

/* Returns whether a reader with the given limits can read each field of an invoice once. */
static bool is_read(kj::ArrayPtr<const capnp::word> message, std::uint64_t words, int levels) try {
    capnp::FlatArrayMessageReader reader(message, {words, levels});
    const Invoice::Reader invoice = reader.getRoot<Invoice>();
    std::size_t sum = invoice.getNumber() + invoice.getCustomer().size();
    for (const Line::Reader line : invoice.getLines()) sum += line.getText().size() + (line.getCents() != 0);
    return sum > 0;
} catch (const kj::Exception &) {
    return false;
}
/* Returns the least number below `most` for which `holds` returns true. Returns `most` if there is no such number. */
template <class Holds> static int least(int most, Holds holds) {
    int n = 0;
    while (n < most && !holds(n)) n++;
    return n;
}
/* Returns whether a reader with a traversal limit of 8 words accepts a message. */
static bool takes(kj::ArrayPtr<const capnp::word> message, bool is_flat) try {
    const capnp::ReaderOptions options{8, 64};
    if (is_flat) {
        capnp::FlatArrayMessageReader reader(message, options);
        return reader.getRoot<Invoice>().getNumber() > 0;
    }
    kj::ArrayInputStream in(message.asBytes());
    capnp::InputStreamMessageReader reader(in, options);
    return reader.getRoot<Invoice>().getNumber() > 0;
} catch (const kj::Exception &) {
    return false;
}

int main(int, char **words) {
    const auto message = words_of_file(words[2]);
    if (words[1] == std::string("least"))
        std::cout << least(1000, [&](int n) { return is_read(message, static_cast<std::uint64_t>(n), 64); }) << " "
                  << least(64, [&](int n) { return is_read(message, 1000, n); }) << "\n";
    else
        std::cout << "flat " << takes(message, true) << " stream " << takes(message, false) << "\n";
    return 0;
}
