// Prints what capn.hpp reports about a message: the path to an error, or the first difference from the canonical form.
//
// The program reads calls from standard input, and answers each call that has limits. The answers have the format of
// `ways answers` (see ways.c).
#include "capn.hpp"
#include <cinttypes>
#include <cstdio>
#include <iostream>
#include <sstream>
#include <string>

namespace {

void put(std::uint64_t word) {
    for (int i = 0; i < 8; i++) std::printf("%02x", static_cast<unsigned>(word >> 8 * i & 255));
}

std::string of_digits(const std::string &digits) {
    std::string out;
    for (std::size_t i = 0; i + 1 < digits.size(); i += 2)
        out += static_cast<char>(std::stoi(digits.substr(i, 2), nullptr, 16));
    return out;
}

void tell(const capn::departed &found) {
    static const char *const owners[] = {"", "the pointer at", "the tag of", "the last word of"};
    const std::string to = capn::way_text(found.to);
    if (found.why == capn::reason::segments) std::printf("%u segments\n", found.count);
    else if (found.why == capn::reason::capability) std::printf("capability %u at %s\n", found.count, to.c_str());
    else {
        std::printf("byte %" PRIu64 " ", found.byte);
        put(found.word);
        std::printf(" ");
        if (found.why == capn::reason::after) std::printf("nothing\n");
        else {
            put(found.canonical_word);
            std::printf(" %s %s\n", owners[static_cast<std::uint32_t>(found.owner)], to.c_str());
        }
    }
}

void answer(const std::string &message, capn::form form, const capn::limits &limits) {
    if (const auto way = capn::refusal_way(message, form, limits)) {
        const auto is_of_no_root = [&]() -> bool {
            try {
                capn::check(message, form, limits);
            } catch (const capn::refusal &why) {
                return why.status() == CAPN_NO_ROOT;
            }
            return false;
        };
        if (is_of_no_root()) std::printf("no root\n");
        else std::printf("way %s\n", capn::way_text(*way).c_str());
        return;
    }
    try {
        if (const auto found = capn::departure(message, form, limits)) tell(*found);
        else std::printf("yes\n");
    } catch (const capn::refusal &) {
        std::printf("?\n");
    } catch (const std::invalid_argument &) {
        std::printf("?\n");
    }
}

} // namespace

int main() {
    std::string line;
    while (std::getline(std::cin, line)) {
        std::istringstream words(line);
        std::string what, form, digits;
        capn::limits limits;
        words >> what;
        if (what == "plain") {
            limits.tariff = CAPN_PLAIN;
            words >> what;
        }
        if (what != "canonicalise" && what != "survey") continue;
        words >> form >> limits.message_words >> limits.budget >> limits.depth >> digits;
        answer(of_digits(digits), form == "stream"   ? capn::form::stream
                                  : form == "packed" ? capn::form::packed
                                                     : capn::form::bare, limits);
    }
}
