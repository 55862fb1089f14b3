// Reads calls from standard input, makes them with capn.hpp, and writes the results.
//
// The results have the format of the expected answers. The program vectors.c writes the results of C calls in the same
// format. Each call on a stream is also made on the stream's segments.
#include "capn.hpp"
#include <cstdio>
#include <iostream>
#include <sstream>
#include <string>
#include <vector>

namespace {

std::string digits(capn::bytes data) {
    if (data.empty()) return "-";
    std::string out;
    for (const std::byte one : data) {
        static const char hex[] = "0123456789abcdef";
        out += hex[std::to_integer<unsigned>(one) / 16];
        out += hex[std::to_integer<unsigned>(one) % 16];
    }
    return out;
}
std::vector<std::byte> bytes_of(const std::string &digits) {
    std::vector<std::byte> out;
    for (std::size_t i = 0; i + 1 < digits.size(); i += 2)
        out.push_back(static_cast<std::byte>(std::stoul(digits.substr(i, 2), nullptr, 16)));
    out.shrink_to_fit();
    return out;
}
capn::form form_of(const std::string &word) {
    return word == "packed" ? capn::form::packed : word == "bare" ? capn::form::bare : capn::form::stream;
}

/* Returns the text of an error in the format of the expected answers. For an error of for_each, the text doesn't say
 * which message is rejected. For an error of packing or unpacking, the text doesn't name the form (`bare` or
 * `packed`). */
std::string refused(const capn::refusal &why, bool of_packing) {
    std::string text = capn::refusal(why.status(), why.report()).what();
    for (const std::string form : {"bare: ", "packed: "})
        if (text.rfind(form, 0) == 0) text.erase(0, form.size());
    if (of_packing) return text;
    if (why.status() == CAPN_NOT_WHOLE || why.status() == CAPN_BARE_TOO_LONG) return "bare: " + text;
    if (why.status() == CAPN_PACKED_CUT || why.status() == CAPN_PACKED_TOO_LONG) return "packed: " + text;
    return text;
}

/* Returns the segments of a stream. The segment table must be valid. */
std::vector<std::vector<std::byte>> segments_of(capn::bytes stream) {
    const auto number = [&](std::size_t at) {
        std::size_t out = 0;
        for (std::size_t i = 4; i--;) out = out << 8 | std::to_integer<std::size_t>(stream[at + i]);
        return out;
    };
    const std::size_t count = number(0) + 1;
    std::size_t from = 8 * (count / 2 + 1);
    std::vector<std::vector<std::byte>> out;
    for (std::size_t i = 0; i < count; i++) {
        const std::size_t size = 8 * number(4 * i + 4);
        out.emplace_back(stream.begin() + from, stream.begin() + from + size);
        from += size;
    }
    return out;
}

template <class Call> std::string answered(Call call, bool of_packing = false) {
    try {
        return call();
    } catch (const capn::refusal &why) {
        return refused(why, of_packing);
    }
}

std::string laid(capn::bytes message, capn::form form, const capn::limits &limits) {
    const auto made = capn::canonical(message, form, limits);
    return "paid " + std::to_string(capn::check(message, form, limits).paid) + ", " + digits(made);
}
std::string laid(capn::segments message, const capn::limits &limits) {
    const auto made = capn::canonical(message, limits);
    if (capn::digest(message, limits) != capn::digest(made, capn::form::bare, limits)) return "another digest";
    return "paid " + std::to_string(capn::check(message, limits).paid) + ", " + digits(made);
}
std::string checked(const capn::checked &it, const capn_figures &figures) {
    if (it.paid != figures.paid || it.visits != figures.visits) return "other figures";
    return "paid " + std::to_string(it.paid) + ", visits " + std::to_string(it.visits);
}

/* Returns the result of a call on the given bytes. If the bytes are a stream with a valid segment table, also makes the
 * call on the segments of the stream. The two results have to be equal. */
template <class Call> std::string both(capn::bytes message, capn::form form, const capn::limits &limits, Call call) {
    const std::string told = answered([&] { return call(message, form); });
    if (form != capn::form::stream) return told;
    capn_report report;
    if (capn_first(message.u8(), message.size(), &limits, &report) != CAPN_OK || report.length != message.size())
        return told;
    const auto held = segments_of(message);
    std::vector<capn_segment> segments;
    for (const auto &one : held) segments.push_back({one.data(), one.size() / 8});
    const std::string other = answered([&] { return call(capn::segments(segments.data(), segments.size()), form); });
    return told == other ? told : "of bytes " + told + ", of segments " + other;
}

std::string hashed(capn::bytes data, capn::form form) {
    std::string lines;
    const auto add = [&](capn::bytes message) { lines += digits(capn::digest(message, form)) + "\n"; };
    try {
        if (form == capn::form::stream) capn::for_each(data, add);
        else add(data);
    } catch (const capn::refusal &why) {
        return "status 1, " + digits(lines) + ", capn: " + refused(why, false);
    }
    return "status 0, " + digits(lines);
}

std::string answer(const std::string &line) {
    std::istringstream in(line);
    std::vector<std::string> word;
    for (std::string one; in >> one;) word.push_back(one);
    capn::limits limits;
    if (word[0] == "plain") {
        limits.tariff = CAPN_PLAIN;
        word.erase(word.begin());
    }
    const std::string call = word[0];
    const std::vector<std::byte> data = word.back() == "-" ? std::vector<std::byte>() : bytes_of(word.back());
    if (call == "pack") return answered([&] { return digits(capn::pack(data)); }, true);
    if (call == "unpack") {
        const auto most = static_cast<std::uint32_t>(std::stoul(word[1]));
        return answered([&] { return digits(capn::unpack(data, most)); }, true);
    }
    if (call == "run") return hashed(data, form_of(word[4]));
    const std::size_t from = call == "is_canonical" ? 1 : 2;
    limits.message_words = static_cast<std::uint32_t>(std::stoul(word[from]));
    limits.budget = static_cast<std::uint32_t>(std::stoul(word[from + 1]));
    limits.depth = static_cast<std::uint32_t>(std::stoul(word[from + 2]));
    if (call == "is_canonical")
        return answered([&] { return std::string(capn::is_canonical_words(data, limits) ? "true" : "false"); });
    const capn::form form = form_of(word[1]);
    if (call == "canonicalise")
        return both(data, form, limits, [&](auto message, capn::form written) {
            if constexpr (std::is_same_v<decltype(message), capn::bytes>) return laid(message, written, limits);
            else return laid(message, limits);
        });
    return both(data, form, limits, [&](auto message, capn::form written) {
        if constexpr (std::is_same_v<decltype(message), capn::segments>)
            return checked(capn::check(message, limits), capn::survey(message, limits));
        else {
            const capn::checked it = capn::check(message, written, limits);
            if (written == capn::form::packed) return checked(it, {0, 0, it.paid, it.visits, 0, 0, 0, 0});
            return checked(it, capn::survey(message, written, limits));
        }
    });
}

} // namespace

int main() {
    for (std::string line; std::getline(std::cin, line);) std::cout << answer(line) << "\n";
}
