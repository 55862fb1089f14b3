// Runs the programs of docs/CPP.md.
//
// Each code block of the page is compiled alone and linked with this program. The first argument of the program says
// which block runs. The block reads standard input.
//
//     cpp_page check | field | explain | reason | canonical | valid | each | packed | hidden |
//     signed DIGEST | compare FILE
#include <capn.hpp>
#include <cstdio>
#include <fstream>
#include <iostream>
#include <iterator>
#include <string>
#ifdef WITH_KJ
#include <capn_kj.hpp>
#include <capnp/any.h>
#endif

std::vector<std::byte> canonical_bytes(capn::bytes message, const capn::limits &limits);
bool has_digest(capn::bytes message, const capn::digest_bytes &digest, const capn::limits &limits);
std::size_t write_canonical(capn::bytes message, void *out, std::size_t room, const capn::limits &limits) noexcept;
std::string compare(capn::bytes first, capn::bytes second, const capn::limits &limits);
bool is_within_limits(capn::bytes message);
std::string reason_to_reject(capn::bytes message, const capn::limits &limits);
std::optional<std::uint64_t> count_valid(int file, const capn::limits &limits);
bool check_each(int file, const capn::limits &limits);
std::uint64_t count_packed(std::istream &in, const capn::limits &limits);
void print_person(capn::bytes message, const capn::limits &limits);
std::string describe(capn::bytes message, const capn::limits &limits);
std::vector<std::uint64_t> hidden(capn::bytes message, const capn::limits &limits);
#ifdef WITH_KJ
capn::digest_bytes digest_of(capnp::MessageBuilder &message);

/* The digest of a message builder equals the digest of the builder's bytes. */
static bool is_built() {
    capnp::MallocMessageBuilder builder;
    builder.initRoot<capnp::AnyPointer>().initAs<capnp::Data>(5);
    return digest_of(builder) == capn::digest(builder) && digest_of(builder) != capn::digest_bytes();
}
#endif

static void put(capn::bytes data) {
    for (const std::byte byte : data) std::printf("%02x", std::to_integer<unsigned>(byte));
    std::printf("\n");
}

int main(int count, char **words) try {
    const std::string word = count > 1 ? words[1] : "";
    const capn::limits limits(1 << 17, 1 << 18, 32);
    if (word == "valid") {
        const auto valid = count_valid(0, limits);
        if (valid) std::cout << *valid << "\n";
        return !valid;
    }
    if (word == "each") return !check_each(0, limits);
    if (word == "packed") return std::cout << count_packed(std::cin, limits) << "\n", 0;
    const std::string message((std::istreambuf_iterator<char>(std::cin)), {});
    if (word == "check") return !is_within_limits(message);
    if (word == "field") return print_person(message, limits), 0;
    if (word == "explain") return std::cout << describe(message, limits) << "\n", 0;
    if (word == "hidden") {
        for (const std::uint64_t offset : hidden(message, limits)) std::cout << offset << "\n";
        return 0;
    }
    if (word == "reason") return std::cout << reason_to_reject(message, limits) << "\n", 0;
    if (word == "compare" && count > 2) {
        std::ifstream file(words[2], std::ios::binary);
        const std::string other((std::istreambuf_iterator<char>(file)), {});
        return std::cout << compare(message, other, limits) << "\n", 0;
    }
    if (word == "canonical") {
        const std::vector<std::byte> made = canonical_bytes(message, limits);
        put(made);
        std::vector<std::byte> out(made.size());
        return write_canonical(message, out.data(), out.size(), limits) != made.size() || out != made
               || write_canonical(message, out.data(), out.size() - 1, limits) != 0;
    }
#ifdef WITH_KJ
    if (word == "built") return !is_built();
#endif
    capn::digest_bytes digest{};
    for (std::size_t i = 0; count > 2 && i < 32; i++)
        digest[i] = static_cast<std::byte>(std::stoul(std::string(words[2] + 2 * i, 2), nullptr, 16));
    return word != "signed" || !has_digest(message, digest, limits);
} catch (const capn::refusal &error) {
    std::cout << "refusal " << error.number() << " " << error.offset() << ": " << error.what() << "\n";
    return 1;
} catch (const capn::mismatch &error) {
    std::cout << "mismatch: " << error.what() << "\n";
    return 1;
} catch (const std::exception &error) {
    std::cout << "another: " << error.what() << "\n";
    return 1;
}
