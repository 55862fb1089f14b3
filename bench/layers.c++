// layers MILLISECONDS < MESSAGE: measures the time of calls of capn.hpp on a message. Each call is measured for
// MILLISECONDS, in batches of 0.2 milliseconds or more. The program prints a line for each call: its name, and the
// nanoseconds of one call in the fastest batch. bench/layers runs the program.
#include "capn.hpp"
#include <chrono>
#include <cstdio>
#include <cstdlib>
#include <cstring>
#include <openssl/evp.h>
#include <vector>

using clock_type = std::chrono::steady_clock;

template <class Call> static double batch(Call call, long calls) {
    const auto start = clock_type::now();
    for (long i = 0; i < calls; i++) call();
    return std::chrono::duration<double, std::nano>(clock_type::now() - start).count();
}

template <class Call> static void time(const char *name, double milliseconds, Call call) {
    long calls = 1;
    while (batch(call, calls) < 2e5) calls *= 2;
    double least = 1e18;
    for (double spent = 0; spent < 1e6 * milliseconds;) {
        const double took = batch(call, calls);
        spent += took;
        if (took / calls < least) least = took / calls;
    }
    std::printf("%s %.0f\n", name, least);
}

static capn::digest_bytes openssl_digest(capn::bytes of) {
    capn::digest_bytes out;
    auto *const to = reinterpret_cast<unsigned char *>(out.data());
    if (EVP_Digest(of.data(), of.size(), to, nullptr, EVP_sha256(), nullptr) != 1) std::abort();
    return out;
}

int main(int count, char **words) {
    std::vector<unsigned char> message(1 << 24);
    message.resize(std::fread(message.data(), 1, message.size(), stdin));
    if (count != 2 || message.empty()) return 2;
    const double milliseconds = std::atof(words[1]);
    unsigned sum = 0; // what the calls return is used
    time("check", milliseconds, [&] { sum += capn::check(message).visits; });
    time("canonical", milliseconds, [&] { sum += capn::canonical(message).size(); });
    time("digest", milliseconds, [&] { sum += std::to_integer<unsigned>(capn::digest(message)[0]); });
    time("own", milliseconds, [&] { sum += std::to_integer<unsigned>(openssl_digest(capn::canonical(message))[0]); });
    if (capn::digest(message) != openssl_digest(capn::canonical(message))) return 3;
    return sum == 1;
}
