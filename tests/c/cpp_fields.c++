// Reads the fields of fields.capnp with capn.hpp.
//
//     cpp_fields old | new   shows each message of a stream as fields.c++ shows it, read by one of its types
//     cpp_fields lines       reads each pointer of the messages of generated.py, with a line as fields.c has it
#include "capn.hpp"
#include <cinttypes>
#include <cstdio>
#include <cstring>
#include <iostream>
#include <iterator>
#include <string>
#include <vector>

namespace {

enum class color : std::uint16_t { red, green, blue };

void put(std::int64_t number) { std::printf("%" PRId64 ";", number); }
void put(capn::bytes data) {
    for (const std::byte one : data) std::printf("%02x", std::to_integer<unsigned>(one));
    std::printf(";");
}
void put(std::string_view text) { put(capn::bytes(text)); }
void show_bits(double value) { std::printf("%016" PRIx64 ";", capn::detail::to_bits(value)); }
void show_bits(float value) { std::printf("%08" PRIx64 ";", capn::detail::to_bits(value)); }

void show_point(capn::record point, bool is_new) {
    put(point.get<std::int32_t>(0));
    put(point.get<std::int32_t>(32, -1));
    put(point.slot(0).text());
    if (!is_new) return;
    put(point.get<std::int32_t>(64, 77));
    put(point.slot(1).text());
}

void show_message(capn::bytes message, bool is_new) {
    const capn::index index = capn::index::of(message);
    const capn::record root = index.root().as_struct();
    put(root.get<bool>(0, true));
    put(root.get<std::int8_t>(8, -5));
    std::printf("%" PRIu64 ";", root.get<std::uint64_t>(64, 7));
    put(static_cast<std::int64_t>(root.get<color>(16, color::green)));
    show_bits(root.get<double>(128, 1.5));
    show_bits(root.get<float>(32, -2.5f));
    put(root.slot(0).text("none"));
    put(root.slot(1).data());
    std::printf("[");
    if (is_new)
        for (const capn::record one : root.slot(2).structs()) {
            put(one.get<std::uint16_t>(0));
            put(one.get<std::uint16_t>(16, 3));
            put(one.slot(0).text());
        }
    else
        for (const std::uint16_t one : root.slot(2).list<std::uint16_t>()) put(one);
    std::printf("][");
    if (is_new)
        for (const capn::record one : root.slot(3).structs()) {
            put(one.slot(0).text());
            put(one.get<std::uint32_t>(0, 8));
        }
    else
        for (const capn::record one : root.slot(3).pointers()) put(one.slot(0).text());
    std::printf("][");
    for (const capn::record one : root.slot(4).structs()) show_point(one, is_new);
    std::printf("][");
    for (const bool one : root.slot(5).list<bool>()) put(one);
    std::printf("][");
    if (is_new)
        for (const capn::record one : root.slot(6).structs()) {
            put(one.get<std::int64_t>(0));
            show_bits(one.get<float>(64, 0.5f));
        }
    else
        for (const std::int64_t one : root.slot(6).list<std::int64_t>()) put(one);
    std::printf("]");
    put(root.slot(7).structs().size());
    show_point(root.slot(8).as_struct(), is_new);
    put(root.get<bool>(1));
    const auto which = root.get<std::uint16_t>(224);
    std::printf("%u:", unsigned{which});
    if (which == 0) put(root.get<std::uint32_t>(192, 100));
    else if (which == 1) put(root.slot(9).text());
    else if (which == 3 && is_new) show_bits(root.get<double>(320, 0.25));
    else std::printf(";");
    if (is_new) {
        put(root.get<std::uint16_t>(240, 12345));
        put(root.get<bool>(2, true));
        put(root.slot(10).text("no note"));
        put(root.get<std::int64_t>(256, -9));
    }
    std::printf("\n");
}

// A hash of the numbers that are read from one object. The hash is FNV-1a, but over numbers of 64 bits instead of
// bytes.
class sum {
public:
    void add(std::uint64_t number) { sum_ = (sum_ ^ number) * 0x100000001b3; }
    void add(capn::bytes data) {
        add(data.size());
        for (const std::byte one : data) add(std::to_integer<std::uint64_t>(one));
    }
    void add(capn::value slot) { add(static_cast<std::uint64_t>(slot.kind())); }
    template <class T> void add_fields(capn::record from) {
        constexpr std::uint32_t width = 8 * sizeof(T);
        for (std::uint32_t i = 0; i < 256 / width; i++) {
            const std::int64_t number = std::is_signed_v<T> ? -std::int64_t{i} - 1 : std::int64_t{i} + 1;
            add(static_cast<std::uint64_t>(from.get<T>(i * width, static_cast<T>(number))));
        }
    }
    void add(capn::record from) {
        for (std::uint32_t i = 0; i < 256; i += 5) add(std::uint64_t{from.get<bool>(i, i % 2 == 0)});
        add_fields<std::uint8_t>(from);
        add_fields<std::uint16_t>(from);
        add_fields<std::uint32_t>(from);
        add_fields<std::uint64_t>(from);
        add_fields<std::int8_t>(from);
        add_fields<std::int16_t>(from);
        add_fields<std::int32_t>(from);
        add_fields<std::int64_t>(from);
        add(from.slots());
        for (std::uint32_t k = 0; k < 4; k++) add(from.slot(k));
    }
    template <class T> void add(capn::numbers<T> list) {
        add(list.size());
        std::uint32_t left = 1000;
        for (const T one : list)
            if (left > 0) left--, add(static_cast<std::uint64_t>(one));
    }
    void show() const { std::printf(" %016" PRIx64, sum_); }

private:
    std::uint64_t sum_ = 0xcbf29ce484222325;
};

template <class T, class Add> void show_part(const capn::expected<T, capn::kind> &found, Add add) {
    sum all;
    if (found) add(all, *found), all.show();
    else std::printf(" -");
}
template <class T> void show_numbers(capn::value at) {
    show_part(at.try_list<T>(), [](sum &all, capn::numbers<T> list) { all.add(list); });
}
template <class Add> void show_rows(const capn::expected<capn::rows, capn::kind> &found, Add add) {
    show_part(found, [&](sum &all, capn::rows list) {
        all.add(list.size());
        std::uint32_t left = 20;
        for (const capn::record one : list) {
            if (left-- == 0) break;
            add(all, one);
        }
    });
}

void show_lines(capn::value at) {
    static constexpr const char *kinds[] = {"null", "struct", "void", "bits", "bytes", "u16", "u32", "u64", "pointers",
                                            "rows", "capability"};
    std::printf("%s", kinds[static_cast<std::uint32_t>(at.kind())]);
    show_part(at.try_struct(), [](sum &all, capn::record from) { all.add(from); });
    show_part(at.try_text("none"), [](sum &all, std::string_view text) { all.add(capn::bytes(text)); });
    show_part(at.try_data(), [](sum &all, capn::bytes data) { all.add(data); });
    // capn.hpp has no call for a list of void elements. The test reads such a list as a list of structs.
    const bool is_void = at.is_null() || at.kind() == capn::kind::voids || at.kind() == capn::kind::rows;
    if (is_void) show_part(at.try_structs(), [](sum &all, capn::rows list) { all.add(list.size()); });
    else std::printf(" -");
    show_numbers<bool>(at);
    show_numbers<std::uint8_t>(at);
    show_numbers<std::uint16_t>(at);
    show_numbers<std::uint32_t>(at);
    show_numbers<std::uint64_t>(at);
    show_rows(at.try_pointers(), [](sum &all, capn::record one) { all.add(one.slot(0)); });
    show_rows(at.try_structs(), [](sum &all, capn::record one) { all.add(one); });
    std::printf("\n");
    const auto show_slots = [](capn::record from) {
        for (std::uint32_t k = 0; k < from.slots(); k++) show_lines(from.slot(k));
    };
    if (at.kind() == capn::kind::structure) show_slots(at.as_struct());
    if (at.kind() == capn::kind::pointers)
        for (const capn::record one : at.pointers()) show_lines(one.slot(0));
    if (at.kind() == capn::kind::rows)
        for (const capn::record one : at.structs()) {
            if (one.slots() == 0) break;
            show_slots(one);
        }
}

// Prints a line for each pointer of the messages that generated.py wrote. In the input, the length of each message
// comes before the message. The program copies each message to memory of exactly its length, so that a sanitizer
// detects a read past the end.
void show_mixed(const std::string &all) {
    for (std::size_t from = 0; from + 4 <= all.size();) {
        std::uint32_t size;
        std::memcpy(&size, &all[from], sizeof size);
        const char *first = all.data() + from + sizeof size;
        const std::vector<char> message(first, first + size);
        from += sizeof size + size;
        try {
            const capn::index index = capn::index::of(message);
            show_lines(index.root());
        } catch (const capn::refusal &refusal) { std::printf("rejected: %s\n", refusal.what()); }
    }
}

} // namespace

int main(int count, char **words) {
    if (count != 2) return 2;
    const std::string stream((std::istreambuf_iterator<char>(std::cin)), {});
    if (!std::strcmp(words[1], "lines")) {
        show_mixed(stream);
        return 0;
    }
    capn::for_each(stream, [&](capn::bytes message) { show_message(message, words[1] == std::string("new")); });
}
