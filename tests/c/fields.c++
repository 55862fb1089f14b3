// Writes and reads messages of fields.capnp with the reference implementation.
//
// The program uses generated code. It writes a stream of messages, or prints a line for each message of a stream.
//
//     fields write SEED COUNT   by both types in turn, in segments of several sizes
//     fields old | new          read by one type, whichever wrote it
#include "fields.capnp.h"
#include <capnp/message.h>
#include <capnp/serialize.h>
#include <kj/io.h>
#include <cstdio>
#include <cstdlib>
#include <cstring>
#include <random>
#include <string>

namespace {

std::mt19937_64 source;

uint64_t below(uint64_t most) { return source() % most; }
bool is_set() { return below(4) != 0; }

/* Returns a random number of the type T: any bits, a small number, or 0. */
template <typename T> T number() {
    if (below(4) == 0) return T(below(10));
    const uint64_t bits = below(6) ? source() : 0;
    T value;
    std::memcpy(&value, &bits, sizeof value);
    return value;
}
std::string text() {
    std::string made(below(12), ' ');
    for (char &one : made) one = char('a' + below(26));
    return made;
}

template <typename Builder> void write_point(Builder point) {
    if (is_set()) point.setX(number<int32_t>());
    if (is_set()) point.setY(number<int32_t>());
    if (is_set()) point.setLabel(text());
}
void write_more(Point::Builder) {}
void write_more(Placed::Builder placed) {
    if (is_set()) placed.setZ(number<int32_t>());
    if (is_set()) placed.setMark(text());
}
void write_lists(Old::Builder to) {
    if (is_set()) {
        auto list = to.initNumbers(below(5));
        for (auto i : kj::indices(list)) list.set(i, number<uint16_t>());
    }
    if (is_set()) {
        auto list = to.initTexts(below(5));
        for (auto i : kj::indices(list)) if (is_set()) list.set(i, text());
    }
    if (is_set()) {
        auto list = to.initLarge(below(5));
        for (auto i : kj::indices(list)) list.set(i, number<int64_t>());
    }
}
void write_lists(New::Builder to) {
    if (is_set())
        for (auto one : to.initNumbers(below(5))) {
            if (is_set()) one.setValue(number<uint16_t>());
            if (is_set()) one.setUnit(number<uint16_t>());
            if (is_set()) one.setRemark(text());
        }
    if (is_set())
        for (auto one : to.initTexts(below(5))) {
            if (is_set()) one.setName(text());
            if (is_set()) one.setId(number<uint32_t>());
        }
    if (is_set())
        for (auto one : to.initLarge(below(5))) {
            if (is_set()) one.setValue(number<int64_t>());
            if (is_set()) one.setError(number<float>());
        }
}
void write_added(Old::Builder) {}
void write_added(New::Builder to) {
    if (is_set()) to.setAdded(number<uint16_t>());
    if (is_set()) to.setLate(below(2));
    if (is_set()) to.setNote(text());
    if (is_set()) to.setFar(number<int64_t>());
    if (below(4) == 0) to.setWeight(number<double>());
}
template <typename Type> void write(kj::OutputStream &out) {
    capnp::MallocMessageBuilder message(1 + below(64), below(2) ? capnp::AllocationStrategy::FIXED_SIZE
                                                                : capnp::AllocationStrategy::GROW_HEURISTICALLY);
    auto to = message.initRoot<Type>();
    if (is_set()) to.setFlag(below(2));
    if (is_set()) to.setSmall(number<int8_t>());
    if (is_set()) to.setNumber(number<uint64_t>());
    if (is_set()) to.setColor(Color(below(3)));
    if (is_set()) to.setRatio(number<double>());
    if (is_set()) to.setSingle(number<float>());
    if (is_set()) to.setName(text());
    if (is_set()) {
        auto blob = to.initBlob(below(9));
        for (auto &one : blob) one = kj::byte(source());
    }
    write_lists(to);
    if (is_set())
        for (auto point : to.initPoints(below(5))) {
            write_point(point);
            write_more(point);
        }
    if (is_set()) {
        auto bits = to.initBits(below(20));
        for (auto i : kj::indices(bits)) bits.set(i, below(2));
    }
    if (is_set()) to.initVoids(below(9));
    if (is_set()) {
        write_point(to.initInner());
        write_more(to.getInner());
    }
    if (is_set()) to.setOther(below(2));
    switch (below(4)) {
    case 0: to.setCount(number<uint32_t>()); break;
    case 1: to.setTitle(text()); break;
    case 2: to.setNothing(); break;
    default: break;
    }
    write_added(to);
    capnp::writeMessage(out, message);
}

void show(kj::ArrayPtr<const kj::byte> bytes) {
    for (kj::byte one : bytes) std::printf("%02x", one);
    std::printf(";");
}
void show(capnp::Text::Reader text) { show(text.asBytes()); }
void show_bits(double value) {
    uint64_t bits;
    std::memcpy(&bits, &value, sizeof bits);
    std::printf("%016llx;", (unsigned long long)bits);
}
void show_bits(float value) {
    uint32_t bits;
    std::memcpy(&bits, &value, sizeof bits);
    std::printf("%08x;", bits);
}
template <typename T> void show_number(T value) { std::printf("%lld;", (long long)value); }

void show_one(Point::Reader point) {
    show_number(point.getX());
    show_number(point.getY());
    show(point.getLabel());
}
void show_one(Placed::Reader placed) {
    show_number(placed.getX());
    show_number(placed.getY());
    show(placed.getLabel());
    show_number(placed.getZ());
    show(placed.getMark());
}
void show_one(Measured::Reader one) {
    show_number(one.getValue());
    show_number(one.getUnit());
    show(one.getRemark());
}
void show_one(Named::Reader one) {
    show(one.getName());
    show_number(one.getId());
}
void show_one(Measured64::Reader one) {
    show_number(one.getValue());
    show_bits(one.getError());
}
void show_one(uint16_t one) { show_number(one); }
void show_one(int64_t one) { show_number(one); }
void show_one(bool one) { show_number(one); }
void show_one(capnp::Text::Reader one) { show(one); }
template <typename List> void show_list(List list) {
    std::printf("[");
    for (auto one : list) show_one(one);
    std::printf("]");
}
void show_added(Old::Reader) {}
void show_added(New::Reader from) {
    show_number(from.getAdded());
    show_number(from.getLate());
    show(from.getNote());
    show_number(from.getFar());
}
bool show_weight(Old::Reader) { return false; }
bool show_weight(New::Reader from) {
    if (!from.isWeight()) return false;
    show_bits(from.getWeight());
    return true;
}
template <typename Type> void show_message(typename Type::Reader from) {
    show_number(from.getFlag());
    show_number(from.getSmall());
    std::printf("%llu;", (unsigned long long)from.getNumber());
    show_number(uint16_t(from.getColor()));
    show_bits(from.getRatio());
    show_bits(from.getSingle());
    show(from.getName());
    show(from.getBlob());
    show_list(from.getNumbers());
    show_list(from.getTexts());
    show_list(from.getPoints());
    show_list(from.getBits());
    show_list(from.getLarge());
    show_number(from.getVoids().size());
    show_one(from.getInner());
    show_number(from.getOther());
    std::printf("%u:", unsigned(from.which()));
    if (from.isCount()) show_number(from.getCount());
    else if (from.isTitle()) show(from.getTitle());
    else if (!show_weight(from)) std::printf(";");
    show_added(from);
    std::printf("\n");
}

} // namespace

int main(int count, char **words) {
    if (count == 4 && !std::strcmp(words[1], "write")) {
        source.seed(std::strtoull(words[2], nullptr, 10));
        kj::FdOutputStream out(1);
        kj::BufferedOutputStreamWrapper buffered(out);
        for (long i = std::atol(words[3]); i > 0; i--) i % 2 ? write<Old>(buffered) : write<New>(buffered);
        return 0;
    }
    if (count != 2) return 2;
    kj::FdInputStream in(0);
    kj::BufferedInputStreamWrapper buffered(in);
    while (buffered.tryGetReadBuffer() != nullptr) {
        capnp::InputStreamMessageReader message(buffered);
        if (!std::strcmp(words[1], "old")) show_message<Old>(message.getRoot<Old>());
        else show_message<New>(message.getRoot<New>());
    }
}
