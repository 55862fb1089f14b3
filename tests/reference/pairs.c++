// Writes pairs of messages with builders of the reference implementation. `pairs SEED COUNT` writes the same stream in
// every run. In a pair with an even number, both messages have the same value in different layouts. In a pair with an
// odd number, the values of the messages differ in one place.
//
// Layouts differ in the sizes of structs, the order of objects, the sizes of segments, the far pointers, and the gaps
// where an object was moved or dropped.
#include <capnp/any.h>
#include <capnp/message.h>
#include <capnp/orphan.h>
#include <capnp/serialize.h>
#include <algorithm>
#include <cstdlib>
#include <random>
#include <unistd.h>
#include <vector>

enum Kind { NOTHING, STRUCT, VOIDS, BITS, BYTES, TWOS, FOURS, EIGHTS, POINTERS, ROWS };

// A value is the object that a pointer refers to. A struct has numbers, which are its data words, and parts, which are
// its pointers. A list of numbers has numbers. The other lists have parts. The parts of a list of structs are structs.
struct Value {
  Kind kind = NOTHING;
  std::vector<uint64_t> numbers;
  std::vector<Value> parts;
};

static std::mt19937_64 source;

static unsigned below(unsigned most) { return unsigned(source() % most); }

// Returns the lowest bits of a number: as many bits as an element of the given kind of list has.
static uint64_t cut(Kind kind, uint64_t number) {
  switch (kind) {
    case VOIDS: return 0;
    case BITS: return number & 1;
    case BYTES: return number & 0xff;
    case TWOS: return number & 0xffff;
    case FOURS: return number & 0xffffffff;
    default: return number;
  }
}

// Returns a random value of the given kind. More than half of its words are zero, and more than half of its pointers
// are null.
static Value valueOf(Kind kind, unsigned depth) {
  Value made;
  made.kind = kind;
  if (kind == STRUCT || (kind >= VOIDS && kind <= EIGHTS))
    for (unsigned left = below(kind == BYTES || kind == BITS ? 70 : 6); left > 0; left--)
      made.numbers.push_back(cut(kind, below(2) ? 0 : source()));
  if (kind == STRUCT || kind >= POINTERS)
    for (unsigned left = below(5); left > 0; left--) {
      Kind part = kind == ROWS ? STRUCT : depth == 0 ? Kind(below(POINTERS)) : Kind(below(ROWS + 1));
      made.parts.push_back(valueOf(depth == 0 && part == STRUCT && kind != ROWS ? NOTHING : part,
                                   depth == 0 ? 0 : depth - 1));
    }
  return made;
}

// Collects a value and all values inside it in `all`. For each value, `all` also says whether the value is an element
// of a list of structs.
static void collect(Value& value, bool isRow, std::vector<std::pair<Value*, bool>>& all) {
  all.push_back({&value, isRow});
  for (auto& part : value.parts) collect(part, value.kind == ROWS, all);
}

// Changes a value in one place.
static void change(Value& value, bool isRow) {
  Value more;
  if (value.kind == NOTHING) {
    value.kind = Kind(1 + below(ROWS));
  } else if (!isRow && below(4) == 0) {
    value = more;
  } else if (value.kind == STRUCT) {
    bool isData = below(2);
    if (isData && !value.numbers.empty()) {
      value.numbers[below(value.numbers.size())] ^= uint64_t(1) << below(64);
    } else if (isData) {
      value.numbers.push_back(1 + below(9));
    } else {
      more.kind = Kind(1 + below(ROWS));
      value.parts.push_back(more);
    }
  } else if (value.kind >= POINTERS) {
    more.kind = value.kind == ROWS ? STRUCT : NOTHING;
    if (below(2) && !value.parts.empty()) value.parts.pop_back();
    else value.parts.push_back(more);
  } else if (value.kind != VOIDS && !value.numbers.empty() && below(3)) {
    value.numbers[below(value.numbers.size())] ^= 1;
  } else if (!value.numbers.empty() && below(2)) {
    value.numbers.pop_back();
  } else {
    value.numbers.push_back(0);
  }
}

// Writes a value into a message, in a random layout.
class Layout {
public:
  // A struct may have up to `spare` words and `spare` pointers more than its value needs. If `spare` is 0, no gap is
  // made, and no object is moved.
  explicit Layout(unsigned spare) : spare(spare) {}

  void put(const Value& value, capnp::AnyPointer::Builder to) {
    if (spare > 0 && below(4) == 0) waste(to);
    switch (value.kind) {
      case NOTHING: to.clear(); break;
      case STRUCT: {
        size_t words = value.numbers.size() + more(), pointers = value.parts.size() + more();
        putStruct(value, to.initAsAnyStruct(words, pointers));
        break;
      }
      case VOIDS: to.initAs<capnp::List<capnp::Void>>(value.numbers.size()); break;
      case BITS: putNumbers<bool>(value, to); break;
      case BYTES: putNumbers<uint8_t>(value, to); break;
      case TWOS: putNumbers<uint16_t>(value, to); break;
      case FOURS: putNumbers<uint32_t>(value, to); break;
      case EIGHTS: putNumbers<uint64_t>(value, to); break;
      case POINTERS: putParts(value, pointersIn(to, value.parts.size())); break;
      case ROWS: putRows(value, to); break;
    }
    if (spare > 0 && below(6) == 0) {
      // Detaches the object from its pointer, makes and drops another object, and attaches the detached object again.
      auto moved = to.disown();
      waste(to);
      to.adopt(kj::mv(moved));
    }
  }

private:
  unsigned spare;

  unsigned more() { return spare == 0 ? 0 : below(spare + 1); }

  // Makes an object and drops it. The object's words stay in the message as a gap.
  void waste(capnp::AnyPointer::Builder to) {
    if (below(2)) to.initAs<capnp::Data>(1 + below(20));
    else to.initAsAnyStruct(1 + below(3), below(3));
    to.clear();
  }

  static capnp::List<capnp::AnyPointer>::Builder pointersIn(capnp::AnyPointer::Builder to, unsigned count) {
    return to.initAsAnyList(capnp::ElementSize::POINTER, count).as<capnp::List<capnp::AnyPointer>>();
  }

  template <typename Number>
  void putNumbers(const Value& value, capnp::AnyPointer::Builder to) {
    auto list = to.initAs<capnp::List<Number>>(value.numbers.size());
    for (unsigned i = 0; i < value.numbers.size(); i++) list.set(i, Number(value.numbers[i]));
  }

  template <typename List>
  void putParts(const Value& value, List list) {
    std::vector<unsigned> order;
    for (unsigned i = 0; i < value.parts.size(); i++) order.push_back(i);
    for (unsigned i = spare > 0 ? order.size() : 0; i > 1; i--) std::swap(order[i - 1], order[below(i)]);
    for (unsigned i : order) put(value.parts[i], list[i]);
  }

  void putStruct(const Value& value, capnp::AnyStruct::Builder to) {
    auto data = to.getDataSection();
    for (unsigned i = 0; i < value.numbers.size(); i++)
      for (unsigned byte = 0; byte < 8; byte++) data[8 * i + byte] = kj::byte(value.numbers[i] >> 8 * byte);
    putParts(value, to.getPointerSection());
  }

  void putRows(const Value& value, capnp::AnyPointer::Builder to) {
    size_t words = 0, pointers = 0;
    for (auto& row : value.parts) {
      words = std::max(words, row.numbers.size());
      pointers = std::max(pointers, row.parts.size());
    }
    auto list = to.initAsListOfAnyStruct(words + more(), pointers + more(), value.parts.size());
    for (unsigned i = 0; i < value.parts.size(); i++) putStruct(value.parts[i], list[i]);
  }
};

static void write(const Value& value) {
  auto strategy = below(3) ? capnp::AllocationStrategy::FIXED_SIZE : capnp::AllocationStrategy::GROW_HEURISTICALLY;
  capnp::MallocMessageBuilder message(1 + below(below(4) ? 10 : 200), strategy);
  Layout(below(4)).put(value, message.initRoot<capnp::AnyPointer>());
  if (below(5) > 0) {
    capnp::writeMessageToFd(STDOUT_FILENO, message);
    return;
  }
  // The object is copied from a reader, so the copy has no gaps.
  capnp::MallocMessageBuilder copy(1 + below(40), strategy);
  copy.setRoot(message.getRoot<capnp::AnyPointer>().asReader());
  capnp::writeMessageToFd(STDOUT_FILENO, copy);
}

int main(int count, char** words) {
  if (count != 3) return 2;
  source.seed(strtoull(words[1], nullptr, 10));
  for (long pair = 0, all = atol(words[2]); pair < all; pair++) {
    unsigned kind = below(12);
    Value value = valueOf(kind < 8 ? STRUCT : Kind(below(ROWS + 1)), 3);
    write(value);
    if (pair % 2 == 1) {
      std::vector<std::pair<Value*, bool>> all;
      collect(value, false, all);
      auto place = all[below(all.size())];
      change(*place.first, place.second);
    }
    write(value);
  }
  return 0;
}
