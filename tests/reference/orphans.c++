// Writes messages with builders of the reference implementation. `orphans SEED COUNT` writes the same stream in every
// run. For each message, it also writes a line to standard error: the number of orphans, and the number of words that
// the orphans use.
//
// To count the words of the orphans, the program drops the orphans after it has written the message. The library then
// sets their words to zero.
//
// The builders make all kinds of changes that move objects or leave gaps. They drop objects, overwrite them, take them
// out and put them back, truncate and extend lists, and make structs larger, as a program with a newer schema does.
#include <capnp/any.h>
#include <capnp/message.h>
#include <capnp/orphan.h>
#include <capnp/serialize.h>
#include <cstdio>
#include <cstdlib>
#include <cstring>
#include <random>
#include <unistd.h>
#include <vector>

static std::mt19937_64 source;

static unsigned below(unsigned most) { return unsigned(source() % most); }

static uint64_t number() { return below(3) ? source() : 0; }

// The orphans of a message. They live until the message is written.
static std::vector<capnp::Orphan<capnp::AnyPointer>> orphans;
// Is true if the orphans of the current message are kept until the message is written.
static bool keepsOrphans;

static void make(capnp::AnyPointer::Builder to, unsigned depth);

static void fill(capnp::AnyStruct::Builder to, unsigned depth) {
  for (auto& byte : to.getDataSection()) byte = kj::byte(number());
  auto parts = to.getPointerSection();
  for (unsigned i = 0; i < parts.size(); i++)
    if (below(4)) make(parts[i], depth);
}

template <typename Number>
static void makeNumbers(capnp::AnyPointer::Builder to, unsigned most) {
  auto list = to.initAs<capnp::List<Number>>(below(most));
  for (unsigned i = 0; i < list.size(); i++) list.set(i, Number(number()));
}

static void makeObject(capnp::AnyPointer::Builder to, unsigned depth) {
  switch (below(depth == 0 ? 6 : 10)) {
    case 0: makeNumbers<bool>(to, 150); break;
    case 1: makeNumbers<uint16_t>(to, 20); break;
    case 2: makeNumbers<uint32_t>(to, 10); break;
    case 3: makeNumbers<uint64_t>(to, 6); break;
    case 4: {
      auto text = to.initAs<capnp::Text>(below(60));
      for (auto& letter : text) letter = char(' ' + below(95));
      break;
    }
    case 5: {
      for (auto& byte : to.initAs<capnp::Data>(below(60))) byte = kj::byte(number());
      break;
    }
    case 6: case 7: fill(to.initAsAnyStruct(below(4), below(4)), depth - 1); break;
    case 8: {
      auto list = to.initAsAnyList(capnp::ElementSize::POINTER, below(4)).as<capnp::List<capnp::AnyPointer>>();
      for (unsigned i = 0; i < list.size(); i++) make(list[i], depth - 1);
      break;
    }
    case 9: {
      auto list = to.initAsListOfAnyStruct(below(3), below(3), below(4));
      for (unsigned i = 0; i < list.size(); i++) fill(list[i], depth - 1);
      break;
    }
  }
}

// Changes the object of a pointer in a way that moves it, drops it or leaves a gap.
static void change(capnp::AnyPointer::Builder to, unsigned depth) {
  switch (below(7)) {
    case 0: to.clear(); break;
    case 1: makeObject(to, depth); break;
    case 2: {
      auto moved = to.disown();
      makeObject(to, depth);
      to.adopt(kj::mv(moved));
      break;
    }
    case 3: {
      auto text = to.initAs<capnp::Data>(1 + below(40));
      for (auto& byte : text) byte = kj::byte(number());
      auto list = to.disownAs<capnp::Data>();
      list.truncate(below(60));
      to.adopt(kj::mv(list));
      break;
    }
    case 4: {
      // Does what two programs do. One program makes a struct with an older schema. The other program has a newer
      // schema with more fields, and writes to this struct.
      fill(to.initAsAnyStruct(1, 1), depth ? depth - 1 : 0);
      auto larger = to.getAs<capnp::AnyStruct>();
      capnp::MallocMessageBuilder copy;
      copy.setRoot(larger.asReader());
      to.initAsAnyStruct(2 + below(2), 2);
      to.set(copy.getRoot<capnp::AnyPointer>().asReader());
      break;
    }
    case 5: {
      auto moved = to.disown();
      if (!keepsOrphans) break;
      orphans.push_back(kj::mv(moved));
      break;
    }
    case 6: {
      makeObject(to, depth);
      if (!keepsOrphans) break;
      orphans.push_back(to.disown());
      makeObject(to, depth);
      break;
    }
  }
}

static void make(capnp::AnyPointer::Builder to, unsigned depth) {
  makeObject(to, depth);
  while (below(3) == 0) change(to, depth);
}

// Returns how many words of a message aren't zero.
static size_t words(capnp::MessageBuilder& message) {
  size_t count = 0;
  for (auto segment : message.getSegmentsForOutput())
    for (auto& word : segment) {
      uint64_t value;
      memcpy(&value, &word, 8);
      count += value != 0;
    }
  return count;
}

int main(int count, char** given) {
  if (count != 3) return 2;
  source.seed(strtoull(given[1], nullptr, 10));
  for (long left = atol(given[2]); left > 0; left--) {
    auto strategy = below(3) ? capnp::AllocationStrategy::FIXED_SIZE : capnp::AllocationStrategy::GROW_HEURISTICALLY;
    capnp::MallocMessageBuilder message(1 + below(below(4) ? 10 : 200), strategy);
    keepsOrphans = below(5) == 0;
    auto root = message.initRoot<capnp::AnyPointer>();
    if (below(4)) fill(root.initAsAnyStruct(below(4), 1 + below(5)), 3);
    else make(root, 3);
    capnp::writeMessageToFd(STDOUT_FILENO, message);
    size_t all = words(message), kept = orphans.size();
    orphans.clear();
    fprintf(stderr, "%zu orphans, %zu words\n", kept, all - words(message));
  }
  return 0;
}
