// Writes an archive of messages with the reference implementation. `archive COUNT` writes COUNT messages: a third are
// persons, a third are series of numbers, and a third are trees. With the same COUNT, the program always writes the
// same bytes.
#include "archive.capnp.h"
#include <capnp/message.h>
#include <capnp/serialize.h>
#include <kj/io.h>

#include <cstdint>
#include <cstdlib>
#include <string>
#include <unistd.h>

static uint64_t state = 20260101;

// Returns the next pseudo-random number below a bound.
static uint64_t below(uint64_t bound) {
  state = state * 6364136223846793005 + 1442695040888963407;
  return (state >> 33) % bound;
}

static std::string text(size_t size, char first, unsigned kinds) {
  std::string made(size, first);
  for (auto& letter : made) letter = static_cast<char>(first + below(kinds));
  return made;
}

static void fill(Person::Builder person) {
  person.setId(1 + below(1u << 30));
  person.setName(text(10 + below(20), 'a', 26));
  person.setEmail(text(10 + below(10), 'a', 26) + "@example.org");
  auto phones = person.initPhones(20 + below(10));
  for (auto phone : phones) {
    phone.setNumber("+" + text(11, '0', 10));
    phone.setKind(static_cast<Person::Phone::Kind>(below(3)));
  }
}

static void fill(Series::Builder series) {
  series.setStart(1 + below(1u << 30));
  series.setStep(1 + below(3600));
  auto values = series.initValues(135 + below(60));
  for (auto at : kj::indices(values)) values.set(at, below(1000000));
}

static void fill(Node::Builder node, unsigned height) {
  node.setValue(1 + below(1u << 30));
  if (height > 1) {
    fill(node.initLeft(), height - 1);
    fill(node.initRight(), height - 1);
  }
}

int main(int argc, char** argv) {
  auto count = argc == 2 ? strtoull(argv[1], nullptr, 10) : 0;
  kj::FdOutputStream output(STDOUT_FILENO);
  kj::BufferedOutputStreamWrapper buffered(output);
  for (unsigned long long at = 0; at < count; ++at) {
    capnp::MallocMessageBuilder message;
    if (at % 3 == 0) {
      fill(message.initRoot<Person>());
    } else if (at % 3 == 1) {
      fill(message.initRoot<Series>());
    } else {
      fill(message.initRoot<Node>(), 5);
    }
    capnp::writeMessage(buffered, message);
  }
  return 0;
}
