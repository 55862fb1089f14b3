// Runs the reference implementation on a message with its segment table. `reference OPERATION STEPS < MESSAGE` does the
// operation STEPS times, and prints the number of bytes that one operation works on. `reference write < MESSAGE` writes
// the canonical bytes of the message.
#include <capnp/any.h>
#include <capnp/message.h>
#include <capnp/serialize-packed.h>
#include <capnp/serialize.h>
#include <kj/io.h>

#include <cstdio>
#include <cstdlib>
#include <cstring>
#include <string>
#include <unistd.h>

using Words = kj::Array<capnp::word>;

static Words copyOf(kj::ArrayPtr<const kj::byte> bytes) {
  auto words = kj::heapArray<capnp::word>(bytes.size() / sizeof(capnp::word));
  memcpy(words.begin(), bytes.begin(), words.asBytes().size());
  return words;
}

static Words readInput() {
  kj::FdInputStream input(STDIN_FILENO);
  auto bytes = input.readAllBytes();
  return copyOf(bytes);
}

static capnp::ReaderOptions usualLimits() {
  capnp::ReaderOptions options;
  options.traversalLimitInWords = 8388608;
  options.nestingLimit = 64;
  return options;
}

static Words canonicalOf(const Words& framed) {
  capnp::FlatArrayMessageReader message(framed, usualLimits());
  return message.getRoot<capnp::AnyPointer>().getAs<capnp::AnyStruct>().canonicalize();
}

static bool isCanonical(const Words& canonical) {
  kj::ArrayPtr<const capnp::word> segments[1] = {canonical.asPtr()};
  capnp::SegmentArrayMessageReader message(segments, usualLimits());
  return message.isCanonical();
}

static kj::Array<kj::byte> packedOf(const Words& words) {
  kj::VectorOutputStream packed;
  {
    kj::BufferedOutputStreamWrapper buffered(packed);
    capnp::_::PackedOutputStream packer(buffered);
    packer.write(words.begin(), words.asBytes().size());
  }
  return kj::heapArray(packed.getArray());
}

static Words unpackedOf(kj::ArrayPtr<const kj::byte> packed, size_t count) {
  kj::ArrayInputStream input(packed);
  capnp::_::PackedInputStream unpacker(input);
  auto words = kj::heapArray<capnp::word>(count);
  unpacker.read(words.begin(), words.asBytes().size());
  return words;
}

int main(int count, char** words) {
  std::string operation = count > 1 ? words[1] : "";
  int steps = count > 2 ? atoi(words[2]) : 0;
  Words framed = readInput();
  size_t size = framed.asBytes().size();
  size_t sum = 0;
  if (operation == "write") {
    Words canonical = canonicalOf(framed);
    return fwrite(canonical.begin(), sizeof(capnp::word), canonical.size(), stdout) == canonical.size() ? 0 : 1;
  } else if (operation == "canonical") {
    for (int i = 0; i < steps; i++) sum += canonicalOf(framed).size();
  } else if (operation == "is_canonical") {
    Words canonical = canonicalOf(framed);
    size = canonical.asBytes().size();
    for (int i = 0; i < steps; i++) sum += isCanonical(canonical);
  } else if (operation == "pack") {
    for (int i = 0; i < steps; i++) sum += packedOf(framed).size();
  } else if (operation == "unpack") {
    auto packed = packedOf(framed);
    for (int i = 0; i < steps; i++) sum += unpackedOf(packed, framed.size()).size();
  } else {
    fprintf(stderr, "canonical, is_canonical, pack, unpack or write\n");
    return 2;
  }
  printf("%zu %zu\n", size, sum);
}
