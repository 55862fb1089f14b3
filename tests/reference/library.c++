// Writes what the reference implementation's library returns for the message on standard input. The first argument is
// `canonical` for the first message of a stream, `canonical-packed` for a packed message, `is-canonical` for the words
// of one segment, or `pack` for the packed bytes of one message.
//
// After the first argument, the traversal limit in words and the nesting limit may follow. If the library rejects the
// message, the program prints the reason and ends with status 1.
#include <capnp/any.h>
#include <capnp/message.h>
#include <capnp/serialize-packed.h>
#include <capnp/serialize.h>
#include <kj/io.h>
#include <stdio.h>
#include <stdlib.h>
#include <string.h>
#include <unistd.h>

static void canonical(capnp::MessageReader& in) {
  capnp::MallocMessageBuilder out(1u << 16);
  out.getRoot<capnp::AnyPointer>().setCanonical(in.getRoot<capnp::AnyPointer>());
  auto bytes = out.getSegmentsForOutput()[0].asBytes();
  kj::FdOutputStream(STDOUT_FILENO).write(bytes.begin(), bytes.size());
}

static void canonicalOfStream(capnp::ReaderOptions options) {
  capnp::StreamFdMessageReader in(STDIN_FILENO, options);
  canonical(in);
}

static void canonicalOfPacked(capnp::ReaderOptions options) {
  capnp::PackedFdMessageReader in(STDIN_FILENO, options);
  canonical(in);
}

// Packs the segments of the input as the library packs a message. The segment table of the input has to be valid.
static void pack() {
  auto bytes = kj::FdInputStream(STDIN_FILENO).readAllBytes();
  auto words = kj::heapArray<capnp::word>(bytes.size() / sizeof(capnp::word));
  memcpy(words.begin(), bytes.begin(), words.size() * sizeof(capnp::word));
  auto table = reinterpret_cast<const uint32_t*>(words.begin());
  auto from = words.begin() + (table[0] + 1) / 2 + 1;
  kj::Vector<kj::ArrayPtr<const capnp::word>> segments;
  for (uint32_t i = 0; i <= table[0]; i++) {
    segments.add(from, table[i + 1]);
    from += table[i + 1];
  }
  kj::FdOutputStream out(STDOUT_FILENO);
  capnp::writePackedMessage(out, segments.asPtr());
}

static void isCanonical(capnp::ReaderOptions options) {
  auto bytes = kj::FdInputStream(STDIN_FILENO).readAllBytes();
  auto words = kj::heapArray<capnp::word>(bytes.size() / sizeof(capnp::word));
  memcpy(words.begin(), bytes.begin(), words.size() * sizeof(capnp::word));
  kj::ArrayPtr<const capnp::word> segments[] = {words};
  puts(capnp::SegmentArrayMessageReader(segments, options).isCanonical() ? "canonical" : "not-canonical");
}

int main(int count, char** words) {
  capnp::ReaderOptions options;
  if (count > 2) options.traversalLimitInWords = strtoull(words[2], nullptr, 10);
  if (count > 3) options.nestingLimit = atoi(words[3]);
  kj::StringPtr word = words[1];
  auto failure = kj::runCatchingExceptions([&]() {
    if (word == "canonical") canonicalOfStream(options);
    if (word == "canonical-packed") canonicalOfPacked(options);
    if (word == "is-canonical") isCanonical(options);
    if (word == "pack") pack();
  });
  KJ_IF_MAYBE(exception, failure) {
    fprintf(stderr, "%s\n", exception->getDescription().cStr());
    return 1;
  }
  return 0;
}
