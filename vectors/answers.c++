// The reference implementation in C++ over the cases of vectors.json: tests/reference/vectors asks, and compares. A
// line of standard input is a word, bytes in hexadecimal (`-` for none), the traversal limit in words and the nesting
// limit. `canonical` makes the canonical bytes of a message, `pack` its packed text, and `unpack` a message of its
// packed text. A line of standard output is the bytes of the answer, or `refused` and why.
#include <capnp/any.h>
#include <capnp/message.h>
#include <capnp/serialize-packed.h>
#include <capnp/serialize.h>
#include <kj/encoding.h>
#include <kj/io.h>
#include <iostream>
#include <string>

using Words = kj::Array<capnp::word>;

static Words canonicalOf(capnp::MessageReader& in) {
  capnp::MallocMessageBuilder out(1u << 16);
  out.getRoot<capnp::AnyPointer>().setCanonical(in.getRoot<capnp::AnyPointer>());
  return kj::heapArray(out.getSegmentsForOutput()[0]);
}

// All segments of a message: behind the last one there is none, which has no address.
static kj::Array<kj::ArrayPtr<const capnp::word>> segmentsOf(capnp::MessageReader& in) {
  kj::Vector<kj::ArrayPtr<const capnp::word>> segments;
  for (uint i = 0; i == 0 || in.getSegment(i).begin() != nullptr; i++) segments.add(in.getSegment(i));
  return segments.releaseAsArray();
}

static kj::String answerTo(kj::StringPtr word, kj::ArrayPtr<const kj::byte> bytes, capnp::ReaderOptions options) {
  kj::ArrayInputStream input(bytes);
  if (word == "unpack") {
    capnp::PackedMessageReader in(input, options);
    return kj::encodeHex(capnp::messageToFlatArray(segmentsOf(in)).asBytes());
  }
  capnp::InputStreamMessageReader in(input, options);
  if (word == "canonical") return kj::encodeHex(canonicalOf(in).asBytes());
  kj::VectorOutputStream out;
  capnp::writePackedMessage(out, segmentsOf(in));
  return kj::encodeHex(out.getArray());
}

int main() {
  std::string word, digits;
  capnp::ReaderOptions options;
  while (std::cin >> word >> digits >> options.traversalLimitInWords >> options.nestingLimit) {
    auto bytes = kj::decodeHex(kj::arrayPtr(digits.data(), digits == "-" ? 0 : digits.size()));
    auto failure = kj::runCatchingExceptions([&]() {
      std::cout << answerTo(word.c_str(), bytes, options).cStr() << "\n";
    });
    KJ_IF_MAYBE(exception, failure) {
      std::cout << "refused " << exception->getDescription().cStr() << "\n";
    }
  }
  return 0;
}
