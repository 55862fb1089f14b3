// Writes where the reference implementation finds the objects of each message of a stream. Prints a line for each
// pointer, in preorder. The line has the object's offset from the beginning of the message's segment table. For a
// message that the implementation rejects, the program prints only one line.

#include <capnp/any.h>
#include <capnp/serialize.h>
#include <kj/exception.h>
#include <kj/io.h>

#include <cstdint>
#include <cstdio>
#include <cstring>
#include <string>
#include <vector>

using namespace capnp;

namespace {

const unsigned char* base;
std::string text;

void line(const char* kind, const void* at, size_t first, size_t second) {
  char room[96];
  long long offset = at == nullptr ? -1 : static_cast<const unsigned char*>(at) - base;
  snprintf(room, sizeof room, "%s %lld %zu %zu\n", kind, offset, first, second);
  text += room;
}

void pointer(AnyPointer::Reader slot);

void pointers(AnyStruct::Reader body) {
  for (auto slot : body.getPointerSection()) pointer(slot);
}

void list(AnyList::Reader items) {
  static const char* kinds[] = {"void", "bits", "bytes", "u16", "u32", "u64"};
  size_t count = items.size();
  switch (items.getElementSize()) {
    case ElementSize::POINTER: {
      line("pointers", nullptr, count, 0);
      for (auto slot : items.as<List<AnyPointer>>()) pointer(slot);
      break;
    }
    case ElementSize::INLINE_COMPOSITE: {
      auto rows = items.as<List<AnyStruct>>();
      size_t words = 0, slots = 0;
      const void* at = nullptr;
      if (count > 0) {
        words = rows[0].getDataSection().size() / 8;
        slots = rows[0].getPointerSection().size();
        at = rows[0].getDataSection().begin();
      }
      line("rows", at, count, words << 16 | slots);
      for (auto row : rows) pointers(row);
      break;
    }
    default: {
      auto raw = items.getRawBytes();
      line(kinds[static_cast<int>(items.getElementSize())], raw.size() == 0 ? nullptr : raw.begin(), count, 0);
    }
  }
}

void pointer(AnyPointer::Reader slot) {
  switch (slot.getPointerType()) {
    case PointerType::NULL_:
      line("null", nullptr, 0, 0);
      break;
    case PointerType::STRUCT: {
      auto body = slot.getAs<AnyStruct>();
      auto data = body.getDataSection();
      line("struct", data.size() == 0 ? nullptr : data.begin(), data.size() / 8, body.getPointerSection().size());
      pointers(body);
      break;
    }
    case PointerType::LIST:
      list(slot.getAs<AnyList>());
      break;
    case PointerType::CAPABILITY:
      line("capability", nullptr, 0, 0);
      break;
  }
}

void message(const std::vector<unsigned char>& bytes) {
  kj::Array<word> words = kj::heapArray<word>(bytes.size() / sizeof(word));
  memcpy(words.begin(), bytes.data(), bytes.size());
  base = reinterpret_cast<const unsigned char*>(words.begin());
  text.clear();
  auto refused = kj::runCatchingExceptions([&]() {
    FlatArrayMessageReader reader(words, {8 << 20, 64});
    pointer(reader.getRoot<AnyPointer>());
  });
  if (refused == nullptr) {
    fwrite(text.data(), 1, text.size(), stdout);
  } else {
    puts("refused");
  }
  puts("end");
}

}  // namespace

// On standard input, the length of a message comes before the message. The length is a number of bytes, written as four
// bytes, the least significant byte first.
int main() {
  unsigned char head[4];
  while (fread(head, 1, 4, stdin) == 4) {
    std::vector<unsigned char> bytes(head[0] | head[1] << 8 | head[2] << 16 | static_cast<uint32_t>(head[3]) << 24);
    if (fread(bytes.data(), 1, bytes.size(), stdin) != bytes.size()) return 1;
    message(bytes);
  }
  return 0;
}
