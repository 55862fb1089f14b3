// Reads the message on standard input with the reference implementation's library. The schema of the program is old: it
// has a list of numbers where a newer schema has structs. The program prints the numbers of this list as a
// `List(UInt16)`. If the library rejects the message, the program prints the reason and ends with status 1.
#include <capnp/any.h>
#include <capnp/serialize.h>
#include <stdio.h>
#include <unistd.h>

int main() {
  auto failure = kj::runCatchingExceptions([]() {
    capnp::StreamFdMessageReader in(STDIN_FILENO);
    auto list = in.getRoot<capnp::AnyStruct>().getPointerSection()[0].getAs<capnp::List<uint16_t>>();
    for (unsigned i = 0; i < list.size(); i++) printf("%s%u", i ? ", " : "", list[i]);
    puts("");
  });
  KJ_IF_MAYBE(exception, failure) {
    fprintf(stderr, "%s\n", exception->getDescription().cStr());
    return 1;
  }
  return 0;
}
