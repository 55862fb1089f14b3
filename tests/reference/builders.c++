// Makes a message with a builder of the reference implementation, and writes the bytes of the message. These bytes
// aren't canonical. With the argument `twice`, the program sets a text a second time. With `upgraded`, it makes a list
// of numbers. It then calls the getter of another schema, which has a list of structs in this place. With `empty`, it
// calls the getter of the root while the root pointer is still null.

#include <capnp/message.h>
#include <kj/io.h>
#include <unistd.h>

#include "builders.capnp.h"

int main(int, char** words) {
  capnp::MallocMessageBuilder message;
  kj::StringPtr word = words[1];
  if (word == "twice") {
    auto person = message.initRoot<Person>();
    person.setName("Ada");
    person.setName("Grace");
  }
  if (word == "upgraded") {
    auto list = message.initRoot<Numbers>().initList(2);
    list.set(0, 7);
    list.set(1, 9);
    message.getRoot<Rows>().getList();
  }
  if (word == "empty") message.getRoot<Person>();
  for (auto segment : message.getSegmentsForOutput()) {
    auto bytes = segment.asBytes();
    kj::FdOutputStream(STDOUT_FILENO).write(bytes.begin(), bytes.size());
  }
  return 0;
}
