@0xb8c1e5d2f9a34761;
# The messages of the archive that bench/archive measures.

struct Person {
  id @0 :UInt64;
  name @1 :Text;
  email @2 :Text;
  phones @3 :List(Phone);

  struct Phone {
    number @0 :Text;
    kind @1 :Kind;
    enum Kind { mobile @0; home @1; work @2; }
  }
}

struct Series {
  start @0 :UInt64;
  step @1 :UInt32;
  values @2 :List(UInt64);
}

struct Node {
  value @0 :UInt64;
  left @1 :Node;
  right @2 :Node;
}
