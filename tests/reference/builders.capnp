@0xb0d1a7c3e5f92469;
# A text; a list of numbers, and one of structs that such a list is upgraded to.

struct Person { name @0 :Text; }
struct Numbers { list @0 :List(UInt32); }
struct Row { number @0 :UInt32; note @1 :Text; }
struct Rows { list @0 :List(Row); }
