@0xd3f8a1b27c5e9047;
# A list of numbers and one of structs that begin with such a number; the same with bits. Lists of wider numbers.

struct Small { number @0 :UInt16; }
struct Flag { bit @0 :Bool; }
struct Numbers { list @0 :List(UInt16); }
struct Smalls { list @0 :List(Small); }
struct Bits { list @0 :List(Bool); }
struct Flags { list @0 :List(Flag); }
struct Bytes { list @0 :List(UInt8); }
struct Wides { list @0 :List(UInt32); }
struct Widest { list @0 :List(UInt64); }
