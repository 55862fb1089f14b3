@0xd3f8a1b27c5e9046;
# One field of each kind that an encoder writes.

struct Point {
  x @0 :Int32;
  y @1 :Int32;
}

struct Sample {
  flag @0 :Bool;
  small @1 :UInt16;
  large @2 :UInt64;
  name @3 :Text;
  blob @4 :Data;
  bits @5 :List(Bool);
  pairs @6 :List(UInt16);
  quads @7 :List(UInt32);
  octs @8 :List(UInt64);
  points @9 :List(Point);
  names @10 :List(Text);
  below @11 :Sample;
  voids @12 :List(Void);
}
