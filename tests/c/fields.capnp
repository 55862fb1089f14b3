# One type of messages, older and newer.
# The newer one has more fields, and lists of structs in place of lists of numbers and texts.
@0xd3b2a3f0c41e9b57;

enum Color {
  red @0;
  green @1;
  blue @2;
}

struct Old {
  flag @0 :Bool = true;
  small @1 :Int8 = -5;
  number @2 :UInt64 = 7;
  color @3 :Color = green;
  ratio @4 :Float64 = 1.5;
  single @5 :Float32 = -2.5;
  name @6 :Text = "none";
  blob @7 :Data;
  numbers @8 :List(UInt16);
  texts @9 :List(Text);
  points @10 :List(Point);
  bits @11 :List(Bool);
  large @12 :List(Int64);
  voids @13 :List(Void);
  inner @14 :Point;
  other @15 :Bool;
  union {
    count @16 :UInt32 = 100;
    title @17 :Text;
    nothing @18 :Void;
  }
}

struct Point {
  x @0 :Int32;
  y @1 :Int32 = -1;
  label @2 :Text;
}

struct New {
  flag @0 :Bool = true;
  small @1 :Int8 = -5;
  number @2 :UInt64 = 7;
  color @3 :Color = green;
  ratio @4 :Float64 = 1.5;
  single @5 :Float32 = -2.5;
  name @6 :Text = "none";
  blob @7 :Data;
  numbers @8 :List(Measured);
  texts @9 :List(Named);
  points @10 :List(Placed);
  bits @11 :List(Bool);
  large @12 :List(Measured64);
  voids @13 :List(Void);
  inner @14 :Placed;
  other @15 :Bool;
  union {
    count @16 :UInt32 = 100;
    title @17 :Text;
    nothing @18 :Void;
    weight @23 :Float64 = 0.25;
  }
  added @19 :UInt16 = 12345;
  late @20 :Bool = true;
  note @21 :Text = "no note";
  far @22 :Int64 = -9;
}

struct Measured {
  value @0 :UInt16;
  unit @1 :UInt16 = 3;
  remark @2 :Text;
}

struct Measured64 {
  value @0 :Int64;
  error @1 :Float32 = 0.5;
}

struct Named {
  name @0 :Text;
  id @1 :UInt32 = 8;
}

struct Placed {
  x @0 :Int32;
  y @1 :Int32 = -1;
  label @2 :Text;
  z @3 :Int32 = 77;
  mark @4 :Text;
}
