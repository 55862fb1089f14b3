@0xb7a6d1c24e5f8390;
# Types whose fields have defaults, and newer ones of the same.

struct Old {
  u64 @0 :UInt64 = 7;
  u32 @1 :UInt32 = 4000000000;
  u16 @2 :UInt16 = 65535;
  u8 @3 :UInt8 = 200;
  i64 @4 :Int64 = -5;
  i32 @5 :Int32 = -2000000000;
  i16 @6 :Int16 = 1234;
  i8 @7 :Int8 = -128;
  f64 @8 :Float64 = 2.5;
  f32 @9 :Float32 = -0.5;
  yes @10 :Bool = true;
  no @11 :Bool;
  name @12 :Text = "default";
  colour @13 :Colour = blue;
  numbers @14 :List(UInt16);
}

enum Colour {
  red @0;
  green @1;
  blue @2;
}

struct New {
  u64 @0 :UInt64 = 7;
  u32 @1 :UInt32 = 4000000000;
  u16 @2 :UInt16 = 65535;
  u8 @3 :UInt8 = 200;
  i64 @4 :Int64 = -5;
  i32 @5 :Int32 = -2000000000;
  i16 @6 :Int16 = 1234;
  i8 @7 :Int8 = -128;
  f64 @8 :Float64 = 2.5;
  f32 @9 :Float32 = -0.5;
  yes @10 :Bool = true;
  no @11 :Bool;
  name @12 :Text = "default";
  colour @13 :Colour = blue;
  numbers @14 :List(Number);
  later @15 :UInt64 = 9;
  more @16 :Text;
}

struct Number {
  number @0 :UInt16;
  name @1 :Text;
}
