//! The calls of the module that `capnp compile -orust` makes from the page's schema, written by hand.
//!
//! Debian has the crate `capnp`, but not its generator. Like a generated module, this module uses
//! `capnp::private::layout`, with the offsets that `capnp compile -ocapnp` prints.
#![allow(dead_code)]
use capnp::private::layout::{
    PointerBuilder, PointerReader, StructBuilder, StructReader, StructSize,
};
use capnp::traits::{
    FromPointerBuilder, FromPointerReader, FromStructBuilder, FromStructReader, HasStructSize,
    IntoInternalStructReader, Owned as IsOwned, OwnedStruct, SetPointerBuilder,
};
use capnp::{struct_list, text, Result, Word};

/// A struct type: its module, its number of data words, and its number of pointers.
macro_rules! struct_type {
    ($name:ident, $data:literal, $pointers:literal, {$($reads:tt)*}, {$($writes:tt)*}) => {
        pub mod $name {
            use super::*;

            pub struct Owned(());
            impl<'a> IsOwned<'a> for Owned {
                type Reader = Reader<'a>;
                type Builder = Builder<'a>;
            }
            impl<'a> OwnedStruct<'a> for Owned {
                type Reader = Reader<'a>;
                type Builder = Builder<'a>;
            }

            #[derive(Clone, Copy)]
            pub struct Reader<'a>(StructReader<'a>);
            impl<'a> FromStructReader<'a> for Reader<'a> {
                fn new(reader: StructReader<'a>) -> Self {
                    Reader(reader)
                }
            }
            impl<'a> FromPointerReader<'a> for Reader<'a> {
                fn get_from_pointer(from: &PointerReader<'a>, default: Option<&'a [Word]>) -> Result<Self> {
                    Ok(Reader(from.get_struct(default)?))
                }
            }
            impl<'a> IntoInternalStructReader<'a> for Reader<'a> {
                fn into_internal_struct_reader(self) -> StructReader<'a> {
                    self.0
                }
            }
            impl<'a> SetPointerBuilder for Reader<'a> {
                fn set_pointer_builder(to: PointerBuilder<'_>, from: Self, canonicalize: bool) -> Result<()> {
                    to.set_struct(&from.0, canonicalize)
                }
            }
            impl<'a> Reader<'a> {
                $($reads)*
            }

            pub struct Builder<'a>(StructBuilder<'a>);
            impl HasStructSize for Builder<'_> {
                fn struct_size() -> StructSize {
                    StructSize { data: $data, pointers: $pointers }
                }
            }
            impl<'a> FromStructBuilder<'a> for Builder<'a> {
                fn new(builder: StructBuilder<'a>) -> Self {
                    Builder(builder)
                }
            }
            impl<'a> FromPointerBuilder<'a> for Builder<'a> {
                fn init_pointer(builder: PointerBuilder<'a>, _: u32) -> Self {
                    Builder(builder.init_struct(Self::struct_size()))
                }
                fn get_from_pointer(builder: PointerBuilder<'a>, default: Option<&'a [Word]>) -> Result<Self> {
                    Ok(Builder(builder.get_struct(Self::struct_size(), default)?))
                }
            }
            impl<'a> Builder<'a> {
                $($writes)*
            }
        }
    };
}

struct_type!(
    invoice,
    1,
    2,
    {
        pub fn get_number(self) -> u64 {
            self.0.get_data_field::<u64>(0)
        }
        pub fn get_customer(self) -> Result<text::Reader<'a>> {
            FromPointerReader::get_from_pointer(&self.0.get_pointer_field(0), None)
        }
        pub fn get_lines(self) -> Result<struct_list::Reader<'a, line::Owned>> {
            FromPointerReader::get_from_pointer(&self.0.get_pointer_field(1), None)
        }
    },
    {
        pub fn set_number(&mut self, value: u64) {
            self.0.set_data_field::<u64>(0, value);
        }
        pub fn set_customer(&mut self, value: text::Reader<'_>) {
            self.0.get_pointer_field(0).set_text(value);
        }
        pub fn init_lines(self, count: u32) -> struct_list::Builder<'a, line::Owned> {
            FromPointerBuilder::init_pointer(self.0.get_pointer_field(1), count)
        }
    }
);

struct_type!(
    line,
    1,
    1,
    {
        pub fn get_text(self) -> Result<text::Reader<'a>> {
            FromPointerReader::get_from_pointer(&self.0.get_pointer_field(0), None)
        }
        pub fn get_cents(self) -> i64 {
            self.0.get_data_field::<i64>(0)
        }
    },
    {
        pub fn set_text(&mut self, value: text::Reader<'_>) {
            self.0.get_pointer_field(0).set_text(value);
        }
        pub fn set_cents(&mut self, value: i64) {
            self.0.set_data_field::<i64>(0, value);
        }
    }
);
