//! Reads the message with the crate `capnp`, as `upgraded.c++` does with the library in C++.
use capnp::message::ReaderOptions;
use capnp::private::layout::{PointerReader, StructReader};
use capnp::traits::FromPointerReader;
use capnp::{primitive_list, serialize, Result, Word};

/// A struct of any type. There is no generated code for it.
struct Root<'a>(StructReader<'a>);

impl<'a> FromPointerReader<'a> for Root<'a> {
    fn get_from_pointer(reader: &PointerReader<'a>, default: Option<&'a [Word]>) -> Result<Self> {
        Ok(Root(reader.get_struct(default)?))
    }
}

fn numbers() -> Result<String> {
    let message = serialize::read_message(std::io::stdin(), ReaderOptions::new())?;
    let first = message.get_root::<Root>()?.0.get_pointer_field(0);
    let list = primitive_list::Reader::<u16>::get_from_pointer(&first, None)?;
    Ok(list.iter().map(|number| number.to_string()).collect::<Vec<_>>().join(", "))
}

fn main() {
    match numbers() {
        Ok(numbers) => println!("{numbers}"),
        Err(why) => {
            eprintln!("{why}");
            std::process::exit(1);
        }
    }
}
