//! Prints which limits a reader of the crate `capnp` needs in order to read an invoice, as `main.c++` does.
mod invoice_capnp;

use capnp::message::ReaderOptions;
use invoice_capnp::invoice;

fn options(words: usize, levels: i32) -> ReaderOptions {
    let mut options = ReaderOptions::new();
    options.traversal_limit_in_words(Some(words)).nesting_limit(levels);
    options
}

/// Reads each field once, within these limits.
fn read(message: &[u8], words: usize, levels: i32) -> capnp::Result<usize> {
    let reader = capnp::serialize::read_message(message, options(words, levels))?;
    let invoice = reader.get_root::<invoice::Reader>()?;
    let mut sum = invoice.get_number() as usize + invoice.get_customer()?.len();
    for line in invoice.get_lines()?.iter() {
        sum += line.get_text()?.len() + usize::from(line.get_cents() != 0);
    }
    Ok(sum)
}

fn main() -> std::io::Result<()> {
    let words: Vec<String> = std::env::args().collect();
    let message = std::fs::read(&words[2])?;
    if words[1] == "least" {
        let least_words = (0..1000).find(|&n| read(&message, n, 64).is_ok()).unwrap_or(1000);
        let least_levels = (0..64).find(|&n| read(&message, 1000, n).is_ok()).unwrap_or(64);
        println!("{least_words} {least_levels}");
    } else {
        let flat = capnp::serialize::read_message_from_flat_slice(&mut &message[..], options(8, 64));
        let stream = capnp::serialize::read_message(&message[..], options(8, 64));
        println!("flat {} stream {}", i32::from(flat.is_ok()), i32::from(stream.is_ok()));
    }
    Ok(())
}
