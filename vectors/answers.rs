//! The crate `capnp` over the cases of vectors.json: asked and answering as `answers.c++`.
//!
//! The crate packs only what a builder holds. A message that its builder lays out otherwise is refused here.
use capnp::message::{Builder, HeapAllocator, Reader, ReaderOptions};
use capnp::serialize::{self, OwnedSegments};
use capnp::{any_pointer, serialize_packed, Error, Result, Word};
use std::io::{self, BufRead, Write};

fn bytes_of(digits: &str) -> Vec<u8> {
    let byte = |at| u8::from_str_radix(&digits[at..at + 2], 16).expect("digits");
    (0..digits.len() / 2).map(|at| byte(2 * at)).collect()
}

fn message(mut bytes: &[u8], limits: ReaderOptions) -> Result<Reader<OwnedSegments>> {
    serialize::read_message(&mut bytes, limits)
}

/// A builder that holds the value of a message, in one segment.
fn built(message: &Reader<OwnedSegments>, words: usize) -> Result<Builder<HeapAllocator>> {
    let allocator = HeapAllocator::new().first_segment_words(words as u32);
    let mut built = Builder::new(allocator);
    built.set_root(message.get_root::<any_pointer::Reader>()?)?;
    Ok(built)
}

fn answer(word: &str, bytes: &[u8], limits: ReaderOptions) -> Result<Vec<u8>> {
    let mut out = Vec::new();
    match word {
        "canonical" => {
            let words = message(bytes, limits)?.canonicalize()?;
            out.extend_from_slice(Word::words_to_bytes(&words));
        }
        "pack" => {
            let built = built(&message(bytes, limits)?, bytes.len() / 8)?;
            if serialize::write_message_to_words(&built) != bytes {
                return Err(Error::failed("not as its builder writes it".into()));
            }
            serialize_packed::write_message(&mut out, &built)?;
        }
        _ => {
            let message = serialize_packed::read_message(bytes, limits)?;
            serialize::write_message_segments(&mut out, &message.into_segments())?;
        }
    }
    Ok(out)
}

fn main() -> io::Result<()> {
    std::panic::set_hook(Box::new(|_| ()));
    for line in io::stdin().lock().lines() {
        let line = line?;
        let words: Vec<&str> = line.split(' ').collect();
        let number = |at: usize| words[at].parse::<usize>().expect("a number");
        let mut limits = ReaderOptions::new();
        limits.traversal_limit_in_words(Some(number(2)));
        limits.nesting_limit(number(3) as i32);
        let bytes = bytes_of(words[1]);
        let mut out = io::stdout();
        match std::panic::catch_unwind(|| answer(words[0], &bytes, limits)) {
            Ok(Ok(bytes)) => {
                for byte in bytes {
                    write!(out, "{byte:02x}")?;
                }
                writeln!(out)?;
            }
            Ok(Err(why)) => writeln!(out, "refused {}", why.to_string().replace('\n', " "))?,
            Err(_) => writeln!(out, "refused a panic")?,
        }
    }
    Ok(())
}
