//! The crate `capnp` on a framed message, as `bench/reference.c++` is of the reference implementation in C++.
//!
//!     count OPERATION STEPS < MESSAGE   does it so many times, prints the number of bytes to divide its cost by
//!     count write < MESSAGE             writes the canonical bytes
use capnp::message::{Builder, HeapAllocator, Reader, ReaderOptions, ReaderSegments, SegmentArray};
use capnp::serialize::read_message_from_flat_slice;
use capnp::{any_pointer, serialize_packed, Result, Word};
use std::io::{Read, Write};

fn limits() -> ReaderOptions {
    let mut options = ReaderOptions::new();
    options.traversal_limit_in_words(Some(8_388_608));
    options.nesting_limit(64);
    options
}

fn message(mut framed: &[u8]) -> Result<Reader<impl ReaderSegments + '_>> {
    read_message_from_flat_slice(&mut framed, limits())
}

/// The canonical bytes, with what reading the table takes, as in C++.
fn canonical(framed: &[u8]) -> Result<Vec<Word>> {
    message(framed)?.canonicalize()
}

fn is_canonical(words: &[u8]) -> Result<bool> {
    let segments = [words];
    Reader::new(SegmentArray::new(&segments), limits()).is_canonical()
}

/// A builder of one segment that has the message's value: the crate packs builders alone.
fn built(framed: &[u8]) -> Result<Builder<HeapAllocator>> {
    let words = (framed.len() / 8) as u32 + 1;
    let mut built = Builder::new(HeapAllocator::new().first_segment_words(words));
    built.set_root(message(framed)?.get_root::<any_pointer::Reader>()?)?;
    Ok(built)
}

fn packed(built: &Builder<HeapAllocator>) -> Result<Vec<u8>> {
    let mut out = Vec::new();
    serialize_packed::write_message(&mut out, built)?;
    Ok(out)
}

fn main() -> std::result::Result<(), Box<dyn std::error::Error>> {
    let words: Vec<String> = std::env::args().collect();
    let steps = words.get(2).map_or(Ok(0), |it| it.parse())?;
    let mut framed = Vec::new();
    std::io::stdin().read_to_end(&mut framed)?;
    let (mut size, mut sum) = (framed.len(), 0);
    match words.get(1).map(String::as_str) {
        Some("write") => {
            std::io::stdout().write_all(Word::words_to_bytes(&canonical(&framed)?))?;
            return Ok(());
        }
        Some("canonical") => {
            for _ in 0..steps {
                sum += canonical(&framed)?.len();
            }
        }
        Some("is_canonical") => {
            let words = canonical(&framed)?;
            let bytes = Word::words_to_bytes(&words);
            size = bytes.len();
            for _ in 0..steps {
                sum += usize::from(is_canonical(bytes)?);
            }
        }
        Some("pack") => {
            let built = built(&framed)?;
            size = 8 * capnp::serialize::compute_serialized_size_in_words(&built);
            for _ in 0..steps {
                sum += packed(&built)?.len();
            }
        }
        Some("unpack") => {
            let built = built(&framed)?;
            size = 8 * capnp::serialize::compute_serialized_size_in_words(&built);
            let packed = packed(&built)?;
            for _ in 0..steps {
                let read = serialize_packed::read_message(&packed[..], limits())?;
                sum += read.into_segments().len();
            }
        }
        _ => return Err("canonical, is_canonical, pack, unpack or write".into()),
    }
    println!("{size} {sum}");
    Ok(())
}
