//! Writes messages with builders of the crate `capnp`, of which some have orphans, as `orphans.c++` does with the
//! library in C++. `orphans SEED COUNT` writes the messages as a stream to standard output. For each message it writes
//! a line to standard error: how many orphans the message has, and how many of its words hold something of an orphan.
//!
//! The crate has no orphans: if an object is dropped or overwritten, the crate sets its words to zero. So this program
//! makes orphans by hand, as a careless encoder does. It sets the words of pointers to zero in the bytes that it
//! writes, and leaves the objects behind.
use capnp::message::{Builder, HeapAllocator};
use capnp::private::layout::{ElementSize, ListBuilder, PointerBuilder, PrimitiveElement, StructBuilder, StructSize};
use capnp::traits::FromPointerBuilder;
use capnp::{Result, Word};
use std::io::Write;

/// A pointer to an object of any kind. There is no generated code for it.
struct Pointer<'a>(PointerBuilder<'a>);

impl<'a> FromPointerBuilder<'a> for Pointer<'a> {
    fn init_pointer(builder: PointerBuilder<'a>, _size: u32) -> Self {
        Pointer(builder)
    }
    fn get_from_pointer(builder: PointerBuilder<'a>, _default: Option<&'a [Word]>) -> Result<Self> {
        Ok(Pointer(builder))
    }
}

/// Numbers that are the same in every run.
struct Source(u64);

impl Source {
    fn next(&mut self) -> u64 {
        self.0 ^= self.0 << 13;
        self.0 ^= self.0 >> 7;
        self.0 ^= self.0 << 17;
        self.0.wrapping_mul(0x2545_f491_4f6c_dd1d)
    }
    fn below(&mut self, most: u32) -> u32 {
        ((self.next() >> 33) % u64::from(most)) as u32
    }
    fn number(&mut self) -> u64 {
        if self.below(3) == 0 { 0 } else { self.next() }
    }
}

fn size(source: &mut Source, words: u32, pointers: u32) -> StructSize {
    StructSize { data: source.below(words) as u16, pointers: source.below(pointers) as u16 }
}

/// Fills a struct. The second argument is an expression for the struct, which is evaluated for each field.
macro_rules! fill {
    ($source:expr, $to:expr, $size:expr, $depth:expr) => {
        for at in 0..$size.data {
            let number = $source.number();
            $to.set_data_field::<u64>(at.into(), number);
        }
        for at in 0..$size.pointers {
            if $source.below(4) > 0 {
                make($source, $to.get_pointer_field(at.into()), $depth);
            }
        }
    };
}

fn numbers<T: PrimitiveElement>(source: &mut Source, list: ListBuilder, element: impl Fn(u64) -> T) {
    for at in 0..list.len() {
        T::set(&list, at, element(source.number()));
    }
}

fn make_object(source: &mut Source, mut to: PointerBuilder, depth: u32) {
    let (most, less) = (if depth == 0 { 6 } else { 10 }, depth.saturating_sub(1));
    match source.below(most) {
        0 => {
            let count = source.below(150);
            numbers(source, to.init_list(ElementSize::Bit, count), |it| it & 1 == 1)
        }
        1 => {
            let count = source.below(20);
            numbers(source, to.init_list(ElementSize::TwoBytes, count), |it| it as u16)
        }
        2 => {
            let count = source.below(10);
            numbers(source, to.init_list(ElementSize::FourBytes, count), |it| it as u32)
        }
        3 => {
            let count = source.below(6);
            numbers(source, to.init_list(ElementSize::EightBytes, count), |it| it)
        }
        4 => {
            let data = to.init_data(source.below(60));
            data.iter_mut().for_each(|byte| *byte = b' ' + source.below(95) as u8)
        }
        5 => {
            let data = to.init_data(source.below(60));
            data.iter_mut().for_each(|byte| *byte = source.number() as u8)
        }
        6 | 7 => {
            let size = size(source, 4, 4);
            to.reborrow().init_struct(size);
            fill!(source, struct_in(&mut to, size), size, less);
        }
        8 => {
            let mut list = to.init_list(ElementSize::Pointer, source.below(4));
            for at in 0..list.len() {
                make(source, list.reborrow().get_pointer_element(at), less);
            }
        }
        _ => {
            let size = size(source, 3, 3);
            let mut list = to.init_struct_list(source.below(4), size);
            for at in 0..list.len() {
                fill!(source, list.reborrow().get_struct_element(at), size, less);
            }
        }
    }
}

/// The struct of a pointer. If it has fewer words or pointers, it is made larger.
fn struct_in<'a>(to: &'a mut PointerBuilder, size: StructSize) -> StructBuilder<'a> {
    to.reborrow().get_struct(size, None).expect("a struct that was made")
}

/// Makes the object of a pointer. In some runs, drops or overwrites it, or makes its struct larger, as a newer schema
/// does.
fn make(source: &mut Source, mut to: PointerBuilder, depth: u32) {
    make_object(source, to.reborrow(), depth);
    while source.below(3) == 0 {
        match source.below(3) {
            0 => to.clear(),
            1 => make_object(source, to.reborrow(), depth),
            _ => {
                let small = StructSize { data: 1, pointers: 1 };
                to.reborrow().init_struct(small);
                fill!(source, struct_in(&mut to, small), small, depth.saturating_sub(1));
                struct_in(&mut to, StructSize { data: 2 + source.below(2) as u16, pointers: 2 });
            }
        }
    }
}

/// The number of words of some segments that aren't zero.
fn words(segments: &[Vec<u8>]) -> usize {
    segments.iter().flat_map(|it| it.chunks(8)).filter(|it| it.iter().any(|&byte| byte != 0)).count()
}

fn segments(message: &Builder<HeapAllocator>) -> Vec<Vec<u8>> {
    message.get_segments_for_output().iter().map(|it| it.to_vec()).collect()
}

/// Writes a message of these segments.
fn write(segments: &[Vec<u8>], out: &mut impl Write) -> std::io::Result<()> {
    let mut table = vec![segments.len() as u32 - 1];
    table.extend(segments.iter().map(|it| (it.len() / 8) as u32));
    table.resize((table.len() + 1) / 2 * 2, 0);
    for number in table {
        out.write_all(&number.to_le_bytes())?;
    }
    segments.iter().try_for_each(|it| out.write_all(it))
}

fn main() -> std::io::Result<()> {
    let given: Vec<u64> = std::env::args().skip(1).map(|it| it.parse().unwrap()).collect();
    let source = &mut Source(given[0] * 2 + 1);
    let (out, told) = (&mut std::io::stdout().lock(), &mut std::io::stderr().lock());
    for _ in 0..given[1] {
        let mut message = Builder::new(HeapAllocator::new().first_segment_words(1 + source.below(40)));
        let mut root = message.init_root::<Pointer>().0;
        let size = StructSize { data: source.below(4) as u16, pointers: 1 + source.below(5) as u16 };
        let orphaned = source.below(u32::from(size.pointers));
        root.reborrow().init_struct(size);
        fill!(source, struct_in(&mut root, size), size, 3);
        let mut left = segments(&message);
        if source.below(10) > 0 {
            writeln!(told, "0 orphans, 0 words")?;
        } else {
            // The crate capnp clears the pointer, and also sets the words of the object to zero. Another builder may
            // clear only the pointer, and leave the words of the object in the message.
            let mut root = message.get_root::<Pointer>().expect("the root that was made").0;
            struct_in(&mut root, size).get_pointer_field(orphaned as usize).clear();
            let cleared = segments(&message);
            let slot = slot_of(&left, size, orphaned);
            left[slot.0][slot.1..slot.1 + 8].fill(0);
            writeln!(told, "1 orphans, {} words", words(&left) - words(&cleared))?;
        }
        write(&left, out)?;
    }
    Ok(())
}

/// The segment and the offset of a pointer of the root's struct.
fn slot_of(segments: &[Vec<u8>], size: StructSize, pointer: u32) -> (usize, usize) {
    let word = |segment: usize, at: usize| {
        u64::from_le_bytes(segments[segment][at..at + 8].try_into().unwrap())
    };
    let (mut segment, mut at) = (0, 0);
    if word(0, 0) & 3 == 2 {
        (segment, at) = ((word(0, 0) >> 32) as usize, (word(0, 0) as u32 >> 3) as usize * 8);
    }
    at += 8 + (word(segment, at) as u32 >> 2) as usize * 8;
    (segment, at + 8 * (size.data as usize + pointer as usize))
}
