//! Builders of the crate `capnp`, by their segments.
//!
//! `capn` answers them as the crate's own canonical form is.
//!
//!     reference SEED COUNT   so many builders of two segments or more, and the others that come between them
use capn::{segments, Form, Limits};
use capnp::message::{AllocationStrategy, Builder, HeapAllocator};
use capnp::primitive_list;
use capnp::private::layout::{
    ElementSize, ListBuilder, PointerBuilder, PrimitiveElement, StructBuilder, StructSize,
};
use capnp::traits::FromPointerBuilder;

/// A pointer of any kind.
struct Any<'a>(PointerBuilder<'a>);

impl<'a> FromPointerBuilder<'a> for Any<'a> {
    fn init_pointer(builder: PointerBuilder<'a>, _: u32) -> Self {
        Any(builder)
    }

    fn get_from_pointer(
        builder: PointerBuilder<'a>,
        _: Option<&'a [capnp::Word]>,
    ) -> capnp::Result<Self> {
        Ok(Any(builder))
    }
}

struct Source(u64);

impl Source {
    fn next(&mut self) -> u64 {
        self.0 ^= self.0 << 13;
        self.0 ^= self.0 >> 7;
        self.0 ^= self.0 << 17;
        self.0
    }

    fn below(&mut self, most: u64) -> u32 {
        (self.next() >> 11)
            .checked_rem(most)
            .map_or(0, |it| it as u32)
    }

    /// A word, often 0.
    fn word(&mut self) -> u64 {
        [0, self.next()][self.below(2) as usize]
    }
}

fn size(source: &mut Source, most: u64) -> StructSize {
    StructSize {
        data: source.below(most) as u16,
        pointers: source.below(most) as u16,
    }
}

/// Where a struct is, to be asked for each of its parts: a builder can be copied in some versions of the crate alone.
trait Place {
    fn structure(&mut self) -> StructBuilder<'_>;
}

struct Slot<'a>(PointerBuilder<'a>, StructSize);

impl Place for Slot<'_> {
    fn structure(&mut self) -> StructBuilder<'_> {
        self.0
            .reborrow()
            .get_struct(self.1, None)
            .expect("a struct")
    }
}

struct Row<'a>(ListBuilder<'a>, u32);

impl Place for Row<'_> {
    fn structure(&mut self) -> StructBuilder<'_> {
        self.0.reborrow().get_struct_element(self.1)
    }
}

fn structure(source: &mut Source, to: &mut impl Place, size: StructSize, depth: u32) {
    for at in 0..usize::from(size.data) {
        to.structure().set_data_field::<u64>(at, source.word());
    }
    for at in 0..usize::from(size.pointers) {
        object(source, to.structure().get_pointer_field(at), depth);
    }
}

fn init(source: &mut Source, mut to: PointerBuilder, size: StructSize, depth: u32) {
    to.reborrow().init_struct(size);
    structure(source, &mut Slot(to, size), size, depth);
}

fn list<T: PrimitiveElement>(to: PointerBuilder, count: u32, mut number: impl FnMut() -> T) {
    let mut list = primitive_list::Builder::init_pointer(to, count);
    (0..count).for_each(|i| list.set(i, number()));
}

/// An object of any kind, of some size.
fn object(source: &mut Source, to: PointerBuilder, depth: u32) {
    match source.below(if depth > 4 { 3 } else { 6 }) {
        0 => {}
        1 => {
            let length = source.below(40);
            let data = to.init_data(length);
            data.fill_with(|| source.word() as u8);
        }
        2 => {
            let count = source.below(20);
            match source.below(5) {
                0 => drop(to.init_list(ElementSize::Void, count)),
                1 => list(to, count, || source.word() & 1 == 1),
                2 => list(to, count, || source.word() as u16),
                3 => list(to, count, || source.word() as i32),
                _ => list(to, count, || source.word()),
            }
        }
        3 => {
            let count = source.below(5);
            let mut list = to.init_list(ElementSize::Pointer, count);
            for i in 0..count {
                object(source, list.reborrow().get_pointer_element(i), depth + 1);
            }
        }
        4 => {
            let (count, size) = (source.below(5), size(source, 3));
            let mut list = to.init_struct_list(count, size);
            for i in 0..count {
                let row = &mut Row(list.reborrow(), i);
                structure(source, row, size, depth + 1);
            }
        }
        _ => {
            let size = size(source, 5);
            init(source, to, size, depth + 1);
        }
    }
}

/// One builder; true if it has several segments.
fn is_several(source: &mut Source) -> bool {
    let strategy = match source.below(4) {
        0 => AllocationStrategy::GrowHeuristically,
        _ => AllocationStrategy::FixedSize,
    };
    let allocator = HeapAllocator::new()
        .first_segment_words(1 + source.below(40))
        .allocation_strategy(strategy);
    let mut message = Builder::new(allocator);
    let Any(root) = message.init_root::<Any>();
    let size = size(source, 5);
    init(source, root, size, 0);

    let limits = Limits::usual();
    let held = message.get_segments_for_output();
    let count = held.len();
    let canonical = segments::canonical(&held, &limits).expect("canonical bytes");
    let digest = segments::digest(&held, &limits).expect("a digest");
    let figures = segments::survey(&held, &limits).expect("figures");
    assert_eq!(figures.segments as usize, count);
    let checked = segments::check(&held, &limits).expect("a price");
    assert_eq!(
        (checked.paid, checked.visits),
        (figures.paid, figures.visits)
    );
    let framed = capnp::serialize::write_message_to_words(&message);
    assert_eq!(capn::digest(&framed, Form::Stream, &limits), Ok(digest));
    let theirs = message.into_reader().canonicalize().expect("their form");
    assert_eq!(capnp::Word::words_to_bytes(&theirs), canonical);
    assert_eq!(capn::digest(&canonical, Form::Bare, &limits), Ok(digest));
    assert_eq!(capn::is_canonical_words(&canonical, &limits), Ok(true));
    count > 1
}

fn main() {
    let number = |i| {
        let word = std::env::args().nth(i).expect("a word");
        word.parse().expect("a number")
    };
    let (mut source, wanted): (_, u64) = (Source(number(1)), number(2));
    let (mut several, mut one) = (0, 0);
    while several < wanted {
        *(if is_several(&mut source) {
            &mut several
        } else {
            &mut one
        }) += 1;
    }
    println!("reference: {several} builders of several segments, {one} of one, all equal");
}
