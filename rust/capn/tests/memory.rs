//! Tests how much memory calls allocate, and how much of it is copied.
//!
//! The allocator counts the requests of each thread. Its `realloc` is the default of `GlobalAlloc`, which copies.
use capn::{Form, Limits, Reader, Style};
use std::alloc::{GlobalAlloc, Layout, System};
use std::cell::Cell;

struct Counting;

#[derive(Clone, Copy, Default)]
struct Counts {
    /// The largest requested block.
    largest: usize,
    /// The number of bytes that `realloc` copied, and the number of its calls.
    copied: usize,
    reallocs: usize,
}

thread_local! {
    static COUNTS: Cell<Counts> = const {
        Cell::new(Counts {
            largest: 0,
            copied: 0,
            reallocs: 0,
        })
    };
}

fn count(of: impl Fn(&mut Counts)) {
    // A thread that is ending has no counts any more, so nothing is counted for it.
    let _ = COUNTS.try_with(|cell| {
        let mut counts = cell.get();
        of(&mut counts);
        cell.set(counts);
    });
}

unsafe impl GlobalAlloc for Counting {
    unsafe fn alloc(&self, layout: Layout) -> *mut u8 {
        count(|counts| counts.largest = counts.largest.max(layout.size()));
        System.alloc(layout)
    }

    unsafe fn dealloc(&self, at: *mut u8, layout: Layout) {
        System.dealloc(at, layout);
    }

    unsafe fn realloc(&self, at: *mut u8, layout: Layout, size: usize) -> *mut u8 {
        count(|counts| {
            counts.copied += layout.size().min(size);
            counts.reallocs += 1;
        });
        let to = self.alloc(Layout::from_size_align_unchecked(size, layout.align()));
        if !to.is_null() {
            std::ptr::copy_nonoverlapping(at, to, layout.size().min(size));
            self.dealloc(at, layout);
        }
        to
    }
}

#[global_allocator]
static ALLOCATOR: Counting = Counting;

/// Returns the result of a call, and the counts of its allocations.
fn counted<T>(call: impl FnOnce() -> T) -> (T, Counts) {
    COUNTS.with(|cell| cell.set(Counts::default()));
    let answer = call();
    (answer, COUNTS.with(Cell::get))
}

const USUAL: Limits = Limits::usual();
const LOW: Limits = Limits {
    message_words: 16,
    budget: 10,
    ..USUAL
};
const MIB: usize = 1 << 20;

fn words(words: &[u64]) -> Vec<u8> {
    words.iter().flat_map(|word| word.to_le_bytes()).collect()
}

/// Returns a message of a list of bytes, with its segment table.
fn bytes(count: u64) -> Vec<u8> {
    let content = 1 + (count + 7) / 8;
    let mut message = words(&[content << 32, 1 | 2 << 32 | count << 35]);
    message.resize(8 * (1 + content as usize), b'x');
    message
}

#[test]
fn many_answers_are_appended_in_linear_time() {
    const COUNT: usize = 4000;
    let message = bytes(1000);
    let segments = [&message[8..]];
    for in_segments in [false, true] {
        let (out, counts) = counted(|| {
            let mut out = Vec::new();
            for _ in 0..COUNT {
                match in_segments {
                    true => capn::segments::canonical_into(&segments, &USUAL, &mut out),
                    false => capn::canonical_into(&message, Form::Stream, &USUAL, &mut out),
                }
                .unwrap();
            }
            out
        });
        assert_eq!(out.len(), COUNT * 1008);
        assert!(counts.copied <= 2 * out.len(), "{}", counts.copied);
        assert!(counts.reallocs <= 40, "{}", counts.reallocs);
        assert!(out.capacity() <= 3 * out.len(), "{}", out.capacity());
    }
}

/// One buffer takes messages that are each a little longer than the message before. The buffer must not grow at each
/// message.
#[test]
fn a_buffer_that_is_cleared_grows_by_a_factor() {
    let messages: Vec<_> = (1..2000).map(|count| bytes(8 * count)).collect();
    let (capacity, counts) = counted(|| {
        let mut out = Vec::new();
        for message in &messages {
            out.clear();
            capn::canonical_into(message, Form::Stream, &USUAL, &mut out).unwrap();
        }
        out.capacity()
    });
    assert!(counts.reallocs <= 16, "{}", counts.reallocs);
    assert!(counts.copied <= 4 * capacity, "{}", counts.copied);
}

#[test]
fn no_room_is_asked_for_beyond_the_limits() {
    let long = bytes(8 * MIB as u64);
    let packed = capn::pack(&long).unwrap();
    let zeros = [0, 0xff].repeat(MIB / 2);
    const MOST: usize = 8 << 10;
    for style in [Style::Lines, Style::Text, Style::Json, Style::JsonText] {
        for (form, message) in [
            (Form::Stream, &long[..]),
            (Form::Bare, &long[8..]),
            (Form::Packed, &packed),
            (Form::Packed, &zeros),
        ] {
            let (told, counts) = counted(|| capn::show(message, form, &LOW, style));
            assert!(told.is_err());
            assert!(counts.largest <= MOST, "show: {}", counts.largest);
        }
    }
    for (form, message) in [
        (Form::Stream, &long[..]),
        (Form::Bare, &long[8..]),
        (Form::Packed, &packed),
        (Form::Packed, &zeros),
    ] {
        let (told, counts) = counted(|| capn::canonical(message, form, &LOW));
        assert!(told.is_err());
        assert!(counts.largest <= MOST, "canonical: {}", counts.largest);
        let (told, counts) = counted(|| capn::Index::new(message, form, &LOW).is_err());
        assert!(told && counts.largest <= MOST, "index: {}", counts.largest);
        let (told, counts) = counted(|| capn::departure(message, form, &LOW).is_err());
        assert!(
            told && counts.largest <= MOST,
            "departure: {}",
            counts.largest
        );
    }
    let (told, counts) = counted(|| capn::unpack(&zeros, 16));
    assert!(told.is_err() && counts.largest <= MOST);
    // Limits that are out of range must not lead to larger allocations.
    let wrong = Limits {
        depth: u32::MAX,
        ..LOW
    };
    let (_, counts) = counted(|| capn::refusal_way(&long, Form::Stream, &wrong));
    assert!(counts.largest <= MOST, "refusal_way: {}", counts.largest);
}

/// A reader allocates for the bytes that have come. It must not allocate for the words that a segment table announces,
/// or for all that packed bytes would unpack to.
#[test]
fn streams_ask_for_what_has_come() {
    let announced = words(&[8_000_000 << 32, 0]);
    let (told, counts) = counted(|| Reader::new(&announced[..], USUAL).read().is_err());
    assert!(told && counts.largest <= 1 << 17, "{}", counts.largest);
    // 1 MiB of these bytes are 2^27 messages with a null root.
    let zeros = [0, 0xff].repeat(MIB / 2);
    let (told, counts) = counted(|| Reader::packed(&zeros[..], LOW).read().is_err());
    assert!(!told && counts.largest <= 1 << 17, "{}", counts.largest);
    let mut refused = capn::pack(&words(&[1 << 43])).unwrap();
    refused.extend(&zeros);
    let (told, counts) = counted(|| Reader::packed(&refused[..], LOW).read().is_err());
    assert!(told && counts.largest <= 1 << 17, "{}", counts.largest);
}

#[test]
fn an_answer_keeps_no_more_than_twice_its_length() {
    let mut null = bytes(8 * MIB as u64);
    null[8..16].fill(0);
    let canonical = capn::canonical(&null, Form::Stream, &USUAL).unwrap();
    assert_eq!(canonical, [0; 8]);
    assert!(canonical.capacity() <= 256, "{}", canonical.capacity());
    let shown = capn::show(&null, Form::Stream, &USUAL, Style::Lines).unwrap();
    assert_eq!(shown, "null\nend\n");
    assert!(shown.capacity() <= 1024, "{}", shown.capacity());
    let segments: [&[u8]; 1] = [&null[8..]];
    let canonical = capn::segments::canonical(&segments, &USUAL).unwrap();
    assert!(canonical.capacity() <= 256, "{}", canonical.capacity());
    // The buffer for an unpacked message is no larger than what the packed bytes can unpack to.
    let unpacked = capn::unpack(&capn::pack(&null[..64]).unwrap(), 8).unwrap();
    assert!(unpacked.capacity() <= 128, "{}", unpacked.capacity());
}
