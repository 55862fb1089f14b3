//! Compares the time of each call with the time of the same call in C.
//!
//! `times MOST` fails if a call takes more than MOST times as long as the calls of `capn.h` that it makes. It compares
//! the shortest times of many rounds, in which both take turns.
use capn::{Form, Index, Limits};
use capn_sys::{capn_entry, capn_figures, capn_limits, capn_report};
use std::time::Instant;

/// Makes the calls of `capn.h`, as a program in C does.
mod direct {
    use super::*;

    fn limits() -> capn_limits {
        capn_sys::CAPN_USUAL_LIMITS
    }

    pub fn check(m: &[u8]) -> u32 {
        let mut report = capn_report::default();
        unsafe { capn_sys::capn_check(0, m.as_ptr(), m.len(), &limits(), &mut report) };
        report.paid
    }

    pub fn is_canonical(m: &[u8]) -> u32 {
        let mut report = capn_report::default();
        unsafe { capn_sys::capn_is_canonical(m.as_ptr(), m.len(), &limits(), &mut report) }
    }

    pub fn digest(m: &[u8]) -> [u8; 32] {
        let (mut report, mut digest) = (capn_report::default(), [0; 32]);
        let at = digest.as_mut_ptr();
        unsafe { capn_sys::capn_hash(0, m.as_ptr(), m.len(), &limits(), at, &mut report) };
        digest
    }

    pub fn survey(m: &[u8]) -> u32 {
        let (mut report, mut figures) = (capn_report::default(), capn_figures::default());
        let (bytes, size) = (m.as_ptr(), m.len());
        unsafe { capn_sys::capn_survey(0, bytes, size, &limits(), &mut figures, &mut report) };
        figures.depth
    }

    /// Writes into a buffer that exists already.
    pub fn canonical_into(m: &[u8], out: &mut Vec<u8>) -> u64 {
        let mut report = capn_report::default();
        let (at, room) = (out.as_mut_ptr(), out.capacity());
        let (bytes, size) = (m.as_ptr(), m.len());
        unsafe { capn_sys::capn_canonical(0, bytes, size, &limits(), at, room, &mut report) };
        report.length
    }

    /// Calls with an empty buffer, and then with a buffer that is large enough.
    pub fn canonical(m: &[u8]) -> Vec<u8> {
        let mut report = capn_report::default();
        let (bytes, size) = (m.as_ptr(), m.len());
        let none = std::ptr::null_mut();
        unsafe { capn_sys::capn_canonical(0, bytes, size, &limits(), none, 0, &mut report) };
        let mut out = Vec::with_capacity(report.length as usize);
        let length = canonical_into(m, &mut out);
        unsafe { out.set_len(length as usize) };
        out
    }

    pub fn index(m: &[u8]) -> Vec<capn_entry> {
        let mut report = capn_report::default();
        let (bytes, size) = (m.as_ptr(), m.len());
        let none = std::ptr::null_mut();
        unsafe { capn_sys::capn_index(0, bytes, size, &limits(), none, 0, &mut report) };
        let room = report.visits as usize;
        let mut out = Vec::with_capacity(room);
        let at = out.as_mut_ptr();
        unsafe {
            capn_sys::capn_index(0, bytes, size, &limits(), at, room, &mut report);
            out.set_len(report.visits as usize);
        }
        out
    }

    pub fn stream(stream: &[u8]) -> usize {
        let (mut report, mut from) = (capn_report::default(), 0);
        while from < stream.len() {
            let rest = &stream[from..];
            let (bytes, size) = (rest.as_ptr(), rest.len());
            if unsafe { capn_sys::capn_first(bytes, size, &limits(), &mut report) } != 0 {
                break;
            }
            from += report.length as usize;
        }
        from
    }
}

/// Uses a result, so that the compiler keeps its call.
fn keep<T>(answer: T) {
    let at: *const T = &answer;
    unsafe { std::ptr::read_volatile(at.cast::<u8>()) };
}

/// Compares the times of two calls, and records whether ours is above the bound.
struct Times {
    most: f64,
    failed: bool,
}

impl Times {
    fn once<T>(times: u32, call: &mut impl FnMut() -> T) -> f64 {
        let from = Instant::now();
        for _ in 0..times {
            keep(call());
        }
        from.elapsed().as_secs_f64() * 1e9 / f64::from(times)
    }

    fn beside<T, U>(
        &mut self,
        name: &str,
        size: usize,
        mut c: impl FnMut() -> T,
        mut ours: impl FnMut() -> U,
    ) {
        let times = 1 + (2e5 / (1000.0 + Self::once(3, &mut c))) as u32;
        let (mut least, mut least_ours) = (f64::MAX, f64::MAX);
        // The rounds are short, so most of them are not interrupted. More rounds are run while the times are above the
        // bound.
        for attempt in 0..20 {
            if attempt > 0 && least_ours <= self.most * least {
                break;
            }
            for _ in 0..50 {
                least = least.min(Self::once(times, &mut c));
                least_ours = least_ours.min(Self::once(times, &mut ours));
            }
        }
        let ratio = least_ours / least;
        println!(
            "{name:<14} {size:>8} bytes {least_ours:>12.0} ns, C {least:>12.0} ns, {ratio:.2}"
        );
        self.failed |= ratio > self.most;
    }
}

/// Returns a message of a list of structs, or of a list of bytes. Each struct has a word and a pointer to a text of 8
/// bytes.
fn message_of(rows: u64, bytes: u64) -> Vec<u8> {
    let mut words = Vec::new();
    if bytes > 0 {
        words.push(1 | 2 << 32 | bytes << 35);
        words.extend((0..(bytes + 7) / 8).map(|_| 0x0102_0304_0506_0708));
    } else {
        words.extend([
            1 | 7 << 32 | (2 * rows) << 35,
            rows << 2 | 1 << 32 | 1 << 48,
        ]);
        words.extend((0..rows).flat_map(|i| [i, (2 * rows - i - 2) << 2 | 1 | 2 << 32 | 8 << 35]));
        words.extend((0..rows).map(|_| 0x0061_6161_6161_6161));
    }
    words.insert(0, (words.len() as u64) << 32);
    words.iter().flat_map(|word| word.to_le_bytes()).collect()
}

fn times(all: &mut Times, m: &[u8]) {
    let (limits, form, size) = (Limits::usual(), Form::Stream, m.len());
    let bare = capn::canonical(m, form, &limits).expect("a message");
    let (mut out, mut ours) = (Vec::with_capacity(2 * size), Vec::with_capacity(2 * size));
    all.beside(
        "check",
        size,
        || direct::check(m),
        || capn::check(m, form, &limits),
    );
    all.beside(
        "canonical",
        size,
        || direct::canonical(m),
        || capn::canonical(m, form, &limits),
    );
    let into = || {
        ours.clear();
        capn::canonical_into(m, form, &limits, &mut ours)
    };
    all.beside(
        "canonical_into",
        size,
        || direct::canonical_into(m, &mut out),
        into,
    );
    all.beside(
        "is_canonical",
        size,
        || direct::is_canonical(&bare),
        || capn::is_canonical_words(&bare, &limits),
    );
    all.beside(
        "digest",
        size,
        || direct::digest(m),
        || capn::digest(m, form, &limits),
    );
    all.beside(
        "survey",
        size,
        || direct::survey(m),
        || capn::survey(m, form, &limits),
    );
    all.beside(
        "index",
        size,
        || direct::index(m),
        || Index::new(m, form, &limits),
    );
}

fn main() {
    let most = std::env::args()
        .nth(1)
        .map_or(f64::MAX, |it| it.parse().expect("a number"));
    let mut all = Times {
        most,
        failed: false,
    };
    for (rows, bytes) in [(15, 0), (40_000, 0), (0, 1_000_000)] {
        times(&mut all, &message_of(rows, bytes));
    }
    let stream = message_of(15, 0).repeat(1000);
    let count = || capn::messages(&stream, Limits::usual()).count();
    all.beside("a stream", stream.len(), || direct::stream(&stream), count);
    std::process::exit(i32::from(all.failed));
}
