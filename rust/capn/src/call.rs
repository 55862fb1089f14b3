//! The calls of the library, and all `unsafe` code.
//!
//! Types keep the rules of `capn.h`: bytes behind a shared reference don't change while it lives, what a call writes is
//! borrowed exclusively or is the spare capacity of a vector, and each pointer goes with the size of its slice.
use alloc::string::String;
use alloc::vec::Vec;
use core::mem::MaybeUninit;

use capn_sys::{
    capn_departed, capn_entry, capn_figures, capn_limits, capn_line, capn_report, capn_segment,
    capn_status, CAPN_DIFFERENT, CAPN_NOT_CANONICAL, CAPN_NO_ROOM as NO_ROOM, CAPN_NO_SCRATCH,
    CAPN_OK as OK,
};

use crate::{Error, Form, Limits, ScratchError, Style};

/// The statuses of a message that is rejected at a pointer are these and those between them.
pub(crate) const WALK_FIRST: capn_status = 64;
pub(crate) const WALK_LAST: capn_status = 79;

/// The report of a call, or why it has no result.
#[inline]
fn reported(
    limits: &Limits,
    call: impl FnOnce(&capn_limits, &mut capn_report) -> capn_status,
) -> Result<capn_report, Error> {
    let mut report = capn_report::default();
    match call(&limits.raw(), &mut report) {
        OK => Ok(report),
        status => Err(Error::of(status, &report, limits)),
    }
}

/// Appends to `out` what a call writes: first with room for `hint` bytes, and then, if that is too little, with room
/// for as many as the call reports. After an error `out` has the bytes that it had.
///
/// A vector without capacity gets as much as is asked for. Any other grows by a factor, so that appending many results
/// copies each byte a bounded number of times.
///
/// # Safety
///
/// With `call(limits, at, room, report)` the call writes at most `room` bytes at `at`, and returns `OK` only if it
/// wrote `report.length` of them.
unsafe fn appended(
    out: &mut Vec<u8>,
    hint: usize,
    limits: &Limits,
    call: impl Fn(&capn_limits, *mut u8, usize, &mut capn_report) -> capn_status,
) -> Result<capn_report, Error> {
    let (had, is_fresh, raw) = (out.len(), out.capacity() == 0, limits.raw());
    let mut wanted = hint;
    loop {
        match is_fresh {
            true => out.try_reserve_exact(wanted),
            false => out.try_reserve(wanted),
        }
        .map_err(|_| Error::Memory)?;
        let room = out.capacity() - had;
        let mut report = capn_report::default();
        // The spare room begins at `had`, within the block or one past it.
        let status = call(&raw, out.as_mut_ptr().add(had), room, &mut report);
        let length = report.length as usize;
        match status {
            OK => {
                assert!(length <= room, "no more than there is room for");
                out.set_len(had + length);
                return Ok(report);
            }
            NO_ROOM if length > room => wanted = length,
            _ => return Err(Error::of(status, &report, limits)),
        }
    }
}

pub(crate) fn canonical(
    form: Form,
    message: &[u8],
    limits: &Limits,
    hint: usize,
    out: &mut Vec<u8>,
) -> Result<capn_report, Error> {
    let (bytes, size) = (message.as_ptr(), message.len());
    unsafe {
        appended(out, hint, limits, |limits, at, room, report| {
            capn_sys::capn_canonical(form as u32, bytes, size, limits, at, room, report)
        })
    }
}

#[inline]
pub(crate) fn canonical_with_scratch(
    form: Form,
    message: &[u8],
    limits: &Limits,
    scratch: &mut [[u8; 8]],
    out: &mut [u8],
) -> Result<usize, ScratchError> {
    let mut report = capn_report::default();
    let (number, bytes, size) = (form as u32, message.as_ptr(), message.len());
    let (lent, words) = (scratch.as_mut_ptr().cast(), scratch.len());
    let (at, room) = (out.as_mut_ptr(), out.len());
    let status = unsafe {
        let (limits, told) = (&limits.raw(), &mut report);
        capn_sys::capn_canonical_with_scratch(
            number, bytes, size, limits, lent, words, at, room, told,
        )
    };
    match status {
        OK => Ok(report.length as usize),
        NO_ROOM => Err(ScratchError::NoRoom(report.length as usize)),
        CAPN_NO_SCRATCH => Err(ScratchError::NoScratch(report.at as usize)),
        status => Err(ScratchError::Error(Error::of(status, &report, limits))),
    }
}

#[inline]
pub(crate) fn is_canonical(words: &[u8], limits: &Limits) -> Result<bool, Error> {
    let mut report = capn_report::default();
    let (bytes, size) = (words.as_ptr(), words.len());
    match unsafe { capn_sys::capn_is_canonical(bytes, size, &limits.raw(), &mut report) } {
        OK => Ok(true),
        CAPN_NOT_CANONICAL => Ok(false),
        status => Err(Error::of(status, &report, limits)),
    }
}

/// Returns true if two messages have the same canonical bytes; or which of them is rejected, and why.
#[inline]
pub(crate) fn same(
    form: Form,
    first: &[u8],
    second: &[u8],
    limits: &Limits,
) -> Result<bool, (u32, Error)> {
    let mut report = capn_report::default();
    let mut which = 0;
    let (a, size_a) = (first.as_ptr(), first.len());
    let (b, size_b) = (second.as_ptr(), second.len());
    let status = unsafe {
        let (number, limits, which) = (form as u32, &limits.raw(), &mut which);
        capn_sys::capn_same(number, a, size_a, b, size_b, limits, which, &mut report)
    };
    match status {
        OK => Ok(true),
        CAPN_DIFFERENT => Ok(false),
        status => Err((which, Error::of(status, &report, limits))),
    }
}

#[inline]
pub(crate) fn hash(form: Form, message: &[u8], limits: &Limits) -> Result<[u8; 32], Error> {
    let (bytes, size) = (message.as_ptr(), message.len());
    let mut digest = [0; 32];
    let at = digest.as_mut_ptr();
    reported(limits, |limits, report| unsafe {
        capn_sys::capn_hash(form as u32, bytes, size, limits, at, report)
    })?;
    Ok(digest)
}

#[inline]
pub(crate) fn check(form: Form, message: &[u8], limits: &Limits) -> Result<capn_report, Error> {
    let (bytes, size) = (message.as_ptr(), message.len());
    reported(limits, |limits, report| unsafe {
        capn_sys::capn_check(form as u32, bytes, size, limits, report)
    })
}

#[inline]
pub(crate) fn survey(form: Form, message: &[u8], limits: &Limits) -> Result<capn_figures, Error> {
    let (bytes, size) = (message.as_ptr(), message.len());
    let mut figures = capn_figures::default();
    reported(limits, |limits, report| unsafe {
        capn_sys::capn_survey(form as u32, bytes, size, limits, &mut figures, report)
    })?;
    Ok(figures)
}

pub(crate) fn show(
    form: Form,
    message: &[u8],
    limits: &Limits,
    style: Style,
) -> Result<String, Error> {
    let (bytes, size) = (message.as_ptr(), message.len());
    // Mostly enough: four bytes of text for each byte that is read, and so many are unpacked of each packed one.
    let unpacked = size.saturating_mul(if form == Form::Packed { 4 } else { 1 });
    let hint = 4 * limits.most_bytes(unpacked) + 256;
    let mut out = Vec::new();
    unsafe {
        appended(&mut out, hint, limits, |limits, at, room, report| {
            let (number, style, at) = (form as u32, style as u32, at.cast());
            capn_sys::capn_show(number, bytes, size, limits, style, at, room, report)
        })
    }?;
    Ok(String::from_utf8(fitted(out)).expect("the text is UTF-8"))
}

/// Those of calls that take none.
const NO_LIMITS: Limits = Limits::usual();

pub(crate) fn pack(words: &[u8], out: &mut Vec<u8>) -> Result<capn_report, Error> {
    let (bytes, size) = (words.as_ptr(), words.len());
    unsafe {
        appended(out, size / 2 + 16, &NO_LIMITS, |_, at, room, report| {
            capn_sys::capn_pack(bytes, size, at, room, report)
        })
    }
}

pub(crate) fn unpack(
    text: &[u8],
    most_words: u32,
    out: &mut Vec<u8>,
) -> Result<capn_report, Error> {
    let (bytes, size) = (text.as_ptr(), text.len());
    let hint = size.saturating_mul(4).min(8 * most_words as usize);
    unsafe {
        appended(out, hint, &NO_LIMITS, |_, at, room, report| {
            capn_sys::capn_unpack(bytes, size, most_words, at, room, report)
        })
    }
}

/// Whether the first message of a stream is complete, or how many bytes it has at least.
#[cfg(feature = "std")]
pub(crate) enum First {
    Whole,
    Needs(usize),
}

#[cfg(feature = "std")]
#[inline(always)]
pub(crate) fn first(stream: &[u8], limits: &Limits) -> Result<First, Error> {
    use capn_sys::{CAPN_FRAME_CUT, CAPN_FRAME_EMPTY};
    let mut report = MaybeUninit::uninit();
    let (bytes, size, raw) = (stream.as_ptr(), stream.len(), limits.raw());
    let status = unsafe { capn_sys::capn_first(bytes, size, &raw, report.as_mut_ptr()) };
    // A call sets each field of its report, whatever it returns.
    let report: &capn_report = unsafe { report.assume_init_ref() };
    match status {
        OK => Ok(First::Whole),
        CAPN_FRAME_EMPTY | CAPN_FRAME_CUT => Ok(First::Needs(report.length as usize)),
        status => Err(Error::of(status, report, limits)),
    }
}

/// Writes the words of the whole groups that packed bytes begin with to `out`, and returns how many bytes it wrote.
#[cfg(feature = "std")]
pub(crate) fn unpack_some(packed: &[u8], out: &mut [u8]) -> Result<usize, Error> {
    let (bytes, size) = (packed.as_ptr(), packed.len());
    let (at, room) = (out.as_mut_ptr(), out.len());
    let report = reported(&NO_LIMITS, |_, report| unsafe {
        capn_sys::capn_unpack_some(bytes, size, at, room, report)
    })?;
    Ok(report.length as usize)
}

/// The first message of a stream, or why there is none. Errors are made elsewhere, so that a message takes hardly
/// longer than the call.
#[inline(always)]
pub(crate) fn whole<'a>(stream: &'a [u8], limits: &Limits) -> Result<&'a [u8], Error> {
    let mut report = MaybeUninit::uninit();
    let (bytes, size, raw) = (stream.as_ptr(), stream.len(), limits.raw());
    let status = unsafe { capn_sys::capn_first(bytes, size, &raw, report.as_mut_ptr()) };
    // A call sets each field of its report, whatever it returns.
    let report: &capn_report = unsafe { report.assume_init_ref() };
    if status == OK {
        Ok(&stream[..report.length as usize])
    } else {
        Err(rejected(status, report, limits))
    }
}

#[cold]
fn rejected(status: capn_status, report: &capn_report, limits: &Limits) -> Error {
    Error::of(status, report, limits)
}

pub(crate) fn index(form: Form, message: &[u8], limits: &Limits) -> Result<Vec<capn_entry>, Error> {
    let (bytes, size, raw) = (message.as_ptr(), message.len(), limits.raw());
    let mut entries: Vec<capn_entry> = Vec::new();
    let mut wanted = 32;
    loop {
        entries
            .try_reserve_exact(wanted)
            .map_err(|_| Error::Memory)?;
        let (at, room) = (entries.as_mut_ptr(), entries.capacity());
        let mut report = capn_report::default();
        let status =
            unsafe { capn_sys::capn_index(form as u32, bytes, size, &raw, at, room, &mut report) };
        let visits = report.visits as usize;
        match status {
            OK => {
                assert!(visits <= room, "no more than there is room for");
                unsafe { entries.set_len(visits) };
                return Ok(entries);
            }
            NO_ROOM if visits > room => wanted = visits,
            _ => return Err(Error::of(status, &report, limits)),
        }
    }
}

/// Room for each path within limits: two numbers for each level of depth, of which there may be 256.
fn room_for_way(limits: &Limits) -> Result<Vec<u32>, Error> {
    let mut way = Vec::new();
    way.try_reserve_exact(2 * limits.depth.min(256) as usize)
        .map_err(|_| Error::Memory)?;
    Ok(way)
}

/// The path to the pointer at which a message is rejected; none if no pointer is at fault.
pub(crate) fn refusal_way(
    form: Form,
    message: &[u8],
    limits: &Limits,
) -> Result<Option<Vec<u32>>, Error> {
    const REFUSALS: core::ops::RangeInclusive<capn_status> = 16..=127;
    let (bytes, size) = (message.as_ptr(), message.len());
    let mut way = room_for_way(limits)?;
    let (at, room) = (way.as_mut_ptr(), way.capacity());
    let (mut report, raw) = (capn_report::default(), limits.raw());
    let status = unsafe {
        capn_sys::capn_refusal_way(form as u32, bytes, size, &raw, at, room, &mut report)
    };
    match status {
        WALK_FIRST..=WALK_LAST => {
            let numbers = report.length as usize / 4;
            assert!(numbers <= room, "no more than there is room for");
            unsafe { way.set_len(numbers) };
            Ok(Some(way))
        }
        status if status == OK || REFUSALS.contains(&status) => Ok(None),
        status => Err(Error::of(status, &report, limits)),
    }
}

/// The first difference of a message from its canonical form, and the path that goes with it.
pub(crate) fn departure(
    form: Form,
    message: &[u8],
    limits: &Limits,
) -> Result<(capn_departed, Vec<u32>), Error> {
    let (bytes, size) = (message.as_ptr(), message.len());
    let mut way = room_for_way(limits)?;
    let (at, room) = (way.as_mut_ptr(), way.capacity());
    let mut departed = capn_departed::default();
    reported(limits, |limits, report| unsafe {
        let (number, to) = (form as u32, &mut departed);
        capn_sys::capn_departure(number, bytes, size, limits, to, at, room, report)
    })?;
    let numbers = departed.numbers as usize;
    assert!(numbers <= room, "no more than there is room for");
    unsafe { way.set_len(numbers) };
    Ok((departed, way))
}

/// The lines of a message: first with room for a few, and then, if there are more, with room for as many as the call
/// reports.
pub(crate) fn annotate(
    form: Form,
    message: &[u8],
    limits: &Limits,
) -> Result<Vec<capn_line>, Error> {
    let (bytes, size, raw) = (message.as_ptr(), message.len(), limits.raw());
    let mut lines: Vec<capn_line> = Vec::new();
    let mut wanted = 256;
    loop {
        lines.try_reserve_exact(wanted).map_err(|_| Error::Memory)?;
        let (at, room) = (lines.as_mut_ptr(), lines.capacity());
        let mut report = capn_report::default();
        let status = unsafe {
            capn_sys::capn_annotate(form as u32, bytes, size, &raw, at, room, &mut report)
        };
        let count = report.length as usize / core::mem::size_of::<capn_line>();
        match status {
            OK => {
                assert!(count <= room, "no more than there is room for");
                unsafe { lines.set_len(count) };
                return Ok(lines);
            }
            NO_ROOM if count > room => wanted = count,
            _ => return Err(Error::of(status, &report, limits)),
        }
    }
}

/// Moves a result to a block of its own length if the one that it has is more than twice as long: a message may be far
/// longer than its canonical bytes.
pub(crate) fn fitted(out: Vec<u8>) -> Vec<u8> {
    if out.capacity() / 2 <= out.len().max(64) {
        return out;
    }
    let mut exact = Vec::new();
    match exact.try_reserve_exact(out.len()) {
        Ok(()) => {
            exact.extend_from_slice(&out);
            exact
        }
        Err(_) => out,
    }
}

/// Calls with the segments as the library takes them: words at their addresses, on the stack if they are few.
fn with_segments<T>(
    segments: &[&[u8]],
    call: impl FnOnce(*const capn_segment, usize) -> Result<T, Error>,
) -> Result<T, Error> {
    const FEW: usize = 16;
    let raw = |segment: &[u8]| capn_segment {
        words: segment.as_ptr().cast(),
        count: segment.len() / 8,
    };
    if let Some(segment) = segments.iter().find(|it| it.len() % 8 != 0) {
        return Err(Error::not_whole(segment.len()));
    }
    if segments.len() <= FEW {
        let mut few = [raw(&[]); FEW];
        for (to, from) in few.iter_mut().zip(segments) {
            *to = raw(from);
        }
        return call(few.as_ptr(), segments.len());
    }
    let mut all = Vec::new();
    all.try_reserve_exact(segments.len())
        .map_err(|_| Error::Memory)?;
    all.extend(segments.iter().map(|it| raw(it)));
    call(all.as_ptr(), all.len())
}

pub(crate) fn canonical_segments(
    segments: &[&[u8]],
    limits: &Limits,
    hint: usize,
    out: &mut Vec<u8>,
) -> Result<capn_report, Error> {
    with_segments(segments, |first, count| unsafe {
        appended(out, hint, limits, |limits, at, room, report| {
            capn_sys::capn_canonical_segments(first, count, limits, at, room, report)
        })
    })
}

pub(crate) fn hash_segments(segments: &[&[u8]], limits: &Limits) -> Result<[u8; 32], Error> {
    let mut digest = [0; 32];
    let at = digest.as_mut_ptr();
    with_segments(segments, |first, count| {
        reported(limits, |limits, report| unsafe {
            capn_sys::capn_hash_segments(first, count, limits, at, report)
        })
    })?;
    Ok(digest)
}

pub(crate) fn check_segments(segments: &[&[u8]], limits: &Limits) -> Result<capn_report, Error> {
    with_segments(segments, |first, count| {
        reported(limits, |limits, report| unsafe {
            capn_sys::capn_check_segments(first, count, limits, report)
        })
    })
}

pub(crate) fn survey_segments(segments: &[&[u8]], limits: &Limits) -> Result<capn_figures, Error> {
    let mut figures = capn_figures::default();
    with_segments(segments, |first, count| {
        reported(limits, |limits, report| unsafe {
            capn_sys::capn_survey_segments(first, count, limits, &mut figures, report)
        })
    })?;
    Ok(figures)
}

/// Returns the meaning of a status.
pub(crate) fn status_text(status: capn_status) -> &'static str {
    // The text is a constant of the library, and a zero byte ends it.
    let text: *const u8 = unsafe { capn_sys::capn_status_text(status) }.cast();
    let mut length = 0;
    while unsafe { *text.add(length) } != 0 {
        length += 1;
    }
    core::str::from_utf8(unsafe { core::slice::from_raw_parts(text, length) }).unwrap_or_default()
}

/// The text that the program prints for a status, in the buffer that is passed.
pub(crate) fn refusal_text<'a>(
    status: capn_status,
    report: &capn_report,
    room: &'a mut [u8; 128],
) -> &'a str {
    let (at, size) = (room.as_mut_ptr().cast(), room.len());
    let length = unsafe { capn_sys::capn_refusal_text(status, report, at, size) };
    core::str::from_utf8(&room[..length.min(size - 1)]).unwrap_or_default()
}
