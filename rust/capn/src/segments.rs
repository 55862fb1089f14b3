//! Calls on a message in segments.
//!
//! A segment is a slice of whole words, at any address. The calls copy none of them. So
//! `capnp::message::Builder::get_segments_for_output()` is passed as it is:
//! `segments::digest(&builder.get_segments_for_output(), &limits)`.
use alloc::vec::Vec;

use crate::call;
use crate::message::{Checked, Figures};
use crate::{Error, Limits};

/// Returns the canonical bytes of a message.
///
/// ```
/// // The root pointer refers to the second segment, where a struct of one word is, after its landing pad.
/// let first = [2, 0, 0, 0, 1, 0, 0, 0];
/// let second = [0, 0, 0, 0, 1, 0, 0, 0, 5, 0, 0, 0, 0, 0, 0, 0];
/// let limits = capn::Limits::usual();
/// assert_eq!(capn::segments::canonical(&[&first, &second], &limits)?, second);
/// assert_eq!(capn::segments::check(&[&first, &second], &limits)?.visits, 1);
/// # Ok::<(), capn::Error>(())
/// ```
pub fn canonical(segments: &[&[u8]], limits: &Limits) -> Result<Vec<u8>, Error> {
    let mut out = Vec::new();
    canonical_into(segments, limits, &mut out)?;
    Ok(call::fitted(out))
}

/// Appends the canonical bytes of a message, and returns what reading it costs in words. After an error `out` has the
/// bytes that it had.
pub fn canonical_into(
    segments: &[&[u8]],
    limits: &Limits,
    out: &mut Vec<u8>,
) -> Result<u32, Error> {
    let size = segments
        .iter()
        .fold(0usize, |all, it| all.saturating_add(it.len()));
    let hint = limits.most_bytes(size);
    Ok(call::canonical_segments(segments, limits, hint, out)?.paid)
}

/// Returns the SHA-256 of the canonical bytes of a message.
pub fn digest(segments: &[&[u8]], limits: &Limits) -> Result<[u8; 32], Error> {
    call::hash_segments(segments, limits)
}

/// Returns what reading a message costs, or an error if the message is invalid or over a limit.
pub fn check(segments: &[&[u8]], limits: &Limits) -> Result<Checked, Error> {
    let report = call::check_segments(segments, limits)?;
    Ok(Checked {
        paid: report.paid,
        visits: report.visits,
    })
}

/// Returns a summary of a message.
pub fn survey(segments: &[&[u8]], limits: &Limits) -> Result<Figures, Error> {
    Ok(Figures::of(&call::survey_segments(segments, limits)?))
}
