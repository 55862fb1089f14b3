//! Canonical bytes without an allocator.
use core::fmt;

use crate::call;
use crate::{Error, Form, Limits};

/// Why [`canonical_with_scratch`] wrote nothing.
#[derive(Clone, Copy, Debug, PartialEq, Eq, Hash)]
pub enum ScratchError {
    /// The scratch is too small: it needs this many words.
    NoScratch(usize),
    /// `out` is too small: it needs this many bytes.
    NoRoom(usize),
    /// The message is rejected, or a limit is out of its range. It is never [`Error::Memory`].
    Error(Error),
}

/// Writes the canonical bytes of one message to the start of `out`, and returns how many there are. It allocates
/// nothing: it keeps what it has to remember in `scratch`. After an error `out` stays unchanged.
///
/// - A single segment without its table, and a message of at most 64 segments, need no scratch.
/// - A message of more segments needs a word for each segment but the last, at most 4,095.
/// - A packed message needs the words that it unpacks to, and behind them those of the unpacked message. The first
///   error reports the unpacked words, and a second one may report that more are needed.
///
/// ```
/// use capn::{canonical_with_scratch, Form, Limits, ScratchError};
///
/// // A struct of two words, 5 and 0, with its segment table, packed.
/// let words = [3u64 << 32, 2 << 32, 5, 0].map(u64::to_le_bytes).concat();
/// let packed = capn::pack(&words)?;
/// let (mut scratch, mut out) = ([[0; 8]; 4], [0; 64]);
/// let limits = Limits::usual();
/// let none = canonical_with_scratch(&packed, Form::Packed, &limits, &mut [], &mut out);
/// assert_eq!(none, Err(ScratchError::NoScratch(4)));
/// let length = canonical_with_scratch(&packed, Form::Packed, &limits, &mut scratch, &mut out).unwrap();
/// assert_eq!(out[..length], [1u64 << 32, 5].map(u64::to_le_bytes).concat());
/// # Ok::<(), capn::Error>(())
/// ```
#[inline]
pub fn canonical_with_scratch(
    message: &[u8],
    form: Form,
    limits: &Limits,
    scratch: &mut [[u8; 8]],
    out: &mut [u8],
) -> Result<usize, ScratchError> {
    call::canonical_with_scratch(form, message, limits, scratch, out)
}

impl fmt::Display for ScratchError {
    fn fmt(&self, f: &mut fmt::Formatter<'_>) -> fmt::Result {
        match self {
            ScratchError::NoScratch(needed) => write!(f, "no scratch for {needed} words"),
            ScratchError::NoRoom(needed) => write!(f, "no room for {needed} bytes"),
            ScratchError::Error(error) => error.fmt(f),
        }
    }
}

#[cfg(feature = "std")]
impl std::error::Error for ScratchError {}
