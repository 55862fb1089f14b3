//! Calls on one message, as its bytes.
use alloc::string::String;
use alloc::vec::Vec;

use crate::call;
use crate::{Error, Form, Limits, Style};

/// The cost of reading a message.
#[derive(Clone, Copy, Debug, PartialEq, Eq, Hash)]
pub struct Checked {
    /// The cost in words of 8 bytes.
    pub paid: u32,
    /// The number of pointers that are followed, including null pointers.
    pub visits: u32,
}

/// A summary of a message.
#[non_exhaustive]
#[derive(Clone, Copy, Debug, PartialEq, Eq, Hash)]
pub struct Figures {
    /// The words of all segments.
    pub words: u32,
    /// The number of segments, 1 to 4,096.
    pub segments: u32,
    /// The cost of reading it, in words of 8 bytes.
    pub paid: u32,
    /// The number of pointers that are followed, including null pointers.
    pub visits: u32,
    /// The depth of its deepest object: 0 for a null root, and 1 if only the root object is there.
    pub depth: u32,
    /// The index of its first capability in preorder.
    pub capability: Option<u32>,
    /// Whether its only segment is its canonical bytes.
    pub is_canonical: bool,
}

impl Figures {
    pub(crate) fn of(figures: &capn_sys::capn_figures) -> Self {
        Figures {
            words: figures.words,
            segments: figures.segments,
            paid: figures.paid,
            visits: figures.visits,
            depth: figures.depth,
            capability: (figures.has_capability != 0).then_some(figures.capability),
            is_canonical: figures.canonical != 0,
        }
    }
}

/// Returns the canonical bytes of one message.
///
/// ```
/// use capn::{Form, Kind, Limits};
///
/// let message = [0, 0, 0, 0, 1, 0, 0, 0, 0, 0, 0, 0, 0, 0, 0, 0];
/// assert_eq!(capn::canonical(&message, Form::Stream, &Limits::usual())?, [0; 8]);
///
/// let two = [message, message].concat();
/// let refused = capn::canonical(&two, Form::Stream, &Limits::usual()).unwrap_err();
/// assert_eq!(refused.kind(), Some(Kind::Trailing));
/// # Ok::<(), capn::Error>(())
/// ```
#[inline]
pub fn canonical(message: &[u8], form: Form, limits: &Limits) -> Result<Vec<u8>, Error> {
    let mut out = Vec::new();
    canonical_into(message, form, limits, &mut out)?;
    Ok(call::fitted(out))
}

/// Appends the canonical bytes of one message, and returns what reading it costs in words. After an error `out` has the
/// bytes that it had.
///
/// The vector grows by a factor, so appending many messages takes linear time. To write many messages with one buffer,
/// clear it before each:
///
/// ```
/// use capn::{Form, Limits};
///
/// let message = [0, 0, 0, 0, 1, 0, 0, 0, 0, 0, 0, 0, 0, 0, 0, 0];
/// let mut out = Vec::new();
/// for _ in 0..2 {
///     out.clear();
///     assert_eq!(capn::canonical_into(&message, Form::Stream, &Limits::usual(), &mut out)?, 0);
///     assert_eq!(out, [0; 8]);
/// }
/// # Ok::<(), capn::Error>(())
/// ```
///
/// A message can't overlap `out`, which is borrowed exclusively:
///
/// ```compile_fail,E0502
/// # use capn::{Form, Limits};
/// let mut message = vec![0; 16];
/// capn::canonical_into(&message, Form::Bare, &Limits::usual(), &mut message)?;
/// # Ok::<(), capn::Error>(())
/// ```
#[inline]
pub fn canonical_into(
    message: &[u8],
    form: Form,
    limits: &Limits,
    out: &mut Vec<u8>,
) -> Result<u32, Error> {
    // For a packed message the library says how much is enough.
    let hint = match form {
        Form::Packed => 0,
        _ => limits.most_bytes(message.len()),
    };
    Ok(call::canonical(form, message, limits, hint, out)?.paid)
}

/// Returns the SHA-256 of the canonical bytes of one message.
///
/// Don't sign the digest alone: it says nothing of the type and the purpose of the message.
///
/// ```
/// use capn::{Form, Limits};
///
/// /// Returns true if the bytes are exactly one message whose value has this digest.
/// fn has_digest(message: &[u8], digest: &[u8; 32], limits: &Limits) -> bool {
///     capn::digest(message, Form::Stream, limits).as_ref() == Ok(digest)
/// }
/// let message = [0, 0, 0, 0, 1, 0, 0, 0, 0, 0, 0, 0, 0, 0, 0, 0];
/// let digest = capn::digest(&message, Form::Stream, &Limits::usual())?;
/// assert!(has_digest(&message, &digest, &Limits::usual()));
/// assert!(!has_digest(&message[..8], &digest, &Limits::usual()));
/// # Ok::<(), capn::Error>(())
/// ```
#[inline]
pub fn digest(message: &[u8], form: Form, limits: &Limits) -> Result<[u8; 32], Error> {
    call::hash(form, message, limits)
}

/// Returns true if one message is canonical: if its only segment is its canonical bytes. A message with a capability
/// has no canonical bytes, and is an error.
///
/// ```
/// use capn::{Form, Limits};
///
/// // The table of a segment of three words, and a struct of two, 5 and 0: canonical bytes have no word of zeros at the
/// // end of a struct.
/// let message = [3u64 << 32, 2 << 32, 5, 0].map(u64::to_le_bytes).concat();
/// assert!(!capn::is_canonical_message(&message, Form::Stream, &Limits::usual())?);
///
/// let canonical = capn::canonical(&message, Form::Stream, &Limits::usual())?;
/// assert!(capn::is_canonical_message(&canonical, Form::Bare, &Limits::usual())?);
/// # Ok::<(), capn::Error>(())
/// ```
pub fn is_canonical_message(message: &[u8], form: Form, limits: &Limits) -> Result<bool, Error> {
    if form == Form::Bare {
        return is_canonical_words(message, limits);
    }
    let figures = survey(message, form, limits)?;
    match figures.capability {
        Some(index) => Err(Error::capability(index)),
        None => Ok(figures.is_canonical),
    }
}

/// Another name of [`is_canonical_message`].
pub fn is_canonical_in(message: &[u8], form: Form, limits: &Limits) -> Result<bool, Error> {
    is_canonical_message(message, form, limits)
}

/// Returns true if words, the single segment of a message without its segment table, are the canonical bytes of their
/// value. It allocates nothing.
///
/// Pass a message with its segment table to [`is_canonical_message`]. Here nearly every message of one segment passes
/// with its table, canonical or not.
///
/// ```
/// assert!(capn::is_canonical_words(&[0; 8], &capn::Limits::usual())?);
/// assert!(!capn::is_canonical_words(&[0; 16], &capn::Limits::usual())?);
/// # Ok::<(), capn::Error>(())
/// ```
#[inline]
pub fn is_canonical_words(words: &[u8], limits: &Limits) -> Result<bool, Error> {
    call::is_canonical(words, limits)
}

/// Returns true if words without a segment table are the canonical bytes of their value.
#[deprecated(
    note = "it takes no segment table: call `is_canonical_message` with the form, or `is_canonical_words`"
)]
#[inline]
pub fn is_canonical(words: &[u8], limits: &Limits) -> Result<bool, Error> {
    is_canonical_words(words, limits)
}

/// Returns what reading one message costs, or an error if the message is invalid or over a limit.
///
/// ```
/// use capn::{Form, Kind, Limits, Place};
///
/// // A struct whose only pointer refers back to it.
/// let hostile = [0, 0, 0, 0, 1, 0, 0, 0, 0xfc, 0xff, 0xff, 0xff, 0, 0, 1, 0];
/// let refused = capn::check(&hostile, Form::Stream, &Limits::usual()).unwrap_err();
/// assert_eq!(refused.to_string(), "TooDeep at 0:0, paid 128, visits 65");
/// assert_eq!(refused.kind(), Some(Kind::TooDeep));
/// assert!(matches!(refused.place(), Some(Place::Slot { segment: 0, word: 0, .. })));
/// ```
#[inline]
pub fn check(message: &[u8], form: Form, limits: &Limits) -> Result<Checked, Error> {
    let report = call::check(form, message, limits)?;
    Ok(Checked {
        paid: report.paid,
        visits: report.visits,
    })
}

/// Returns a summary of one message.
///
/// ```
/// use capn::{Form, Limits};
///
/// let figures = capn::survey(&[0; 8], Form::Bare, &Limits::usual())?;
/// assert_eq!((figures.words, figures.segments, figures.depth), (1, 1, 0));
/// assert!(figures.is_canonical);
/// # Ok::<(), capn::Error>(())
/// ```
#[inline]
pub fn survey(message: &[u8], form: Form, limits: &Limits) -> Result<Figures, Error> {
    Ok(Figures::of(&call::survey(form, message, limits)?))
}

/// Returns the text of one message, as `capn show` prints it in a style. It may be far longer than the message, so set
/// limits.
///
/// ```
/// use capn::{Form, Limits, Style};
///
/// // A list of three bytes, of which the last is zero.
/// let message = [1, 0, 0, 0, 26, 0, 0, 0, b'h', b'i', 0, 0, 0, 0, 0, 0];
/// let shown = |style| capn::show(&message, Form::Bare, &Limits::usual(), style);
/// assert_eq!(shown(Style::Lines)?, "bytes 3\n  686900\nend\n");
/// assert_eq!(shown(Style::Text)?, "bytes 3 \"hi\\0\"\nend\n");
/// assert_eq!(shown(Style::Json)?, "{\"bytes\":\"686900\"}\n");
/// assert_eq!(shown(Style::JsonText)?, "{\"text\":\"hi\"}\n");
/// # Ok::<(), capn::Error>(())
/// ```
pub fn show(message: &[u8], form: Form, limits: &Limits, style: Style) -> Result<String, Error> {
    call::show(form, message, limits, style)
}

/// Returns the packed bytes of whole words.
///
/// ```
/// assert_eq!(capn::pack(&[5, 0, 0, 0, 0, 0, 0, 0])?, [1, 5]);
/// assert_eq!(capn::pack(&[5, 0, 0]).unwrap_err().to_string(), "NotWhole(3)");
/// # Ok::<(), capn::Error>(())
/// ```
pub fn pack(words: &[u8]) -> Result<Vec<u8>, Error> {
    let mut out = Vec::new();
    call::pack(words, &mut out).map_err(Error::of_words)?;
    Ok(out)
}

/// Returns the words of packed bytes, of which there may be at most `most_words`.
///
/// ```
/// assert_eq!(capn::unpack(&[1, 5], 1)?, [5, 0, 0, 0, 0, 0, 0, 0]);
/// assert_eq!(capn::unpack(&[1, 5], 0).unwrap_err().to_string(), "packed: TooLong at 0");
/// # Ok::<(), capn::Error>(())
/// ```
pub fn unpack(packed: &[u8], most_words: u32) -> Result<Vec<u8>, Error> {
    let mut out = Vec::new();
    call::unpack(packed, most_words, &mut out)?;
    Ok(out)
}
