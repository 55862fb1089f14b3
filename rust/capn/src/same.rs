//! The comparison of two messages.
use core::fmt;

use crate::call;
use crate::{Error, Form, Limits};

/// One of the two messages that [`same`] compares.
#[derive(Clone, Copy, Debug, PartialEq, Eq, Hash)]
pub enum Which {
    /// The first one, or neither, such as if a limit is out of its range.
    First,
    /// The second one. The first one is valid.
    Second,
}

/// Why two messages were not compared. Its text is that of its error, and it becomes that error by `?`.
#[derive(Clone, Copy, Debug, PartialEq, Eq, Hash)]
pub struct SameError {
    /// The message that is rejected, or for which an allocation failed.
    pub which: Which,
    /// The reason.
    pub error: Error,
}

/// Returns true if two messages of the same form have the same value: if their canonical bytes are equal.
///
/// Zero words and null pointers at the ends of structs make no difference. It writes no canonical bytes: it checks both
/// messages, and compares them up to the first difference. An error is that of the first message, as
/// [`canonical`](crate::canonical) returns it, or else that of the second one.
///
/// ```
/// use capn::{Form, Kind, Limits, Which};
///
/// // A struct of two words, 5 and 0; and one of the first word alone.
/// let long = [2u64 << 32, 5, 0].map(u64::to_le_bytes).concat();
/// let short = [1u64 << 32, 5].map(u64::to_le_bytes).concat();
/// assert!(capn::same(&long, &short, Form::Bare, &Limits::usual())?);
/// assert!(!capn::same(&long, &[0; 8], Form::Bare, &Limits::usual())?);
///
/// let refused = capn::same(&long, &short[..8], Form::Bare, &Limits::usual()).unwrap_err();
/// assert_eq!((refused.which, refused.error.kind()), (Which::Second, Some(Kind::Range)));
/// # Ok::<(), capn::Error>(())
/// ```
#[inline]
pub fn same(first: &[u8], second: &[u8], form: Form, limits: &Limits) -> Result<bool, SameError> {
    call::same(form, first, second, limits).map_err(|(number, error)| SameError {
        which: if number == 0 {
            Which::First
        } else {
            Which::Second
        },
        error,
    })
}

impl From<SameError> for Error {
    fn from(refused: SameError) -> Self {
        refused.error
    }
}

impl fmt::Display for SameError {
    fn fmt(&self, f: &mut fmt::Formatter<'_>) -> fmt::Result {
        self.error.fmt(f)
    }
}

#[cfg(feature = "std")]
impl std::error::Error for SameError {}
