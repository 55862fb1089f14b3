//! Forms, styles, counting rules and limits.
use core::fmt;

/// The form in which the bytes of a message are written.
#[derive(Clone, Copy, Debug, Default, PartialEq, Eq, Hash)]
pub enum Form {
    /// A segment table, then the segments.
    #[default]
    Stream,
    /// Such bytes, packed.
    Packed,
    /// The words of a single segment without its segment table.
    Bare,
}

/// The style in which the text of a message is written.
#[derive(Clone, Copy, Debug, Default, PartialEq, Eq, Hash)]
pub enum Style {
    /// Lines, with the digits of each list of bytes, as `capn show` writes it.
    #[default]
    Lines,
    /// Lines in which a list of bytes that is a text stands between quotes, as `capn show --text` writes them.
    Text,
    /// One line of JSON, as `capn show --json` writes it.
    Json,
    /// One line of JSON in which a text in UTF-8 with its zero is a string, as `capn show --json --text` writes it.
    JsonText,
}

/// The counting rule for what reading a message costs.
#[derive(Clone, Copy, Debug, Default, PartialEq, Eq, Hash)]
pub enum Tariff {
    /// Each struct and list costs a word more than its size.
    #[default]
    Strict,
    /// Each struct and list costs its size, as the traversal limit of the implementation in C++ counts it.
    Plain,
}

/// The limits of what a call accepts. The cost of reading is in words of 8 bytes, and the root object has depth 1.
///
/// ```
/// let limits = capn::Limits { depth: 32, ..capn::Limits::default() };
/// assert_eq!((limits.message_words, limits.budget), (8_388_608, 8_388_608));
/// ```
///
/// Every call takes a reference to them.
#[derive(Clone, Copy, Debug, PartialEq, Eq, Hash)]
pub struct Limits {
    // c/limits.txt: fields in rust
    /// The most words of a message with a segment table: 1 to 2^28.
    pub message_words: u32,
    /// The traversal limit, in words: 0 to 2^28.
    pub budget: u32,
    /// The nesting limit, in levels of objects: 1 to 256.
    pub depth: u32,
    /// The counting rule for costs.
    pub tariff: Tariff,
    // c/limits.txt ends
}

/// One of the [`Limits`].
#[non_exhaustive]
#[derive(Clone, Copy, Debug, PartialEq, Eq, Hash)]
pub enum Limit {
    /// `message_words`
    MessageWords,
    /// `budget`
    Budget,
    /// `depth`
    Depth,
}

impl fmt::Display for Limit {
    fn fmt(&self, f: &mut fmt::Formatter<'_>) -> fmt::Result {
        f.write_str(match self {
            Limit::MessageWords => "message_words",
            Limit::Budget => "budget",
            Limit::Depth => "depth",
        })
    }
}

impl Limits {
    // c/limits.txt: usual in rust
    /// The default limits: 64 MiB of message, 64 MiB of reading, a depth of 64, the strict tariff.
    pub const fn usual() -> Self {
        Limits {
            message_words: 8_388_608,
            budget: 8_388_608,
            depth: 64,
            tariff: Tariff::Strict,
        }
    }
    // c/limits.txt ends

    /// The first limit that is out of its range: each call returns [`Error::OutOfRange`](crate::Error::OutOfRange) for
    /// it.
    ///
    /// ```
    /// use capn::{Limit, Limits};
    ///
    /// assert_eq!(Limits::usual().out_of_range(), None);
    /// let limits = Limits { budget: u32::MAX, ..Limits::usual() };
    /// assert_eq!(limits.out_of_range(), Some(Limit::Budget));
    /// ```
    pub const fn out_of_range(&self) -> Option<Limit> {
        const MOST_WORDS: u32 = 1 << 28;
        if self.message_words == 0 || self.message_words > MOST_WORDS {
            return Some(Limit::MessageWords);
        }
        if self.budget > MOST_WORDS {
            return Some(Limit::Budget);
        }
        if self.depth == 0 || self.depth > 256 {
            return Some(Limit::Depth);
        }
        None
    }

    /// Returns the number of bytes for which a buffer for canonical bytes has room at first. In most cases, the
    /// canonical bytes aren't longer than the message. They are never longer than the traversal limit allows.
    pub(crate) fn most_bytes(&self, size: usize) -> usize {
        size.min(8 * (self.budget as usize + 1))
    }

    #[inline]
    pub(crate) fn raw(&self) -> capn_sys::capn_limits {
        capn_sys::capn_limits {
            // c/limits.txt: laid out in rust
            message_words: self.message_words,
            budget: self.budget,
            depth: self.depth,
            tariff: self.tariff as u32,
            // c/limits.txt ends
        }
    }
}

/// A copy, for calls that take limits by reference or by value.
impl From<&Limits> for Limits {
    fn from(limits: &Limits) -> Self {
        *limits
    }
}

impl Default for Limits {
    fn default() -> Self {
        Self::usual()
    }
}
