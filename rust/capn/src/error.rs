//! Errors, and where they are.
use core::fmt;

use capn_sys::{
    capn_report, capn_status, CAPN_BAD_FORM, CAPN_BAD_LIMITS, CAPN_BAD_STYLE, CAPN_MEMORY,
};

use crate::{call, Limit, Limits};

/// Why a call has no result. Its text is the one that the program `capn` prints.
#[non_exhaustive]
#[derive(Clone, Copy, Debug, PartialEq, Eq, Hash)]
pub enum Error {
    /// An allocation failed.
    Memory,
    /// A limit is out of its range.
    #[deprecated(note = "no call returns it: `Error::OutOfRange` says which limit it is")]
    Limits,
    /// This limit is out of its range.
    ///
    /// ```
    /// use capn::{Error, Form, Limit, Limits};
    ///
    /// let limits = Limits { depth: 0, ..Limits::usual() };
    /// let error = capn::check(&[0; 8], Form::Bare, &limits).unwrap_err();
    /// assert_eq!(error, Error::OutOfRange(Limit::Depth));
    /// assert_eq!(error.to_string(), "a limit is out of its range: depth");
    /// ```
    OutOfRange(Limit),
    /// The call doesn't take this form.
    Form,
    /// There is no such style.
    Style,
    /// The input is rejected.
    Refused {
        /// The error in it.
        kind: Kind,
        /// Where the error is.
        place: Place,
    },
    /// A pointer of a valid message refers to something else than the caller expects.
    Unexpected {
        /// The word for the object that the caller expects, such as `text`.
        wanted: &'static str,
        /// The word for the object that is there, such as `rows`.
        found: &'static str,
    },
}

/// Where an input is rejected.
#[non_exhaustive]
#[derive(Clone, Copy, Debug, PartialEq, Eq, Hash)]
pub enum Place {
    /// The kind alone says it.
    Nowhere,
    /// An offset, a count or an index, as the kind says.
    At(u64),
    /// The number of bytes that were passed to [`pack`](crate::pack).
    Words(u64),
    /// The pointer at which the check of a message stopped.
    Slot {
        /// The number of its segment.
        segment: u32,
        /// The number of its word in that segment.
        word: u32,
        /// The cost of the objects before it, in words.
        paid: u32,
        /// The number of pointers that were followed, including this one.
        visits: u32,
    },
}

macro_rules! kinds {
    ($($status:literal $name:ident $text:literal,)*) => {
        /// The error in an input: the statuses of `capn.h` from 16 on.
        #[non_exhaustive]
        #[derive(Clone, Copy, Debug, PartialEq, Eq, Hash)]
        pub enum Kind {
            $(#[doc = $text] $name,)*
            /// A status of a later library.
            Other(u32),
        }

        impl Kind {
            fn of(status: capn_status) -> Self {
                match status {
                    $($status => Kind::$name,)*
                    other => Kind::Other(other),
                }
            }

            /// Its number in `capn.h`.
            pub fn status(self) -> u32 {
                match self {
                    $(Kind::$name => $status,)*
                    Kind::Other(status) => status,
                }
            }

            /// Its name, such as `TooDeep`.
            pub fn name(self) -> &'static str {
                match self {
                    $(Kind::$name => stringify!($name),)*
                    Kind::Other(_) => "Other",
                }
            }

            /// The meaning of the kind, in a few words.
            ///
            /// ```
            /// assert_eq!(capn::Kind::Range.meaning(), "an object lies outside of its segment");
            /// ```
            pub fn meaning(self) -> &'static str {
                call::status_text(self.status())
            }
        }
    };
}

kinds! {
    // c/statuses.txt: kinds in rust
    16 NotWhole "The bytes are not whole words; at: how many bytes there are.",
    17 BareTooLong "More words than a bare message may have; at: how many words there are.",
    32 PackedCut "The packed bytes are truncated; at: the offset of the group's tag.",
    33 PackedTooLong "The packed bytes have more words than fit; at: the offset of the group's tag.",
    48 FrameEmpty "There are no bytes.",
    49 TooManySegments "More segments are announced than a message may have; at: how many are announced.",
    50 TooManyWords "More words are announced than the limit; at: how many are announced.",
    51 FrameCut "The message is truncated.",
    52 Trailing "Bytes follow the message; at: the offset of the first byte after the message; of a packed text, in \
        the unpacked bytes.",
    64 NoRoot "The first segment has no word for the root.",
    65 RootKind "The root is a capability.",
    66 Reserved "A pointer of a reserved kind.",
    67 NoSegment "A far pointer refers to a segment that doesn't exist.",
    68 PadRange "A landing pad lies outside of its segment.",
    69 BadPad "A landing pad is not valid.",
    70 Range "An object lies outside of its segment.",
    71 BadTag "The tag word of a list of structs is not valid.",
    72 TagOverrun "The structs of a list need more words than the list has.",
    73 TooDeep "An object lies deeper than the limit.",
    74 OverBudget "Reading costs more than the budget.",
    80 Capability "The value has a capability; at: the index of the first in preorder.",
    // c/statuses.txt ends
}

impl Error {
    /// The error that a status and its report say. The library doesn't say which of the limits is out of its range.
    #[cold]
    #[allow(deprecated)]
    pub(crate) fn of(status: capn_status, report: &capn_report, limits: &Limits) -> Self {
        match Self::of_status(status, report) {
            Error::Limits => limits
                .out_of_range()
                .map_or(Error::Limits, Error::OutOfRange),
            other => other,
        }
    }

    #[allow(deprecated)]
    fn of_status(status: capn_status, report: &capn_report) -> Self {
        let place = match status {
            2 => return Error::Form,
            3 => return Error::Limits,
            4 => return Error::Limits,
            6 => return Error::Style,
            8 => return Error::Memory,
            48 | 51 => Place::Nowhere,
            call::WALK_FIRST..=call::WALK_LAST => Place::Slot {
                segment: report.segment,
                word: report.word,
                paid: report.paid,
                visits: report.visits,
            },
            _ => Place::At(report.at),
        };
        Error::Refused {
            kind: Kind::of(status),
            place,
        }
    }

    /// A stream that ends within a message.
    #[cfg(feature = "std")]
    pub(crate) fn frame_cut() -> Self {
        Error::Refused {
            kind: Kind::FrameCut,
            place: Place::Nowhere,
        }
    }

    /// A packed stream that ends within a group, which begins at this offset.
    #[cfg(feature = "std")]
    pub(crate) fn packed_cut(offset: u64) -> Self {
        Error::Refused {
            kind: Kind::PackedCut,
            place: Place::At(offset),
        }
    }

    /// Bytes that are not whole words.
    pub(crate) fn not_whole(count: usize) -> Self {
        Error::Refused {
            kind: Kind::NotWhole,
            place: Place::At(count as u64),
        }
    }

    /// The error of bytes that are to be packed, which have no form.
    pub(crate) fn of_words(self) -> Self {
        match self {
            Error::Refused {
                kind: kind @ Kind::NotWhole,
                place: Place::At(count),
            } => Error::Refused {
                kind,
                place: Place::Words(count),
            },
            other => other,
        }
    }

    /// A message that has no canonical bytes, since it has this capability.
    pub(crate) fn capability(index: u32) -> Self {
        Error::Refused {
            kind: Kind::Capability,
            place: Place::At(u64::from(index)),
        }
    }

    /// The error in a rejected input.
    pub fn kind(&self) -> Option<Kind> {
        match self {
            Error::Refused { kind, .. } => Some(*kind),
            _ => None,
        }
    }

    /// Where an input is rejected.
    pub fn place(&self) -> Option<Place> {
        match self {
            Error::Refused { place, .. } => Some(*place),
            _ => None,
        }
    }
}

impl fmt::Display for Error {
    #[allow(deprecated)]
    fn fmt(&self, f: &mut fmt::Formatter<'_>) -> fmt::Result {
        let (status, place) = match *self {
            Error::Unexpected { wanted, found } => {
                return write!(f, "{wanted} expected, {found} found");
            }
            Error::Refused { kind, place } => (kind.status(), place),
            Error::Memory => (CAPN_MEMORY, Place::Nowhere),
            Error::Limits | Error::OutOfRange(_) => (CAPN_BAD_LIMITS, Place::Nowhere),
            Error::Form => (CAPN_BAD_FORM, Place::Nowhere),
            Error::Style => (CAPN_BAD_STYLE, Place::Nowhere),
        };
        let (report, mut room) = (place.report(), [0; 128]);
        let text = call::refusal_text(status, &report, &mut room);
        // The program names no form where it packs.
        let is_of_words = matches!(place, Place::Words(_));
        f.write_str(match text.strip_prefix("bare: ") {
            Some(rest) if is_of_words => rest,
            _ => text,
        })?;
        match self {
            Error::OutOfRange(limit) => write!(f, ": {limit}"),
            _ => Ok(()),
        }
    }
}

impl Place {
    /// The report that says it.
    fn report(self) -> capn_report {
        let mut report = capn_report::default();
        match self {
            Place::Nowhere => {}
            Place::At(at) | Place::Words(at) => report.at = at,
            Place::Slot {
                segment,
                word,
                paid,
                visits,
            } => {
                report.segment = segment;
                report.word = word;
                report.paid = paid;
                report.visits = visits;
            }
        }
        report
    }
}

#[cfg(feature = "std")]
impl std::error::Error for Error {}
