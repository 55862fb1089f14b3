//! The lines of a message: what each of its words is.
use alloc::vec;
use core::fmt;
use core::iter::FusedIterator;

use capn_sys::{
    capn_line, CAPN_LINE_DATA, CAPN_LINE_LIST, CAPN_LINE_NULL, CAPN_LINE_OVERLAP, CAPN_LINE_PAD,
    CAPN_LINE_PADDING, CAPN_LINE_POINTER, CAPN_LINE_SLACK, CAPN_LINE_TAG,
};

use crate::call;
use crate::{Error, Form, Limits};

/// The kind of the words of a [`Line`]. Its text is the word that `capn annotate` prints.
#[non_exhaustive]
#[derive(Clone, Copy, Debug, PartialEq, Eq, Hash)]
pub enum LineKind {
    /// A pointer that isn't null.
    Pointer,
    /// Null pointers.
    Null,
    /// A word of a landing pad, which a far pointer refers to.
    Pad,
    /// The tag word of a list of structs.
    Tag,
    /// Data words of a struct, or of the elements of a list of structs.
    Data,
    /// Elements of a list of bits, bytes or numbers, and the padding after them.
    List,
    /// Words of a list of structs after its elements.
    Slack,
    /// Words of no object or landing pad.
    Unreached,
}

impl fmt::Display for LineKind {
    fn fmt(&self, f: &mut fmt::Formatter<'_>) -> fmt::Result {
        f.write_str(match self {
            LineKind::Pointer => "pointer",
            LineKind::Null => "null",
            LineKind::Pad => "pad",
            LineKind::Tag => "tag",
            LineKind::Data => "data",
            LineKind::List => "list",
            LineKind::Slack => "slack",
            LineKind::Unreached => "unreached",
        })
    }
}

/// A line of a message: words one after another in one segment that are alike.
#[non_exhaustive]
#[derive(Clone, Copy, Debug, PartialEq, Eq, Hash)]
pub struct Line {
    /// Where the first word begins in the message, or in the unpacked bytes of a packed message.
    pub offset: u64,
    /// The segment of the words.
    pub segment: u32,
    /// The number of the first word in that segment.
    pub word: u32,
    /// The number of words, 1 or more.
    pub words: u32,
    /// The number of times that objects and landing pads cover each of the words; 0 for [`LineKind::Unreached`].
    pub times: u32,
    /// The pointer to the object or landing pad that has the words: its segment, and its word in that segment. `None`
    /// for the root pointer, and for [`LineKind::Unreached`].
    pub slot: Option<(u32, u32)>,
    /// The number of words that canonical bytes leave out.
    pub cut: u32,
    /// The number of words that aren't zero.
    pub not_zero: u32,
    /// The kind of the words.
    pub kind: LineKind,
    /// Whether different objects or landing pads overlap in the words.
    pub overlap: bool,
    /// Whether the line has the last word of a list, whose padding isn't zero.
    pub padding: bool,
}

impl Line {
    fn of(line: capn_line) -> Self {
        let kind = match line.kind {
            CAPN_LINE_POINTER => LineKind::Pointer,
            CAPN_LINE_NULL => LineKind::Null,
            CAPN_LINE_PAD => LineKind::Pad,
            CAPN_LINE_TAG => LineKind::Tag,
            CAPN_LINE_DATA => LineKind::Data,
            CAPN_LINE_LIST => LineKind::List,
            CAPN_LINE_SLACK => LineKind::Slack,
            _ => LineKind::Unreached,
        };
        // The root pointer is word 0 of segment 0.
        let belongs = kind != LineKind::Unreached && (line.segment, line.word) != (0, 0);
        Line {
            offset: line.offset,
            segment: line.segment,
            word: line.word,
            words: line.words,
            times: line.times,
            slot: belongs.then_some((line.slot_segment, line.slot_word)),
            cut: line.cut,
            not_zero: line.not_zero,
            kind,
            overlap: line.flags & CAPN_LINE_OVERLAP != 0,
            padding: line.flags & CAPN_LINE_PADDING != 0,
        }
    }
}

/// The lines of a message, in the order of their words. [`annotate`] makes them.
#[derive(Clone, Debug)]
pub struct Lines(vec::IntoIter<capn_line>);

impl Iterator for Lines {
    type Item = Line;

    fn next(&mut self) -> Option<Line> {
        self.0.next().map(Line::of)
    }

    fn size_hint(&self) -> (usize, Option<usize>) {
        self.0.size_hint()
    }
}

impl DoubleEndedIterator for Lines {
    fn next_back(&mut self) -> Option<Line> {
        self.0.next_back().map(Line::of)
    }
}

impl ExactSizeIterator for Lines {}
impl FusedIterator for Lines {}

/// Returns the lines of one message, as `capn annotate` has them: each word of each segment is in exactly one.
///
/// It accepts what [`check`](crate::check) accepts, also a message with a capability. The segment table has no line.
///
/// ```
/// use capn::{Form, LineKind, Limits};
///
/// // A list of the two bytes "ab", which are followed by six that nobody reads, and a word of no object.
/// let words = [1 | 2 << 32 | 2 << 35, 0x6261 | 9 << 56, 7u64].map(u64::to_le_bytes).concat();
/// let lines: Vec<_> = capn::annotate(&words, Form::Bare, &Limits::usual())?.collect();
/// let kinds = [LineKind::Pointer, LineKind::List, LineKind::Unreached];
/// assert!(lines.iter().map(|line| line.kind).eq(kinds));
/// assert_eq!((lines[1].slot, lines[1].padding), (Some((0, 0)), true));
/// assert_eq!((lines[2].offset, lines[2].times, lines[2].not_zero), (16, 0, 1));
/// # Ok::<(), capn::Error>(())
/// ```
pub fn annotate(message: &[u8], form: Form, limits: &Limits) -> Result<Lines, Error> {
    Ok(Lines(call::annotate(form, message, limits)?.into_iter()))
}
