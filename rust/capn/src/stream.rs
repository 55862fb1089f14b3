//! The messages of a stream in memory.
use core::fmt;
use core::iter::FusedIterator;

use crate::{call, Error, Limits};

/// Returns the messages of a stream, in order, each as its bytes with the segment table: pass them on as
/// [`Form::Stream`](crate::Form).
///
/// Of the limits, `message_words` bounds each message. Nothing else is checked: the call that a message is passed to
/// checks it. Limits are taken by reference, as everywhere, or by value.
///
/// ```
/// use capn::{Form, Limits};
///
/// let stream = [[0, 0, 0, 0, 1, 0, 0, 0], [0; 8], [0, 0, 0, 0, 1, 0, 0, 0], [0; 8]].concat();
/// let limits = Limits::usual();
/// for message in capn::messages(&stream, &limits) {
///     assert_eq!(capn::check(message?, Form::Stream, &limits)?.visits, 1);
/// }
/// # Ok::<(), capn::Error>(())
/// ```
///
/// A message that is rejected doesn't end the stream. To go on after it, handle its error within the loop:
///
/// ```
/// use capn::{Form, Limits, StreamError};
///
/// // The second of three messages is a struct that refers to itself.
/// let valid = [1 << 32, 0u64];
/// let hostile = [1 << 32, 0x1_0000_ffff_fffc];
/// let stream = [valid, hostile, valid].concat().iter().flat_map(|it| it.to_le_bytes()).collect::<Vec<_>>();
///
/// let limits = Limits::usual();
/// let mut rejected = Vec::new();
/// let mut messages = capn::messages(&stream, &limits);
/// while let Some(message) = messages.next() {
///     if let Err(error) = capn::check(message?, Form::Stream, &limits) {
///         rejected.push(messages.locate(error));
///     }
/// }
/// assert_eq!(messages.number(), 3);
/// let texts: Vec<_> = rejected.iter().map(StreamError::to_string).collect();
/// assert_eq!(texts, ["message 2 at 16: TooDeep at 0:0, paid 128, visits 65"]);
/// # Ok::<(), StreamError>(())
/// ```
pub fn messages(stream: &[u8], limits: impl Into<Limits>) -> Messages<'_> {
    Messages {
        stream,
        limits: limits.into(),
        number: 0,
        start: 0,
        offset: 0,
        next: 0,
    }
}

/// The iterator of [`messages`].
///
/// An error of it is one of a segment table, or of a stream that ends within a message. It is the last item: after a
/// damaged segment table it isn't known where the next message begins.
#[derive(Clone)]
pub struct Messages<'a> {
    stream: &'a [u8],
    limits: Limits,
    number: u64,
    start: usize,
    offset: usize,
    next: usize,
}

/// The error of a message in a stream. It becomes an [`Error`] by `?`.
#[derive(Clone, Copy, Debug, PartialEq, Eq, Hash)]
pub struct StreamError {
    /// The number of the message, counted from 1.
    pub number: u64,
    /// The offset at which the message begins in the stream, in bytes.
    pub offset: u64,
    /// The reason.
    pub error: Error,
}

impl Messages<'_> {
    /// Returns the number of the message, or of the error, that was returned last, counted from 1.
    pub fn number(&self) -> u64 {
        self.number
    }

    /// Returns where the message, or the error, that was returned last begins in the stream.
    ///
    /// ```
    /// let stream = [[0, 0, 0, 0, 1, 0, 0, 0], [0; 8]].concat().repeat(2);
    /// let mut messages = capn::messages(&stream, &capn::Limits::usual());
    /// let mut offsets = Vec::new();
    /// while let Some(message) = messages.next() {
    ///     message?;
    ///     offsets.push((messages.start(), messages.offset()));
    /// }
    /// assert_eq!(offsets, [(0, 16), (16, 32)]);
    /// # Ok::<(), capn::Error>(())
    /// ```
    pub fn start(&self) -> u64 {
        self.start as u64
    }

    /// Returns where the next message begins in the stream: after an error where the rejected one does, and at the end
    /// how long the stream is.
    pub fn offset(&self) -> u64 {
        self.offset as u64
    }

    /// Returns the error of a call on the message that was returned last, with its number and offset.
    pub fn locate(&self, error: Error) -> StreamError {
        StreamError {
            number: self.number(),
            offset: self.start(),
            error,
        }
    }

    /// The error after which there is nothing more.
    #[cold]
    fn ended(&mut self, error: Error) -> StreamError {
        self.next = self.stream.len();
        self.locate(error)
    }
}

impl<'a> Iterator for Messages<'a> {
    type Item = Result<&'a [u8], StreamError>;

    #[inline]
    fn next(&mut self) -> Option<Self::Item> {
        let rest = self
            .stream
            .get(self.next..)
            .filter(|rest| !rest.is_empty())?;
        self.number += 1;
        self.start = self.next;
        // A copy, so that nothing else of the iterator has to be in memory during the call.
        let limits = self.limits;
        match call::whole(rest, &limits) {
            Ok(message) => {
                self.next += message.len();
                self.offset = self.next;
                Some(Ok(message))
            }
            Err(error) => Some(Err(self.ended(error))),
        }
    }
}

impl FusedIterator for Messages<'_> {}

impl fmt::Debug for Messages<'_> {
    fn fmt(&self, f: &mut fmt::Formatter<'_>) -> fmt::Result {
        f.debug_struct("Messages")
            .field("limits", &self.limits)
            .field("number", &self.number)
            .field("start", &self.start)
            .field("offset", &self.offset)
            .finish_non_exhaustive()
    }
}

impl From<StreamError> for Error {
    fn from(located: StreamError) -> Self {
        located.error
    }
}

impl fmt::Display for StreamError {
    fn fmt(&self, f: &mut fmt::Formatter<'_>) -> fmt::Result {
        let StreamError {
            number,
            offset,
            error,
        } = self;
        write!(f, "message {number} at {offset}: {error}")
    }
}

#[cfg(feature = "std")]
impl std::error::Error for StreamError {
    fn source(&self) -> Option<&(dyn std::error::Error + 'static)> {
        Some(&self.error)
    }
}
