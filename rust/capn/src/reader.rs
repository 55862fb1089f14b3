//! A reader of streams of any length.
use core::fmt;
use core::iter::FusedIterator;
use core::mem;
use std::io::{self, Read};
use std::vec::Vec;

use crate::call::{self, First};
use crate::{Error, Limits, StreamError, Unpacker};

/// Reads a stream message by message, with only the current one in memory.
///
/// It returns a message as soon as its last byte has come, and reads no byte after it: the input can be read on from
/// there. It reads few bytes at a time, so pass a [`BufReader`](std::io::BufReader) unless the input is read on
/// after it. Memory grows with the bytes that come, not with what a segment table announces.
///
/// Of the limits, `message_words` bounds each message. Nothing else is checked: the call that a message is passed to
/// checks it.
///
/// ```
/// use capn::{Form, Limits, Reader};
///
/// let stream = [[0, 0, 0, 0, 1, 0, 0, 0], [0; 8], [0, 0, 0, 0, 1, 0, 0, 0], [0; 8]].concat();
/// let mut reader = Reader::new(&stream[..], &Limits::usual());
/// while let Some(message) = reader.read()? {
///     assert_eq!(message.len(), 16);
/// }
/// assert_eq!(reader.number(), 2);
/// # Ok::<(), capn::ReadError>(())
/// ```
///
/// To keep the messages, iterate over the reader: the items are vectors.
///
/// ```
/// # use capn::{Limits, Reader};
/// # let stream = [[0, 0, 0, 0, 1, 0, 0, 0], [0; 8], [0, 0, 0, 0, 1, 0, 0, 0], [0; 8]].concat();
/// let messages = Reader::new(&stream[..], &Limits::usual()).into_iter().collect::<Result<Vec<_>, _>>()?;
/// assert_eq!(messages.concat(), stream);
/// # Ok::<(), capn::ReadError>(())
/// ```
///
/// A reader is for one thread at a time: `read` borrows it exclusively, so two threads that share one don't compile.
///
/// ```compile_fail,E0499
/// use capn::{Limits, Reader};
///
/// let mut reader = Reader::new(&[][..], &Limits::usual());
/// std::thread::scope(|scope| {
///     scope.spawn(|| reader.read().is_ok());
///     scope.spawn(|| reader.read().is_ok());
/// });
/// ```
///
/// With a lock it does:
///
/// ```
/// use capn::{Limits, Reader};
/// use std::sync::Mutex;
///
/// let reader = Mutex::new(Reader::new(&[][..], &Limits::usual()));
/// std::thread::scope(|scope| {
///     scope.spawn(|| reader.lock().unwrap().read().is_ok());
///     scope.spawn(|| reader.lock().unwrap().read().is_ok());
/// });
/// ```
pub struct Reader<R> {
    input: R,
    limits: Limits,
    held: Vec<u8>,
    have: usize,
    is_whole: bool,
    number: u64,
    start: u64,
    offset: u64,
}

/// Why a [`Reader`] returned no message.
#[non_exhaustive]
#[derive(Debug)]
pub enum ReadError {
    /// The input failed. Nothing is lost, and [`read`](Reader::read) may be called again.
    Io(io::Error),
    /// The segment table of a message is rejected, or the stream ends within the message. The stream can't be read on:
    /// it isn't known where the next message begins.
    Refused {
        /// The number of the message, counted from 1.
        number: u64,
        /// The offset at which the message begins in the stream, in bytes.
        offset: u64,
        /// The reason.
        error: Error,
    },
}

impl<R: Read> Reader<R> {
    /// Returns a reader of the messages of an input, which isn't packed.
    pub fn new(input: R, limits: impl Into<Limits>) -> Self {
        Reader {
            input,
            limits: limits.into(),
            held: Vec::new(),
            have: 0,
            is_whole: false,
            number: 0,
            start: 0,
            offset: 0,
        }
    }

    /// Returns the next message with its segment table, or `None` at the end of the stream.
    ///
    /// After [`ReadError::Io`], such as a timeout or `WouldBlock`, call it again: it goes on where it was. After
    /// [`ReadError::Refused`] it returns the same error again; after a failed allocation it tries again.
    ///
    /// To go on after a message that a check rejects, handle its error within the loop:
    ///
    /// ```
    /// use capn::{Form, Limits, Reader};
    ///
    /// // The second of three messages is a struct that refers to itself.
    /// let valid = [1 << 32, 0u64];
    /// let hostile = [1 << 32, 0x1_0000_ffff_fffc];
    /// let stream = [valid, hostile, valid].concat().iter().flat_map(|it| it.to_le_bytes()).collect::<Vec<_>>();
    ///
    /// let limits = Limits::usual();
    /// let mut rejected = Vec::new();
    /// let mut reader = Reader::new(&stream[..], &limits);
    /// while let Some(message) = reader.read()? {
    ///     if let Err(error) = capn::check(message, Form::Stream, &limits) {
    ///         rejected.push(reader.locate(error));
    ///     }
    /// }
    /// assert_eq!(reader.number(), 3);
    /// assert_eq!((rejected.len(), rejected[0].number, rejected[0].offset), (1, 2, 16));
    /// # Ok::<(), capn::ReadError>(())
    /// ```
    pub fn read(&mut self) -> Result<Option<&[u8]>, ReadError> {
        Ok(match self.advance()? {
            true => Some(&self.held[..self.have]),
            false => None,
        })
    }

    /// Reads the next message, if there is one.
    fn advance(&mut self) -> Result<bool, ReadError> {
        self.leave();
        loop {
            let need = match call::first(&self.held[..self.have], &self.limits) {
                Ok(First::Whole) => {
                    self.number += 1;
                    self.start = self.offset;
                    self.is_whole = true;
                    return Ok(true);
                }
                Ok(First::Needs(need)) => need,
                Err(error) => return Err(self.refused(error)),
            };
            let came = self.more(need)?;
            if came == 0 && self.have == 0 {
                return Ok(false);
            }
            if came == 0 {
                return Err(self.refused(Error::frame_cut()));
            }
            self.have += came;
        }
    }

    /// Goes past the message that was returned.
    fn leave(&mut self) {
        if self.is_whole {
            self.offset += self.have as u64;
            self.have = 0;
            self.is_whole = false;
        }
    }

    /// Reads some of the bytes up to `need`, and returns how many: 0 at the end.
    fn more(&mut self, need: usize) -> Result<usize, ReadError> {
        let room = need.min((2 * self.have).max(1 << 16));
        if self.held.len() < room {
            let more = room - self.held.len();
            if self.held.try_reserve_exact(more).is_err() {
                return Err(self.refused(Error::Memory));
            }
            self.held.resize(room, 0);
        }
        loop {
            match self.input.read(&mut self.held[self.have..room]) {
                Err(why) if why.kind() == io::ErrorKind::Interrupted => {}
                Err(why) => return Err(self.failed(why)),
                Ok(came) => {
                    assert!(
                        came <= room - self.have,
                        "the input filled a part of the buffer"
                    );
                    return Ok(came);
                }
            }
        }
    }

    /// An error of the input: one of packed bytes is that of the message.
    fn failed(&self, why: io::Error) -> ReadError {
        match why.get_ref().and_then(|it| it.downcast_ref::<Error>()) {
            Some(error) => self.refused(*error),
            None => ReadError::Io(why),
        }
    }

    fn refused(&self, error: Error) -> ReadError {
        ReadError::Refused {
            number: self.number + 1,
            offset: self.offset,
            error,
        }
    }
}

impl<R: Read> Reader<Unpacker<R>> {
    /// Returns a reader of the messages of a packed input. It unpacks no more than a message needs, and reads no byte
    /// after the group of packed bytes in which the message ends.
    ///
    /// The messages are not packed: pass them on as [`Form::Stream`](crate::Form). Offsets count unpacked bytes.
    ///
    /// ```
    /// use capn::{Form, Limits, Reader};
    ///
    /// let message = [[0, 0, 0, 0, 1, 0, 0, 0], [0; 8]].concat();
    /// let packed = capn::pack(&message)?.repeat(2);
    /// let mut reader = Reader::packed(&packed[..], &Limits::usual());
    /// while let Some(message) = reader.read()? {
    ///     capn::check(message, Form::Stream, &Limits::usual())?;
    /// }
    /// assert_eq!((reader.number(), reader.offset()), (2, 32));
    /// # Ok::<(), Box<dyn std::error::Error>>(())
    /// ```
    pub fn packed(input: R, limits: impl Into<Limits>) -> Self {
        Reader::new(Unpacker::new(input), limits)
    }
}

impl<R> Reader<R> {
    /// Returns how many messages were returned.
    pub fn number(&self) -> u64 {
        self.number
    }

    /// Returns where the message that was returned last begins in the stream; 0 before the first one.
    pub fn start(&self) -> u64 {
        self.start
    }

    /// Returns where the next message begins in the stream: after an error where the rejected one does, and at the end
    /// how long the stream is.
    pub fn offset(&self) -> u64 {
        let returned = if self.is_whole { self.have } else { 0 };
        self.offset + returned as u64
    }

    /// Returns the error of a call on the message that was returned last, with its number and offset.
    pub fn locate(&self, error: Error) -> StreamError {
        StreamError {
            number: self.number,
            offset: self.start,
            error,
        }
    }

    /// Returns the input, to read on after the messages.
    pub fn into_inner(self) -> R {
        self.input
    }
}

impl<R: fmt::Debug> fmt::Debug for Reader<R> {
    fn fmt(&self, f: &mut fmt::Formatter<'_>) -> fmt::Result {
        f.debug_struct("Reader")
            .field("input", &self.input)
            .field("limits", &self.limits)
            .field("number", &self.number())
            .field("start", &self.start())
            .field("offset", &self.offset())
            .finish_non_exhaustive()
    }
}

/// The iterator over the messages of a [`Reader`], each a vector of its own.
///
/// After [`ReadError::Io`] it goes on, as the reader does. [`ReadError::Refused`] is its last item.
#[derive(Debug)]
pub struct IntoMessages<R> {
    reader: Reader<R>,
    is_over: bool,
}

impl<R> IntoMessages<R> {
    /// Returns the reader, which has the number and the offset of the message that was returned last.
    pub fn reader(&self) -> &Reader<R> {
        &self.reader
    }
}

impl<R: Read> IntoIterator for Reader<R> {
    type Item = Result<Vec<u8>, ReadError>;
    type IntoIter = IntoMessages<R>;

    fn into_iter(self) -> IntoMessages<R> {
        IntoMessages {
            reader: self,
            is_over: false,
        }
    }
}

impl<R: Read> Iterator for IntoMessages<R> {
    type Item = Result<Vec<u8>, ReadError>;

    fn next(&mut self) -> Option<Self::Item> {
        if self.is_over {
            return None;
        }
        match self.reader.advance() {
            Ok(true) => {
                let mut message = mem::take(&mut self.reader.held);
                message.truncate(self.reader.have);
                self.reader.leave();
                Some(Ok(message))
            }
            Ok(false) => {
                self.is_over = true;
                None
            }
            Err(error) => {
                self.is_over = matches!(error, ReadError::Refused { .. });
                Some(Err(error))
            }
        }
    }
}

impl<R: Read> FusedIterator for IntoMessages<R> {}

impl fmt::Display for ReadError {
    fn fmt(&self, f: &mut fmt::Formatter<'_>) -> fmt::Result {
        match self {
            ReadError::Io(why) => why.fmt(f),
            ReadError::Refused {
                number,
                offset,
                error,
            } => write!(f, "message {number} at {offset}: {error}"),
        }
    }
}

impl std::error::Error for ReadError {
    fn source(&self) -> Option<&(dyn std::error::Error + 'static)> {
        match self {
            ReadError::Io(why) => Some(why),
            ReadError::Refused { error, .. } => Some(error),
        }
    }
}

impl From<StreamError> for ReadError {
    fn from(located: StreamError) -> Self {
        let StreamError {
            number,
            offset,
            error,
        } = located;
        ReadError::Refused {
            number,
            offset,
            error,
        }
    }
}
