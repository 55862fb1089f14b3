//! The words of a packed input, as they are asked for.
use core::fmt;
use std::io::{self, Read};
use std::vec::Vec;

use crate::{call, Error};

/// Unpacks an input while it is read.
///
/// Packed bytes come in groups, each of which unpacks to 1 to 256 words. It reads no group after the one that has the
/// last byte that is asked for, and goes on after an error of its input. If the input ends within a group, the error
/// has the kind [`UnexpectedEof`](io::ErrorKind::UnexpectedEof) and refers to an [`Error`]. It reads few bytes at a
/// time, as [`Reader`](crate::Reader) does.
///
/// ```
/// use std::io::Read;
///
/// let mut words = Vec::new();
/// capn::Unpacker::new(&[1, 5, 0, 1][..]).read_to_end(&mut words)?;
/// assert_eq!(words, [[5, 0, 0, 0, 0, 0, 0, 0], [0; 8], [0; 8]].concat());
/// # Ok::<(), std::io::Error>(())
/// ```
pub struct Unpacker<R> {
    input: R,
    /// Where the input puts its bytes, so that none are taken for read if it panics.
    landing: Vec<u8>,
    /// Complete groups, and the one that has begun.
    packed: Vec<u8>,
    /// Where the one that has begun begins.
    begun: usize,
    /// The number of words of the complete groups.
    words: usize,
    /// The unpacked bytes. The bytes up to `given` were already returned.
    unpacked: Vec<u8>,
    given: usize,
    /// The number of packed bytes that were unpacked.
    taken: u64,
}

/// The greatest number of words that are unpacked at once.
const MOST_WORDS: usize = 4096;

impl<R> Unpacker<R> {
    /// Returns the unpacker of an input.
    pub fn new(input: R) -> Self {
        Unpacker {
            input,
            landing: Vec::new(),
            packed: Vec::new(),
            begun: 0,
            words: 0,
            unpacked: Vec::new(),
            given: 0,
            taken: 0,
        }
    }

    /// Returns the input. The words that are unpacked and were not asked for are lost.
    pub fn into_inner(self) -> R {
        self.input
    }
}

impl<R: Read> Unpacker<R> {
    /// Reads groups until they have so many words, or the input ends.
    fn gather(&mut self, words: usize) -> io::Result<()> {
        while self.words < words.min(MOST_WORDS) {
            let need = self.begun + group_size(&self.packed[self.begun..]);
            let have = self.packed.len();
            if have == need {
                self.words += group_words(&self.packed[self.begun..]);
                self.begun = have;
                continue;
            }
            lengthen(&mut self.landing, need - have)?;
            reserve(&mut self.packed, need - have)?;
            let came = self.input.read(&mut self.landing[..need - have]);
            let count = *came.as_ref().unwrap_or(&0);
            assert!(
                count <= need - have,
                "the input filled a part of the buffer"
            );
            self.packed.extend_from_slice(&self.landing[..count]);
            match came {
                Err(why) if why.kind() == io::ErrorKind::Interrupted => {}
                Err(why) => return Err(why),
                // The words that came before are returned first.
                Ok(0) if self.words > 0 || have == self.begun => break,
                Ok(0) => {
                    let cut = Error::packed_cut(self.taken + self.begun as u64);
                    return Err(io::Error::new(io::ErrorKind::UnexpectedEof, cut));
                }
                Ok(_) => {}
            }
        }
        Ok(())
    }

    /// Unpacks the complete groups.
    fn unpack(&mut self) -> io::Result<()> {
        self.unpacked.clear();
        self.given = 0;
        lengthen(&mut self.unpacked, 8 * self.words)?;
        match call::unpack_some(&self.packed[..self.begun], &mut self.unpacked) {
            Ok(length) => self.unpacked.truncate(length),
            Err(why) => {
                self.unpacked.clear();
                return Err(io::Error::new(io::ErrorKind::Other, why));
            }
        }
        self.taken += self.begun as u64;
        self.packed.drain(..self.begun);
        (self.begun, self.words) = (0, 0);
        Ok(())
    }
}

impl<R: Read> Read for Unpacker<R> {
    fn read(&mut self, to: &mut [u8]) -> io::Result<usize> {
        if self.given == self.unpacked.len() {
            self.gather((to.len() + 7) / 8)?;
            self.unpack()?;
        }
        let count = (&self.unpacked[self.given..]).read(to)?;
        self.given += count;
        Ok(count)
    }
}

impl<R: fmt::Debug> fmt::Debug for Unpacker<R> {
    fn fmt(&self, f: &mut fmt::Formatter<'_>) -> fmt::Result {
        f.debug_struct("Unpacker")
            .field("input", &self.input)
            .field("taken", &self.taken)
            .finish_non_exhaustive()
    }
}

/// Adds zeros up to a length, if there are fewer bytes.
fn lengthen(bytes: &mut Vec<u8>, length: usize) -> io::Result<()> {
    if bytes.len() < length {
        reserve(bytes, length - bytes.len())?;
        bytes.resize(length, 0);
    }
    Ok(())
}

/// Makes room for so many bytes more.
fn reserve(bytes: &mut Vec<u8>, more: usize) -> io::Result<()> {
    let reserved = bytes.try_reserve(more);
    reserved.map_err(|_| io::Error::new(io::ErrorKind::OutOfMemory, Error::Memory))
}

/// Returns the least number of bytes of a group that begins with these bytes.
fn group_size(packed: &[u8]) -> usize {
    match packed {
        [] => 1,
        [0, ..] => 2,
        [255, ..] => 10 + packed.get(9).map_or(0, |more| 8 * usize::from(*more)),
        [tag, ..] => 1 + tag.count_ones() as usize,
    }
}

/// Returns the number of words of a complete group.
fn group_words(packed: &[u8]) -> usize {
    match packed[0] {
        0 => 1 + usize::from(packed[1]),
        255 => 1 + usize::from(packed[9]),
        _ => 1,
    }
}
