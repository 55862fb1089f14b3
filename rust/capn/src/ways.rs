//! The path to an error, and the first difference from the canonical form.
use alloc::vec::Vec;
use core::fmt;
use core::ops::Deref;

use capn_sys::{
    CAPN_DEPARTS_AFTER, CAPN_DEPARTS_CAPABILITY, CAPN_DEPARTS_SEGMENTS, CAPN_DEPARTS_WORD,
    CAPN_OWNER_LAST_WORD, CAPN_OWNER_TAG,
};

use crate::call;
use crate::{Error, Form, Limits};

/// The path from the root of a message to a pointer, which is its numbers.
///
/// A number leads from a struct to a pointer of it, from a list of pointers to an element, and from a list of structs
/// to an element, whose pointer the next number says. The path of the root has no numbers. Its text is what `capn show
/// --at` takes: `0.2`, or `root`.
#[derive(Clone, Debug, PartialEq, Eq, Hash)]
pub struct Way(Vec<u32>);

impl Deref for Way {
    type Target = [u32];

    fn deref(&self) -> &[u32] {
        &self.0
    }
}

impl From<Way> for Vec<u32> {
    fn from(way: Way) -> Self {
        way.0
    }
}

impl fmt::Display for Way {
    fn fmt(&self, f: &mut fmt::Formatter<'_>) -> fmt::Result {
        match self.split_first() {
            None => f.write_str("root"),
            Some((first, rest)) => {
                write!(f, "{first}")?;
                rest.iter().try_for_each(|number| write!(f, ".{number}"))
            }
        }
    }
}

/// Returns the path to the pointer at which one message is rejected. `None` if no pointer is at fault: the message is
/// valid, or it is rejected earlier, such as a truncated one.
///
/// It checks a rejected message twice, so call it after another call has rejected the message.
///
/// ```
/// use capn::{Form, Limits};
///
/// // A struct of two pointers; the second one refers to a list that is longer than the message.
/// let words = [2u64 << 48, 0, 1 | 2 << 32 | 99 << 35].map(u64::to_le_bytes).concat();
/// let refused = capn::check(&words, Form::Bare, &Limits::usual()).unwrap_err();
/// assert_eq!(refused.to_string(), "Range at 0:2, paid 3, visits 3");
/// let way = capn::refusal_way(&words, Form::Bare, &Limits::usual())?.unwrap();
/// assert_eq!((&way[..], way.to_string().as_str()), (&[1][..], "1"));
/// # Ok::<(), capn::Error>(())
/// ```
pub fn refusal_way(message: &[u8], form: Form, limits: &Limits) -> Result<Option<Way>, Error> {
    Ok(call::refusal_way(form, message, limits)?.map(Way))
}

/// The first difference of a valid message from its canonical form. Its text is what `capn explain` prints after
/// `canonical: no: `.
#[non_exhaustive]
#[derive(Clone, Debug, PartialEq, Eq, Hash)]
pub enum Departure {
    /// It has several segments.
    Segments {
        /// The number of segments.
        count: u32,
    },
    /// Its value has a capability.
    Capability {
        /// The index of the first one in preorder.
        index: u32,
        /// The path to it.
        way: Way,
    },
    /// A word differs from that of the canonical bytes.
    Word {
        /// Where the word begins in the message, or in the unpacked bytes of a packed message.
        byte: u64,
        /// The word in the message.
        word: u64,
        /// The word in the canonical bytes.
        canonical: u64,
        /// The part of the canonical bytes that the word belongs to.
        owner: Owner,
        /// The path to the pointer that `owner` speaks of.
        way: Way,
    },
    /// Words come after the canonical bytes.
    After {
        /// Where the first of them begins in the message, or in the unpacked bytes of a packed message.
        byte: u64,
        /// That word.
        word: u64,
    },
}

/// The part of canonical bytes that a word belongs to. A path leads to the pointer that is meant.
#[non_exhaustive]
#[derive(Clone, Copy, Debug, PartialEq, Eq, Hash)]
pub enum Owner {
    /// It is the pointer itself.
    Pointer,
    /// The tag word of the list of structs that the pointer refers to.
    Tag,
    /// The last word of the list of bits, bytes or numbers that the pointer refers to.
    LastWord,
}

/// Returns the first difference of one valid message from its canonical form, or `None` if the message is canonical.
///
/// It checks the message several times, and allocates its canonical bytes.
/// [`is_canonical_message`](crate::is_canonical_message) says sooner whether there is a difference.
///
/// ```
/// use capn::{Departure, Form, Limits};
///
/// // A struct of two words, 5 and 0: canonical bytes have no word of zeros at its end.
/// let words = [2u64 << 32, 5, 0].map(u64::to_le_bytes).concat();
/// let departure = capn::departure(&words, Form::Bare, &Limits::usual())?.unwrap();
/// assert!(matches!(departure, Departure::Word { byte: 0, .. }));
/// assert_eq!(
///     departure.to_string(),
///     "at byte 0: 0000000002000000 (struct of 2 words and 0 slots, offset 0), \
///      canonical 0000000001000000 (struct of 1 words and 0 slots, offset 0), the pointer at root"
/// );
/// assert_eq!(capn::departure(&[0; 8], Form::Bare, &Limits::usual())?, None);
/// # Ok::<(), capn::Error>(())
/// ```
pub fn departure(message: &[u8], form: Form, limits: &Limits) -> Result<Option<Departure>, Error> {
    let (departed, way) = call::departure(form, message, limits)?;
    let way = Way(way);
    // The table of a message of one segment is a word.
    let table = if form == Form::Bare { 0 } else { 8 };
    let (byte, word) = (table + 8 * u64::from(departed.word), departed.is);
    Ok(match departed.kind {
        CAPN_DEPARTS_SEGMENTS => Some(Departure::Segments {
            count: departed.count,
        }),
        CAPN_DEPARTS_CAPABILITY => Some(Departure::Capability {
            index: departed.count,
            way,
        }),
        CAPN_DEPARTS_WORD => Some(Departure::Word {
            byte,
            word,
            canonical: departed.canonical,
            owner: match departed.owner {
                CAPN_OWNER_TAG => Owner::Tag,
                CAPN_OWNER_LAST_WORD => Owner::LastWord,
                _ => Owner::Pointer,
            },
            way,
        }),
        CAPN_DEPARTS_AFTER => Some(Departure::After { byte, word }),
        _ => None,
    })
}

impl fmt::Display for Owner {
    fn fmt(&self, f: &mut fmt::Formatter<'_>) -> fmt::Result {
        f.write_str(match self {
            Owner::Pointer => "pointer",
            Owner::Tag => "tag",
            Owner::LastWord => "last word",
        })
    }
}

impl fmt::Display for Departure {
    fn fmt(&self, f: &mut fmt::Formatter<'_>) -> fmt::Result {
        match self {
            Departure::Segments { count } => write!(f, "{count} segments"),
            Departure::Capability { index, way } => write!(f, "capability {index} at {way}"),
            Departure::Word {
                byte,
                word,
                canonical,
                owner: Owner::Pointer,
                way,
            } => {
                let (word, canonical) = (Pointer(*word), Pointer(*canonical));
                write!(
                    f,
                    "at byte {byte}: {word}, canonical {canonical}, the pointer at {way}"
                )
            }
            Departure::Word {
                byte,
                word,
                canonical,
                owner,
                way,
            } => {
                let (word, canonical) = (Digits(*word), Digits(*canonical));
                write!(
                    f,
                    "at byte {byte}: {word}, canonical {canonical}, the {owner} of {way}"
                )
            }
            Departure::After { byte, word } => {
                let word = Digits(*word);
                write!(
                    f,
                    "at byte {byte}: {word}, canonical nothing, after the value"
                )
            }
        }
    }
}

/// A word by its bytes, in the order in which they lie.
struct Digits(u64);

impl fmt::Display for Digits {
    fn fmt(&self, f: &mut fmt::Formatter<'_>) -> fmt::Result {
        write!(f, "{:016x}", self.0.swap_bytes())
    }
}

/// A word that is a pointer: its bytes, and what it says.
struct Pointer(u64);

impl fmt::Display for Pointer {
    fn fmt(&self, f: &mut fmt::Formatter<'_>) -> fmt::Result {
        const LISTS: [&str; 7] = ["voids", "bits", "bytes", "u16", "u32", "u64", "pointers"];
        write!(f, "{} (", Digits(self.0))?;
        let (low, high) = (self.0 as u32, (self.0 >> 32) as u32);
        let offset = low as i32 >> 2;
        match low & 3 {
            _ if self.0 == 0 => f.write_str("null"),
            0 => {
                let (words, slots) = (high & 0xffff, high >> 16);
                write!(
                    f,
                    "struct of {words} words and {slots} slots, offset {offset}"
                )
            }
            1 => {
                let count = high >> 3;
                match LISTS.get(high as usize & 7) {
                    Some(name) => write!(f, "list of {count} {name}, offset {offset}"),
                    None => write!(f, "list of structs in {count} words, offset {offset}"),
                }
            }
            2 => {
                let double = if low & 4 == 0 { "" } else { "double " };
                write!(f, "{double}far to segment {high} word {}", low >> 3)
            }
            _ if low == 3 => write!(f, "capability {high}"),
            _ => f.write_str("reserved"),
        }?;
        f.write_str(")")
    }
}
