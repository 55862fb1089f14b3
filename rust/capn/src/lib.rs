//! Cap'n Proto messages without a schema: canonical bytes, digests, checks and fields.
//!
//! The library that `capn-sys` links is formally verified. This crate is a layer over it, and is tested. It copies no
//! message, and has `unsafe` code in one file. A message is passed as its bytes and a [`Form`], or in segments
//! ([`segments`]).
//!
//! ```
//! use capn::{Form, Limits};
//!
//! // A message of one segment: its table, and a struct of two words, 5 and 0.
//! let mut message = [0; 32];
//! (message[4], message[12], message[16]) = (3, 2, 5);
//! let limits = Limits::default();
//!
//! let checked = capn::check(&message, Form::Stream, &limits)?;
//! assert_eq!((checked.paid, checked.visits), (3, 1));
//! assert_eq!(capn::canonical(&message, Form::Stream, &limits)?.len(), 16);
//!
//! let index = capn::Index::new(&message, Form::Stream, &limits)?;
//! assert_eq!(index.root().as_struct()?.get::<u64>(0, 0), 5);
//!
//! let rejected = capn::check(&message[..20], Form::Stream, &limits).unwrap_err();
//! assert_eq!(rejected.to_string(), "frame: Cut");
//! # Ok::<(), capn::Error>(())
//! ```
//!
//! The feature `std`, which is on by default, adds [`Reader`]. Without it the crate needs only `alloc`.
#![no_std]
#![deny(unsafe_code)]
#![warn(missing_docs)]

extern crate alloc;
#[cfg(feature = "std")]
extern crate std;

#[allow(unsafe_code)]
mod call;
mod error;
mod fields;
mod index;
mod limits;
mod lines;
mod message;
#[cfg(feature = "std")]
mod reader;
mod same;
mod scratch;
pub mod segments;
mod stream;
#[cfg(feature = "std")]
mod unpacker;
mod ways;

pub use error::{Error, Kind, Place};
pub use fields::{Number, Numbers, Pointers, Rows, Struct};
pub use index::{Index, Value};
pub use limits::{Form, Limit, Limits, Style, Tariff};
pub use lines::{annotate, Line, LineKind, Lines};
#[allow(deprecated)]
pub use message::is_canonical;
pub use message::{
    canonical, canonical_into, check, digest, is_canonical_in, is_canonical_message,
    is_canonical_words, pack, show, survey, unpack, Checked, Figures,
};
#[cfg(feature = "std")]
pub use reader::{IntoMessages, ReadError, Reader};
pub use same::{same, SameError, Which};
pub use scratch::{canonical_with_scratch, ScratchError};
pub use stream::{messages, Messages, StreamError};
#[cfg(feature = "std")]
pub use unpacker::Unpacker;
pub use ways::{departure, refusal_way, Departure, Owner, Way};
