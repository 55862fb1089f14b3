//! The index of a message, and its values.
use alloc::vec::Vec;
use core::fmt;

use capn_sys::{
    capn_entry, CAPN_KIND_BITS, CAPN_KIND_BYTES, CAPN_KIND_CAPABILITY, CAPN_KIND_POINTERS,
    CAPN_KIND_ROWS, CAPN_KIND_STRUCT, CAPN_KIND_U16, CAPN_KIND_U32, CAPN_KIND_U64, CAPN_KIND_VOID,
};

use crate::call;
use crate::fields::Items;
use crate::{Error, Form, Limits, Number, Numbers, Pointers, Rows, Struct};

/// The index of one message, by which it is read in place.
///
/// It takes 24 bytes for each pointer of the message, null pointers included. There are at most `budget + 1` of them.
///
/// ```
/// use capn::{Form, Index, Limits, Value};
///
/// // A struct of a word, 5, and a pointer to the text "abc".
/// let words = [1 << 32 | 1 << 48, 5, 0x22 << 32 | 1, 0x63_6261u64];
/// let message: Vec<u8> = words.iter().flat_map(|word| word.to_le_bytes()).collect();
/// let index = Index::new(&message, Form::Bare, &Limits::usual())?;
/// let root = index.root().as_struct()?;
/// // `number @0 :UInt32 = 7`: it is stored XOR its default.
/// assert_eq!(root.get::<u32>(0, 7), 2);
/// // `more @1 :UInt64 = 9`: the struct is shorter, so it has the default.
/// assert_eq!(root.get::<u64>(64, 9), 9);
/// // `name @2 :Text`
/// assert_eq!(root.slot(0).as_text()?, Some("abc"));
/// assert!(matches!(root.slot(1), Value::Null));
/// # Ok::<(), capn::Error>(())
/// ```
///
/// Texts, data and numbers are borrowed from the message, and outlive its index:
///
/// ```
/// use capn::{Error, Form, Index, Limits};
///
/// fn name_of(message: &[u8]) -> Result<&str, Error> {
///     let index = Index::new(message, Form::Stream, &Limits::usual())?;
///     let name = index.root().as_struct()?.slot(0).as_text()?;
///     Ok(name.unwrap_or("nobody"))
/// }
/// let words = [3 << 32, 1 << 48, 0x22 << 32 | 1, 0x63_6261u64].map(u64::to_le_bytes).concat();
/// assert_eq!(name_of(&words), Ok("abc"));
/// ```
///
/// A value can't outlive the index:
///
/// ```compile_fail,E0515
/// use capn::{Error, Form, Index, Limits, Value};
///
/// fn root_of(message: &[u8]) -> Result<Value<'_, '_>, Error> {
///     let index = Index::new(message, Form::Stream, &Limits::usual())?;
///     Ok(index.root())
/// }
/// ```
#[derive(Clone)]
pub struct Index<'m> {
    message: &'m [u8],
    entries: Vec<capn_entry>,
}

impl<'m> Index<'m> {
    /// Checks a message and indexes it. Unpack a packed message first: for [`Form::Packed`] it returns [`Error::Form`].
    pub fn new(message: &'m [u8], form: Form, limits: &Limits) -> Result<Self, Error> {
        let entries = call::index(form, message, limits)?;
        Ok(Index { message, entries })
    }

    /// The object that the root pointer refers to.
    pub fn root(&self) -> Value<'m, '_> {
        Value::of(self.message, &self.entries)
    }

    /// The bytes of the message.
    pub fn message(&self) -> &'m [u8] {
        self.message
    }

    /// The number of pointers of the message, including the root pointer.
    pub fn slots(&self) -> usize {
        self.entries.len()
    }
}

impl fmt::Debug for Index<'_> {
    fn fmt(&self, f: &mut fmt::Formatter<'_>) -> fmt::Result {
        f.debug_struct("Index")
            .field("slots", &self.entries.len())
            .field("root", &self.root())
            .finish()
    }
}

/// The object that a pointer refers to, whatever a schema says.
///
/// With a schema, call `as_struct`, `as_text` and so on. They know which other kinds an older or newer writer may have
/// put there, and take a null pointer for an absent field.
///
/// `'m` is the lifetime of the message, and `'i` that of its index.
#[non_exhaustive]
#[derive(Clone)]
pub enum Value<'m, 'i> {
    /// A null pointer, or a pointer that a struct doesn't have.
    Null,
    /// A struct.
    Struct(Struct<'m, 'i>),
    /// A list of so many elements without size.
    Void(u32),
    /// A list of bits.
    Bits(Numbers<'m, bool>),
    /// A list of bytes: a Data, or a Text with a zero at its end.
    Bytes(&'m [u8]),
    /// A list of numbers of 16 bits.
    U16(Numbers<'m, u16>),
    /// A list of numbers of 32 bits.
    U32(Numbers<'m, u32>),
    /// A list of numbers of 64 bits.
    U64(Numbers<'m, u64>),
    /// A list of pointers.
    Pointers(Pointers<'m, 'i>),
    /// A list of structs.
    Rows(Rows<'m, 'i>),
    /// The capability with this index.
    Capability(u32),
}

impl<'m, 'i> Value<'m, 'i> {
    /// The object of the first of these entries. The others are those of its pointers, and so on.
    pub(crate) fn of(message: &'m [u8], entries: &'i [capn_entry]) -> Self {
        let (entry, below) = match entries.split_first() {
            Some(split) => split,
            None => return Value::Null,
        };
        let from = |length: usize| {
            let start = entry.offset as usize;
            &message[start..start + length]
        };
        let (words, slots) = (usize::from(entry.words), u32::from(entry.slots));
        let count = entry.count as usize;
        let items = |width: usize, slots: u32| {
            let step = width + 8 * slots as usize;
            let skipped = if entry.kind == CAPN_KIND_ROWS { 8 } else { 0 };
            let data = &from(skipped + step * count)[skipped..];
            Items::new(message, data, below, entry.count, width, slots)
        };
        match entry.kind {
            CAPN_KIND_STRUCT => Value::Struct(Struct::new(message, from(8 * words), below, slots)),
            CAPN_KIND_VOID => Value::Void(entry.count),
            CAPN_KIND_BITS => Value::Bits(Numbers::bits(
                from(count / 8 + usize::from(count % 8 != 0)),
                entry.count,
            )),
            CAPN_KIND_BYTES => Value::Bytes(from(count)),
            CAPN_KIND_U16 => Value::U16(Numbers::of(&items(2, 0))),
            CAPN_KIND_U32 => Value::U32(Numbers::of(&items(4, 0))),
            CAPN_KIND_U64 => Value::U64(Numbers::of(&items(8, 0))),
            CAPN_KIND_POINTERS => Value::Pointers(Pointers(items(0, 1))),
            CAPN_KIND_ROWS => Value::Rows(Rows(items(8 * words, slots))),
            CAPN_KIND_CAPABILITY => Value::Capability(entry.count),
            _ => Value::Null,
        }
    }

    /// The word that the program prints for it, such as `struct`.
    pub fn kind(&self) -> &'static str {
        match self {
            Value::Null => "null",
            Value::Struct(_) => "struct",
            Value::Void(_) => "void",
            Value::Bits(_) => "bits",
            Value::Bytes(_) => "bytes",
            Value::U16(_) => "u16",
            Value::U32(_) => "u32",
            Value::U64(_) => "u64",
            Value::Pointers(_) => "pointers",
            Value::Rows(_) => "rows",
            Value::Capability(_) => "capability",
        }
    }

    /// Whether the pointer is null: its field then has the default of the schema.
    pub fn is_null(&self) -> bool {
        matches!(self, Value::Null)
    }

    fn unexpected<T>(&self, wanted: &'static str) -> Result<T, Error> {
        Err(Error::Unexpected {
            wanted,
            found: self.kind(),
        })
    }

    /// Returns a struct; for a null pointer one in which each field has its default.
    pub fn as_struct(&self) -> Result<Struct<'m, 'i>, Error> {
        match self {
            Value::Null => Ok(Struct::new(&[], &[], &[], 0)),
            Value::Struct(it) => Ok(*it),
            _ => self.unexpected("struct"),
        }
    }

    /// Returns the bytes of a Text without the zero that ends it; for a null pointer `None`. Bytes of which the last
    /// one isn't zero are no Text.
    pub fn as_text_bytes(&self) -> Result<Option<&'m [u8]>, Error> {
        match self {
            Value::Null => Ok(None),
            Value::Bytes([text @ .., 0]) => Ok(Some(text)),
            _ => self.unexpected("text"),
        }
    }

    /// Returns a Text, which must be valid UTF-8; for a null pointer `None`: the schema says what the default is.
    pub fn as_text(&self) -> Result<Option<&'m str>, Error> {
        match self.as_text_bytes()?.map(core::str::from_utf8) {
            None => Ok(None),
            Some(Ok(text)) => Ok(Some(text)),
            Some(Err(_)) => self.unexpected("text in UTF-8"),
        }
    }

    /// Returns the bytes of a Data; for a null pointer `None`.
    pub fn as_data(&self) -> Result<Option<&'m [u8]>, Error> {
        match self {
            Value::Null => Ok(None),
            Value::Bytes(data) => Ok(Some(data)),
            _ => self.unexpected("data"),
        }
    }

    /// Returns a list of numbers, or the first field of each struct that a newer writer has in place of a number; for a
    /// null pointer an empty list.
    ///
    /// A struct without data has zeros: canonical bytes leave out the zeros at the ends of structs. A list of numbers
    /// of another width is an error, also of a wider one, which the reference implementation reads.
    pub fn as_list<T: Number>(&self) -> Result<Numbers<'m, T>, Error> {
        let numbers = match self {
            Value::Null => Some(Numbers::none()),
            Value::Bits(it) if T::BITS == 1 => Some(it.cast()),
            Value::Bytes(bytes) if T::BITS == 8 => Some(Numbers::bytes(bytes)),
            Value::U16(it) if T::BITS == 16 => Some(it.cast()),
            Value::U32(it) if T::BITS == 32 => Some(it.cast()),
            Value::U64(it) if T::BITS == 64 => Some(it.cast()),
            Value::Rows(Rows(it)) if T::BITS > 1 => Some(Numbers::of(it)),
            _ => None,
        };
        numbers.map_or_else(|| self.unexpected("list of these numbers"), Ok)
    }

    /// Returns a list of structs, or of the numbers or pointers that an older writer has in place of structs, each as a
    /// struct of that one field; for a null pointer an empty list.
    pub fn as_rows(&self) -> Result<Rows<'m, 'i>, Error> {
        Ok(Rows(match self {
            Value::Null => Items::none(),
            Value::Rows(Rows(it)) | Value::Pointers(Pointers(it)) => it.clone(),
            Value::Void(count) => Items::new(&[], &[], &[], *count, 0, 0),
            Value::Bytes(bytes) => Items::new(&[], bytes, &[], bytes.len() as u32, 1, 0),
            Value::U16(it) => it.items(),
            Value::U32(it) => it.items(),
            Value::U64(it) => it.items(),
            _ => return self.unexpected("list of structs"),
        }))
    }

    /// Returns a list of pointers, or the first pointer of each struct that a newer writer has in place of a pointer;
    /// for a null pointer an empty list. A struct without pointers has a null pointer.
    pub fn as_pointers(&self) -> Result<Pointers<'m, 'i>, Error> {
        match self {
            Value::Null => Ok(Pointers(Items::none())),
            Value::Pointers(it) => Ok(it.clone()),
            Value::Rows(Rows(it)) => Ok(Pointers(it.clone())),
            _ => self.unexpected("list of pointers"),
        }
    }
}

impl fmt::Debug for Value<'_, '_> {
    fn fmt(&self, f: &mut fmt::Formatter<'_>) -> fmt::Result {
        match self {
            Value::Null => f.write_str("null"),
            Value::Struct(it) => it.fmt(f),
            Value::Bytes(bytes) => write!(f, "bytes {}", bytes.len()),
            Value::Void(count) | Value::Capability(count) => write!(f, "{} {count}", self.kind()),
            Value::Bits(it) => write!(f, "bits {}", it.len()),
            Value::U16(it) => write!(f, "u16 {}", it.len()),
            Value::U32(it) => write!(f, "u32 {}", it.len()),
            Value::U64(it) => write!(f, "u64 {}", it.len()),
            Value::Pointers(it) => write!(f, "pointers {}", it.len()),
            Value::Rows(it) => write!(f, "rows {}", it.len()),
        }
    }
}
