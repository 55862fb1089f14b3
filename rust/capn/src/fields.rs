//! Structs, lists, and their fields by a schema.
use core::fmt;
use core::iter::FusedIterator;
use core::marker::PhantomData;

use capn_sys::capn_entry;

use crate::Value;

mod sealed {
    pub trait Sealed {}
}

/// The type of a data field: `bool`, an integer or a float, as wide as the field. An enum is a `u16`.
pub trait Number: Copy + Default + sealed::Sealed {
    /// The width of such a field.
    const BITS: u32;
    #[doc(hidden)]
    fn to_bits(self) -> u64;
    #[doc(hidden)]
    fn of_bits(bits: u64) -> Self;
}

macro_rules! numbers {
    ($($type:ty, $bits:literal, $to:expr, $of:expr;)*) => {
        $(
            impl sealed::Sealed for $type {}
            impl Number for $type {
                const BITS: u32 = $bits;
                #[inline]
                fn to_bits(self) -> u64 {
                    ($to)(self)
                }
                #[inline]
                fn of_bits(bits: u64) -> Self {
                    ($of)(bits)
                }
            }
        )*
    };
}

numbers! {
    bool, 1, u64::from, |bits| bits & 1 != 0;
    u8, 8, u64::from, |bits| bits as u8;
    u16, 16, u64::from, |bits| bits as u16;
    u32, 32, u64::from, |bits| bits as u32;
    u64, 64, |it| it, |bits| bits;
    i8, 8, |it| it as u64, |bits| bits as i8;
    i16, 16, |it| it as u64, |bits| bits as i16;
    i32, 32, |it| it as u64, |bits| bits as i32;
    i64, 64, |it| it as u64, |bits| bits as i64;
    f32, 32, |it: f32| u64::from(it.to_bits()), |bits| f32::from_bits(bits as u32);
    f64, 64, f64::to_bits, f64::from_bits;
}

/// The bits of a field at a bit of a data section; 0 where the section is too short.
#[inline]
fn field<T: Number>(data: &[u8], bit: usize) -> u64 {
    let (start, shift) = (bit / 8, bit % 8);
    if T::BITS == 1 {
        return data
            .get(start)
            .map_or(0, |byte| u64::from(byte >> shift & 1));
    }
    let size = T::BITS as usize / 8;
    let mut number = [0; 8];
    match data.get(start..).and_then(|rest| rest.get(..size)) {
        Some(bytes) if shift == 0 => number[..size].copy_from_slice(bytes),
        _ => {}
    }
    u64::from_le_bytes(number)
}

/// A struct: the object of a pointer, or an element of a list, also of a list in which an older writer has numbers or
/// pointers.
///
/// `'m` is the lifetime of the message, and `'i` that of its index.
#[derive(Clone, Copy)]
pub struct Struct<'m, 'i> {
    message: &'m [u8],
    data: &'m [u8],
    entries: &'i [capn_entry],
    slots: u32,
}

impl<'m, 'i> Struct<'m, 'i> {
    pub(crate) fn new(
        message: &'m [u8],
        data: &'m [u8],
        entries: &'i [capn_entry],
        slots: u32,
    ) -> Self {
        Struct {
            message,
            data,
            entries,
            slots,
        }
    }

    /// Returns the data field at a bit, which is stored XOR its default; `default` if the struct is too short for it.
    ///
    /// `capnp compile -ocapnp` prints where a field lies: `bits[64, 96)` is `get::<u32>(64, default)`. A schema has a
    /// field only at a multiple of its width. This call takes any multiple of 8, and for a `bool` any bit; at another
    /// bit it returns `default`.
    ///
    /// ```
    /// let words = [1u64 << 32, 0x0102_0304].map(u64::to_le_bytes).concat();
    /// let index = capn::Index::new(&words, capn::Form::Bare, &capn::Limits::usual())?;
    /// let root = index.root().as_struct()?;
    /// assert_eq!(root.get::<u32>(0, 0), 0x0102_0304);
    /// assert_eq!(root.get::<u32>(8, 0), 0x0001_0203);
    /// assert_eq!(root.get::<u32>(4, 7), 7);
    /// assert!(root.get(8, false) && root.get(9, false));
    /// # Ok::<(), capn::Error>(())
    /// ```
    #[inline]
    pub fn get<T: Number>(&self, bit: u32, default: T) -> T {
        T::of_bits(field::<T>(self.data, bit as usize) ^ default.to_bits())
    }

    /// The object that the pointer `k` refers to; [`Value::Null`] if the struct doesn't have this pointer. It passes
    /// over the pointers before it.
    pub fn slot(&self, k: u32) -> Value<'m, 'i> {
        if k >= self.slots {
            return Value::Null;
        }
        let mut entries = self.entries;
        for _ in 0..k {
            entries = &entries[entries[0].span as usize..];
        }
        Value::of(self.message, entries)
    }

    /// The bytes of its data section.
    pub fn data(&self) -> &'m [u8] {
        self.data
    }

    /// The number of pointers of the struct.
    pub fn slots(&self) -> u32 {
        self.slots
    }
}

impl fmt::Debug for Struct<'_, '_> {
    fn fmt(&self, f: &mut fmt::Formatter<'_>) -> fmt::Result {
        write!(f, "struct {} bytes, {} slots", self.data.len(), self.slots)
    }
}

/// Elements of a list that are left: each with `width` bytes of data and then `slots` pointers.
#[derive(Clone)]
pub(crate) struct Items<'m, 'i> {
    message: &'m [u8],
    data: &'m [u8],
    entries: &'i [capn_entry],
    count: u32,
    pub(crate) width: usize,
    pub(crate) slots: u32,
}

impl<'m, 'i> Items<'m, 'i> {
    pub(crate) fn new(
        message: &'m [u8],
        data: &'m [u8],
        entries: &'i [capn_entry],
        count: u32,
        width: usize,
        slots: u32,
    ) -> Self {
        Items {
            message,
            data,
            entries,
            count,
            width,
            slots,
        }
    }

    pub(crate) fn none() -> Self {
        Items::new(&[], &[], &[], 0, 0, 0)
    }

    fn step(&self) -> usize {
        self.width + 8 * self.slots as usize
    }

    fn next(&mut self) -> Option<Struct<'m, 'i>> {
        self.count = self.count.checked_sub(1)?;
        let (now, rest) = self.data.split_at(self.step());
        let row = Struct::new(self.message, &now[..self.width], self.entries, self.slots);
        self.data = rest;
        if self.count > 0 {
            for _ in 0..self.slots {
                self.entries = &self.entries[self.entries[0].span as usize..];
            }
        }
        Some(row)
    }
}

/// A list of structs, which is an iterator over them. Clone it to go through the list more than once.
#[derive(Clone)]
pub struct Rows<'m, 'i>(pub(crate) Items<'m, 'i>);

/// A list of pointers, which is an iterator over the objects that they refer to. Clone it to go through the list more
/// than once.
#[derive(Clone)]
pub struct Pointers<'m, 'i>(pub(crate) Items<'m, 'i>);

macro_rules! iterator {
    ($name:ident, $item:ty, $of:expr) => {
        impl $name<'_, '_> {
            /// The number of elements that are left.
            pub fn len(&self) -> usize {
                self.0.count as usize
            }

            /// Whether no element is left.
            pub fn is_empty(&self) -> bool {
                self.0.count == 0
            }
        }

        impl<'m, 'i> Iterator for $name<'m, 'i> {
            type Item = $item;

            fn next(&mut self) -> Option<Self::Item> {
                self.0.next().map($of)
            }

            fn size_hint(&self) -> (usize, Option<usize>) {
                (self.len(), Some(self.len()))
            }
        }

        impl ExactSizeIterator for $name<'_, '_> {}
        impl FusedIterator for $name<'_, '_> {}

        impl fmt::Debug for $name<'_, '_> {
            fn fmt(&self, f: &mut fmt::Formatter<'_>) -> fmt::Result {
                f.debug_list().entries(self.clone()).finish()
            }
        }
    };
}

iterator!(Rows, Struct<'m, 'i>, |row| row);
iterator!(Pointers, Value<'m, 'i>, |row| row.slot(0));

/// A list of numbers, which is an iterator over them. Clone it to go through the list more than once.
#[derive(Clone)]
pub struct Numbers<'m, T> {
    /// The elements, each of `step` bytes, of which the first `width` are data; of bits all bytes.
    data: &'m [u8],
    step: usize,
    width: usize,
    at: u32,
    end: u32,
    number: PhantomData<T>,
}

impl<'m, T: Number> Numbers<'m, T> {
    fn new(data: &'m [u8], count: u32, step: usize, width: usize) -> Self {
        Numbers {
            data,
            step,
            width,
            at: 0,
            end: count,
            number: PhantomData,
        }
    }

    pub(crate) fn none() -> Self {
        Numbers::new(&[], 0, 0, 0)
    }

    pub(crate) fn bits(data: &'m [u8], count: u32) -> Self {
        Numbers::new(data, count, 0, 0)
    }

    pub(crate) fn bytes(data: &'m [u8]) -> Self {
        Numbers::new(data, data.len() as u32, 1, 1)
    }

    /// The first field of each element.
    pub(crate) fn of(items: &Items<'m, '_>) -> Self {
        Numbers::new(items.data, items.count, items.step(), items.width)
    }

    /// Returns this list as a list of another type of numbers with the same width.
    pub(crate) fn cast<U>(&self) -> Numbers<'m, U> {
        Numbers {
            data: self.data,
            step: self.step,
            width: self.width,
            at: self.at,
            end: self.end,
            number: PhantomData,
        }
    }

    pub(crate) fn items(&self) -> Items<'m, 'static> {
        let from = self.step * self.at as usize;
        Items::new(
            &[],
            &self.data[from..],
            &[],
            self.end - self.at,
            self.width,
            0,
        )
    }

    /// The number of numbers that are left.
    pub fn len(&self) -> usize {
        (self.end - self.at) as usize
    }

    /// Whether no number is left.
    pub fn is_empty(&self) -> bool {
        self.at == self.end
    }

    /// The number `i` of those that are left, or `None`.
    #[inline]
    pub fn get(&self, i: usize) -> Option<T> {
        if i >= self.len() {
            return None;
        }
        let i = self.at as usize + i;
        Some(T::of_bits(if T::BITS == 1 {
            field::<T>(self.data, i)
        } else {
            // An element without data has zeros, whatever pointers follow.
            let start = self.step * i;
            field::<T>(self.data.get(start..start + self.width).unwrap_or(&[]), 0)
        }))
    }
}

impl<T: Number> Iterator for Numbers<'_, T> {
    type Item = T;

    #[inline]
    fn next(&mut self) -> Option<T> {
        let number = self.get(0)?;
        self.at += 1;
        Some(number)
    }

    fn size_hint(&self) -> (usize, Option<usize>) {
        (self.len(), Some(self.len()))
    }
}

impl<T: Number> ExactSizeIterator for Numbers<'_, T> {}
impl<T: Number> FusedIterator for Numbers<'_, T> {}

impl<T: Number + fmt::Debug> fmt::Debug for Numbers<'_, T> {
    fn fmt(&self, f: &mut fmt::Formatter<'_>) -> fmt::Result {
        f.debug_list().entries(self.clone()).finish()
    }
}
