//! The numbers that `capn.h` names.
use crate::capn_limits;

/// The version of `capn.h` that these declarations are of: 10,000 for each major version, 100 for each minor one and 1
/// for each patch.
pub const CAPN_VERSION: u32 = 10_000 * number(env!("CARGO_PKG_VERSION_MAJOR"))
    + 100 * number(env!("CARGO_PKG_VERSION_MINOR"))
    + number(env!("CARGO_PKG_VERSION_PATCH"));

/// The number that decimal digits spell.
const fn number(digits: &str) -> u32 {
    let (digits, mut number, mut at) = (digits.as_bytes(), 0, 0);
    while at < digits.len() {
        number = 10 * number + (digits[at] - b'0') as u32;
        at += 1;
    }
    number
}

/// The default limits.
pub const CAPN_USUAL_LIMITS: capn_limits = capn_limits {
    // c/limits.txt: usual numbers of c in rust
    message_words: 8_388_608,
    budget: 8_388_608,
    depth: 64,
    tariff: 0,
    // c/limits.txt ends
};

/// The form in which the bytes of a message are written.
pub type capn_form = u32;
/// A segment table, then the segments.
pub const CAPN_STREAM: capn_form = 0;
/// Such bytes, packed.
pub const CAPN_PACKED: capn_form = 1;
/// The words of one segment without its segment table.
pub const CAPN_BARE: capn_form = 2;

/// The counting rule for what reading costs.
pub type capn_tariff = u32;
/// Each struct and list costs a word more than its size.
pub const CAPN_STRICT: capn_tariff = 0;
/// Each struct and list costs its size.
pub const CAPN_PLAIN: capn_tariff = 1;

/// The style in which the text of a message is written.
pub type capn_style = u32;
/// Lines, as `capn show` writes them.
pub const CAPN_STYLE_LINES: capn_style = 0;
/// Lines with texts between quotes, as `capn show --text` writes them.
pub const CAPN_STYLE_TEXT: capn_style = 1;
/// A line of JSON, as `capn show --json` writes it.
pub const CAPN_STYLE_JSON: capn_style = 2;
/// A line of JSON with texts in UTF-8, as `capn show --json --text` writes it.
pub const CAPN_STYLE_JSON_TEXT: capn_style = 3;

/// The kind of the object that a pointer refers to: the `kind` of a [`capn_entry`](crate::capn_entry).
pub type capn_kind = u32;
/// A null pointer.
pub const CAPN_KIND_NULL: capn_kind = 0;
/// A struct of `words` data words and `slots` pointers.
pub const CAPN_KIND_STRUCT: capn_kind = 1;
/// A list of `count` elements without size.
pub const CAPN_KIND_VOID: capn_kind = 2;
/// A list of bits, the least significant bit of a byte first.
pub const CAPN_KIND_BITS: capn_kind = 3;
/// A list of bytes.
pub const CAPN_KIND_BYTES: capn_kind = 4;
/// A list of numbers of 2 bytes.
pub const CAPN_KIND_U16: capn_kind = 5;
/// A list of numbers of 4 bytes.
pub const CAPN_KIND_U32: capn_kind = 6;
/// A list of numbers of 8 bytes.
pub const CAPN_KIND_U64: capn_kind = 7;
/// A list of pointers.
pub const CAPN_KIND_POINTERS: capn_kind = 8;
/// A list of structs, each of `words` data words and `slots` pointers.
pub const CAPN_KIND_ROWS: capn_kind = 9;
/// A capability, whose index is `count`.
pub const CAPN_KIND_CAPABILITY: capn_kind = 10;

/// The way in which a message differs from its canonical form: the `kind` of a [`capn_departed`](crate::capn_departed).
pub type capn_departure_kind = u32;
/// It is canonical.
pub const CAPN_DEPARTS_NOT: capn_departure_kind = 0;
/// It has `count` segments.
pub const CAPN_DEPARTS_SEGMENTS: capn_departure_kind = 1;
/// It has a capability, the first one of index `count`.
pub const CAPN_DEPARTS_CAPABILITY: capn_departure_kind = 2;
/// The word `word` is `is`, and `canonical` in the canonical bytes.
pub const CAPN_DEPARTS_WORD: capn_departure_kind = 3;
/// The canonical bytes end before the word `word`, which is `is`.
pub const CAPN_DEPARTS_AFTER: capn_departure_kind = 4;

/// The part of canonical bytes that a word belongs to: the `owner` of a [`capn_departed`](crate::capn_departed).
pub type capn_owner = u32;
/// The kind is not [`CAPN_DEPARTS_WORD`].
pub const CAPN_OWNER_NONE: capn_owner = 0;
/// The pointer at the path.
pub const CAPN_OWNER_POINTER: capn_owner = 1;
/// The tag of the list of structs that this pointer refers to.
pub const CAPN_OWNER_TAG: capn_owner = 2;
/// The last word of the list of bits, bytes or numbers that this pointer refers to.
pub const CAPN_OWNER_LAST_WORD: capn_owner = 3;

/// The kind of the words of a line: the `kind` of a [`capn_line`](crate::capn_line).
pub type capn_line_kind = u32;
/// A pointer that isn't null.
pub const CAPN_LINE_POINTER: capn_line_kind = 0;
/// Null pointers.
pub const CAPN_LINE_NULL: capn_line_kind = 1;
/// A word of a landing pad.
pub const CAPN_LINE_PAD: capn_line_kind = 2;
/// The tag word of a list of structs.
pub const CAPN_LINE_TAG: capn_line_kind = 3;
/// Data words of a struct, or of the elements of a list of structs.
pub const CAPN_LINE_DATA: capn_line_kind = 4;
/// Elements of a list of bits, bytes or numbers, and the padding after them.
pub const CAPN_LINE_LIST: capn_line_kind = 5;
/// Words of a list of structs after its elements.
pub const CAPN_LINE_SLACK: capn_line_kind = 6;
/// Words of no object or landing pad.
pub const CAPN_LINE_UNREACHED: capn_line_kind = 7;

/// The bits of the `flags` of a [`capn_line`](crate::capn_line).
pub type capn_line_flag = u32;
/// Different objects or landing pads overlap in the words.
pub const CAPN_LINE_OVERLAP: capn_line_flag = 1;
/// The line has the last word of a list, whose padding isn't zero.
pub const CAPN_LINE_PADDING: capn_line_flag = 2;

/// The status that a call returns. Numbers from 16 to 127 say why an input is rejected.
pub type capn_status = u32;
pub const CAPN_OK: capn_status = 0;
pub const CAPN_NO_ROOM: capn_status = 1;
pub const CAPN_BAD_FORM: capn_status = 2;
pub const CAPN_BAD_LIMITS: capn_status = 3;
pub const CAPN_BAD_TARIFF: capn_status = 4;
pub const CAPN_NOT_CANONICAL: capn_status = 5;
pub const CAPN_BAD_STYLE: capn_status = 6;
pub const CAPN_DIFFERENT: capn_status = 7;
pub const CAPN_MEMORY: capn_status = 8;
pub const CAPN_NO_SCRATCH: capn_status = 9;
pub const CAPN_NOT_WHOLE: capn_status = 16;
pub const CAPN_BARE_TOO_LONG: capn_status = 17;
pub const CAPN_PACKED_CUT: capn_status = 32;
pub const CAPN_PACKED_TOO_LONG: capn_status = 33;
pub const CAPN_FRAME_EMPTY: capn_status = 48;
pub const CAPN_TOO_MANY_SEGMENTS: capn_status = 49;
pub const CAPN_TOO_MANY_WORDS: capn_status = 50;
pub const CAPN_FRAME_CUT: capn_status = 51;
pub const CAPN_TRAILING: capn_status = 52;
pub const CAPN_NO_ROOT: capn_status = 64;
pub const CAPN_ROOT_KIND: capn_status = 65;
pub const CAPN_RESERVED: capn_status = 66;
pub const CAPN_NO_SEGMENT: capn_status = 67;
pub const CAPN_PAD_RANGE: capn_status = 68;
pub const CAPN_BAD_PAD: capn_status = 69;
pub const CAPN_RANGE: capn_status = 70;
pub const CAPN_BAD_TAG: capn_status = 71;
pub const CAPN_TAG_OVERRUN: capn_status = 72;
pub const CAPN_TOO_DEEP: capn_status = 73;
pub const CAPN_OVER_BUDGET: capn_status = 74;
pub const CAPN_CAPABILITY: capn_status = 80;
