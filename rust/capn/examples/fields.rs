//! Reads the fields of `tests/c/fields.capnp` with `capn`.
//!
//! Each message of a stream is shown as the generated code of the reference implementation shows it.
//!
//!     fields old | new
//!     fields any         reads each pointer of each message as whatever it may be, and counts what it reads
//!     fields lines       a line for each pointer of the messages of `generated.py mixed`, as `tests/c/fields.c` has it
use capn::{Error, Form, Index, Limits, Number, Struct, Value};
use std::io::{self, Read, Write};

fn hexadecimal(bytes: &[u8]) -> String {
    bytes.iter().map(|byte| format!("{byte:02x}")).collect()
}

/// Returns a text, or the schema's default if the text is absent.
fn text(of: &Struct, slot: u32, default: &str) -> Result<String, Error> {
    let text = of.slot(slot).as_text()?.unwrap_or(default);
    Ok(hexadecimal(text.as_bytes()))
}

fn point(out: &mut String, of: &Struct, is_new: bool) -> Result<(), Error> {
    let (x, y, label) = (of.get(0, 0i32), of.get(32, -1i32), text(of, 0, "")?);
    *out += &format!("{x};{y};{label};");
    if is_new {
        *out += &format!("{};{};", of.get(64, 77i32), text(of, 1, "")?);
    }
    Ok(())
}

fn shown(message: &[u8], is_new: bool) -> Result<String, Error> {
    let index = Index::new(message, Form::Stream, &Limits::usual())?;
    let root = index.root().as_struct()?;
    let mut out = format!(
        "{};{};{};{};{:016x};{:08x};{};{};[",
        u8::from(root.get(0, true)),
        root.get(8, -5i8),
        root.get(64, 7u64),
        root.get(16, 1u16),
        root.get(128, 1.5f64).to_bits(),
        root.get(32, -2.5f32).to_bits(),
        text(&root, 0, "none")?,
        hexadecimal(root.slot(1).as_data()?.unwrap_or_default()),
    );
    if is_new {
        for one in root.slot(2).as_rows()? {
            let (value, unit) = (one.get(0, 0u16), one.get(16, 3u16));
            out += &format!("{value};{unit};{};", text(&one, 0, "")?);
        }
    } else {
        for one in root.slot(2).as_list::<u16>()? {
            out += &format!("{one};");
        }
    }
    out += "][";
    if is_new {
        for one in root.slot(3).as_rows()? {
            out += &format!("{};{};", text(&one, 0, "")?, one.get(0, 8u32));
        }
    } else {
        for one in root.slot(3).as_pointers()? {
            out += &(hexadecimal(one.as_text()?.unwrap_or_default().as_bytes()) + ";");
        }
    }
    out += "][";
    for one in root.slot(4).as_rows()? {
        point(&mut out, &one, is_new)?;
    }
    out += "][";
    for one in root.slot(5).as_list::<bool>()? {
        out += &format!("{};", u8::from(one));
    }
    out += "][";
    if is_new {
        for one in root.slot(6).as_rows()? {
            let error = one.get(64, 0.5f32).to_bits();
            out += &format!("{};{error:08x};", one.get(0, 0i64));
        }
    } else {
        let large = root.slot(6).as_list::<i64>()?;
        for i in 0..large.len() {
            out += &format!("{};", large.get(i).expect("one of its numbers"));
        }
    }
    out += &format!("]{};", root.slot(7).as_rows()?.len());
    point(&mut out, &root.slot(8).as_struct()?, is_new)?;
    let which = root.get(224, 0u16);
    out += &format!("{};{which}:", u8::from(root.get(1, false)));
    match which {
        0 => out += &root.get(192, 100u32).to_string(),
        1 => out += &text(&root, 9, "")?,
        3 if is_new => out += &format!("{:016x}", root.get(320, 0.25f64).to_bits()),
        _ => {}
    }
    out += ";";
    if is_new {
        let (added, is_late, far) = (
            root.get(240, 12345u16),
            root.get(2, true),
            root.get(256, -9i64),
        );
        let note = text(&root, 10, "no note")?;
        out += &format!("{added};{};{note};{far};", u8::from(is_late));
    }
    Ok(out)
}

/// Reads fields and pointers of a struct, inside the struct and beyond its end.
fn read_struct(of: &Struct) -> u64 {
    let mut sum = 0;
    for at in 0..8 * of.data().len() as u32 + 130 {
        sum += u64::from(of.get::<bool>(at, true)) ^ of.get::<u64>(at, 1);
        sum ^= u64::from(of.get::<u8>(at, 1)) ^ u64::from(of.get::<u32>(at, 1));
    }
    (0..of.slots() + 2).for_each(|k| assert!(k < of.slots() || of.slot(k).is_null()));
    sum
}

/// Counts how many readings succeed for a pointer and the pointers below it, and how many pointers these are.
fn read_any(value: &Value, read: &mut u64, pointers: &mut u64) {
    fn numbers<T: Number>(value: &Value) -> u64 {
        value
            .as_list::<T>()
            .map_or(0, |it| it.take(1000).fold(1, |read, _| read))
    }
    *pointers += 1;
    *read += u64::from(value.as_struct().map(|it| read_struct(&it)).is_ok());
    *read += u64::from(value.as_text_bytes().is_ok()) + u64::from(value.as_data().is_ok());
    // A list of elements without size can only be read as a list of structs.
    *read += u64::from(matches!(
        value,
        Value::Null | Value::Void(_) | Value::Rows(_)
    ));
    *read += numbers::<bool>(value) + numbers::<i8>(value) + numbers::<u16>(value);
    *read += numbers::<f32>(value) + numbers::<u64>(value);
    *read += u64::from(value.as_pointers().map(|it| it.take(1000).count()).is_ok());
    if let Ok(rows) = value.as_rows() {
        *read += 1;
        assert_ne!(
            rows.take(1000)
                .map(|row| read_struct(&row))
                .fold(1, u64::max),
            0
        );
    }
    match value {
        Value::Struct(it) => (0..it.slots()).for_each(|k| read_any(&it.slot(k), read, pointers)),
        Value::Pointers(all) => all.clone().for_each(|it| read_any(&it, read, pointers)),
        Value::Rows(all) if all.clone().next().map_or(0, |row| row.slots()) > 0 => {
            all.clone().for_each(|row| {
                (0..row.slots()).for_each(|k| read_any(&row.slot(k), read, pointers));
            })
        }
        _ => {}
    }
}

fn any(stream: &[u8]) -> Result<String, Error> {
    let (mut messages, mut pointers, mut read) = (0, 0, 0);
    for message in capn::messages(stream, Limits::usual()) {
        if let Ok(index) = Index::new(message?, Form::Stream, &Limits::usual()) {
            messages += 1;
            read_any(&index.root(), &mut read, &mut pointers);
        }
    }
    Ok(format!("{messages} messages, {pointers} pointers, {read}"))
}

/// A sum over numbers: FNV-1a over numbers of 64 bits instead of bytes.
struct Sum(u64);

impl Sum {
    fn of(numbers: impl IntoIterator<Item = u64>) -> Self {
        let mut sum = Sum(0xcbf2_9ce4_8422_2325);
        numbers.into_iter().for_each(|number| sum.add(number));
        sum
    }

    fn add(&mut self, number: u64) {
        self.0 = (self.0 ^ number).wrapping_mul(0x0100_0000_01b3);
    }

    /// Adds the fields of one width. Field `i` has the default `i + 1`, or `-(i + 1)` if it is signed.
    fn add_fields<T: Number>(
        &mut self,
        of: &Struct,
        default: impl Fn(i64) -> T,
        number: impl Fn(T) -> u64,
    ) {
        let width = T::BITS;
        (0..256 / width).for_each(|i| self.add(number(of.get(i * width, default(i.into())))));
    }

    /// Adds the numbers of a struct: bits, fields of each width, the number of pointers, and the kinds of the first
    /// ones.
    fn add_struct(&mut self, of: &Struct) {
        (0..256)
            .step_by(5)
            .for_each(|i| self.add(of.get(i, i % 2 == 0).into()));
        self.add_fields(of, |i| (i + 1) as u8, u64::from);
        self.add_fields(of, |i| (i + 1) as u16, u64::from);
        self.add_fields(of, |i| (i + 1) as u32, u64::from);
        self.add_fields(of, |i| (i + 1) as u64, u64::from);
        self.add_fields(of, |i| (-i - 1) as i8, |number| number as u64);
        self.add_fields(of, |i| (-i - 1) as i16, |number| number as u64);
        self.add_fields(of, |i| (-i - 1) as i32, |number| number as u64);
        self.add_fields(of, |i| -i - 1, |number| number as u64);
        self.add(of.slots().into());
        (0..4).for_each(|k| self.add(kind(&of.slot(k))));
    }
}

/// Returns the number of a kind in `capn.h`.
fn kind(value: &Value) -> u64 {
    const KINDS: [&str; 11] = [
        "null",
        "struct",
        "void",
        "bits",
        "bytes",
        "u16",
        "u32",
        "u64",
        "pointers",
        "rows",
        "capability",
    ];
    let at = KINDS.iter().position(|name| *name == value.kind());
    at.expect("a kind of capn.h") as u64
}

/// At most this many numbers of a list are read, and at most this many of its pointers or structs.
const MOST_NUMBERS: usize = 1000;
const MOST_ROWS: usize = 20;

/// Returns the kind of a pointer, and a part for each way to read it.
fn line(value: &Value) -> String {
    fn part<T, E>(read: Result<T, E>, sum: impl FnOnce(T) -> Sum) -> String {
        read.map_or_else(|_| " -".into(), |it| format!(" {:016x}", sum(it).0))
    }
    fn bytes(read: Result<Option<&[u8]>, Error>, default: &[u8]) -> String {
        part(read.map(|bytes| bytes.unwrap_or(default)), |bytes| {
            Sum::of(
                std::iter::once(bytes.len() as u64).chain(bytes.iter().map(|byte| (*byte).into())),
            )
        })
    }
    fn numbers<T: Number + Into<u64>>(value: &Value) -> String {
        part(value.as_list::<T>(), |all| {
            Sum::of(std::iter::once(all.len() as u64).chain(all.take(MOST_NUMBERS).map(Into::into)))
        })
    }
    let mut line = value.kind().to_string();
    line += &part(value.as_struct(), |of| {
        let mut sum = Sum::of([]);
        sum.add_struct(&of);
        sum
    });
    line += &bytes(value.as_text_bytes(), b"none");
    line += &bytes(value.as_data(), b"");
    // A list of elements without size can only be read as a list of structs.
    line += &match value {
        Value::Null | Value::Void(_) | Value::Rows(_) => {
            part(value.as_rows(), |all| Sum::of([all.len() as u64]))
        }
        _ => " -".into(),
    };
    line += &numbers::<bool>(value);
    line += &numbers::<u8>(value);
    line += &numbers::<u16>(value);
    line += &numbers::<u32>(value);
    line += &numbers::<u64>(value);
    line += &part(value.as_pointers(), |all| {
        Sum::of(std::iter::once(all.len() as u64).chain(all.take(MOST_ROWS).map(|it| kind(&it))))
    });
    line += &part(value.as_rows(), |all| {
        let mut sum = Sum::of([all.len() as u64]);
        all.take(MOST_ROWS).for_each(|row| sum.add_struct(&row));
        sum
    });
    line
}

/// Writes the line of a pointer and the lines of all pointers below it, in preorder.
fn lines(value: &Value, out: &mut impl Write) -> io::Result<()> {
    writeln!(out, "{}", line(value))?;
    match value {
        Value::Struct(it) => (0..it.slots()).try_for_each(|k| lines(&it.slot(k), out)),
        Value::Pointers(all) => all.clone().try_for_each(|it| lines(&it, out)),
        Value::Rows(all) if all.clone().next().map_or(0, |row| row.slots()) > 0 => {
            let mut all = all.clone();
            all.try_for_each(|row| (0..row.slots()).try_for_each(|k| lines(&row.slot(k), out)))
        }
        _ => Ok(()),
    }
}

fn main() -> Result<(), Box<dyn std::error::Error>> {
    let word = std::env::args().nth(1).unwrap_or_default();
    let is_new = word == "new";
    let mut stream = Vec::new();
    io::stdin().read_to_end(&mut stream)?;
    if word == "any" {
        println!("{}", any(&stream)?);
        return Ok(());
    }
    let mut out = io::BufWriter::new(io::stdout().lock());
    if word == "lines" {
        let mut left = stream.as_slice();
        while !left.is_empty() {
            let (length, after) = left.split_at(4);
            let length = u32::from_le_bytes(length.try_into()?);
            let (message, after) = after.split_at(length as usize);
            left = after;
            match Index::new(message, Form::Stream, &Limits::usual()) {
                Ok(index) => lines(&index.root(), &mut out)?,
                Err(error) => writeln!(out, "rejected: {error}")?,
            }
        }
        return Ok(out.flush()?);
    }
    for message in capn::messages(&stream, Limits::usual()) {
        writeln!(out, "{}", shown(message?, is_new)?)?;
    }
    Ok(())
}
