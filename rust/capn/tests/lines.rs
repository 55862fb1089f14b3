//! Tests the lines of hand-written messages.
use capn::{Error, Form, Kind, Limit, Limits, Line, LineKind};

const USUAL: Limits = Limits::usual();

fn words(words: &[u64]) -> Vec<u8> {
    words.iter().flat_map(|word| word.to_le_bytes()).collect()
}

fn hex(digits: &str) -> Vec<u8> {
    (0..digits.len() / 2)
        .map(|at| u8::from_str_radix(&digits[2 * at..2 * at + 2], 16).unwrap())
        .collect()
}

/// A line as the command prints it, with the number of words, without paths and texts: its offset, its place, its
/// words, its times, its kind, its pointer, and what is said of some lines alone.
fn told(line: &Line) -> String {
    let mut out = format!(
        "{} {}:{} {} {} {}",
        line.offset, line.segment, line.word, line.words, line.times, line.kind
    );
    if let Some((segment, word)) = line.slot {
        out += &format!(" of {segment}:{word}");
    }
    if line.cut > 0 {
        out += &format!(" cut {}", line.cut);
    }
    if line.not_zero != line.words {
        out += &format!(" not zero {}", line.not_zero);
    }
    for (is, name) in [(line.overlap, " overlap"), (line.padding, " padding")] {
        out += if is { name } else { "" };
    }
    out
}

fn lines(message: &[u8], form: Form) -> Vec<String> {
    capn::annotate(message, form, &USUAL)
        .unwrap()
        .map(|line| told(&line))
        .collect()
}

#[test]
fn lines_of_messages() {
    let invoice = hex("00000000040000000000000001000100\
         0500000000000000010000001a0000006162000000000000");
    assert_eq!(
        lines(&invoice, Form::Stream),
        [
            "8 0:0 1 1 pointer",
            "16 0:1 1 1 data of 0:0",
            "24 0:2 1 1 pointer of 0:0",
            "32 0:3 1 1 list of 0:2",
        ]
    );
    // A writer set a text twice. The message still has the word of the first text, but no pointer leads to it.
    let twice = hex("00000000000001000500000032000000\
         41646100000000004772616365000000");
    assert_eq!(
        lines(&twice, Form::Bare),
        [
            "0 0:0 1 1 pointer",
            "8 0:1 1 1 pointer of 0:0",
            "16 0:2 1 0 unreached",
            "24 0:3 1 1 list of 0:1",
        ]
    );
    // A landing pad, a text that two pointers share, and a word and a pointer that canonical bytes leave out.
    let packed = hex("1101010106110201500103000011091a11051a0000036869");
    assert_eq!(
        lines(&packed, Form::Packed),
        [
            "16 0:0 1 1 pointer",
            "24 1:0 1 1 pad of 0:0",
            "32 1:1 1 1 data of 0:0 cut 1 not zero 0",
            "40 1:2 1 1 pointer of 0:0",
            "48 1:3 1 1 pointer of 0:0",
            "56 1:4 1 1 null of 0:0 cut 1 not zero 0",
            "64 1:5 1 2 list of 1:2",
        ]
    );
    // Two structs of a list. The second one is also a list of u32. A word after them belongs to the list.
    let overlap = words(&[
        2 << 48,
        5 | 0x1f << 32,
        9 | 0x14 << 32,
        8 | 1 << 32,
        7,
        9,
        u64::MAX,
    ]);
    assert_eq!(
        lines(&overlap, Form::Bare),
        [
            "0 0:0 1 1 pointer",
            "8 0:1 1 1 pointer of 0:0",
            "16 0:2 1 1 pointer of 0:0",
            "24 0:3 1 1 tag of 0:1",
            "32 0:4 1 1 data of 0:1",
            "40 0:5 1 2 data of 0:1 overlap",
            "48 0:6 1 1 slack of 0:1",
        ]
    );
    // A list of 17 bytes. In its last word, a byte after the list isn't zero.
    let padded = words(&[1 | 2 << 32 | 17 << 35, 1, 0, 9 << 56]);
    assert_eq!(
        lines(&padded, Form::Bare),
        [
            "0 0:0 1 1 pointer",
            "8 0:1 3 1 list of 0:0 not zero 2 padding"
        ]
    );
    assert_eq!(lines(&[0; 8], Form::Bare), ["0 0:0 1 1 null not zero 0"]);
    // A message with a capability has lines, though it has no canonical bytes.
    let capability = words(&[1 << 48, 3 | 7 << 32]);
    assert_eq!(lines(&capability, Form::Bare).len(), 2);
}

/// A struct of many pointers, each to an empty struct: each word has a line.
#[test]
fn many_lines() {
    const COUNT: usize = 5000;
    let mut message = vec![(COUNT as u64) << 48];
    message.resize(1 + COUNT, 0xffff_fffc);
    let message = words(&message);
    let mut lines = capn::annotate(&message, Form::Bare, &USUAL).unwrap();
    assert_eq!(lines.len(), 1 + COUNT);
    assert_eq!(lines.next_back().unwrap().offset, 8 * COUNT as u64);
    assert_eq!(lines.len(), COUNT);
    for (at, line) in (&mut lines).enumerate() {
        assert_eq!((line.word as usize, line.kind), (at, LineKind::Pointer));
    }
    assert_eq!((lines.next(), lines.next_back()), (None, None));
}

#[test]
fn refused_messages() {
    let kind = |message: &[u8], form| {
        capn::annotate(message, form, &USUAL)
            .unwrap_err()
            .kind()
            .unwrap()
    };
    let range = capn::annotate(&words(&[1 << 32]), Form::Bare, &USUAL).unwrap_err();
    assert_eq!(range.to_string(), "Range at 0:0, paid 0, visits 1");
    assert_eq!(kind(&[0; 4], Form::Stream), Kind::FrameCut);
    assert_eq!(kind(&[1], Form::Packed), Kind::PackedCut);
    assert_eq!(kind(&[0; 9], Form::Bare), Kind::NotWhole);
    let limits = Limits { depth: 0, ..USUAL };
    assert_eq!(
        capn::annotate(&[0; 8], Form::Bare, &limits).unwrap_err(),
        Error::OutOfRange(Limit::Depth)
    );
}
