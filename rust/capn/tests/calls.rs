//! Tests the calls on messages that are written by hand.
use capn::{
    segments, Error, Form, Index, Kind, Limit, Limits, Place, ReadError, Reader, SameError,
    ScratchError, Style, Tariff, Value, Which,
};
use std::ffi::CStr;
use std::io::{self, Read, Write};
use std::os::unix::net::UnixStream;

const USUAL: Limits = Limits::usual();

/// Types that can be sent to other threads and shared with them.
#[test]
fn all_types_are_for_any_thread() {
    fn is_shared<T: Send + Sync>() {}
    is_shared::<(Error, Limits, SameError, ScratchError, capn::StreamError)>();
    is_shared::<(Index, Value, capn::Struct, capn::Rows, capn::Pointers)>();
    is_shared::<(
        capn::Numbers<u64>,
        capn::Messages,
        capn::Departure,
        capn::Way,
    )>();
    is_shared::<(Reader<UnixStream>, ReadError, capn::Unpacker<UnixStream>)>();
    is_shared::<capn::IntoMessages<UnixStream>>();
}

fn words(words: &[u64]) -> Vec<u8> {
    words.iter().flat_map(|word| word.to_le_bytes()).collect()
}

fn framed(content: &[u64]) -> Vec<u8> {
    let mut message = words(&[(content.len() as u64) << 32]);
    message.extend(words(content));
    message
}

fn one() -> Vec<u8> {
    framed(&[2 << 32, 5, 0])
}

fn hostile() -> Vec<u8> {
    framed(&[0x1_0000_ffff_fffc])
}

#[test]
fn answers() {
    let message = one();
    let canonical = capn::canonical(&message, Form::Stream, &USUAL).unwrap();
    assert_eq!(canonical, words(&[1 << 32, 5]));
    let digest = capn::digest(&message, Form::Stream, &USUAL).unwrap();
    assert_eq!(digest[..4], [0x6a, 0x3e, 0xfd, 0x90]);
    let packed = capn::pack(&message).unwrap();
    assert_eq!(packed, [0x10, 3, 0x10, 2, 1, 5, 0, 0]);
    assert_eq!(capn::unpack(&packed, 4).unwrap(), message);
    assert_eq!(
        capn::canonical(&packed, Form::Packed, &USUAL).unwrap(),
        canonical
    );
    assert_eq!(capn::digest(&canonical, Form::Bare, &USUAL), Ok(digest));
    let figures = capn::survey(&message, Form::Stream, &USUAL).unwrap();
    assert_eq!((figures.words, figures.segments, figures.depth), (3, 1, 1));
    assert_eq!((figures.capability, figures.is_canonical), (None, false));
    let capability = framed(&[1 << 48, 3 | 7 << 32]);
    assert_eq!(
        capn::survey(&capability, Form::Stream, &USUAL)
            .unwrap()
            .capability,
        Some(7)
    );
}

#[test]
fn canonical_bytes_with_scratch() {
    let into = |message: &[u8], form, words: usize, room: usize| {
        let (mut scratch, mut out) = (vec![[0x55; 8]; words], vec![0x55; room]);
        let told = capn::canonical_with_scratch(message, form, &USUAL, &mut scratch, &mut out);
        if told.is_err() {
            assert_eq!(out, vec![0x55; room], "the room is as it was");
        }
        told.map(|length| out[..length].to_vec())
    };
    let (message, wanted) = (one(), words(&[1 << 32, 5]));
    let packed = capn::pack(&message).unwrap();
    assert_eq!(into(&message, Form::Stream, 0, 16), Ok(wanted.clone()));
    assert_eq!(into(&message[8..], Form::Bare, 0, 20), Ok(wanted.clone()));
    assert_eq!(into(&packed, Form::Packed, 4, 16), Ok(wanted));
    let no_scratch = |needed| Err(ScratchError::NoScratch(needed));
    assert_eq!(into(&packed, Form::Packed, 3, 16), no_scratch(4));
    for room in [15, 0] {
        assert_eq!(
            into(&message, Form::Stream, 0, room),
            Err(ScratchError::NoRoom(16))
        );
    }
    // The message has 65 segments. Only the first segment has a word.
    let mut many = words(&[64 | 1 << 32]);
    many.resize(4 + 4 * 65 + 8, 0);
    assert_eq!(into(&many, Form::Stream, 63, 8), no_scratch(64));
    assert_eq!(into(&many, Form::Stream, 64, 8), Ok(vec![0; 8]));
    let many = capn::pack(&many).unwrap();
    assert_eq!(into(&many, Form::Packed, 0, 8), no_scratch(34));
    assert_eq!(into(&many, Form::Packed, 34, 8), no_scratch(98));
    assert_eq!(into(&many, Form::Packed, 98, 8), Ok(vec![0; 8]));
    let refused = into(&message[..20], Form::Stream, 0, 16).unwrap_err();
    assert_eq!(refused.to_string(), "frame: Cut");
}

#[test]
fn two_messages_are_compared() {
    let same = |first: &[u8], second: &[u8]| capn::same(first, second, Form::Stream, &USUAL);
    let (tight, other) = (framed(&[1 << 32, 5]), framed(&[1 << 32, 6]));
    let far = words(&[1 | 1 << 32, 2, 2 | 1 << 32, 1 << 32, 5]);
    for equal in [&one(), &tight, &far] {
        assert_eq!(same(&one(), equal), Ok(true));
        assert_eq!(same(equal, &other), Ok(false));
    }
    let packed = [&one(), &far].map(|it| capn::pack(it).unwrap());
    assert_eq!(
        capn::same(&packed[0], &packed[1], Form::Packed, &USUAL),
        Ok(true)
    );
    assert_eq!(
        capn::same(&one()[8..], &words(&[1 << 32, 5]), Form::Bare, &USUAL),
        Ok(true)
    );
    let capability = framed(&[1 << 48, 3 | 7 << 32]);
    let refused = |first: &[u8], second: &[u8]| same(first, second).unwrap_err();
    let told = |refused: SameError| (refused.which, refused.error.kind().unwrap());
    let (first, second) = (Which::First, Which::Second);
    assert_eq!(
        told(refused(&one()[..20], &hostile())),
        (first, Kind::FrameCut)
    );
    assert_eq!(
        told(refused(&one(), &one()[..20])),
        (second, Kind::FrameCut)
    );
    assert_eq!(told(refused(&capability, &[])), (first, Kind::Capability));
    assert_eq!(
        told(refused(&one(), &capability)),
        (second, Kind::Capability)
    );
    let text = refused(&one(), &hostile()).to_string();
    assert_eq!(text, "TooDeep at 0:0, paid 128, visits 65");
    let none = Limits { depth: 0, ..USUAL };
    let wrong = capn::same(&one(), &one(), Form::Stream, &none).unwrap_err();
    let depth = Error::OutOfRange(Limit::Depth);
    assert_eq!((wrong.which, wrong.error), (first, depth));
    assert_eq!(Error::from(wrong), depth);
}

#[test]
fn a_message_is_shown() {
    let shown = |message: &[u8], form, style| capn::show(message, form, &USUAL, style).unwrap();
    let five = "struct 2 0\n  word 0000000000000005\n  word 0000000000000000\nend\n";
    let packed = capn::pack(&one()).unwrap();
    assert_eq!(shown(&one(), Form::Stream, Style::Lines), five);
    assert_eq!(shown(&packed, Form::Packed, Style::Lines), five);
    assert_eq!(shown(&one()[8..], Form::Bare, Style::Text), five);
    // This dump is longer than the buffer that is tried first.
    let mut bits = words(&[1 | 1 << 32 | 64_000 << 35]);
    bits.resize(8008, 0xff);
    assert_eq!(shown(&bits, Form::Bare, Style::Lines).len(), 64_018);
    let mut long = words(&[1 | 2 << 32 | 8000 << 35]);
    long.resize(8008, b'a');
    assert_eq!(shown(&long, Form::Bare, Style::Lines).len(), 16_018);
    assert_eq!(shown(&long, Form::Bare, Style::Text).len(), 8_018);
    assert_eq!(
        shown(&long, Form::Bare, Style::Json),
        format!("{{\"bytes\":\"{}\"}}\n", "61".repeat(8000))
    );
    assert_eq!(
        shown(&long, Form::Bare, Style::JsonText),
        format!("{{\"bytes\":\"{}\"}}\n", "61".repeat(8000))
    );
    *long.last_mut().unwrap() = 0;
    assert_eq!(
        shown(&long, Form::Bare, Style::JsonText),
        format!("{{\"text\":\"{}\"}}\n", "a".repeat(7999))
    );
    let letter = words(&[1 | 26 << 32, 0xa4c3]);
    assert_eq!(
        shown(&letter, Form::Bare, Style::JsonText),
        "{\"text\":\"ä\"}\n"
    );
    assert_eq!(
        shown(&letter, Form::Bare, Style::Text),
        "bytes 3 \"ä\\0\"\nend\n"
    );
    let refused = capn::show(&hostile(), Form::Stream, &USUAL, Style::Text).unwrap_err();
    assert_eq!(refused.kind(), Some(Kind::TooDeep));
}

/// An object with three pointers to it is written three times, so the result is longer than the message.
#[test]
fn a_longer_answer_is_appended() {
    let shared = framed(&[3 << 48, 8 | 1 << 32, 4 | 1 << 32, 1 << 32, 7]);
    let mut out = vec![1, 2, 3];
    let paid = capn::canonical_into(&shared, Form::Stream, &USUAL, &mut out).unwrap();
    assert_eq!((out.len(), paid), (3 + 56, 10));
    assert_eq!(out[..3], [1, 2, 3]);
    let was = out.clone();
    let refused = capn::canonical_into(&hostile(), Form::Stream, &USUAL, &mut out);
    assert_eq!(refused.unwrap_err().kind(), Some(Kind::TooDeep));
    assert_eq!(out, was);
}

#[test]
fn refusals_have_a_kind_a_place_and_the_text_of_the_program() {
    let text = |message: &[u8], form| {
        capn::canonical(message, form, &USUAL)
            .unwrap_err()
            .to_string()
    };
    let two = [one(), one()].concat();
    assert_eq!(text(&two, Form::Stream), "trailing bytes at 32");
    assert_eq!(text(&one()[..20], Form::Stream), "frame: Cut");
    assert_eq!(text(&[], Form::Stream), "frame: Empty");
    assert_eq!(
        text(&[0xff; 8], Form::Stream),
        "frame: TooManySegments(4294967296)"
    );
    assert_eq!(text(&[0; 9], Form::Bare), "bare: NotWhole(9)");
    assert_eq!(text(&[0x10], Form::Packed), "packed: Cut at 0");
    assert_eq!(
        text(&hostile(), Form::Stream),
        "TooDeep at 0:0, paid 128, visits 65"
    );
    assert_eq!(
        text(&words(&[1 << 48, 3 | 7 << 32]), Form::Bare),
        "capability 7"
    );
    let refused = capn::check(&hostile(), Form::Stream, &USUAL).unwrap_err();
    let place = Place::Slot {
        segment: 0,
        word: 0,
        paid: 128,
        visits: 65,
    };
    assert_eq!(
        (refused.kind(), refused.place()),
        (Some(Kind::TooDeep), Some(place))
    );
    assert_eq!(
        (Kind::TooDeep.name(), Kind::TooDeep.status()),
        ("TooDeep", 73)
    );
    let source: &dyn std::error::Error = &refused;
    assert!(source.source().is_none());

    let none = Limits { depth: 0, ..USUAL };
    let refused = capn::check(&one(), Form::Stream, &none);
    assert_eq!(refused, Err(Error::OutOfRange(Limit::Depth)));
    let low = Limits { budget: 2, ..USUAL };
    assert!(capn::check(&one(), Form::Stream, &low).is_err());
    let plain = Limits {
        tariff: Tariff::Plain,
        ..low
    };
    assert_eq!(capn::check(&one(), Form::Stream, &plain).unwrap().paid, 2);
    assert_eq!(
        Index::new(&[], Form::Packed, &USUAL).unwrap_err(),
        Error::Form
    );
}

/// An error that isn't about the message has the text of its status.
#[test]
fn errors_of_calls_have_the_texts_of_the_library() {
    let text = |status| {
        let text = unsafe { CStr::from_ptr(capn_sys::capn_status_text(status)) };
        text.to_str().expect("ASCII").to_owned()
    };
    for kind in [Kind::NotWhole, Kind::Range, Kind::Capability] {
        assert_eq!(kind.meaning(), text(kind.status()));
    }
    assert_eq!(
        Kind::TooDeep.meaning(),
        "an object lies deeper than the limit"
    );
    assert_eq!(Error::Memory.to_string(), "out of memory");
    assert_eq!(Error::Form.to_string(), text(capn_sys::CAPN_BAD_FORM));
    assert_eq!(Error::Style.to_string(), text(capn_sys::CAPN_BAD_STYLE));
    assert_eq!(
        Error::OutOfRange(Limit::Depth).to_string(),
        text(capn_sys::CAPN_BAD_LIMITS) + ": depth"
    );
}

#[test]
fn a_stream_in_memory() {
    let stream = [one(), one(), one()[..20].to_vec()].concat();
    let mut messages = capn::messages(&stream, USUAL);
    assert_eq!(messages.next(), Some(Ok(&one()[..])));
    assert_eq!((messages.number(), messages.offset()), (1, 32));
    assert_eq!(messages.next(), Some(Ok(&one()[..])));
    assert_eq!((messages.number(), messages.offset()), (2, 64));
    let cut = messages.next().unwrap().unwrap_err();
    assert_eq!((messages.number(), messages.offset()), (3, 64));
    assert_eq!(cut.to_string(), "message 3 at 64: frame: Cut");
    assert_eq!((messages.next(), messages.next()), (None, None));
    assert_eq!(capn::messages(&[], USUAL).next(), None);
}

/// Reads at most `most` bytes at a time. Before each such read, two reads fail: one would block, and one is
/// interrupted.
struct Slow<'a> {
    rest: &'a [u8],
    most: usize,
    calls: usize,
}

impl Read for Slow<'_> {
    fn read(&mut self, to: &mut [u8]) -> io::Result<usize> {
        self.calls += 1;
        match self.calls % 3 {
            1 => Err(io::ErrorKind::WouldBlock.into()),
            2 => Err(io::ErrorKind::Interrupted.into()),
            _ => {
                let most = self.most.min(to.len());
                self.rest.read(&mut to[..most])
            }
        }
    }
}

#[test]
fn a_reader_goes_on_after_each_error_of_its_input() {
    let stream = [one(), framed(&[0]), one()].concat();
    for most in 1..40 {
        let input = Slow {
            rest: &stream,
            most,
            calls: 0,
        };
        let mut reader = Reader::new(input, USUAL);
        let mut got = Vec::new();
        loop {
            match reader.read() {
                Ok(Some(message)) => got.push(message.to_vec()),
                Ok(None) => break,
                Err(ReadError::Io(why)) => assert_eq!(why.kind(), io::ErrorKind::WouldBlock),
                Err(other) => panic!("{other}"),
            }
        }
        assert_eq!(got, [one(), framed(&[0]), one()]);
        assert_eq!((reader.number(), reader.offset()), (3, 48 + 32));
    }
}

#[test]
fn a_reader_says_where_a_stream_is_refused() {
    let stream = [one(), one()[..20].to_vec()].concat();
    let mut reader = Reader::new(&stream[..], USUAL);
    assert_eq!((reader.number(), reader.offset()), (0, 0));
    assert!(reader.read().unwrap().is_some());
    assert_eq!((reader.number(), reader.offset()), (1, 32));
    assert_eq!(
        reader.read().unwrap_err().to_string(),
        "message 2 at 32: frame: Cut"
    );
    assert_eq!((reader.number(), reader.offset()), (1, 32));
    let mut reader = Reader::new(&[0xff; 99][..], USUAL);
    let text = "message 1 at 0: frame: TooManySegments(4294967296)";
    assert_eq!(reader.read().unwrap_err().to_string(), text);
    assert!(Reader::new(&[][..], USUAL).read().unwrap().is_none());
}

/// The peer waits for a reply to each message. The bytes after the messages stay in the socket.
#[test]
fn a_reader_of_a_socket_takes_no_byte_too_many() {
    let (mut peer, socket) = UnixStream::pair().unwrap();
    let sender = std::thread::spawn(move || {
        for _ in 0..2 {
            peer.write_all(&one()).unwrap();
            peer.read_exact(&mut [0]).unwrap();
        }
        peer.write_all(b"more").unwrap();
    });
    let mut reader = Reader::new(&socket, USUAL);
    for _ in 0..2 {
        assert_eq!(reader.read().unwrap(), Some(&one()[..]));
        (&socket).write_all(b"a").unwrap();
    }
    sender.join().unwrap();
    let mut rest = String::new();
    reader.into_inner().read_to_string(&mut rest).unwrap();
    assert_eq!(rest, "more");
}

#[test]
fn segments_at_any_address() {
    let pad = words(&[1 << 32, 5]);
    let odd = [&[0], &pad[..]].concat();
    let root = words(&[2 | 1 << 32]);
    for second in [&pad[..], &odd[1..]] {
        let held: [&[u8]; 2] = [&root, second];
        assert_eq!(segments::canonical(&held, &USUAL).unwrap(), pad);
        assert_eq!(segments::survey(&held, &USUAL).unwrap().segments, 2);
        let digest = capn::digest(&pad, Form::Bare, &USUAL);
        assert_eq!(segments::digest(&held, &USUAL), digest);
        let refused = segments::check(&[&root, &second[..9]], &USUAL).unwrap_err();
        assert_eq!(refused.kind(), Some(Kind::NotWhole));
        let refused = segments::check(&[&root], &USUAL).unwrap_err();
        assert_eq!(refused.to_string(), "NoSegment at 0:0, paid 0, visits 1");
    }
    assert!(segments::check(&[], &USUAL).is_err());
    let many: Vec<&[u8]> = (0..100).map(|_| &pad[..]).collect();
    assert_eq!(segments::canonical(&many, &USUAL).unwrap(), pad);
}

#[test]
fn fields_with_defaults_and_newer_lists() {
    // The root has a word, a text, and a list of structs. A newer writer wrote these structs in place of numbers.
    let message = framed(&[
        1 << 32 | 3 << 48,
        5 ^ 7,
        2 << 2 | 1 | 0x22 << 32,
        2 << 2 | 1 | 0x27 << 32,
        0,
        0x636261,
        8 | 1 << 32 | 1 << 48,
        3,
        0,
        4,
        0,
    ]);
    let index = Index::new(&message, Form::Stream, &USUAL).unwrap();
    let root = index.root().as_struct().unwrap();
    assert_eq!(root.get::<u64>(0, 7), 5);
    assert_eq!(
        (root.get::<u64>(64, 7), root.get::<bool>(64, true)),
        (7, true)
    );
    assert_eq!((root.get::<i8>(0, 0), root.get::<u16>(u32::MAX, 9)), (2, 9));
    assert_eq!(root.slot(0).as_text().unwrap(), Some("abc"));
    assert_eq!(root.slot(0).as_data().unwrap(), Some(&b"abc\0"[..]));
    assert_eq!(root.slot(2).as_text().unwrap(), None);
    let numbers = root.slot(1).as_list::<u16>().unwrap();
    assert_eq!((numbers.get(1), numbers.get(2)), (Some(4), None));
    assert_eq!(numbers.clone().collect::<Vec<_>>(), [3, 4]);
    assert_eq!(
        root.slot(1)
            .as_pointers()
            .unwrap()
            .filter(Value::is_null)
            .count(),
        2
    );
    assert_eq!(
        root.slot(1)
            .as_rows()
            .unwrap()
            .map(|row| row.get::<i32>(0, -1))
            .sum::<i32>(),
        -9
    );
    let unexpected = root.slot(1).as_text().unwrap_err();
    assert_eq!(unexpected.to_string(), "text expected, rows found");
    assert!(root.slot(0).as_struct().is_err() && root.slot(0).as_list::<u16>().is_err());
    assert!(root.slot(1).as_list::<bool>().is_err());
    assert_eq!(format!("{:?}", index.root()), "struct 8 bytes, 3 slots");
}

/// Reads each kind of list as each other kind.
#[test]
fn lists_in_place_of_others() {
    let list = |width: u64| words(&[1 | width << 32 | 2 << 35, 0, 0]);
    let row = |size: u64| {
        let length = (size & 0xffff) + (size >> 16);
        words(
            &[
                &[1 | 7 << 32 | (2 * length) << 35, 8 | size << 32][..],
                &[0; 8],
            ]
            .concat(),
        )
    };
    let found = [
        list(0),
        list(1),
        list(2),
        list(3),
        list(4),
        list(5),
        list(6),
        row(0),
        row(1),
        row(1 << 16),
    ];
    let taken = |of: fn(Value) -> Option<usize>| -> String {
        let is = |message: &Vec<u8>| {
            let index = Index::new(message, Form::Bare, &USUAL).expect("a message");
            match of(index.root()) {
                None => '.',
                Some(2) => '1',
                Some(count) => panic!("{count}"),
            }
        };
        found.iter().map(is).collect()
    };
    assert_eq!(
        taken(|it| Some(it.as_list::<bool>().ok()?.count())),
        ".1........"
    );
    assert_eq!(
        taken(|it| Some(it.as_list::<i8>().ok()?.count())),
        "..1....111"
    );
    assert_eq!(
        taken(|it| Some(it.as_list::<u16>().ok()?.count())),
        "...1...111"
    );
    assert_eq!(
        taken(|it| Some(it.as_list::<f32>().ok()?.count())),
        "....1..111"
    );
    assert_eq!(
        taken(|it| Some(it.as_list::<f64>().ok()?.count())),
        ".....1.111"
    );
    assert_eq!(
        taken(|it| Some(it.as_pointers().ok()?.count())),
        "......1111"
    );
    assert_eq!(taken(|it| Some(it.as_rows().ok()?.count())), "1.11111111");
}

/// A list of two structs of a zero word each, and its canonical bytes, which have structs without words. With a type
/// from before the list had structs, numbers or pointers are read.
#[test]
fn structs_without_words_are_zeros_and_nulls() {
    let stored = words(&[1 << 48, 1 | 0x17 << 32, 8 | 1 << 32, 0, 0]);
    let pointers = words(&[1 << 48, 1 | 0x17 << 32, 8 | 1 << 48, 0, 0]);
    let canonical = words(&[1 << 48, 1 | 7 << 32, 8]);
    for message in [&stored, &pointers, &canonical] {
        assert_eq!(
            capn::canonical(message, Form::Bare, &USUAL).as_ref(),
            Ok(&canonical)
        );
        let index = Index::new(message, Form::Bare, &USUAL).unwrap();
        let list = index.root().as_struct().unwrap().slot(0);
        assert!(list.as_list::<u8>().unwrap().eq([0, 0]));
        assert!(list.as_list::<u16>().unwrap().eq([0, 0]));
        assert!(list.as_list::<i32>().unwrap().eq([0, 0]));
        assert!(list.as_list::<f64>().unwrap().eq([0.0, 0.0]));
        assert_eq!(list.as_list::<u16>().unwrap().get(1), Some(0));
        assert_eq!(list.as_list::<u16>().unwrap().get(2), None);
        let pointers = list.as_pointers().unwrap();
        assert!(pointers.len() == 2 && pointers.into_iter().all(|it| it.is_null()));
        // Only a list of bits can be read as bits.
        assert!(list.as_list::<bool>().is_err());
    }
    // The structs of this list have only a pointer, which refers to a text. The bits of a pointer are never read as a
    // number.
    let texts = words(&[
        1 | 0x17 << 32,
        8 | 1 << 48,
        5 | 0x22 << 32,
        5 | 0x22 << 32,
        0x61_6161,
        0x62_6262,
    ]);
    let index = Index::new(&texts, Form::Bare, &USUAL).unwrap();
    assert!(index.root().as_list::<u64>().unwrap().eq([0, 0]));
    let texts = index.root().as_pointers().unwrap();
    assert!(texts
        .map(|it| it.as_text().unwrap())
        .eq([Some("aaa"), Some("bbb")]));
}

/// A `List(UInt8)` of an older writer is read as structs with a wider field. The field is absent.
#[test]
fn a_field_wider_than_the_element_of_an_older_list_has_its_default() {
    let message = words(&[1 << 48, 1 | (2 | 1 << 3) << 32, 5]);
    let index = Index::new(&message, Form::Bare, &USUAL).unwrap();
    let mut rows = index.root().as_struct().unwrap().slot(0).as_rows().unwrap();
    let row = rows.next().unwrap();
    assert_eq!((row.get::<u8>(0, 0), row.get::<u8>(0, 7)), (5, 2));
    assert_eq!((row.get::<u16>(0, 7), row.get::<i64>(0, -1)), (7, -1));
    assert_eq!(
        (row.get::<bool>(0, true), row.get::<bool>(8, true)),
        (false, true)
    );
    assert!(row.slot(0).is_null() && rows.next().is_none());
}

/// A text is borrowed from the message, so its index may be dropped first.
#[test]
fn a_text_outlives_its_index() {
    fn parts(message: &[u8]) -> Result<(&str, &[u8], Vec<u16>), Error> {
        let index = Index::new(message, Form::Bare, &USUAL)?;
        let root = index.root().as_struct()?;
        let numbers = root.slot(1).as_list::<u16>()?;
        let text = root.slot(0).as_text()?.unwrap_or_default();
        let data = root.slot(0).as_data()?.unwrap_or_default();
        Ok((text, data, numbers.collect()))
    }
    fn numbers(message: &[u8]) -> Result<capn::Numbers<'_, u16>, Error> {
        let index = Index::new(message, Form::Bare, &USUAL)?;
        let root = index.root().as_struct()?;
        root.slot(1).as_list()
    }
    let message = words(&[
        2 << 48,
        5 | 0x22 << 32,
        5 | 0x13 << 32,
        0x63_6261,
        7 | 8 << 16,
    ]);
    let (text, data, list) = parts(&message).unwrap();
    assert_eq!((text, data, list), ("abc", &b"abc\0"[..], vec![7, 8]));
    assert!(numbers(&message).unwrap().eq([7, 8]));
}

#[test]
fn an_error_says_which_limit_is_out_of_its_range() {
    let (most, words) = (
        1 << 28,
        [0, 1, 2, (1 << 28) - 1, 1 << 28, (1 << 28) + 1, u32::MAX],
    );
    for number in words.into_iter().chain([64, 255, 256, 257]) {
        let is_words = number >= 1 && number <= most;
        for (limit, limits, is_right) in [
            (
                Limit::MessageWords,
                Limits {
                    message_words: number,
                    ..USUAL
                },
                is_words,
            ),
            (
                Limit::Budget,
                Limits {
                    budget: number,
                    ..USUAL
                },
                number <= most,
            ),
            (
                Limit::Depth,
                Limits {
                    depth: number,
                    ..USUAL
                },
                (1..=256).contains(&number),
            ),
        ] {
            let wanted = (!is_right).then_some(limit);
            assert_eq!(limits.out_of_range(), wanted);
            let wanted = wanted.map(Error::OutOfRange);
            let found = [
                capn::check(&[0; 8], Form::Bare, &limits).err(),
                capn::is_canonical_words(&[0; 8], &limits).err(),
                capn::survey(&[0; 8], Form::Bare, &limits).err(),
                segments::digest(&[&[0; 8]], &limits).err(),
                Index::new(&[0; 8], Form::Bare, &limits).err(),
                capn::departure(&[0; 8], Form::Bare, &limits).err(),
                capn::refusal_way(&[0; 8], Form::Bare, &limits).err(),
                capn::show(&[0; 8], Form::Bare, &limits, Style::Lines).err(),
                capn::same(&[0; 8], &[0; 8], Form::Bare, &limits)
                    .err()
                    .map(Error::from),
            ];
            let of_check =
                |it: &Option<Error>| it.map_or(true, |it| it.kind() == Some(Kind::TooManyWords));
            assert!(
                found
                    .iter()
                    .all(|it| *it == wanted || (is_right && of_check(it))),
                "{found:?}"
            );
        }
    }
    let error = Error::OutOfRange(Limit::MessageWords);
    assert!(error.to_string().ends_with(": message_words"));
    assert_eq!((error.kind(), error.place()), (None, None));
}
