//! Tests the paths to errors, and the first differences from the canonical bytes.
use capn::{Departure, Form, Index, Kind, Limits, Owner, Place, Tariff};

const USUAL: Limits = Limits::usual();

fn words(words: &[u64]) -> Vec<u8> {
    words.iter().flat_map(|word| word.to_le_bytes()).collect()
}

fn framed(content: &[u64]) -> Vec<u8> {
    [words(&[(content.len() as u64) << 32]), words(content)].concat()
}

/// A struct of two words, 5 and 0, followed by a word that no pointer refers to. The canonical bytes have neither the
/// zero nor that word.
const LOOSE: [u64; 4] = [2 << 32, 5, 0, 9];
/// A list of two structs with a pointer each. The second pointer leads past the end.
const OUTSIDE: [u64; 4] = [
    1 | 7 << 32 | 2 << 35,
    8 | 1 << 48,
    0,
    1 | 2 << 32 | 99 << 35,
];

#[test]
fn whether_a_message_is_canonical_in_its_form() {
    let stream = framed(&LOOSE);
    // If the stream is read as bare words, its segment table is a pointer to a struct whose data is the segment. The
    // call of C takes no form, and reads bare words.
    assert_eq!(capn::is_canonical_words(&stream, &USUAL), Ok(true));
    assert_eq!(
        capn::is_canonical_message(&stream, Form::Stream, &USUAL),
        Ok(false)
    );
    let packed = capn::pack(&stream).unwrap();
    assert_eq!(
        capn::is_canonical_message(&packed, Form::Packed, &USUAL),
        Ok(false)
    );
    assert_eq!(
        capn::is_canonical_message(&stream[8..], Form::Bare, &USUAL),
        Ok(false)
    );

    let stream = framed(&[1 << 32, 5]);
    let packed = capn::pack(&stream).unwrap();
    assert_eq!(
        capn::is_canonical_message(&stream, Form::Stream, &USUAL),
        Ok(true)
    );
    assert_eq!(
        capn::is_canonical_message(&packed, Form::Packed, &USUAL),
        Ok(true)
    );
    assert_eq!(
        capn::is_canonical_message(&stream[8..], Form::Bare, &USUAL),
        Ok(true)
    );

    // Tests a message of two segments that has the same value, a truncated message, and a message with a capability,
    // which has no canonical bytes.
    let two = words(&[1 | 2 << 32, 0, 1 << 32, 5]);
    assert_eq!(
        capn::is_canonical_message(&two, Form::Stream, &USUAL),
        Ok(false)
    );
    let cut = capn::is_canonical_message(&stream[..20], Form::Stream, &USUAL).unwrap_err();
    assert_eq!(cut.kind(), Some(Kind::FrameCut));
    let capability = framed(&[1 << 48, 3 | 7 << 32]);
    for (message, form) in [
        (&capability[..], Form::Stream),
        (&capability[8..], Form::Bare),
    ] {
        let refused = capn::is_canonical_message(message, form, &USUAL).unwrap_err();
        assert_eq!(
            (refused.kind(), refused.place()),
            (Some(Kind::Capability), Some(Place::At(7)))
        );
    }
}

#[test]
fn the_way_to_a_refusal() {
    let stream = framed(&OUTSIDE);
    let packed = capn::pack(&stream).unwrap();
    for (message, form) in [
        (&stream[..], Form::Stream),
        (&stream[8..], Form::Bare),
        (&packed[..], Form::Packed),
    ] {
        let way = capn::refusal_way(message, form, &USUAL)
            .unwrap()
            .expect("a way");
        assert_eq!((way.to_string(), &way[..]), ("1.0".into(), &[1, 0][..]));
        assert_eq!(Vec::from(way), [1, 0]);
    }
    let root = capn::refusal_way(&words(&[1 << 32]), Form::Bare, &USUAL).unwrap();
    assert_eq!(
        root.map(|way| (way.len(), way.to_string())),
        Some((0, "root".into()))
    );
    // No traversal rejects these messages.
    assert_eq!(
        capn::refusal_way(&framed(&LOOSE), Form::Stream, &USUAL),
        Ok(None)
    );
    assert_eq!(
        capn::refusal_way(&stream[..20], Form::Stream, &USUAL),
        Ok(None)
    );
    assert_eq!(capn::refusal_way(&[0; 9], Form::Bare, &USUAL), Ok(None));
    for depth in [0, 257, u32::MAX] {
        let limits = Limits { depth, ..USUAL };
        assert_eq!(
            capn::refusal_way(&stream, Form::Stream, &limits),
            Err(capn::Error::OutOfRange(capn::Limit::Depth))
        );
        assert_eq!(
            capn::departure(&stream, Form::Stream, &limits),
            Err(capn::Error::OutOfRange(capn::Limit::Depth))
        );
    }
    // A path of the greatest length: two numbers for each level.
    let mut deep = Vec::new();
    for _ in 0..256 {
        deep.extend([1 | 7 << 32 | 1 << 35, 4 | 1 << 48]);
    }
    deep.push(3 | 9 << 32);
    let limits = Limits {
        depth: 256,
        ..USUAL
    };
    match capn::departure(&words(&deep), Form::Bare, &limits).unwrap() {
        Some(Departure::Capability { index: 9, way }) => assert_eq!(&way[..], [0; 512]),
        other => panic!("{other:?}"),
    }
    *deep.last_mut().unwrap() = 7;
    let way = capn::refusal_way(&words(&deep), Form::Bare, &limits).unwrap();
    assert_eq!(way.map(Vec::from), Some(vec![0; 512]));
}

#[test]
fn departures_by_their_kinds() {
    let of = |message: &[u64]| capn::departure(&words(message), Form::Bare, &USUAL).unwrap();
    assert_eq!(of(&[1 << 32, 5]), None);
    match capn::departure(&framed(&LOOSE), Form::Stream, &USUAL).unwrap() {
        Some(Departure::Word {
            byte,
            word,
            canonical,
            owner,
            way,
        }) => {
            assert_eq!((byte, word, canonical), (8, 2 << 32, 1 << 32));
            assert_eq!((owner, way.len()), (Owner::Pointer, 0));
        }
        other => panic!("{other:?}"),
    }
    assert_eq!(of(&[0, 5]), Some(Departure::After { byte: 8, word: 5 }));
    let two = capn::departure(&words(&[1 | 1 << 32, 0, 0]), Form::Stream, &USUAL).unwrap();
    assert_eq!(two, Some(Departure::Segments { count: 2 }));
    // Bits are set after the last byte of a list.
    let last = of(&[1 | 2 << 32 | 1 << 35, 0x4141]).unwrap();
    assert!(
        matches!(
            last,
            Departure::Word {
                owner: Owner::LastWord,
                byte: 8,
                ..
            }
        ),
        "{last:?}"
    );
    let text = "at byte 8: 4141000000000000, canonical 4100000000000000, the last word of root";
    assert_eq!(last.to_string(), text);
    let refused = capn::departure(&words(&OUTSIDE), Form::Bare, &USUAL).unwrap_err();
    assert_eq!(refused.kind(), Some(Kind::Range));
}

/// Reads a number at a bit that isn't a multiple of its width, where no schema has a number. Also tests the text of the
/// error for bytes that can't be packed.
#[test]
fn what_the_pages_say_of_small_things() {
    let message = words(&[1 << 32, 0x0100_0007]);
    let index = Index::new(&message, Form::Bare, &USUAL).unwrap();
    let root = index.root().as_struct().unwrap();
    assert_eq!(
        (root.get::<u32>(8, 0), root.get::<u32>(4, 7)),
        (0x1_0000, 7)
    );
    let refused = capn::pack(&[1, 2, 3]).unwrap_err();
    assert_eq!(
        (refused.kind(), refused.to_string()),
        (Some(Kind::NotWhole), "NotWhole(3)".into())
    );
    let refused = capn::check(&[1, 2, 3], Form::Bare, &USUAL).unwrap_err();
    assert_eq!(refused.to_string(), "bare: NotWhole(3)");
}

fn bytes_of(digits: &str) -> Vec<u8> {
    let byte = |at| u8::from_str_radix(&digits[at..at + 2], 16).expect("digits");
    (0..digits.len() / 2).map(|at| byte(2 * at)).collect()
}

/// Returns the input of a stored explanation: its form, its limits and its bytes.
fn input_of(call: &str) -> Option<(Form, Limits, Vec<u8>)> {
    let (run, options) = call.split_once(" explain ")?;
    if !run.starts_with("archive ") {
        return None;
    }
    let (mut form, mut limits) = (Form::Stream, USUAL);
    let mut words = options.split(' ');
    loop {
        let word = words.next()?;
        match word {
            "--form" => {
                form = match words.next()? {
                    "packed" => Form::Packed,
                    "bare" => Form::Bare,
                    _ => Form::Stream,
                }
            }
            "--tariff" => {
                limits.tariff =
                    [Tariff::Strict, Tariff::Plain][usize::from(words.next()? == "plain")]
            }
            "--budget" => limits.budget = words.next()?.parse().ok()?,
            "--depth" => limits.depth = words.next()?.parse().ok()?,
            "--message-words" => limits.message_words = words.next()?.parse().ok()?,
            "--number" => drop(words.next()?),
            // A run with this option explains several messages, each as a run without it does.
            "--keep-going" => return None,
            digits => return Some((form, limits, bytes_of(digits.trim_start_matches('-')))),
        }
    }
}

/// Returns the same difference for a message that begins at this offset in its stream.
fn moved(departure: Departure, offset: u64) -> Departure {
    match departure {
        Departure::Word {
            byte,
            word,
            canonical,
            owner,
            way,
        } => Departure::Word {
            byte: byte + offset,
            word,
            canonical,
            owner,
            way,
        },
        Departure::After { byte, word } => Departure::After {
            byte: byte + offset,
            word,
        },
        other => other,
    }
}

/// Compares one stored explanation. Returns how many paths and how many differences were compared.
fn explained(line: &str) -> Option<(usize, usize)> {
    let (call, answer) = line.split_once('|')?;
    let (mut form, limits, mut data) = input_of(call)?;
    let digits = answer.split(", ").nth(1)?.trim_start_matches('-');
    let text = String::from_utf8(bytes_of(digits)).expect("a text");
    let said = |key: &str| {
        let mut lines = text.lines();
        lines.find_map(|line| line.strip_prefix(key)?.strip_prefix(": "))
    };
    let (place, way, canonical) = (said("message")?, said("way"), said("canonical"));
    way.or(canonical)?;
    if form == Form::Packed {
        form = Form::Stream;
        data = capn::unpack(&data, 1 << 20).expect("words");
    }
    let (number, offset) = place.split_once(" at ").expect("a place");
    let (number, offset): (usize, u64) = (number.parse().unwrap(), offset.parse().unwrap());
    let mut inputs = vec![(data, form)];
    if form == Form::Stream {
        let mut messages = capn::messages(&inputs[0].0, limits);
        let message = messages.nth(number - 1).expect("a message");
        let message = message.expect("a frame").to_vec();
        let packed = capn::pack(&message).unwrap();
        inputs = vec![(message, Form::Stream), (packed, Form::Packed)];
    }
    for (message, form) in &inputs {
        if let Some(way) = way {
            let found = capn::refusal_way(message, *form, &limits).unwrap();
            assert_eq!(found.expect("a way").to_string(), way, "{call}");
        }
        if let Some(why) = canonical {
            let found = capn::departure(message, *form, &limits).expect("a message");
            let found = found.map(|it| format!("no: {}", moved(it, offset)));
            assert_eq!(found.as_deref().unwrap_or("yes"), why, "{call}");
        }
    }
    Some((usize::from(way.is_some()), usize::from(canonical.is_some())))
}

/// Compares the stored explanations of the program. `CAPN_STORED` names a file of lines `CALL|ANSWER`.
#[test]
fn as_stored_explanations_say_it() {
    let name = match std::env::var_os("CAPN_STORED") {
        Some(name) => name,
        None => return println!("CAPN_STORED names no stored cases"),
    };
    let stored = std::fs::read_to_string(name).expect("stored cases");
    let found = stored.lines().filter_map(explained);
    let (ways, departures) = found.fold((0, 0), |all, one| (all.0 + one.0, all.1 + one.1));
    assert!(
        ways >= 20 && departures >= 10,
        "{ways} ways, {departures} departures"
    );
}
