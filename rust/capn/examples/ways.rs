//! Prints the path to an error of a message, or the first difference from its canonical bytes.
//!
//! It answers each call of standard input that has limits, as `tests/c/ways.c` does. Each answer is a line, and is `?`
//! if the bytes aren't one message.
use capn::{Departure, Form, Kind, Limits, Owner, Tariff};

fn bytes_of(digits: &str) -> Vec<u8> {
    let byte = |at| u8::from_str_radix(&digits[at..at + 2], 16).expect("digits");
    (0..digits.len() / 2).map(|at| byte(2 * at)).collect()
}

/// Returns a word as its bytes, in the order in which they lie.
fn digits(word: u64) -> String {
    format!("{:016x}", word.swap_bytes())
}

fn told(departure: Option<Departure>) -> String {
    match departure {
        None => "yes".into(),
        Some(Departure::Segments { count }) => format!("{count} segments"),
        Some(Departure::Capability { index, way }) => format!("capability {index} at {way}"),
        Some(Departure::After { byte, word }) => format!("byte {byte} {} nothing", digits(word)),
        Some(Departure::Word {
            byte,
            word,
            canonical,
            owner,
            way,
        }) => {
            let preposition = if owner == Owner::Pointer { "at" } else { "of" };
            let (word, canonical) = (digits(word), digits(canonical));
            format!("byte {byte} {word} {canonical} the {owner} {preposition} {way}")
        }
        Some(other) => format!("{other:?}"),
    }
}

/// Returns the answer to a call, or nothing if the call has no limits.
fn answer(line: &str) -> Option<String> {
    let mut words: Vec<&str> = line.split_whitespace().collect();
    let mut limits = Limits::usual();
    if words[0] == "plain" {
        limits.tariff = Tariff::Plain;
        words.remove(0);
    }
    if words[0] != "canonicalise" && words[0] != "survey" {
        return None;
    }
    let form = match words[1] {
        "stream" => Form::Stream,
        "packed" => Form::Packed,
        _ => Form::Bare,
    };
    let number = |at: usize| words[at].parse().expect("a number");
    (limits.message_words, limits.budget, limits.depth) = (number(2), number(3), number(4));
    let data = bytes_of(words[5].trim_start_matches('-'));
    let way = capn::refusal_way(&data, form, &limits);
    let refused = capn::check(&data, form, &limits).err();
    Some(match (way, refused.and_then(|error| error.kind())) {
        (Ok(Some(_)), Some(Kind::NoRoot)) => "no root".into(),
        (Ok(Some(way)), Some(_)) => format!("way {way}"),
        (Ok(None), Some(_)) => "?".into(),
        (Ok(None), None) => {
            let departure = capn::departure(&data, form, &limits).expect("an accepted message");
            let is_canonical = match capn::is_canonical_in(&data, form, &limits) {
                Ok(is) => is,
                Err(error) => {
                    assert_eq!(error.kind(), Some(Kind::Capability));
                    false
                }
            };
            assert_eq!(departure.is_none(), is_canonical, "{line}");
            told(departure)
        }
        (way, refused) => format!("{way:?}, {refused:?}"),
    })
}

fn main() {
    for line in std::io::stdin().lines() {
        if let Some(told) = answer(&line.expect("a line")) {
            println!("{told}");
        }
    }
}
