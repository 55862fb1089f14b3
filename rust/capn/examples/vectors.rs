//! Answers the calls of standard input with `capn`.
//!
//! The answers have the form of the project's stored answers. Each call on a stream must give the same answer for the
//! stream's segments.
use capn::{segments, Error, Form, Limits, Tariff};

fn digits(bytes: &[u8]) -> String {
    if bytes.is_empty() {
        return "-".into();
    }
    bytes.iter().map(|byte| format!("{byte:02x}")).collect()
}

fn bytes_of(digits: &str) -> Vec<u8> {
    let byte = |at| u8::from_str_radix(&digits[at..at + 2], 16).expect("digits");
    (0..digits.len() / 2).map(|at| byte(2 * at)).collect()
}

fn form_of(word: &str) -> Form {
    match word {
        "stream" => Form::Stream,
        "packed" => Form::Packed,
        _ => Form::Bare,
    }
}

/// Returns the text of an error. Errors of packing name no form.
fn refusal(error: Error, of_packing: bool) -> String {
    let text = error.to_string();
    let bare = text
        .strip_prefix("bare: ")
        .or_else(|| text.strip_prefix("packed: "))
        .unwrap_or(&text);
    match error.kind().map_or(0, |kind| kind.status()) {
        16 | 17 if !of_packing => format!("bare: {bare}"),
        32 | 33 if !of_packing => format!("packed: {bare}"),
        _ => bare.into(),
    }
}

fn hashed(form: Form, data: &[u8]) -> String {
    let limits = Limits::usual();
    let mut lines = String::new();
    let messages: Vec<_> = match form {
        Form::Stream => capn::messages(data, limits).collect(),
        _ => vec![Ok(data)],
    };
    for message in messages {
        let digest = message.map_err(Error::from);
        match digest.and_then(|message| capn::digest(message, form, &limits)) {
            Ok(digest) => lines += &(digits(&digest) + "\n"),
            Err(error) => {
                let why = refusal(error, false);
                return format!("status 1, {}, capn: {why}", digits(lines.as_bytes()));
            }
        }
    }
    format!("status 0, {}", digits(lines.as_bytes()))
}

/// Returns the segments of a stream with a valid segment table.
fn segments_of(stream: &[u8]) -> Vec<&[u8]> {
    let number =
        |at: usize| u32::from_le_bytes(stream[at..at + 4].try_into().expect("four bytes")) as usize;
    let count = number(0) + 1;
    let mut rest = &stream[8 * (count / 2 + 1)..];
    let segment = |i: usize| {
        let (segment, after) = rest.split_at(8 * number(4 * i + 4));
        rest = after;
        segment
    };
    (0..count).map(segment).collect()
}

fn laid(canonical: Result<Vec<u8>, Error>, paid: Result<u32, Error>) -> Result<String, Error> {
    Ok(format!("paid {}, {}", paid?, digits(&canonical?)))
}

fn of_bytes(call: &str, data: &[u8], form: Form, limits: &Limits) -> Result<String, Error> {
    if call == "survey" {
        let checked = capn::check(data, form, limits)?;
        if form != Form::Packed {
            let figures = capn::survey(data, form, limits)?;
            assert_eq!(
                (figures.paid, figures.visits),
                (checked.paid, checked.visits)
            );
        }
        return Ok(format!("paid {}, visits {}", checked.paid, checked.visits));
    }
    let mut out = b"before".to_vec();
    let paid = capn::canonical_into(data, form, limits, &mut out);
    let made = capn::canonical(data, form, limits);
    assert!(out.starts_with(b"before"));
    assert_eq!(&out[6..], made.as_deref().unwrap_or_default());
    laid(made, paid)
}

fn of_segments(call: &str, held: &[&[u8]], limits: &Limits) -> Result<String, Error> {
    if call == "survey" {
        let checked = segments::check(held, limits)?;
        let figures = segments::survey(held, limits)?;
        assert_eq!(
            (figures.paid, figures.visits),
            (checked.paid, checked.visits)
        );
        return Ok(format!("paid {}, visits {}", checked.paid, checked.visits));
    }
    let made = segments::canonical(held, limits);
    if let Ok(canonical) = &made {
        let digest = segments::digest(held, limits)?;
        assert_eq!(digest, capn::digest(canonical, Form::Bare, limits)?);
    }
    laid(made, segments::check(held, limits).map(|it| it.paid))
}

fn answer(line: &str) -> String {
    let mut words: Vec<&str> = line.split_whitespace().collect();
    let mut limits = Limits::usual();
    if words[0] == "plain" {
        limits.tariff = Tariff::Plain;
        words.remove(0);
    }
    let call = words[0];
    let data = bytes_of(words[words.len() - 1].trim_start_matches('-'));
    let number = |at: usize| words[at].parse().expect("a number");
    let told = match call {
        "pack" => capn::pack(&data).map(|text| digits(&text)),
        "unpack" => capn::unpack(&data, number(1)).map(|text| digits(&text)),
        "run" => return hashed(form_of(words[4]), &data),
        _ => {
            let from = words.len() - 4;
            limits.message_words = number(from);
            limits.budget = number(from + 1);
            limits.depth = number(from + 2);
            if call == "is_canonical" {
                capn::is_canonical_words(&data, &limits).map(|is| is.to_string())
            } else {
                let form = form_of(words[1]);
                let told = of_bytes(call, &data, form, &limits);
                let mut frames = capn::messages(&data, limits);
                if form == Form::Stream && frames.next() == Some(Ok(&data)) {
                    assert_eq!(told, of_segments(call, &segments_of(&data), &limits));
                }
                told
            }
        }
    };
    told.unwrap_or_else(|error| refusal(error, call == "pack" || call == "unpack"))
}

fn main() {
    for line in std::io::stdin().lines() {
        println!("{}", answer(&line.expect("a line")));
    }
}
