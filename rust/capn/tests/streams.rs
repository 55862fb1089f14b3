//! Tests streams: the messages after errors, the places where messages begin, packed streams, and inputs that are slow
//! or wrong.
use capn::{Error, Form, IntoMessages, Kind, Limits, Place, ReadError, Reader, StreamError};
use std::io::{self, Read, Write};
use std::os::unix::net::UnixStream;
use std::panic::{catch_unwind, AssertUnwindSafe};

const USUAL: Limits = Limits::usual();

fn words(words: &[u64]) -> Vec<u8> {
    words.iter().flat_map(|word| word.to_le_bytes()).collect()
}

fn framed(content: &[u64]) -> Vec<u8> {
    [words(&[(content.len() as u64) << 32]), words(content)].concat()
}

fn one() -> Vec<u8> {
    framed(&[2 << 32, 5, 0])
}

fn hostile() -> Vec<u8> {
    framed(&[0x1_0000_ffff_fffc])
}

/// Returns a stream and the errors of its messages. The stream has a valid message, a rejected message, a valid
/// message, a rejected message, and an invalid table.
fn mixed() -> (Vec<u8>, Vec<StreamError>) {
    let damaged = words(&[0xffff_ffff]);
    let stream = [one(), hostile(), one(), hostile(), damaged, one()].concat();
    let walk = capn::check(&hostile(), Form::Stream, &USUAL).unwrap_err();
    let table = capn::check(&[0xff; 8], Form::Stream, &USUAL).unwrap_err();
    let all = [(2, 32, walk), (4, 80, walk), (5, 96, table)];
    let refused = all.map(|(number, offset, error)| StreamError {
        number,
        offset,
        error,
    });
    (stream, refused.to_vec())
}

#[test]
fn a_stream_in_memory_goes_on_after_a_rejected_message() {
    let (stream, wanted) = mixed();
    let (mut messages, mut refused, mut valid) = (capn::messages(&stream, USUAL), Vec::new(), 0);
    while let Some(message) = messages.next() {
        match message {
            Ok(message) => match capn::check(message, Form::Stream, &USUAL) {
                Ok(_) => valid += 1,
                Err(error) => refused.push(messages.locate(error)),
            },
            Err(error) => {
                assert_eq!(error, messages.locate(error.error));
                refused.push(error);
            }
        }
    }
    assert_eq!((valid, &refused), (2, &wanted));
    assert_eq!(
        (messages.number(), messages.start(), messages.offset()),
        (5, 96, 96)
    );
    assert_eq!(messages.next(), None);
    assert_eq!(
        refused[0].to_string(),
        "message 2 at 32: TooDeep at 0:0, paid 128, visits 65"
    );
    let source = std::error::Error::source(&refused[0]).unwrap();
    assert_eq!(source.downcast_ref(), Some(&refused[0].error));
    assert_eq!(Error::from(refused[0]).kind(), Some(Kind::TooDeep));
    assert_eq!(
        ReadError::from(refused[0]).to_string(),
        refused[0].to_string()
    );
}

#[test]
fn a_reader_goes_on_after_a_rejected_message() {
    let (stream, wanted) = mixed();
    let (mut reader, mut refused, mut valid) = (Reader::new(&stream[..], USUAL), Vec::new(), 0);
    assert_eq!(
        (reader.number(), reader.start(), reader.offset()),
        (0, 0, 0)
    );
    let ended = loop {
        match reader.read() {
            Ok(Some(message)) => match capn::check(message, Form::Stream, &USUAL) {
                Ok(_) => valid += 1,
                Err(error) => refused.push(reader.locate(error)),
            },
            Ok(None) => panic!("the table is damaged"),
            Err(error) => break error,
        }
    };
    assert_eq!((valid, &refused[..]), (2, &wanted[..2]));
    assert_eq!(
        (reader.number(), reader.start(), reader.offset()),
        (4, 80, 96)
    );
    for error in [ended, reader.read().unwrap_err()] {
        assert_eq!(error.to_string(), wanted[2].to_string());
    }
}

#[test]
fn messages_that_are_kept() {
    let (stream, wanted) = mixed();
    let mut messages: IntoMessages<_> = Reader::new(&stream[..], USUAL).into_iter();
    for (number, start) in [(1, 0), (2, 32), (3, 48), (4, 80)] {
        let message = messages.next().unwrap().unwrap();
        assert_eq!(message, if number % 2 == 1 { one() } else { hostile() });
        assert!(message.capacity() < 1 << 16);
        let reader = messages.reader();
        assert_eq!((reader.number(), reader.start()), (number, start));
    }
    let error = messages.next().unwrap().unwrap_err();
    assert_eq!(error.to_string(), wanted[2].to_string());
    assert!(messages.next().is_none());
    let two = [one(), framed(&[0])];
    let kept: Result<Vec<_>, _> = Reader::new(&two.concat()[..], USUAL).into_iter().collect();
    assert_eq!(kept.unwrap(), two);
}

/// Pseudo-random numbers. These tests make their own messages, because `cargo test` runs without Python.
struct Source(u64);

impl Source {
    fn next(&mut self) -> u64 {
        self.0 ^= self.0 << 13;
        self.0 ^= self.0 >> 7;
        self.0 ^= self.0 << 17;
        self.0
    }

    fn below(&mut self, most: u64) -> usize {
        ((self.next() >> 11) % most) as usize
    }

    /// Returns a message. Its words have many zero bytes, or none.
    fn message(&mut self) -> Vec<u8> {
        let count = [0, 1, 5, 300, 5000][self.below(5)] + self.below(20);
        let kind = self.below(4);
        let mut content = vec![0];
        for _ in 0..count {
            content.push(match kind {
                0 => 0,
                1 => self.next() | 0x0101_0101_0101_0101,
                2 => self.next() & self.next() & self.next(),
                _ => [0, 7, self.next()][self.below(3)],
            });
        }
        framed(&content)
    }
}

/// Reads at most `most` bytes at a time. Of five reads, the first would block and the third is interrupted.
struct Slow<'a> {
    rest: &'a [u8],
    most: usize,
    calls: usize,
}

impl Read for Slow<'_> {
    fn read(&mut self, to: &mut [u8]) -> io::Result<usize> {
        self.calls += 1;
        match self.calls % 5 {
            1 => Err(io::ErrorKind::WouldBlock.into()),
            3 => Err(io::ErrorKind::Interrupted.into()),
            _ => {
                let most = self.most.min(to.len());
                self.rest.read(&mut to[..most])
            }
        }
    }
}

#[test]
fn a_packed_stream_is_what_was_packed() {
    let mut source = Source(70);
    for round in 0..60 {
        let messages: Vec<_> = (0..source.below(5)).map(|_| source.message()).collect();
        let packed: Vec<_> = messages.iter().map(|it| capn::pack(it).unwrap()).collect();
        let stream = packed.concat();
        // No byte after a message is read.
        let (mut input, mut left) = (&stream[..], stream.len());
        for (message, packed) in messages.iter().zip(&packed) {
            let mut reader = Reader::packed(&mut input, USUAL);
            assert_eq!(reader.read().unwrap(), Some(&message[..]));
            left -= packed.len();
            assert_eq!(input.len(), left, "round {round}");
        }
        // All messages are packed together, so groups cross from one message to the next.
        for stream in [&stream, &capn::pack(&messages.concat()).unwrap()] {
            let input = Slow {
                rest: stream,
                most: 1 + source.below(3000),
                calls: 0,
            };
            let (mut reader, mut got) = (Reader::packed(input, USUAL), Vec::new());
            loop {
                match reader.read() {
                    Ok(Some(message)) => got.push(message.to_vec()),
                    Ok(None) => break,
                    Err(ReadError::Io(why)) => assert_eq!(why.kind(), io::ErrorKind::WouldBlock),
                    Err(other) => panic!("{other}"),
                }
            }
            assert_eq!(got, messages);
            assert_eq!(reader.offset(), messages.concat().len() as u64);
            assert_eq!(reader.number(), messages.len() as u64);
        }
        for _ in 0..20 {
            cut(&mut source, &stream, &messages, &packed);
        }
    }
}

/// Truncates the same stream at a random byte.
fn cut(source: &mut Source, stream: &[u8], messages: &[Vec<u8>], packed: &[Vec<u8>]) {
    let at = source.below(stream.len() as u64 + 1);
    let (mut reader, mut end) = (Reader::packed(&stream[..at], USUAL), 0);
    for (message, packed) in messages.iter().zip(packed) {
        if end + packed.len() > at {
            break;
        }
        assert_eq!(reader.read().unwrap(), Some(&message[..]));
        end += packed.len();
    }
    let (number, offset) = (reader.number() + 1, reader.offset());
    if end == at {
        assert_eq!(reader.read().unwrap(), None);
        return;
    }
    // The library unpacks the same bytes up to the same group.
    let by_library = capn::unpack(&stream[..at], 1 << 20).err();
    for _ in 0..2 {
        match reader.read().unwrap_err() {
            ReadError::Refused {
                number: found,
                offset: begins,
                error,
            } => {
                assert_eq!((found, begins), (number, offset));
                match error.kind() {
                    Some(Kind::PackedCut) => assert_eq!(Some(error), by_library),
                    kind => assert_eq!((kind, by_library), (Some(Kind::FrameCut), None)),
                }
            }
            other => panic!("{other}"),
        }
    }
}

#[test]
fn a_packed_stream_that_is_rejected() {
    let damaged = [one(), words(&[0xffff_ffff])].concat();
    let packed = capn::pack(&damaged).unwrap();
    let mut reader = Reader::packed(&packed[..], USUAL);
    assert!(reader.read().unwrap().is_some());
    for _ in 0..2 {
        assert_eq!(
            reader.read().unwrap_err().to_string(),
            "message 2 at 32: frame: TooManySegments(4294967296)"
        );
    }
    let mut reader = Reader::packed(&[0x10][..], USUAL);
    let text = "message 1 at 0: packed: Cut at 0";
    assert_eq!(reader.read().unwrap_err().to_string(), text);
    // `Unpacker` can also be used alone, as an input.
    let mut unpacked = Vec::new();
    let error = capn::Unpacker::new(&[1, 5, 0x10][..])
        .read_to_end(&mut unpacked)
        .unwrap_err();
    assert_eq!(unpacked, words(&[5]));
    assert_eq!(error.kind(), io::ErrorKind::UnexpectedEof);
    let error: &Error = error.get_ref().unwrap().downcast_ref().unwrap();
    assert_eq!(error.place(), Some(Place::At(2)));
}

/// The peer waits for a reply to each message. The bytes after the messages stay in the socket.
#[test]
fn a_packed_reader_of_a_socket_takes_no_byte_too_many() {
    let (mut peer, socket) = UnixStream::pair().unwrap();
    let sender = std::thread::spawn(move || {
        for _ in 0..2 {
            peer.write_all(&capn::pack(&one()).unwrap()).unwrap();
            peer.read_exact(&mut [0]).unwrap();
        }
        peer.write_all(b"more").unwrap();
    });
    let mut reader = Reader::packed(&socket, USUAL);
    for _ in 0..2 {
        assert_eq!(reader.read().unwrap(), Some(&one()[..]));
        (&socket).write_all(b"a").unwrap();
    }
    sender.join().unwrap();
    let mut rest = String::new();
    let mut input = reader.into_inner().into_inner();
    input.read_to_string(&mut rest).unwrap();
    assert_eq!(rest, "more");
}

/// Claims to have read this many bytes more than the buffer has.
struct Lying(usize);

impl Read for Lying {
    fn read(&mut self, to: &mut [u8]) -> io::Result<usize> {
        Ok(to.len().wrapping_add(self.0))
    }
}

#[test]
fn an_input_that_lies_ends_in_a_panic() {
    for more in [1, 2, 1 << 20, usize::MAX / 2, usize::MAX - 100] {
        let plain = || Reader::new(Lying(more), USUAL).read().is_ok();
        let packed = || Reader::packed(Lying(more), USUAL).read().is_ok();
        assert!(catch_unwind(AssertUnwindSafe(plain)).is_err());
        assert!(catch_unwind(AssertUnwindSafe(packed)).is_err());
    }
}

/// Panics sometimes, after it has written into the buffer.
struct Panicking<'a> {
    rest: &'a [u8],
    calls: usize,
}

impl Read for Panicking<'_> {
    fn read(&mut self, to: &mut [u8]) -> io::Result<usize> {
        self.calls += 1;
        if self.calls % 3 == 0 {
            to.fill(0xaa);
            std::panic::resume_unwind(Box::new("caught"));
        }
        let most = to.len().min(1 + self.calls % 11);
        self.rest.read(&mut to[..most])
    }
}

fn read_all<R: Read>(mut reader: Reader<R>) -> Vec<Vec<u8>> {
    let mut all = Vec::new();
    loop {
        let read = catch_unwind(AssertUnwindSafe(|| {
            reader.read().unwrap().map(<[u8]>::to_vec)
        }));
        match read {
            Ok(Some(message)) => all.push(message),
            Ok(None) => return all,
            Err(_) => {}
        }
    }
}

#[test]
fn nothing_is_lost_where_an_input_panics() {
    let mut source = Source(7);
    for _ in 0..10 {
        let messages: Vec<_> = (0..4).map(|_| source.message()).collect();
        let stream = messages.concat();
        let packed = capn::pack(&stream).unwrap();
        let input = |rest| Panicking { rest, calls: 0 };
        assert_eq!(read_all(Reader::new(input(&stream), USUAL)), messages);
        assert_eq!(read_all(Reader::packed(input(&packed), USUAL)), messages);
    }
}

#[test]
fn limits_by_reference_and_by_value() {
    let stream = one();
    let low = Limits {
        message_words: 2,
        ..USUAL
    };
    let by_reference = &low;
    for read in [
        Reader::new(&stream[..], low).read().unwrap_err(),
        Reader::new(&stream[..], by_reference).read().unwrap_err(),
        capn::messages(&stream, low)
            .next()
            .unwrap()
            .unwrap_err()
            .into(),
        capn::messages(&stream, by_reference)
            .next()
            .unwrap()
            .unwrap_err()
            .into(),
    ] {
        assert_eq!(read.to_string(), "message 1 at 0: frame: TooManyWords(3)");
    }
}
