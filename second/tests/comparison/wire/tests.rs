//! The comparison's own messages: bytes that are known, and what they mean.

use second::{read_cancel, read_response, write_response, Done, Message};

use super::answers::{bytes_of, told, told_by};
use super::examples::Example;
use super::families::{Family, CANCELS, RESPONSES};
use super::meaning::meaning;
use crate::given::random::{seed, Random};

fn bytes(digits: &str) -> Vec<u8> {
    let digits: String = digits.split_whitespace().collect();
    let octet = |at: usize| u8::from_str_radix(&digits[at..at + 2], 16).expect("hex digits");
    (0..digits.len()).step_by(2).map(octet).collect()
}

fn examples() -> Vec<(&'static Family, Example)> {
    let of = |family: &'static Family| (family.examples)().into_iter().map(move |it| (family, it));
    of(&CANCELS).chain(of(&RESPONSES)).collect()
}

#[test]
fn each_example_is_encoded_byte_for_byte() {
    let lengths = [24, 28, 43, 65, 6688, 35, 55, 69, 13, 49, 13, 32, 46, 44];
    assert_eq!(examples().len(), lengths.len());
    for ((_, example), length) in examples().into_iter().zip(lengths) {
        assert_eq!(example.frame.encode(), bytes(&example.digits), "{}", example.name);
        assert_eq!(example.frame.encode().len(), length, "{}", example.name);
    }
}

#[test]
fn each_example_is_read_as_meant() {
    for (family, Example { name, frame, .. }) in examples() {
        let read = if name.starts_with('C') { read_cancel } else { read_response };
        let mut buffer = vec![0; 8000];
        let Message { number, transaction, length } = read(&frame.encode(), &mut buffer);
        let read = match number {
            0 => Ok((transaction, buffer[..length].to_vec())),
            _ => Err(number),
        };
        assert_eq!(read, meaning(family, &frame), "{name}");
        // With a NID.
        let expected = if ["C7", "R5", "R6"].contains(&name) { 15 } else { 0 };
        assert_eq!(number, expected, "{name}");
    }
}

#[test]
fn each_example_of_a_response_is_written() {
    for Example { name, frame, digits } in (RESPONSES.examples)() {
        // Nothing is written of one with a NID.
        let Ok((transaction, answer)) = meaning(&RESPONSES, &frame) else { continue };
        let mut message = [0; 49];
        let done = write_response(&answer, transaction as u8, &mut message);
        assert_eq!(done, Done { number: 0, length: bytes(&digits).len() }, "{name}");
        assert_eq!(message[..done.length], bytes(&digits), "{name}");
    }
}

#[test]
fn the_bytes_of_an_answer_tell_it() {
    let mut random = Random::new(seed("answers"));
    for (kind, rows) in [(1, 0), (2, 0), (1, 3), (2, 3), (1, 512), (2, 512)] {
        let answer = told(&mut random, kind, rows);
        assert_eq!(told_by(&bytes_of(&answer)), Some(answer));
        let more = told(&mut random, kind, 513);
        assert_eq!(told_by(&bytes_of(&more)), None);
    }
}
