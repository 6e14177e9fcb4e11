//! Messages byte for byte.

mod cancels;
mod responses;

const TRANSACTION: &str = "004e 00 02 0007";

/// A message of these elements, shorter than 128 bytes.
fn message(choice: u8, code: u8, elements: &[&str]) -> Vec<u8> {
    let fields: Vec<u8> = elements.iter().flat_map(|element| bytes(element)).collect();
    let value = [&[0, 0, elements.len() as u8], &fields[..]].concat();
    [&[choice, code, 0, value.len() as u8], &value[..]].concat()
}

/// The bytes of hex digits.
fn bytes(digits: &str) -> Vec<u8> {
    let digits: Vec<u8> = digits.bytes().filter(u8::is_ascii_hexdigit).collect();
    let octet =
        |pair: &[u8]| std::str::from_utf8(pair).ok().and_then(|it| u8::from_str_radix(it, 16).ok());
    digits.chunks(2).map(|pair| octet(pair).unwrap()).collect()
}
