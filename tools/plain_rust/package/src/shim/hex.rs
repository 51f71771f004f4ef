//! Bytes as hexadecimal digits.

use super::alloc::{AllocError, Global};
use super::string::String;
use super::vec::Vec;

const DIGITS: &[u8; 16] = b"0123456789abcdef";

#[derive(Clone, Copy, Debug, PartialEq, Eq)]
pub enum FromHexError {
    OutOfMemory,
    /// An odd number of digits, or a character that is none.
    NoDigits,
}

/// Writes two lower-case digits for each byte; `out` has room for just these.
pub fn encode_to_slice(bytes: &[u8], out: &mut [u8]) -> Result<(), FromHexError> {
    for (pair, byte) in out.chunks_exact_mut(2).zip(bytes) {
        pair[0] = DIGITS[usize::from(byte >> 4)];
        pair[1] = DIGITS[usize::from(byte & 15)];
    }
    Ok(())
}

/// Two lower-case digits for each byte.
pub fn encode(alloc: Global, bytes: &[u8]) -> Result<String, AllocError> {
    let mut text = String::new(alloc);
    for byte in bytes {
        for half in [byte >> 4, byte & 15] {
            let digit = char::from(DIGITS[usize::from(half)]);
            text.push_str(digit.encode_utf8(&mut [0; 4]))?;
        }
    }
    Ok(text)
}

fn digit(code: u8) -> Result<u8, FromHexError> {
    match code {
        b'0'..=b'9' => Ok(code - b'0'),
        b'a'..=b'f' => Ok(code - b'a' + 10),
        b'A'..=b'F' => Ok(code - b'A' + 10),
        _ => Err(FromHexError::NoDigits),
    }
}

/// Decodes hexadecimal digits, lower-case or upper-case.
pub fn decode(alloc: Global, text: &str) -> Result<Vec<u8>, FromHexError> {
    let (pairs, rest) = text.as_bytes().as_chunks::<2>();
    if !rest.is_empty() {
        return Err(FromHexError::NoDigits);
    }
    let mut out = Vec::from_elem(alloc, 0, pairs.len())?;
    for (byte, [high, low]) in out.iter_mut().zip(pairs) {
        *byte = digit(*high)? << 4 | digit(*low)?;
    }
    Ok(out)
}

impl From<AllocError> for FromHexError {
    fn from(_: AllocError) -> FromHexError {
        FromHexError::OutOfMemory
    }
}
