//! Bytes as hex digits.

const DIGITS: &[u8; 16] = b"0123456789abcdef";

/// Appends the bytes in lower-case hex.
pub fn put(text: &mut Vec<u8>, bytes: &[u8]) {
    for &byte in bytes {
        text.push(DIGITS[usize::from(byte >> 4)]);
        text.push(DIGITS[usize::from(byte & 15)]);
    }
}

/// The bytes in lower-case hex; nothing for none.
pub fn write(bytes: &[u8]) -> String {
    let mut text = Vec::with_capacity(2 * bytes.len());
    put(&mut text, bytes);
    text.into_iter().map(char::from).collect()
}

/// The bytes in lower-case hex, `-` for none.
pub fn token(bytes: &[u8]) -> String {
    match bytes {
        [] => "-".to_string(),
        _ => write(bytes),
    }
}

/// Reads a hex token, `-` for no bytes.
pub fn read(token: &str) -> Option<Vec<u8>> {
    if token == "-" {
        return Some(Vec::new());
    }
    let pairs = token.as_bytes().chunks_exact(2);
    if token.is_empty() || !pairs.remainder().is_empty() {
        return None;
    }
    let byte = |pair: &[u8]| Some(digit(pair[0])? << 4 | digit(pair[1])?);
    pairs.map(byte).collect()
}

fn digit(byte: u8) -> Option<u8> {
    char::from(byte).to_digit(16).map(|value| value as u8)
}
