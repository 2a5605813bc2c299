//! Bytes as lower-case hex; `-` stands for no bytes, so that they make a word of a command.

const NO_BYTES: &str = "-";
const DIGITS: &[u8; 16] = b"0123456789abcdef";

pub fn encode(bytes: &[u8]) -> String {
    if bytes.is_empty() {
        return NO_BYTES.to_string();
    }
    let digit = |value: u8| char::from(DIGITS[usize::from(value)]);
    let pairs = bytes.iter().map(|byte| [byte >> 4, byte & 15]);
    pairs.flatten().map(digit).collect()
}

/// Nothing where the text is not lower-case hex with two digits for each byte.
pub fn decode(text: &str) -> Option<Vec<u8>> {
    if text == NO_BYTES {
        return Some(Vec::new());
    }
    let digits: Option<Vec<u8>> = text.chars().map(digit).collect();
    let digits = digits.filter(|digits| !digits.is_empty() && digits.len() % 2 == 0)?;
    Some(
        digits
            .chunks(2)
            .map(|pair| pair[0] << 4 | pair[1])
            .collect(),
    )
}

fn digit(character: char) -> Option<u8> {
    let is_digit = !character.is_ascii_uppercase();
    let value = character.to_digit(16).filter(|_| is_digit)?;
    Some(value as u8)
}
