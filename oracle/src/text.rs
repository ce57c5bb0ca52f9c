//! The words of cases and answers: decimal numbers, bytes in hex, and the one form of an answer.

use std::fmt::Display;

/// One to ten decimal digits, of a number of 32 bits.
pub fn number(word: &str) -> Option<u32> {
    let digits = (1..=10).contains(&word.len()) && word.bytes().all(|byte| byte.is_ascii_digit());
    digits.then(|| word.parse().ok()).flatten()
}

pub fn hex(bytes: &[u8]) -> String {
    bytes.iter().map(|byte| format!("{byte:02x}")).collect()
}

/// Hex digits in either case, two a byte; `-` for none.
pub fn bytes(word: &str) -> Option<Vec<u8>> {
    if word == "-" {
        return Some(vec![]);
    }
    let digits = word.bytes().map(|c| (c as char).to_digit(16)).collect::<Option<Vec<u32>>>()?;
    let pairs = digits.chunks(2).map(|pair| Some(pair[0] as u8 * 16 + *pair.get(1)? as u8));
    pairs.collect::<Option<Vec<u8>>>().filter(|bytes| !bytes.is_empty())
}

pub fn refused(number: u8) -> String {
    format!("refused {number}")
}

/// What an exported call answers, the numbers that it leaves, and its bytes in hex where there are any.
pub fn call(answer: impl Display, numbers: &[u32], bytes: &[u8]) -> String {
    let mut text = answer.to_string();
    numbers.iter().for_each(|number| text += &format!(" {number}"));
    if !bytes.is_empty() {
        text += &format!(" {}", hex(bytes));
    }
    text
}
