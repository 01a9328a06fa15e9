//! How numbers, bytes and sets are written in cases, and numbers in texts.

use std::str::FromStr;

use crate::rules::{Head, Request, Station};

/// A decimal number of digits only that fits its type.
pub fn number<T: FromStr>(word: &[u8]) -> Option<T> {
    if !word.iter().all(u8::is_ascii_digit) {
        return None;
    }
    std::str::from_utf8(word).ok()?.parse().ok()
}

/// The same of a text.
pub fn parse<T: FromStr>(word: &str) -> Option<T> {
    number(word.as_bytes())
}

/// Whether a word is a whole number of any length.
pub fn whole(word: &str) -> bool {
    !word.is_empty() && word.bytes().all(|byte| byte.is_ascii_digit())
}

/// `HEAD;W,C,D,P;...`, and with an allocation `HEAD;W,C,D,P,S;...`.
pub fn show_set(request: &Request, allocation: &[u32]) -> String {
    let mut parts = vec![show_head(&request.head)];
    for (index, station) in request.stations.iter().enumerate() {
        let Station { walk, longest, deadline, gap } = *station;
        let mut numbers = vec![walk, longest, deadline, gap];
        numbers.extend(allocation.get(index));
        parts.push(joined(&numbers));
    }
    parts.join(";")
}

/// `TTRT`, `TTRT,MODE`, `TTRT,MODE,FRAME` or `TTRT,MODE,FRAME,GRID`: up to the last that is not 1.
pub fn show_head(head: &Head) -> String {
    let Head { ttrt, mode, frame, grid } = *head;
    let further = [mode, frame, grid];
    let shown = further.iter().rposition(|&number| number != 1).map_or(0, |place| place + 1);
    joined(&[&[ttrt], &further[..shown]].concat())
}

/// What `show_head` shows; the mode, F and g may stand there in any case.
pub fn read_head(part: &str) -> Option<Head> {
    let numbers: Option<Vec<u32>> = part.split(',').map(parse).collect();
    let mut numbers = numbers?;
    if numbers.len() < 4 {
        numbers.resize(4, 1);
    }
    let [ttrt, mode, frame, grid] = numbers[..] else {
        return None;
    };
    Some(Head { ttrt, mode, frame, grid })
}

/// Parted by commas.
pub fn joined<T: ToString>(numbers: &[T]) -> String {
    let words: Vec<String> = numbers.iter().map(T::to_string).collect();
    words.join(",")
}

/// Two lower-case digits for each byte; `-` for no byte.
pub fn to_hex(bytes: &[u8]) -> String {
    if bytes.is_empty() {
        return "-".to_string();
    }
    bytes.iter().map(|byte| format!("{byte:02x}")).collect()
}

/// The bytes of `to_hex`'s text.
pub fn from_hex(text: &str) -> Option<Vec<u8>> {
    if text == "-" {
        return Some(vec![]);
    }
    let digits: Option<Vec<u8>> = text.bytes().map(hex_digit).collect();
    let digits = digits.filter(|digits| !digits.is_empty() && digits.len() % 2 == 0)?;
    Some(digits.chunks(2).map(|pair| pair[0] << 4 | pair[1]).collect())
}

fn hex_digit(byte: u8) -> Option<u8> {
    match byte {
        b'0'..=b'9' => Some(byte - b'0'),
        b'a'..=b'f' => Some(byte - b'a' + 10),
        _ => None,
    }
}
