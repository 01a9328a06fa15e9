//! Lines of text, read one by one in memory that does not grow with the input.

use std::io::{BufRead, BufReader, Read, Result};

/// A line of more bytes than this, blanks, comment and leading zeros apart, cannot be read.
const MOST_BYTES: usize = 200;

/// How many words of a line are kept as they stand, and how many bytes of each.
const MOST_RAW: usize = 7;
const RAW_BYTES: usize = 64;

/// A line with its number, tidied: words parted by one blank, no comment, no leading zeros. Beside
/// them its first words as they stand.
#[derive(Debug, PartialEq, Eq)]
pub struct Line {
    pub number: u64,
    pub text: Vec<u8>,
    pub raw: Vec<Vec<u8>>,
}

impl Line {
    /// The words of a line; none in a blank one.
    pub fn words(&self) -> Vec<&[u8]> {
        self.text.split(|&byte| byte == b' ').filter(|word| !word.is_empty()).collect()
    }
}

pub struct Lines<R> {
    input: BufReader<R>,
    number: u64,
}

impl<R: Read> Lines<R> {
    pub fn new(input: R) -> Lines<R> {
        Lines { input: BufReader::new(input), number: 0 }
    }

    /// Whether the next line may have to be waited for.
    pub fn must_wait(&self) -> bool {
        !self.input.buffer().contains(&b'\n')
    }

    /// The next line; `None` at the end. A last line needs no newline.
    pub fn next_line(&mut self) -> Result<Option<Line>> {
        if self.input.fill_buf()?.is_empty() {
            return Ok(None);
        }
        let mut tidy = Tidy::default();
        while !self.take_bytes(&mut tidy)? {}
        self.number += 1;
        Ok(Some(Line { number: self.number, text: tidy.text, raw: tidy.raw }))
    }

    /// Takes what is at hand of the line; says whether the line has ended.
    fn take_bytes(&mut self, tidy: &mut Tidy) -> Result<bool> {
        let bytes = self.input.fill_buf()?;
        let end = bytes.iter().position(|&byte| byte == b'\n');
        let taken = end.unwrap_or(bytes.len());
        bytes[..taken].iter().for_each(|&byte| tidy.take(byte));
        let ended = end.is_some() || bytes.is_empty();
        self.input.consume(taken + usize::from(end.is_some()));
        Ok(ended)
    }
}

#[derive(Default)]
struct Tidy {
    text: Vec<u8>,
    raw: Vec<Vec<u8>>,
    words: usize,
    in_word: bool,
    in_comment: bool,
}

impl Tidy {
    fn take(&mut self, byte: u8) {
        self.in_comment |= byte == b'#';
        if self.in_comment {
            return;
        }
        match byte {
            b' ' | b'\t' | b'\r' => self.blank(),
            _ => self.visible(byte),
        }
    }

    fn blank(&mut self) {
        self.in_word = false;
        if !self.at_word_start() {
            self.push(b' ');
        }
    }

    fn visible(&mut self, byte: u8) {
        self.keep(byte);
        if byte.is_ascii_digit() && self.ends_with_lone_zero() {
            self.text.pop();
        }
        self.push(byte);
    }

    fn keep(&mut self, byte: u8) {
        if !self.in_word {
            self.in_word = true;
            self.words += 1;
            if self.words <= MOST_RAW {
                self.raw.push(vec![]);
            }
        }
        let kept = self.raw.last_mut().filter(|word| word.len() < RAW_BYTES);
        if let Some(word) = kept.filter(|_| self.words <= MOST_RAW) {
            word.push(byte);
        }
    }

    fn push(&mut self, byte: u8) {
        if self.text.len() < MOST_BYTES {
            self.text.push(byte);
        }
    }

    fn at_word_start(&self) -> bool {
        matches!(self.text.last(), None | Some(b' '))
    }

    fn ends_with_lone_zero(&self) -> bool {
        matches!(self.text[..], [b'0'] | [.., b' ', b'0'])
    }
}
