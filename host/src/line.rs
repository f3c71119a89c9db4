//! What stands on a line: `most hexbytes`, or `most hexbytes outwords`, with one space between them.

use std::fmt;

use crate::claim::Claim;

/// What a line asks.
#[derive(Clone, Debug, PartialEq, Eq)]
pub struct Question {
    /// The largest number of classes that may be told apart at a part.
    pub most: u32,
    pub claim: Claim,
    /// How many words there shall be for the two first words, if the line says so.
    pub out_words: Option<u32>,
}

/// Why a line is not of that form: what was found.
#[derive(Clone, Debug, PartialEq, Eq)]
pub enum Fault<'a> {
    Empty,
    OneField(&'a [u8]),
    FourthField(&'a [u8]),
    Most(&'a [u8]),
    OutWords(&'a [u8]),
    OddDigits(usize),
    NoPair([u8; 2]),
}

/// Reads a line, without the line feed at its end.
pub fn read_line(line: &[u8]) -> Result<Question, Fault<'_>> {
    if line.is_empty() {
        return Err(Fault::Empty);
    }
    let (first, Some(rest)) = split_field(line) else {
        return Err(Fault::OneField(line));
    };
    let (second, third) = split_field(rest);
    if second.is_empty() {
        return Err(Fault::OneField(first));
    }
    if let Some((_, Some(fourth))) = third.map(split_field) {
        return Err(Fault::FourthField(fourth));
    }
    let most = read_number(first).ok_or(Fault::Most(first))?;
    let out_words = match third {
        Some(field) => Some(read_number(field).ok_or(Fault::OutWords(field))?),
        None => None,
    };
    let claim = Claim::from(read_bytes(second)?);
    Ok(Question { most, claim, out_words })
}

/// The text before the first space, and the text behind that, if there is a space.
fn split_field(text: &[u8]) -> (&[u8], Option<&[u8]>) {
    match text.iter().position(|byte| *byte == b' ') {
        Some(end) => (&text[..end], Some(&text[end + 1..])),
        None => (text, None),
    }
}

/// The number that decimal digits write, if it is below 2^32. `parse` alone would take a sign.
fn read_number(digits: &[u8]) -> Option<u32> {
    if !digits.iter().all(u8::is_ascii_digit) {
        return None;
    }
    str::from_utf8(digits).ok()?.parse().ok()
}

/// The bytes that a field of hex digits writes; `-` stands for none.
fn read_bytes(field: &[u8]) -> Result<Vec<u8>, Fault<'_>> {
    if field == b"-" {
        return Ok(Vec::new());
    }
    let (pairs, rest) = field.as_chunks::<2>();
    if !rest.is_empty() {
        return Err(Fault::OddDigits(field.len()));
    }
    let pair = |pair: &[u8; 2]| {
        let digit = |byte: u8| char::from(byte).to_digit(16);
        match (digit(pair[0]), digit(pair[1])) {
            (Some(high), Some(low)) => Ok((high * 16 + low) as u8),
            _ => Err(Fault::NoPair(*pair)),
        }
    };
    pairs.iter().map(pair).collect()
}

/// What was expected and what stands there instead, in the words of the proved program.
impl fmt::Display for Fault<'_> {
    fn fmt(&self, f: &mut fmt::Formatter<'_>) -> fmt::Result {
        f.write_str("expected \"most hexbytes [outwords]\", found ")?;
        match self {
            Fault::Empty => f.write_str("an empty line"),
            Fault::OneField(field) => write!(f, "one field, \"{}\"", shown(field)),
            Fault::FourthField(field) => write!(f, "a fourth field, \"{}\"", shown(field)),
            Fault::Most(field) => {
                write!(f, "\"{}\" where most is a number from 0 to 4294967295", shown(field))
            }
            Fault::OutWords(field) => {
                write!(f, "\"{}\" where outwords is a number from 0 to 4294967295", shown(field))
            }
            Fault::OddDigits(count) => {
                write!(f, "an odd number of characters, {count}, where two hex digits make a byte")
            }
            Fault::NoPair(pair) => {
                write!(f, "\"{}\" where two hex digits make a byte", shown(pair))
            }
        }
    }
}

/// Bytes as they are printed in a message: the first forty, if they are text.
fn shown(bytes: &[u8]) -> &str {
    let front = &bytes[..bytes.len().min(40)];
    str::from_utf8(front).unwrap_or("(no text)")
}
