//! The reader of hexadecimal text: refusals 3 to 6, 20 and 21.
use super::check::frame_length;
use super::{Refusal, MOST_WORDS};

/// Reads lines into the table; gives the number of words written.
/// On a refusal the table keeps the words of the whole lines before.
pub fn read(text: &[u8], table: &mut [u16]) -> Result<usize, Refusal> {
    if text.is_empty() {
        return Err(Refusal::new(3, 0, 0));
    }
    let mut used = 0;
    let mut d = 0;
    for (number, line) in text.split_inclusive(|&byte| byte == b'\n').enumerate() {
        let Some(words) = line_words(line) else {
            return Err(Refusal::new(20, number, 0));
        };
        if number == 0 {
            d = head(&words)?;
        } else {
            frame(&words, d, number)?;
        }
        if used + words.len() > table.len().min(MOST_WORDS) {
            return Err(Refusal::new(21, number, 0));
        }
        table[used..used + words.len()].copy_from_slice(&words);
        used += words.len();
    }
    Ok(used)
}

/// The words of a line with its line feed; None where it is not of the line's form.
fn line_words(line: &[u8]) -> Option<Vec<u16>> {
    let inside = line.strip_suffix(b"\n")?;
    inside.split(|&byte| byte == b' ').map(word).collect()
}

/// Four digits 0-9A-F.
fn word(digits: &[u8]) -> Option<u16> {
    if digits.len() != 4 {
        return None;
    }
    digits.iter().try_fold(0u16, |value, digit| {
        let digit = match digit {
            b'0'..=b'9' => digit - b'0',
            b'A'..=b'F' => digit - b'A' + 10,
            _ => return None,
        };
        Some(value * 16 + u16::from(digit))
    })
}

/// The first line: rules 3 and 4; gives d.
fn head(words: &[u16]) -> Result<usize, Refusal> {
    if words.len() != 2 || words[0] != 0 {
        return Err(Refusal::new(3, 0, 0));
    }
    if !(2..=8).contains(&words[1]) {
        return Err(Refusal::new(4, 0, 1));
    }
    Ok(usize::from(words[1]))
}

/// A later line: rules 5 and 6.
fn frame(words: &[u16], d: usize, number: usize) -> Result<(), Refusal> {
    match frame_length(words[0], d) {
        None => Err(Refusal::new(5, number, 0)),
        Some(length) if length != words.len() => Err(Refusal::new(6, number, 0)),
        Some(_) => Ok(()),
    }
}
