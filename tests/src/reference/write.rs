//! The writer of hexadecimal text: refusal 23.
use super::check::{check, frame_length};
use super::Refusal;

/// Writes an accepted table as lines; gives the number of bytes written.
/// Any refusal leaves the text as it was.
pub fn write(table: &[u16], notes: &mut [u16], text: &mut [u8]) -> Result<usize, Refusal> {
    check(table, notes)?;
    let lines: Vec<u8> = frames(table).into_iter().flat_map(line).collect();
    if lines.len() > text.len() {
        return Err(Refusal::nowhere(23));
    }
    text[..lines.len()].copy_from_slice(&lines);
    Ok(lines.len())
}

/// The frames of an accepted table, HEAD first.
pub fn frames(table: &[u16]) -> Vec<&[u16]> {
    let d = usize::from(table[1]);
    let (head, mut rest) = table.split_at(2);
    let mut frames = vec![head];
    while let Some(&kind) = rest.first() {
        let length = frame_length(kind, d).expect("an accepted table has no other kind");
        let (frame, later) = rest.split_at(length);
        frames.push(frame);
        rest = later;
    }
    frames
}

/// A frame's line: its words with one space between, then a line feed.
fn line(words: &[u16]) -> Vec<u8> {
    let words: Vec<[u8; 4]> = words.iter().map(|&word| digits(word)).collect();
    [words.join(&b' '), vec![b'\n']].concat()
}

/// Four digits 0-9A-F, the highest first.
fn digits(word: u16) -> [u8; 4] {
    [12, 8, 4, 0].map(|shift| match (word >> shift & 15) as u8 {
        digit @ 0..=9 => b'0' + digit,
        digit => b'A' + (digit - 10),
    })
}
