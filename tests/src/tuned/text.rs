//! The reader of text, a block of words at a time: a word stands five bytes behind the last one, whatever the lines are. What is
//! wrong in a block is joined and looked at once; then, and for the first line, the lines are read one by one.
use super::{Refused, Sizes};

/// Words of the longest frame: AND with 8 shares.
const LONGEST: usize = 18;
/// Words of a block; a bit of a number stands for each.
const BLOCK: usize = 64;
const BYTES: usize = 5 * BLOCK;
/// What stands behind the text's end: words without a line feed.
const BEHIND: [u8; BYTES] = {
    let mut bytes = [b'0'; BYTES];
    let mut at = 4;
    while at < BYTES {
        bytes[at] = b' ';
        at += 5;
    }
    bytes
};

pub fn read(text: &[u8], table: &mut [u16]) -> Result<usize, Refused> {
    if text.is_empty() {
        return Err((3, 0, 0));
    }
    let room = table.len().min(8192);
    let table = &mut table[..room];
    let lengths = head(text, table)?;
    let (mut rest, mut used, mut line) = (&text[10..], 2, 1);
    let mut words = [0; BLOCK];
    let mut padded;
    while !rest.is_empty() {
        let block = match rest.first_chunk() {
            Some(block) => block,
            None => {
                padded = BEHIND;
                padded[..rest.len()].copy_from_slice(rest);
                &padded
            }
        };
        let (count, lines) = match whole_lines(block, &lengths, &mut words) {
            Some((count, lines)) if count <= table.len() - used => (count, lines),
            _ => (one_line(rest, &lengths, line, room - used, &mut words)?, 1),
        };
        table[used..used + count].copy_from_slice(&words[..count]);
        (rest, used, line) = (&rest[5 * count..], used + count, line + lines);
    }
    Ok(used)
}

/// The first line; gives the words of each kind of frame, 0 where there is no such kind.
fn head(text: &[u8], table: &mut [u16]) -> Result<[u8; 16], Refused> {
    let mut words = [0; BLOCK];
    let count = scan(text, &mut words).ok_or((20, 0, 0))?;
    let [0, d, ..] = words else {
        return Err((3, 0, 0));
    };
    if count != 2 {
        return Err((3, 0, 0));
    }
    if !(2..=8).contains(&d) {
        return Err((4, 0, 1));
    }
    table.get_mut(..2).ok_or((21, 0, 0))?.copy_from_slice(&[0, d]);
    let mut lengths = [0; 16];
    lengths[..9].copy_from_slice(&Sizes::new(d.into()).words);
    Ok(lengths)
}

/// The words of a block, how many stand in whole lines, and the number of those; None where something is wrong.
#[inline(always)]
fn whole_lines(
    block: &[u8; BYTES],
    lengths: &[u8; 16],
    words: &mut [u16; BLOCK],
) -> Option<(usize, usize)> {
    // taken before the digits, so that they are long written where they are looked at
    let mut behind = [0; BLOCK];
    for (behind, word) in behind.iter_mut().zip(block.chunks_exact(5)) {
        *behind = word[4];
    }
    let mut digits = [0; 4 * BLOCK];
    for (four, word) in digits.chunks_exact_mut(4).zip(block.chunks_exact(5)) {
        four.copy_from_slice(&word[..4]);
    }
    let wrong = join(digits, words) | line_ends(&mut behind);
    let mut ends = bits(&behind);
    let mut unlike = usize::from(wrong);
    let (mut from, mut lines) = (0, 0);
    while ends != 0 {
        let to = ends.trailing_zeros() as usize + 1;
        let kind = usize::from(words[from & (BLOCK - 1)]);
        unlike |= (kind & !15) | (usize::from(lengths[kind & 15]) ^ (to - from));
        (from, lines, ends) = (to, lines + 1, ends & (ends - 1));
    }
    (unlike == 0 && from > 0).then_some((from, lines))
}

/// The words of digits; not 0 where one is no digit.
#[inline(always)]
fn join(mut digits: [u8; 4 * BLOCK], words: &mut [u16; BLOCK]) -> u8 {
    let mut wrong = 0;
    for digit in &mut digits {
        // each is 0 for a digit of its kind
        let number = digit.wrapping_sub(b'0').saturating_sub(9);
        let letter = digit.wrapping_sub(b'A').saturating_sub(5);
        wrong |= number.min(letter);
        *digit = (*digit & 15) + if *digit > b'9' { 9 } else { 0 };
    }
    let mut bytes = [0; 2 * BLOCK];
    for (byte, &two) in bytes.iter_mut().zip(digits.as_chunks().0) {
        let two = u16::from_le_bytes(two);
        *byte = ((two << 4) | (two >> 8)) as u8;
    }
    for (word, &two) in words.iter_mut().zip(bytes.as_chunks().0) {
        *word = u16::from_be_bytes(two);
    }
    wrong
}

/// What follows each word becomes 1 for a line feed, 0 for a space; not 0 where it is something else.
#[inline(always)]
fn line_ends(behind: &mut [u8; BLOCK]) -> u8 {
    let mut wrong = 0;
    for end in behind {
        // a space is 20, a line feed 0A in hexadecimal
        let feed = (*end >> 1) & 1;
        wrong |= *end ^ 0x20 ^ (feed * 0x2A);
        *end = feed;
    }
    wrong
}

/// A bit for each byte, which are 0 or 1.
#[inline(always)]
fn bits(bytes: &[u8; BLOCK]) -> u64 {
    bytes.as_chunks().0.iter().fold(0, |all, &eight| {
        // the lowest bits of eight bytes come together in the highest one
        let bits = u64::from_le_bytes(eight).wrapping_mul(0x0102_0408_1020_4080);
        (all >> 8) | (bits & (0xFF << 56))
    })
}

/// One line; gives how many words it has.
#[cold]
fn one_line(
    text: &[u8],
    lengths: &[u8; 16],
    line: usize,
    room: usize,
    words: &mut [u16; BLOCK],
) -> Result<usize, Refused> {
    let count = scan(text, words).ok_or((20, line, 0))?;
    match lengths.get(usize::from(words[0])) {
        None | Some(0) => Err((5, line, 0)),
        Some(&length) if usize::from(length) != count => Err((6, line, 0)),
        Some(_) if count > room => Err((21, line, 0)),
        Some(_) => Ok(count),
    }
}

/// The first line's number of words, its first ones kept; None where it is not of the line's form.
fn scan(text: &[u8], words: &mut [u16; BLOCK]) -> Option<usize> {
    for (at, bytes) in text.chunks_exact(5).enumerate() {
        let digit = |byte: u8| char::from(byte).to_digit(16).filter(|_| !byte.is_ascii_lowercase());
        let word = (0..4).try_fold(0, |word, at| Some((word << 4) | digit(bytes[at])? as u16))?;
        if at < LONGEST {
            words[at] = word;
        }
        match bytes[4] {
            b'\n' => return Some(at + 1),
            b' ' => (),
            _ => return None,
        }
    }
    None
}
