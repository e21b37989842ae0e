//! The writer of text: a check, then the digits, a block of words at a time with a space behind each, then a pass over the frames
//! for the line feeds.
use super::check::check;
use super::gates::{begins_row, single_gates};
use super::{by_shares, Refused};

/// Words of a block.
const BLOCK: usize = 64;

pub fn write(table: &[u16], notes: &mut [u16], text: &mut [u8]) -> Result<usize, Refused> {
    let d = check(table, notes)?.d;
    let text = text.get_mut(..5 * table.len()).ok_or((23, 0, 0))?;
    let mut places = text.chunks_exact_mut(5 * BLOCK);
    let mut blocks = table.chunks_exact(BLOCK);
    for (place, words) in places.by_ref().zip(blocks.by_ref()) {
        digits(words, place);
    }
    let rest = blocks.remainder();
    let (mut words, mut place) = ([0; BLOCK], [0; 5 * BLOCK]);
    words[..rest.len()].copy_from_slice(rest);
    digits(&words, &mut place);
    places.into_remainder().copy_from_slice(&place[..5 * rest.len()]);
    by_shares!(d, line_feeds(table, text));
    Ok(text.len())
}

/// The words of a block, a space behind each.
#[inline(always)]
fn digits(words: &[u16], place: &mut [u8]) {
    let mut bytes = [0; 2 * BLOCK];
    for (two, word) in bytes.chunks_exact_mut(2).zip(words) {
        two.copy_from_slice(&word.to_be_bytes());
    }
    let mut digits = [0; 4 * BLOCK];
    for (two, &byte) in digits.chunks_exact_mut(2).zip(&bytes) {
        let byte = u16::from(byte);
        two.copy_from_slice(&((byte >> 4) | ((byte & 15) << 8)).to_le_bytes());
    }
    for digit in &mut digits {
        *digit += if *digit > 9 { b'A' - 10 } else { b'0' };
    }
    for (place, four) in place.chunks_exact_mut(5).zip(digits.chunks_exact(4)) {
        place[..4].copy_from_slice(four);
        place[4] = b' ';
    }
}

/// A line feed before each frame but HEAD, and behind the last. Plain branches, each to a loop with a fixed length, since a
/// length that is looked up is later known than a branch is foreseen.
fn line_feeds<const D: usize>(table: &[u16], text: &mut [u8]) {
    let mut rest = &table[2..];
    let mut feed = |left: usize| text[5 * (table.len() - left) - 1] = b'\n';
    while let [kind, ..] = *rest {
        rest = if kind.wrapping_sub(3) < 3 {
            gates::<D>(kind, rest, &mut feed)
        } else if kind == 1 {
            run(1, 2, rest, &mut feed)
        } else if kind == 2 {
            run(2, 4, rest, &mut feed)
        } else if kind == 6 {
            run(6, 2 + 2 * D, rest, &mut feed)
        } else if kind == 7 {
            run(7, 2 + D, rest, &mut feed)
        } else {
            run(8, 1 + D, rest, &mut feed)
        };
    }
    feed(0);
}

/// Frames of one kind; gives what is left.
#[inline(always)]
fn run<'a>(kind: u16, length: usize, frames: &'a [u16], feed: &mut impl FnMut(usize)) -> &'a [u16] {
    let mut rest = frames;
    while rest.first() == Some(&kind) {
        feed(rest.len());
        rest = &rest[length..];
    }
    rest
}

/// A row of gates of one kind, or some gates as one case without a branch between them; gives what is left.
#[inline(always)]
fn gates<'a, const D: usize>(
    kind: u16,
    rest: &'a [u16],
    feed: &mut impl FnMut(usize),
) -> &'a [u16] {
    if !begins_row::<D>(rest) {
        return single_gates::<D>(rest, |rest, _, _, _| {
            feed(rest.len());
            true
        });
    }
    if kind == 3 {
        (0..D).for_each(|i| feed(rest.len() - 3 * i));
        &rest[3 * D..]
    } else {
        (0..D).for_each(|i| feed(rest.len() - 2 * i));
        &rest[2 * D..]
    }
}
