//! Whole sharings: the check's pass, then one over the table, a run at a time.
//!
//! A sharing's wires have numbers in a row. Where all frames before are in whole sharings, a wire with label 0 is the first of
//! its own, so words that rise by one from it are that sharing. The check has asked that a row begins with label 0.
use super::{check::check, Found, Refused};

pub fn check_sharings(table: &[u16], notes: &mut [u16]) -> Result<Found, Refused> {
    let found = check(table, notes)?;
    // the check asks for as many notes
    let notes = notes.first_chunk().ok_or((2, 0, 0))?;
    let unfit = match found.d {
        2 => unfit::<2>(table, notes),
        3 => unfit::<3>(table, notes),
        4 => unfit::<4>(table, notes),
        5 => unfit::<5>(table, notes),
        6 => unfit::<6>(table, notes),
        7 => unfit::<7>(table, notes),
        _ => unfit::<8>(table, notes),
    };
    match unfit {
        Some(frame) => Err((26, frame, 0)),
        None => Ok(found),
    }
}

/// The first frame, or first frame of a run, that fits no sharing of D wires. Plain branches on the kind, each to a run of a
/// fixed length, take half the time of one jump for all kinds.
fn unfit<const D: usize>(table: &[u16], notes: &[u16; 16384]) -> Option<usize> {
    let mut rest = &table[2..];
    let mut frame = 1;
    while let [kind, ..] = *rest {
        let (after, frames) = if kind == 1 {
            (rest.get(2..), 1)
        } else if kind > 5 {
            (rows::<D>(kind, rest), 1)
        } else if kind == 2 {
            (constants::<D>(rest), D)
        } else if kind == 3 {
            (sums::<D>(rest, notes), D)
        } else {
            (copies::<D>(kind, rest, notes), D)
        };
        let Some(after) = after else {
            return Some(frame);
        };
        rest = after;
        frame += frames;
    }
    None
}

/// 0 where the words rise by one.
#[inline(always)]
fn rising<const D: usize>(words: &[u16]) -> u16 {
    (1..D).fold(0, |all, i| all | (words[i] ^ words[0].wrapping_add(i as u16)))
}

/// The label of a wire that a frame names.
#[inline(always)]
fn label(notes: &[u16; 16384], wire: u16) -> u16 {
    notes[2 * usize::from(wire & 8191)] & 7
}

/// What follows an AND, a REF or an OUT whose rows are sharings.
#[inline(always)]
fn rows<const D: usize>(kind: u16, rest: &[u16]) -> Option<&[u16]> {
    if kind == 6 {
        let (words, after) = rest.split_at_checked(2 + 2 * D)?;
        (rising::<D>(&words[2..]) | rising::<D>(&words[2 + D..]) == 0).then_some(after)
    } else if kind == 7 {
        let (words, after) = rest.split_at_checked(2 + D)?;
        (rising::<D>(&words[2..]) == 0).then_some(after)
    } else {
        let (words, after) = rest.split_at_checked(1 + D)?;
        (rising::<D>(&words[1..]) == 0).then_some(after)
    }
}

/// What follows a run of CONs.
#[inline(always)]
fn constants<const D: usize>(rest: &[u16]) -> Option<&[u16]> {
    let (words, after) = rest.split_at_checked(4 * D)?;
    let stage = words[3];
    let frame = |all, i: usize| {
        let words = &words[4 * i..4 * i + 4];
        all | (words[0] ^ 2) | (words[1] ^ i as u16) | (words[3] ^ stage)
    };
    ((0..D).fold(0, frame) == 0).then_some(after)
}

/// What follows a run of XORs over two sharings.
#[inline(always)]
fn sums<'a, const D: usize>(rest: &'a [u16], notes: &[u16; 16384]) -> Option<&'a [u16]> {
    let (words, after) = rest.split_at_checked(3 * D)?;
    let (x, y) = (words[1], words[2]);
    let frame = |all, i: usize| {
        let words = &words[3 * i..3 * i + 3];
        let [x, y] = [x, y].map(|first| first.wrapping_add(i as u16));
        all | (words[0] ^ 3) | (words[1] ^ x) | (words[2] ^ y)
    };
    ((1..D).fold(label(notes, x), frame) == 0).then_some(after)
}

/// What follows a run of NOTs or REGs over a sharing.
#[inline(always)]
fn copies<'a, const D: usize>(
    kind: u16,
    rest: &'a [u16],
    notes: &[u16; 16384],
) -> Option<&'a [u16]> {
    let (words, after) = rest.split_at_checked(2 * D)?;
    let x = words[1];
    let frame = |all, i: usize| {
        let words = &words[2 * i..2 * i + 2];
        all | (words[0] ^ kind) | (words[1] ^ x.wrapping_add(i as u16))
    };
    ((1..D).fold(label(notes, x), frame) == 0).then_some(after)
}
