//! Evaluation: the check's pass, then one pass, compiled for each d, that writes each wire's value in order.
use super::gates::{begins_row, single_gates};
use super::starts::Keep;
use super::{by_shares, check, Found, Refused};

/// A wire's number is masked where it is looked up: it is below 8,192 by the check.
pub type Values = [u8; 8192];

pub fn evaluate(
    table: &[u16],
    notes: &mut [u16],
    shares: &[u8],
    tape: &[u8],
    values: &mut [u8],
) -> Result<Found, Refused> {
    let found = check::check(table, notes)?;
    fits(&found, shares, tape, values.len())?;
    write(table, &found, shares, tape, values, &mut ());
    Ok(found)
}

/// Rules 15 to 18.
pub fn fits(found: &Found, shares: &[u8], tape: &[u8], sheet: usize) -> Result<(), Refused> {
    if shares.len() != found.d * found.inputs {
        return Err((15, 0, 0));
    }
    if tape.len() != found.randoms {
        return Err((16, 0, 0));
    }
    if sheet < 8192 {
        return Err((17, 0, 0));
    }
    bits(shares, 0)?;
    bits(tape, shares.len())
}

/// Rule 18 of a list whose indices count on from `from`.
#[inline(always)]
pub fn bits(bytes: &[u8], from: usize) -> Result<(), Refused> {
    if bytes.iter().fold(0, |all, byte| all | byte) <= 1 {
        return Ok(());
    }
    Err((18, 0, from + bytes.iter().position(|&byte| byte > 1).unwrap_or(0)))
}

/// The values of an accepted table.
pub fn write<K: Keep>(
    table: &[u16],
    found: &Found,
    shares: &[u8],
    tape: &[u8],
    values: &mut [u8],
    starts: &mut K,
) {
    // as long is asked for by rule 17
    if let Some(values) = values.first_chunk_mut() {
        by_shares!(found.d, pass<_>(&table[2..], shares, tape, values, starts));
    }
}

fn pass<const D: usize, K: Keep>(
    frames: &[u16],
    shares: &[u8],
    tape: &[u8],
    values: &mut Values,
    starts: &mut K,
) {
    let (pairs, and_wires) = (D * (D - 1) / 2, 7 * D * (D - 1) + 4 * D);
    let (mut shares, mut tape, mut wires) = (shares, tape, 0);
    let mut rest = frames;
    while let [kind, ..] = *rest {
        if kind > 2 && kind < 6 {
            let (left, made) = gates::<D, K>(rest, values, wires, starts);
            (rest, wires) = (&rest[rest.len() - left..], made);
        } else if kind == 6 {
            starts.keep(rest.len(), wires);
            let (old, new) = values.split_at_mut(wires);
            and::<D>(&rest[2..2 + 2 * D], &tape[..pairs], old, &mut new[..and_wires]);
            (rest, wires, tape) = (&rest[2 + 2 * D..], wires + and_wires, &tape[pairs..]);
        } else if kind == 7 {
            starts.keep(rest.len(), wires);
            let (old, new) = values.split_at_mut(wires);
            refresh::<D>(&rest[2..2 + D], &tape[..pairs], old, &mut new[..pairs + 2 * D]);
            (rest, wires, tape) = (&rest[2 + D..], wires + pairs + 2 * D, &tape[pairs..]);
        } else if kind == 1 {
            while let [1, _, ref after @ ..] = *rest {
                starts.keep(rest.len(), wires);
                values[wires..wires + D].copy_from_slice(&shares[..D]);
                (rest, wires, shares) = (after, wires + D, &shares[D..]);
            }
        } else if kind == 2 {
            starts.keep(rest.len(), wires);
            values[wires] = rest[2] as u8;
            (rest, wires) = (&rest[4..], wires + 1);
        } else {
            rest = behind_outputs::<D>(rest);
        }
    }
}

/// What follows a run of OUTs.
#[inline(always)]
pub fn behind_outputs<const D: usize>(frames: &[u16]) -> &[u16] {
    let mut rest = frames;
    while let [8, ..] = *rest {
        rest = &rest[1 + D..];
    }
    rest
}

/// XORs, NOTs and REGs up to another frame or the table's end: a row of one kind at a time, or some gates as one case without a
/// branch between them. Gives how many words are left and the number of wires.
#[inline(never)]
fn gates<const D: usize, K: Keep>(
    frames: &[u16],
    values: &mut Values,
    mut wires: usize,
    starts: &mut K,
) -> (usize, usize) {
    let mut rest = frames;
    while let [kind @ 3..=5, ..] = *rest {
        if !begins_row::<D>(rest) {
            rest = single_gates::<D>(rest, |rest, kind, x, y| {
                starts.keep(rest.len(), wires);
                values[wires & 8191] = value(kind, x, y, values);
                wires += 1;
                true
            });
        } else if kind == 3 {
            let (words, after) = rest.split_at(3 * D);
            for (i, gate) in words.chunks_exact(3).enumerate() {
                starts.keep(rest.len() - 3 * i, wires);
                values[wires & 8191] = value(kind, gate[1], gate[2], values);
                wires += 1;
            }
            rest = after;
        } else {
            let (words, after) = rest.split_at(2 * D);
            for (i, gate) in words.chunks_exact(2).enumerate() {
                starts.keep(rest.len() - 2 * i, wires);
                values[wires & 8191] = value(kind, gate[1], gate[1], values);
                wires += 1;
            }
            rest = after;
        }
    }
    (rest.len(), wires)
}

/// The value of a gate; for NOT and REG y is x once more.
#[inline(always)]
pub fn value(kind: u16, x: u16, y: u16, values: &Values) -> u8 {
    let (x, y) = (values[usize::from(x & 8191)], values[usize::from(y & 8191)]);
    let kind = kind as u8;
    // of the three numbers XOR's alone has bit 1, and NOT's alone not bit 0
    x ^ (y & (kind >> 1)) ^ (kind & 1) ^ 1
}

/// The values of the wires that the first D words name.
#[inline(always)]
pub fn row<const D: usize>(words: &[u16], values: &[u8]) -> [u8; D] {
    let mut row = [0; D];
    for (value, &word) in row.iter_mut().zip(words) {
        *value = values[usize::from(word)];
    }
    row
}

/// The six wires of a pair, u twice, v twice and w twice, by 4a + 2b + r.
const PAIRS: [[u8; 8]; 8] = {
    let mut pairs = [[0; 8]; 8];
    let mut at = 0;
    while at < 8u8 {
        let (a, b, r) = (at >> 2, (at >> 1) & 1, at & 1);
        let (u, v) = ((1 ^ a) & r, b ^ r);
        let w = a & v;
        pairs[at as usize] = [u, u, v, v, w, w, 0, 0];
        at += 1;
    }
    pairs
};

/// The pairs' places in PAIRS of one share, a byte each: 4 in all bytes.
const FOURS: u64 = 0x0404_0404_0404_0404;

#[inline(always)]
fn and<const D: usize>(words: &[u16], random: &[u8], old: &[u8], new: &mut [u8]) {
    let (a, b) = (row::<D>(words, old), row::<D>(&words[D..], old));
    let sum_b = b.iter().fold(0, |sum, b| sum ^ b);
    let all_b = (0..D).fold(0, |all, j| all | (u64::from(2 * b[j]) << (8 * j)));
    let (mut c, mut places) = ([0; D], [0; D]);
    for i in 0..D {
        // c(i) is a(i) · (sum of b) + sum of r(i,j), as U and W add up
        c[i] = a[i] & sum_b;
        // for each j the byte 4a(i) + 2b(j) + r(i,j)
        places[i] = all_b | (u64::from(a[i]) * FOURS);
    }
    let (pairs, new) = new.split_at_mut(D * (D - 1));
    let mut next = 0;
    for i in 0..D {
        for j in i + 1..D {
            let bit = random[next];
            pairs[2 * next..2 * next + 2].copy_from_slice(&[bit; 2]);
            c[i] ^= bit;
            c[j] ^= bit;
            places[i] |= u64::from(bit) << (8 * j);
            places[j] |= u64::from(bit) << (8 * i);
            next += 1;
        }
    }
    let (own, new) = new.split_at_mut(3 * D);
    for (i, own) in own.chunks_exact_mut(3).enumerate() {
        own.copy_from_slice(&[b[i], a[i] & b[i], a[i] & b[i]]);
    }
    for i in 0..D {
        // without the byte i
        let below = (1 << (8 * i)) - 1;
        let places = (places[i] & below) | ((places[i] >> 8) & !below);
        for k in 0..D - 1 {
            let at = 6 * (i * (D - 1) + k);
            // two bytes more than the pair's, which what follows writes over
            new[at..at + 8].copy_from_slice(&PAIRS[(places >> (8 * k)) as usize & 7]);
        }
    }
    new[6 * D * (D - 1)..].copy_from_slice(&c);
}

/// The sums of a REF: each share with the random bits of its pairs.
#[inline(always)]
pub fn refreshed<const D: usize>(words: &[u16], random: &[u8], old: &[u8]) -> [u8; D] {
    let mut sums = row::<D>(words, old);
    let mut next = 0;
    for i in 0..D {
        for j in i + 1..D {
            sums[i] ^= random[next];
            sums[j] ^= random[next];
            next += 1;
        }
    }
    sums
}

#[inline(always)]
fn refresh<const D: usize>(words: &[u16], random: &[u8], old: &[u8], new: &mut [u8]) {
    let sums = refreshed::<D>(words, random, old);
    let (bits, outputs) = new.split_at_mut(random.len());
    bits.copy_from_slice(random);
    outputs[..D].copy_from_slice(&sums);
    outputs[D..].copy_from_slice(&sums);
}
