//! What a clock does with the registers inside the gadgets; and rule 18 of the bank.
use super::evaluate::{refreshed, row};
use super::{Found, Refused, Sizes};
use std::mem::replace;

/// The gates of a pair, u, v and w, each with a byte behind for its register, by 8a + 4b + 2R + r; w has a, to be joined with V.
const PAIRS: [[u8; 8]; 16] = {
    let mut pairs = [[0; 8]; 16];
    let mut at = 0;
    while at < 16u8 {
        let (a, b, shown, r) = (at >> 3, (at >> 2) & 1, (at >> 1) & 1, at & 1);
        pairs[at as usize] = [(1 ^ a) & shown, 0, b ^ r, 0, a, 0, 0, 0];
        at += 1;
    }
    pairs
};
/// Bytes of all pairs of 8 shares.
const CROSS: usize = 6 * 8 * 7;
/// For each gate of the pairs whether it is done, as u and v are, or has to be joined with the register before, as w.
const DONE: [u16; CROSS / 2] = {
    let mut done = [0xFFFF; CROSS / 2];
    let mut at = 2;
    while at < CROSS / 2 {
        done[at] = 0;
        at += 3;
    }
    done
};
/// 8 in all bytes.
const EIGHTS: u64 = 0x0808_0808_0808_0808;

/// What the pairs' registers held before, behind two bytes.
pub type Before = [u8; 2 + CROSS];
pub const NOTHING: Before = [0; 2 + CROSS];

#[inline(always)]
pub fn and<const D: usize>(
    words: &[u16],
    random: &[u8],
    old: &[u8],
    new: &mut [u8],
    held: &mut [u8],
    before: &mut Before,
) {
    let (a, b) = (row::<D>(words, old), row::<D>(&words[D..], old));
    let (pairs, new) = new.split_at_mut(D * (D - 1));
    let (held_pairs, held) = held.split_at_mut(D * (D - 1));
    let places = draw(&a, &b, random, pairs, held_pairs);
    let (own, new) = new.split_at_mut(3 * D);
    let (held_own, held) = held.split_at_mut(3 * D);
    let mut c = [0; D];
    for i in 0..D {
        let product = a[i] & held_own[3 * i];
        c[i] = replace(&mut held_own[3 * i + 2], product);
        let shown = replace(&mut held_own[3 * i], b[i]);
        own[3 * i..3 * i + 3].copy_from_slice(&[shown, product, c[i]]);
    }
    for i in 0..D {
        // without the byte i
        let below = (1 << (8 * i)) - 1;
        let places = (places[i] & below) | ((places[i] >> 8) & !below);
        for k in 0..D - 1 {
            let at = 6 * (i * (D - 1) + k);
            // two bytes more than the pair's, which what follows writes over
            new[at..at + 8].copy_from_slice(&PAIRS[(places >> (8 * k)) as usize & 15]);
        }
    }
    let (cross, outputs) = new.split_at_mut(6 * D * (D - 1));
    before[2..2 + cross.len()].copy_from_slice(&held[..cross.len()]);
    join(cross, held, before);
    for i in 0..D {
        let row = &before[2 + 6 * i * (D - 1)..2 + 6 * (i + 1) * (D - 1)];
        outputs[i] = row.chunks_exact(6).fold(c[i], |sum, pair| sum ^ pair[1] ^ pair[5]);
    }
}

/// The wires r and R; gives, of each i, the byte 8a(i) + 4b(j) + 2R(i,j) + r(i,j) for each j.
#[inline(always)]
fn draw<const D: usize>(
    a: &[u8; D],
    b: &[u8; D],
    random: &[u8],
    new: &mut [u8],
    held: &mut [u8],
) -> [u64; D] {
    let all_b = (0..D).fold(0, |all, j| all | (u64::from(4 * b[j]) << (8 * j)));
    let (mut places, mut next) = ([0; D], 0);
    for i in 0..D {
        places[i] = all_b | (u64::from(a[i]) * EIGHTS);
    }
    for i in 0..D {
        for j in i + 1..D {
            let shown = replace(&mut held[2 * next + 1], random[next]);
            new[2 * next..2 * next + 2].copy_from_slice(&[random[next], shown]);
            let both = u64::from(random[next] | (shown << 1));
            places[i] |= both << (8 * j);
            places[j] |= both << (8 * i);
            next += 1;
        }
    }
    places
}

/// Joins w with V, shows the registers, and has them take their gates.
#[inline(always)]
fn join(new: &mut [u8], held: &mut [u8], before: &Before) {
    let wires = new.as_chunks_mut().0.iter_mut().zip(held.as_chunks_mut().0);
    for ((new, held), (&before, done)) in wires.zip(before.as_chunks().0.iter().zip(DONE)) {
        let was = u16::from_le_bytes(*held);
        let gate = u16::from_le_bytes(*new) & (done | (u16::from_le_bytes(before) >> 8));
        *new = (gate | (was & 0xFF00)).to_le_bytes();
        *held = ((was & 0xFF) | (gate << 8)).to_le_bytes();
    }
}

#[inline(always)]
pub fn refresh<const D: usize>(
    words: &[u16],
    random: &[u8],
    old: &[u8],
    new: &mut [u8],
    held: &mut [u8],
) {
    let sums = refreshed::<D>(words, random, old);
    let (bits, shown) = new.split_at_mut(random.len());
    bits.copy_from_slice(random);
    shown[..D].copy_from_slice(&sums);
    let held = &mut held[random.len() + D..];
    shown[D..].copy_from_slice(held);
    held.copy_from_slice(&sums);
}

/// Rule 18 of the bank, where some wire's byte is over 1: the first that is a register's.
#[cold]
pub fn registers_fit(
    table: &[u16],
    found: &Found,
    bank: &[u8],
    from: usize,
) -> Result<(), Refused> {
    let sizes = Sizes::new(found.d);
    let (mut rest, mut wire) = (&table[2..], 0);
    while let [kind, ..] = *rest {
        let kind = usize::from(kind);
        let made = usize::from(sizes.wires[kind]);
        let over = |at: &usize| bank[wire + at] > 1 && is_register(kind, found.d, *at);
        if let Some(first) = (0..made).find(over) {
            return Err((18, 0, from + wire + first));
        }
        rest = &rest[usize::from(sizes.words[kind])..];
        wire += made;
    }
    Ok(())
}

/// Whether a wire is a register, by its place in the frame.
fn is_register(kind: usize, d: usize, at: usize) -> bool {
    let pairs = d * (d - 1);
    match kind {
        5 => true,
        6 if at < pairs => at % 2 == 1,
        6 if at < pairs + 3 * d => (at - pairs) % 3 != 1,
        6 => at < 7 * pairs + 3 * d && (at - pairs - 3 * d) % 2 == 1,
        7 => at >= pairs / 2 + d,
        _ => false,
    }
}
