//! One clock: the check's pass, one over the bank's bytes, then one, compiled for each d, that writes each wire's value and, in the
//! bank, what each register takes.
use super::evaluate::{behind_outputs, fits, value, Values};
use super::gates::{begins_row, single_gates};
use super::held::{and, refresh, registers_fit, NOTHING};
use super::{by_shares, check, Found, Refused};
use std::mem::replace;

pub fn clock(
    table: &[u16],
    notes: &mut [u16],
    shares: &[u8],
    tape: &[u8],
    values: &mut [u8],
    bank: &mut [u8],
) -> Result<Found, Refused> {
    let found = check::check(table, notes)?;
    fits(&found, shares, tape, values.len().min(bank.len()))?;
    if bank[..found.wires].iter().fold(0, |all, byte| all | byte) > 1 {
        registers_fit(table, &found, bank, shares.len() + tape.len())?;
    }
    // as long is asked for by rule 17
    if let (Some(values), Some(bank)) = (values.first_chunk_mut(), bank.first_chunk_mut()) {
        by_shares!(found.d, step(&table[2..], shares, tape, values, bank));
    }
    Ok(found)
}

/// The values of an accepted table on one clock; the registers' bytes of the bank become what they take.
fn step<const D: usize>(
    frames: &[u16],
    shares: &[u8],
    tape: &[u8],
    values: &mut Values,
    bank: &mut Values,
) {
    let (pairs, and_wires) = (D * (D - 1) / 2, 7 * D * (D - 1) + 4 * D);
    let (mut shares, mut tape, mut wires) = (shares, tape, 0);
    let (mut rest, mut before) = (frames, NOTHING);
    while let [kind, ..] = *rest {
        if kind > 2 && kind < 6 {
            let (left, made) = gates::<D>(rest, values, bank, wires);
            (rest, wires) = (&rest[rest.len() - left..], made);
        } else if kind == 6 {
            let (old, new) = values.split_at_mut(wires);
            let (new, held) = (&mut new[..and_wires], &mut bank[wires..wires + and_wires]);
            and::<D>(&rest[2..2 + 2 * D], &tape[..pairs], old, new, held, &mut before);
            (rest, wires, tape) = (&rest[2 + 2 * D..], wires + and_wires, &tape[pairs..]);
        } else if kind == 7 {
            let made = pairs + 2 * D;
            let (old, new) = values.split_at_mut(wires);
            let (new, held) = (&mut new[..made], &mut bank[wires..wires + made]);
            refresh::<D>(&rest[2..2 + D], &tape[..pairs], old, new, held);
            (rest, wires, tape) = (&rest[2 + D..], wires + made, &tape[pairs..]);
        } else if kind == 1 {
            while let [1, _, ref after @ ..] = *rest {
                values[wires..wires + D].copy_from_slice(&shares[..D]);
                (rest, wires, shares) = (after, wires + D, &shares[D..]);
            }
        } else if kind == 2 {
            values[wires] = rest[2] as u8;
            (rest, wires) = (&rest[4..], wires + 1);
        } else {
            rest = behind_outputs::<D>(rest);
        }
    }
}

/// XORs, NOTs and REGs up to another frame or the table's end: a row of one kind at a time, or some gates as one case without a
/// branch between them. Gives how many words are left and the number of wires.
#[inline(never)]
fn gates<const D: usize>(
    frames: &[u16],
    values: &mut Values,
    bank: &mut Values,
    mut wires: usize,
) -> (usize, usize) {
    let mut rest = frames;
    while let [kind @ 3..=5, ..] = *rest {
        if !begins_row::<D>(rest) {
            rest = single_gates::<D>(rest, |_, kind, x, y| {
                let (new, held) = (value(kind, x, y, values), bank[wires & 8191]);
                let register = if kind == 5 { 255 } else { 0 };
                values[wires & 8191] = (held & register) | (new & !register);
                bank[wires & 8191] = (new & register) | (held & !register);
                wires += 1;
                true
            });
            continue;
        }
        let (words, after) = rest.split_at(D * if kind == 3 { 3 } else { 2 });
        for i in 0..D {
            values[(wires + i) & 8191] = if kind == 3 {
                value(kind, words[3 * i + 1], words[3 * i + 2], values)
            } else {
                let new = value(kind, words[2 * i + 1], words[2 * i + 1], values);
                if kind == 4 {
                    new
                } else {
                    replace(&mut bank[(wires + i) & 8191], new)
                }
            };
        }
        (rest, wires) = (after, wires + D);
    }
    (rest.len(), wires)
}
