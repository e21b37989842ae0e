//! Readings: the check's pass, the evaluation's, which keeps where frames begin, and one back over them, in which the reading
//! sheet holds marks: ON where a wire is reached, else 0.
use super::evaluate::{fits, write};
use super::gates::gate_length;
use super::starts::Starts;
use super::{by_shares, check, Found, Refused};
use std::mem::take;

const ON: u8 = 255;
/// Frames that are looked at together: where none of their wires is reached, they are passed over.
const BLOCK: usize = 16;

pub fn read_probes(
    table: &[u16],
    notes: &mut [u16],
    shares: &[u8],
    tape: &[u8],
    values: &mut [u8],
    probes: &[u16],
    reading: &mut [u8],
) -> Result<Found, Refused> {
    let found = check::check(table, notes)?;
    fits(&found, shares, tape, values.len().min(reading.len()))?;
    let last = wires(&found, probes)?;
    let reading = &mut reading[..8192];
    let Some(last) = last else {
        write(table, &found, shares, tape, values, &mut ());
        reading.fill(2);
        return Ok(found);
    };
    // the last frame that is gone over may make wires behind the last probe
    let most = 7 * found.d * (found.d - 1) + 4 * found.d;
    let (marks, beyond) = reading.split_at_mut(found.wires.min(usize::from(last) + most));
    if table.len() <= 2048 {
        let mut starts = Starts::<1024>::new();
        write(table, &found, shares, tape, values, &mut starts);
        mark(table, found.d, starts.up_to(last), probes, marks);
    } else {
        let mut starts = Starts::<4096>::new();
        write(table, &found, shares, tape, values, &mut starts);
        mark(table, found.d, starts.up_to(last), probes, marks);
    }
    for (mark, &value) in marks.iter_mut().zip(&*values) {
        *mark = (value & *mark) | (2 & !*mark);
    }
    beyond.fill(2);
    Ok(found)
}

/// Rule 19; gives the last wire that is probed.
pub fn wires(found: &Found, probes: &[u16]) -> Result<Option<u16>, Refused> {
    if probes.is_empty() {
        return Ok(None);
    }
    let last = probes.iter().fold(0, |last, &probe| probe.max(last));
    if usize::from(last) < found.wires {
        return Ok(Some(last));
    }
    let index = probes.iter().position(|&probe| usize::from(probe) >= found.wires);
    Err((19, 0, index.unwrap_or(0)))
}

/// Marks the wires that the probes read; the frames are those up to the last probe's, and the marks end with their wires or
/// behind.
pub fn mark(table: &[u16], d: usize, starts: &[[u16; 2]], probes: &[u16], marks: &mut [u8]) {
    marks.fill(0);
    for &probe in probes {
        marks[usize::from(probe)] = ON;
    }
    by_shares!(d, back(&table[2..], starts, marks))
}

/// Goes back over the frames; a gate hands its mark on, a stop keeps it.
fn back<const D: usize>(frames: &[u16], starts: &[[u16; 2]], marks: &mut [u8]) {
    let mut end = marks.len();
    for block in starts.chunks(BLOCK).rev() {
        let begin = usize::from(block[0][1]);
        let reached = marks[begin..end].iter().fold(0, |all, mark| all | mark) != 0;
        end = begin;
        if !reached {
            continue;
        }
        for &[left, wire] in block.iter().rev() {
            let words = &frames[frames.len() - usize::from(left)..];
            if let Some(words @ &[kind @ 3..=5, x, _]) = words.first_chunk() {
                gate(kind, x, words[gate_length(kind) - 1], wire, marks);
            } else {
                other::<D>(words, wire, marks);
            }
        }
    }
}

/// XOR, NOT and REG, one case without a branch: REG alone keeps its mark, and for NOT and REG y is x once more.
#[inline(always)]
fn gate(kind: u16, x: u16, y: u16, wire: u16, marks: &mut [u8]) {
    let (x, y, wire) = (usize::from(x), usize::from(y), usize::from(wire));
    let kept = if kind == 5 { ON } else { 0 };
    let on = marks[wire] & !kept;
    marks[wire] &= kept;
    // both looked up first, since they may be one wire
    (marks[x], marks[y]) = (marks[x] | on, marks[y] | on);
}

fn other<const D: usize>(words: &[u16], wire: u16, marks: &mut [u8]) {
    let (old, new) = marks.split_at_mut(usize::from(wire));
    match *words {
        [kind @ 4..=5, x] => gate(kind, x, x, wire, marks),
        [6, _, ref words @ ..] => and::<D>(words, old, new),
        [7, _, ref words @ ..] => refresh::<D>(words, old, new),
        _ => (),
    }
}

/// AND, from its outputs back to its stops; passed over where none of its wires is reached.
fn and<const D: usize>(words: &[u16], old: &mut [u8], new: &mut [u8]) {
    let new = &mut new[..7 * D * (D - 1) + 4 * D];
    if new.iter().fold(0, |all, mark| all | mark) == 0 {
        return;
    }
    let (pairs, new) = new.split_at_mut(D * (D - 1));
    let (own, new) = new.split_at_mut(3 * D);
    let (cross, outputs) = new.split_at_mut(6 * D * (D - 1));
    let mut on_b = [0; D];
    let rows = own.chunks_exact_mut(3).zip(cross.chunks_exact_mut(6 * (D - 1)));
    for (i, (own, row)) in rows.enumerate() {
        let output = take(&mut outputs[i]);
        let product = take(&mut own[1]);
        own[0] |= product;
        own[2] |= output;
        let mut gates = 0;
        for pair in row.chunks_exact_mut(6) {
            gates |= pair[0] | pair[2] | pair[4];
            pair[1] |= output;
            pair[5] |= output;
        }
        let mut on_a = product;
        if gates != 0 {
            on_a |= cross_row::<D>(i, row, pairs, &mut on_b);
        }
        old[usize::from(words[i])] |= on_a;
    }
    for j in 0..D {
        old[usize::from(words[D + j])] |= on_b[j];
    }
}

/// The gates u, v and w of a share i with each other one; gives the mark of a(i).
#[inline(always)]
fn cross_row<const D: usize>(i: usize, row: &mut [u8], pairs: &mut [u8], on_b: &mut [u8; D]) -> u8 {
    let mut on_a = 0;
    for (k, pair) in row.chunks_exact_mut(6).enumerate() {
        let (u, v, w) = (take(&mut pair[0]), take(&mut pair[2]), take(&mut pair[4]));
        pair[3] |= w;
        let random = usize::from(const { places(D) }[i & 7][k & 7]);
        pairs[random] |= v;
        pairs[random + 1] |= u;
        on_a |= u | w;
        on_b[k + usize::from(k >= i)] |= v;
    }
    on_a
}

/// Where an AND's r(i,j) stands among its wires, by i and the place of j among the others.
pub const fn places(d: usize) -> [[u8; 8]; 8] {
    let (mut places, mut next, mut i) = ([[0; 8]; 8], 0, 0);
    while i < d {
        let mut j = i + 1;
        while j < d {
            places[i][j - 1] = next;
            places[j][i] = next;
            (next, j) = (next + 2, j + 1);
        }
        i += 1;
    }
    places
}

fn refresh<const D: usize>(words: &[u16], old: &mut [u8], new: &mut [u8]) {
    let (bits, sums) = new.split_at_mut(D * (D - 1) / 2);
    let (mut on, mut next) = ([0; D], 0);
    on.copy_from_slice(&sums[..D]);
    sums[..D].fill(0);
    for i in 0..D {
        old[usize::from(words[i])] |= on[i];
        for j in i + 1..D {
            bits[next] |= on[i] | on[j];
            next += 1;
        }
    }
}
