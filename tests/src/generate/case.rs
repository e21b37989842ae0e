//! One case: everything the calls are given, lengths of buffers included.
use super::circuit::{circuit, Shape};
use super::clocking::{clocking, Clocking};
use super::counting::{counting, Counting};
use super::damage::{damaged_lines, noise};
use super::limits::limit;
use super::near::near_frame;
use super::random::Random;
use super::sharing::{sharing, Sharing};
use super::text::random_text;
use crate::builder::Builder;
use crate::reference::check::{walk, Rules};
use crate::reference::circuit::Circuit;

pub struct Case {
    pub table: Vec<u16>,
    pub notes: usize,
    pub shares: Vec<u8>,
    pub tape: Vec<u8>,
    pub values: usize,
    pub probes: Vec<u16>,
    pub reading: usize,
    pub text: Vec<u8>,
    /// Length of the table lent to the text reader.
    pub text_table: usize,
    /// Length of the text lent to the text writer.
    pub written: usize,
    pub counting: Counting,
    pub clocking: Clocking,
    pub sharing: Sharing,
}

/// The case that the random numbers give.
pub fn case(random: &mut Random) -> Case {
    let lines = lines(random);
    let table = if random.once_in(24) { noise(random) } else { lines.concat() };
    let (made, refusal) = walk(&table, Rules::All);
    let text = random_text(random, &lines);
    let words = lines.iter().map(Vec::len).sum();
    Case {
        notes: sheet(random, 16384),
        shares: bits(random, made.d * made.inputs),
        tape: bits(random, made.randoms),
        values: sheet(random, 8192),
        probes: probes(random, &made),
        reading: sheet(random, 8192),
        text_table: text_table(random, words),
        written: written(random, table.len()),
        counting: counting(random),
        clocking: clocking(random, &made, refusal.is_none()),
        sharing: sharing(random),
        text,
        table,
    }
}

/// Frames: valid, damaged, with a last one nearly right, or at a limit.
pub fn lines(random: &mut Random) -> Vec<Vec<u16>> {
    if random.once_in(32) {
        return limit(random).lines();
    }
    let most_frames = if random.once_in(16) { 400 } else { 40 };
    let shape = Shape::random(random, most_frames);
    let builder = circuit(random, shape);
    spoiled(random, &builder)
}

/// A circuit's frames: as they are, damaged, or with a last one nearly right.
pub fn spoiled(random: &mut Random, builder: &Builder) -> Vec<Vec<u16>> {
    match random.below(4) {
        0 | 1 => builder.lines(),
        2 => damaged_lines(random, builder),
        _ => {
            let mut lines = builder.lines();
            lines.push(near_frame(random, builder));
            lines
        }
    }
}

/// A buffer's length: mostly enough, now and then too short.
pub fn sheet(random: &mut Random, enough: usize) -> usize {
    match random.below(32) {
        0 => enough - 1,
        1 if random.once_in(4) => random.below(enough),
        2..=4 => enough + random.below(40),
        _ => enough,
    }
}

/// Shares, a tape or secrets: mostly of the right length, now and then with a byte over 1.
pub fn bits(random: &mut Random, right: usize) -> Vec<u8> {
    let count = match random.below(40) {
        0 => right + 1,
        1 => right.saturating_sub(1),
        2 if random.once_in(4) => random.below(100),
        _ => right,
    };
    let mut bits = random.bits(count);
    if count > 0 && random.once_in(24) {
        for _ in 0..random.within(1, 2) {
            let at = random.below(count);
            bits[at] = random.pick(&[2, 3, 128, 254, 255]);
        }
    }
    bits
}

/// None to many probes, now and then one that no wire has.
pub fn probes(random: &mut Random, made: &Circuit) -> Vec<u16> {
    let wires = made.wires.len();
    let count = match random.below(16) {
        0 => 0,
        1 => random.below(200),
        _ => random.within(1, 8),
    };
    let mut probes: Vec<u16> = (0..count).map(|_| random.below(wires.max(1)) as u16).collect();
    if count > 0 && random.once_in(16) {
        let at = random.below(count);
        probes[at] = random.pick(&[wires as u16, wires as u16 + 1, 8191, 8192, 0xFFFF]);
    }
    probes
}

/// Room for the text's words: ample, exact, one short, none, or past the limit.
fn text_table(random: &mut Random, words: usize) -> usize {
    match random.below(16) {
        0 => words.saturating_sub(1),
        1 => random.below(words + 1),
        2 => words,
        3..=5 => 8192 + random.below(50),
        6 if random.once_in(4) => random.below(4),
        _ => words.max(64) + random.below(20),
    }
}

/// Room for the table's lines: exact, one byte short, less, none, a little more, or enough for any table.
fn written(random: &mut Random, words: usize) -> usize {
    let exact = 5 * words;
    match random.below(16) {
        0 => exact.saturating_sub(1),
        1 => random.below(exact + 1),
        2 if random.once_in(4) => 0,
        3..=5 => exact + random.within(1, 40),
        6..=8 => 40_960 + random.below(50),
        _ => exact,
    }
}
