//! What a count is given: circuits whose pairs are soon gone through, and now and then one with as many as are counted.
use super::case::{bits, lines, probes, sheet, spoiled};
use super::circuit::{circuit, Inputs, Shape};
use super::damage::noise;
use super::random::Random;
use crate::reference::check::{walk, Rules};
use crate::reference::circuit::Circuit;
use crate::reference::count::free_bits;
use crate::reference::COUNTS_NUMBERS;

pub struct Counting {
    pub table: Vec<u16>,
    pub secrets: Vec<u8>,
    pub probes: Vec<u16>,
    /// Length of the counts buffer.
    pub counts: usize,
}

/// The count that the random numbers give.
pub fn counting(random: &mut Random) -> Counting {
    let (table, made) = table(random);
    Counting {
        secrets: bits(random, 2 * made.inputs),
        probes: if random.once_in(2) { few_probes(random, &made) } else { probes(random, &made) },
        counts: sheet(random, COUNTS_NUMBERS),
        table,
    }
}

/// A table, and what it makes up to where it may be refused. Seldom one with 11 to 17 free bits, since it takes long.
fn table(random: &mut Random) -> (Vec<u16>, Circuit) {
    let long = random.once_in(64);
    loop {
        let table = match random.below(32) {
            _ if long => small(random, 14, 30).concat(),
            0 => noise(random),
            1..=7 => lines(random).concat(),
            _ => small(random, 2, 16).concat(),
        };
        let (made, _) = walk(&table, Rules::All);
        if fits(&made, long) {
            return (table, made);
        }
    }
}

/// Whether a circuit takes as long as wanted, by its free bits and wires.
fn fits(made: &Circuit, long: bool) -> bool {
    match made.wires.len() {
        0 => !long,
        wires => match free_bits(made) {
            0..=10 => !long && wires << free_bits(made) < 1 << 18,
            11..=17 => long && wires < 200,
            _ => !long,
        },
    }
}

/// Frames with few shares and random bits, valid or not.
fn small(random: &mut Random, least: usize, most: usize) -> Vec<Vec<u16>> {
    let shape = Shape {
        d: random.pick(&[2, 2, 2, 2, 3, 3, 3, 4, 4, 5, 6, 7, 8]),
        most_free_bits: random.within(least, most),
        inputs: Inputs::Beside,
        ..Shape::random(random, 40)
    };
    let builder = circuit(random, shape);
    spoiled(random, &builder)
}

/// Fewer than d probes, all on wires of the circuit.
fn few_probes(random: &mut Random, made: &Circuit) -> Vec<u16> {
    match made.wires.len() {
        0 => Vec::new(),
        wires => (0..random.within(1, made.d - 1)).map(|_| random.below(wires) as u16).collect(),
    }
}
