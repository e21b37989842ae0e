//! A run of clocks on one circuit: what each is fed, what the bank is given before it, and how much of the buffers is lent.
use super::case::{bits, sheet};
use super::random::Random;
use crate::reference::circuit::Circuit;
use crate::reference::clock::registers;
use crate::reference::MOST_WIRES;

/// Bytes of the values and of the bank; a step is lent the first of them, more or fewer.
pub const ROOM: usize = MOST_WIRES + 40;

pub struct Clocking {
    /// The circuit's wires that are no registers.
    pub others: Vec<usize>,
    /// The bank before the first step.
    pub bank: Vec<u8>,
    pub steps: Vec<Step>,
}

#[derive(Debug)]
pub struct Step {
    pub shares: Vec<u8>,
    pub tape: Vec<u8>,
    /// Wires whose bytes of the bank somebody writes before the step.
    pub put: Vec<(usize, u8)>,
    /// How many bytes of the values and of the bank are lent.
    pub values: usize,
    pub bank: usize,
}

/// The run that the random numbers give for an accepted circuit; one step for what a refused table has made.
pub fn clocking(random: &mut Random, made: &Circuit, accepted: bool) -> Clocking {
    let registers: Vec<usize> = registers(made).map(|(register, _)| register).collect();
    let others: Vec<usize> =
        (0..made.wires.len()).filter(|wire| registers.binary_search(wire).is_err()).collect();
    let mut over = Vec::new();
    let bank = bank(random, &registers, &mut over);
    // at times many; fewer where the circuit is large, since the reference takes long
    let steps = match made.wires.len() {
        _ if !accepted => 1,
        0..=299 if random.once_in(64) => random.within(20, 60),
        0..=299 => random.within(1, 6),
        300..=999 => random.within(1, 3),
        _ => random.within(1, 2),
    };
    let steps = (0..steps).map(|_| step(random, made, &registers, &others, &mut over)).collect();
    Clocking { others, bank, steps }
}

/// A bank of junk, mostly with 0 or random bits at the registers; at times of 0 or random bits alone. `over` gets the registers
/// whose bytes may be over 1.
fn bank(random: &mut Random, registers: &[usize], over: &mut Vec<usize>) -> Vec<u8> {
    let mut bank = random.bytes(ROOM);
    match random.below(8) {
        0 => bank.fill(0),
        1 => bank = random.bits(ROOM),
        2 => over.extend(registers),
        3 | 4 => registers.iter().for_each(|&wire| bank[wire] = 0),
        _ => registers.iter().for_each(|&wire| bank[wire] %= 2),
    }
    bank
}

/// One step, fed right or wrong. A byte over 1 that the last one left at a register is mostly made a bit again.
fn step(
    random: &mut Random,
    made: &Circuit,
    registers: &[usize],
    others: &[usize],
    over: &mut Vec<usize>,
) -> Step {
    let mut put = Vec::new();
    if !random.once_in(4) {
        put.extend(over.drain(..).map(|wire| (wire, random.below(2) as u8)));
    }
    if !registers.is_empty() && random.once_in(8) {
        for _ in 0..random.within(1, 3) {
            let wire = random.pick(registers);
            put.push((wire, random.pick(&[2, 3, 128, 254, 255])));
            over.push(wire);
        }
    }
    if !others.is_empty() && random.once_in(4) {
        put.push((random.pick(others), random.within(2, 255) as u8));
    }
    Step {
        shares: bits(random, made.d * made.inputs),
        tape: bits(random, made.randoms),
        put,
        values: sheet(random, MOST_WIRES),
        bank: sheet(random, MOST_WIRES),
    }
}
