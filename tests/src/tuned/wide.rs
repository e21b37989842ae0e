//! Counts as fast as plain Rust has them here: 64 pairs in the bits of a word. The gates are written out once, those alone that
//! the read wires need, and a register is no gate.
use super::count::{Tally, Task};
use super::lanes::{Lanes, Words};
use super::{Refused, Sizes};

const ZEROS: u16 = 0;
const ONES: u16 = 1;
/// The first share's number; the shares and the tape come before the gates.
const FIRST: usize = 2;

pub fn count(
    table: &[u16],
    notes: &mut [u16],
    secrets: &[u8],
    probes: &[u16],
    counts: &mut [u32],
) -> Result<[usize; 3], Refused> {
    let task = Task::new(table, notes, secrets, probes, counts.len())?;
    let gates = Gates::new(table, &task);
    let mut tally = Tally::new(task.wires, task.bits);
    match task.bits {
        0..=5 => gates.all_pairs::<1>(&task, secrets, &mut tally),
        6 | 7 => gates.all_pairs::<2>(&task, secrets, &mut tally),
        _ => gates.all_pairs::<8>(&task, secrets, &mut tally),
    }
    Ok(task.answer(counts, |set, combination| tally.times(set, combination)))
}

/// Gates that give x·y + z, each of three earlier numbers; and the numbers of the read wires.
struct Gates {
    gates: Vec<[u16; 3]>,
    inputs: usize,
    read: Vec<u16>,
}

impl Gates {
    fn new(table: &[u16], task: &Task) -> Gates {
        let (d, inputs) = (task.found.d, task.found.inputs);
        let before = FIRST + d * inputs + task.found.randoms;
        let mut all = Gates { gates: Vec::new(), inputs: before, read: Vec::new() };
        let wires = all.expand(table, task);
        all.read = task.read().iter().map(|&wire| wires[usize::from(wire)]).collect();
        all.needed()
    }

    fn gate(&mut self, x: u16, y: u16, z: u16) -> u16 {
        self.gates.push([x, y, z]);
        (self.inputs + self.gates.len() - 1) as u16
    }

    fn sum(&mut self, x: u16, y: u16) -> u16 {
        self.gate(x, ONES, y)
    }

    /// The number of each wire.
    fn expand(&mut self, table: &[u16], task: &Task) -> Vec<u16> {
        let d = task.found.d;
        let (pairs, sizes) = (d * (d - 1) / 2, Sizes::new(d));
        let mut wires: Vec<u16> = Vec::with_capacity(task.found.wires);
        let mut share = FIRST as u16;
        let mut random = share + (d * task.found.inputs) as u16;
        let mut rest = &table[2..];
        while let [kind, ..] = *rest {
            let (words, after) = rest.split_at(usize::from(sizes.words[usize::from(kind)]));
            let named = |word: usize| wires[usize::from(words[word])];
            match kind {
                1 => {
                    wires.extend(share..share + d as u16);
                    share += d as u16;
                }
                2 => wires.push(words[2]),
                3 => wires.push(self.sum(named(1), named(2))),
                4 => wires.push(self.sum(named(1), ONES)),
                5 => wires.push(named(1)),
                6 | 7 => {
                    let row: Vec<u16> = (2..words.len()).map(named).collect();
                    match kind {
                        6 => self.and(d, &row, random, &mut wires),
                        _ => self.refresh(d, &row, random, &mut wires),
                    }
                    random += pairs as u16;
                }
                _ => (),
            }
            rest = after;
        }
        wires
    }

    fn and(&mut self, d: usize, row: &[u16], random: u16, wires: &mut Vec<u16>) {
        let (a, b) = row.split_at(d);
        wires.extend((0..(d * (d - 1)) as u16).map(|at| random + at / 2));
        let products: Vec<u16> = (0..d).map(|i| self.gate(a[i], b[i], ZEROS)).collect();
        (0..d).for_each(|i| wires.extend([b[i], products[i], products[i]]));
        let mut outputs = products;
        for i in 0..d {
            for j in (0..d).filter(|&j| j != i) {
                let r = random + pair(d, i.min(j), i.max(j));
                let u = self.gate(a[i], r, r);
                let v = self.sum(b[j], r);
                let w = self.gate(a[i], v, ZEROS);
                wires.extend([u, u, v, v, w, w]);
                let sum = self.sum(outputs[i], u);
                outputs[i] = self.sum(sum, w);
            }
        }
        wires.extend(outputs);
    }

    fn refresh(&mut self, d: usize, row: &[u16], random: u16, wires: &mut Vec<u16>) {
        wires.extend((0..(d * (d - 1) / 2) as u16).map(|at| random + at));
        let sum = |i: usize| {
            let others = (0..d).filter(move |&j| j != i);
            others.fold(row[i], |sum, j| self.sum(sum, random + pair(d, i.min(j), i.max(j))))
        };
        let sums: Vec<u16> = (0..d).map(sum).collect();
        wires.extend(sums.iter().chain(&sums));
    }

    /// Those alone that the read wires need, numbered anew.
    fn needed(self) -> Gates {
        let mut numbers = vec![0; self.inputs + self.gates.len()];
        self.read.iter().for_each(|&read| numbers[usize::from(read)] = 1);
        for (at, gate) in self.gates.iter().enumerate().rev() {
            if numbers[self.inputs + at] == 1 {
                gate.iter().for_each(|&from| numbers[usize::from(from)] = 1);
            }
        }
        (0..self.inputs).for_each(|at| numbers[at] = at as u16);
        let mut gates = Vec::new();
        for (at, gate) in self.gates.iter().enumerate() {
            if numbers[self.inputs + at] == 1 {
                numbers[self.inputs + at] = (self.inputs + gates.len()) as u16;
                gates.push(gate.map(|from| numbers[usize::from(from)]));
            }
        }
        let read = self.read.iter().map(|&read| numbers[usize::from(read)]).collect();
        Gates { gates, inputs: self.inputs, read }
    }

    /// Numbers the pairs by their free bits, and the set by the bit behind them; goes through them all, 64 · W a pass.
    fn all_pairs<const W: usize>(&self, task: &Task, secrets: &[u8], tally: &mut Tally) {
        let mut values = vec![Words::<W>::ZEROS; self.inputs + self.gates.len()];
        values[usize::from(ONES)] = Words::ONES;
        let (mut free, mut shares) = ([Words::<W>::ZEROS; 17], [Words::<W>::ZEROS; 32]);
        let words = (2usize << task.bits).div_ceil(64);
        for first in (0..words).step_by(W) {
            for (bit, lanes) in free.iter_mut().enumerate().take(task.bits + 1) {
                *lanes = pattern(bit, first);
            }
            let used = task.share(secrets, &free, &mut shares);
            let tape = FIRST + task.found.d * task.found.inputs;
            values[FIRST..tape].copy_from_slice(&shares[..tape - FIRST]);
            values[tape..self.inputs].copy_from_slice(&free[used..task.bits]);
            for (at, &[x, y, z]) in self.gates.iter().enumerate() {
                let value = |from: u16| values[usize::from(from)];
                values[self.inputs + at] = (value(x) & value(y)) ^ value(z);
            }
            for word in 0..W {
                let mut read = [0; 8];
                for (lanes, &number) in read.iter_mut().zip(&self.read) {
                    *lanes = values[usize::from(number)].0[word];
                }
                tally.add_word(first + word, &read[..self.read.len()]);
            }
        }
    }
}

/// The place of the pair i<j, by i, then j.
fn pair(d: usize, i: usize, j: usize) -> u16 {
    (i * (2 * d - i - 1) / 2 + j - i - 1) as u16
}

/// A bit of the pairs' numbers, in the words from `first` on.
#[inline(always)]
fn pattern<const W: usize>(bit: usize, first: usize) -> Words<W> {
    const LOW: [u64; 6] = [
        0xAAAA_AAAA_AAAA_AAAA,
        0xCCCC_CCCC_CCCC_CCCC,
        0xF0F0_F0F0_F0F0_F0F0,
        0xFF00_FF00_FF00_FF00,
        0xFFFF_0000_FFFF_0000,
        0xFFFF_FFFF_0000_0000,
    ];
    match LOW.get(bit) {
        Some(&lanes) => Words([lanes; W]),
        None => Words(std::array::from_fn(|at| {
            0u64.wrapping_sub(((first + at) >> (bit - 6) & 1) as u64)
        })),
    }
}
