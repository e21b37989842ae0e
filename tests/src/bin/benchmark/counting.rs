//! Times of count: the first program and the opponent, and beside them 64 pairs in a word and a loop over single evaluations.
use super::load::median;
use masked_tests::builder::Builder;
use masked_tests::calls::{Answer, Calls};
use masked_tests::generate::random::Random;
use masked_tests::generate::shuffled::with_gates;
use masked_tests::mask::masking::mask;
use masked_tests::mask::sbox::present;
use masked_tests::reference::check::{walk, Rules};
use masked_tests::reference::circuit::Circuit;
use masked_tests::reference::count::{free_bits, pairs};
use masked_tests::tuned::{count_wide, Tuned};
use std::hint::black_box;
use std::time::Instant;

/// The ways to count, in the order of the columns.
const WAYS: usize = 4;
/// Most evaluations of the loop that are timed; the time of all is told by their number.
const MOST_LOOPED: usize = 4096;
/// Microseconds of a turn where a call takes less, and of all turns of a cell.
const TURN: f64 = 300.0;
const CELL: f64 = 400_000.0;

/// A circuit with all that its count is given, and buffers.
struct Load {
    name: String,
    builder: Builder,
    circuit: Circuit,
    secrets: Vec<u8>,
    probes: Vec<u16>,
    read: Vec<usize>,
    notes: Vec<u16>,
    values: Vec<u8>,
    counts: Vec<u32>,
}

impl Load {
    /// The secret bits are all 0 in the first set, all 1 in the second.
    fn new(name: &str, builder: Builder, probes: Vec<u16>) -> Load {
        let (circuit, refusal) = walk(&builder.table, Rules::All);
        assert!(refusal.is_none(), "{name}: {refusal:?}");
        let mut load = Load {
            name: name.to_string(),
            secrets: [vec![0; circuit.inputs], vec![1; circuit.inputs]].concat(),
            read: Vec::new(),
            notes: vec![0; 16384],
            values: vec![0; 8192],
            counts: vec![0; 1024],
            builder,
            circuit,
            probes,
        };
        load.read = load.observed();
        load
    }

    fn observed(&mut self) -> Vec<usize> {
        let (shares, tape) = pairs(&self.circuit, &self.secrets).next().expect("a pair");
        let (table, mut reading) = (&self.builder.table, vec![0; 8192]);
        let (notes, values) = (&mut self.notes, &mut self.values);
        Tuned.read_probes(table, notes, &shares, &tape, values, &self.probes, &mut reading);
        (0..self.builder.wires()).filter(|&wire| reading[wire] != 2).collect()
    }

    fn call(&mut self, way: usize, subject: &dyn Calls) -> Answer {
        let Load { builder, secrets, probes, notes, counts, .. } = self;
        match way {
            0 => subject.count(&builder.table, notes, secrets, probes, counts),
            1 => Tuned.count(&builder.table, notes, secrets, probes, counts),
            _ => count_wide(&builder.table, notes, secrets, probes, counts),
        }
    }

    /// Microseconds of one count, from `times` in a row.
    fn time(&mut self, way: usize, subject: &dyn Calls, times: usize) -> f64 {
        if way == WAYS - 1 {
            return self.looped(subject, times);
        }
        let start = Instant::now();
        for _ in 0..times {
            assert_eq!(black_box(self.call(way, subject)).result, 0);
        }
        start.elapsed().as_secs_f64() * 1e6 / times as f64
    }

    /// Microseconds of a loop over single evaluations, a call for each pair of both sets, from `times` loops in a row: a loop of
    /// few evaluations that runs but once has not yet warmed up, which the count has.
    fn looped(&mut self, subject: &dyn Calls, times: usize) -> f64 {
        let all = 1 << free_bits(&self.circuit);
        let given: Vec<_> = pairs(&self.circuit, &self.secrets).take(MOST_LOOPED).collect();
        let mut tally = [0u32; 256];
        let start = Instant::now();
        for _ in 0..times {
            tally = [0; 256];
            for (shares, tape) in &given {
                let (table, notes) = (&self.builder.table, &mut self.notes);
                let answer = subject.evaluate(table, notes, shares, tape, &mut self.values);
                assert_eq!(black_box(answer).result, 0);
                let value = |wire: &usize| usize::from(self.values[*wire]);
                tally[self.read.iter().fold(0, |number, wire| 2 * number + value(wire))] += 1;
            }
        }
        let taken = start.elapsed().as_secs_f64() * 1e6 / times as f64;
        if given.len() == all {
            let first = self.counts.chunks(4).take(1 << self.read.len()).map(|row| row[0]);
            assert!(first.eq(tally[..1 << self.read.len()].iter().copied()), "{}", self.name);
        }
        taken * (2 * all) as f64 / given.len() as f64
    }

    /// The medians of all ways, which take turns.
    fn medians(&mut self, subject: &dyn Calls, rounds: usize) -> [f64; WAYS] {
        let once: [f64; WAYS] = std::array::from_fn(|way| self.time(way, subject, 1));
        let times = once.map(|once| (TURN / once).clamp(1.0, 1000.0) as usize);
        let turn = (0..WAYS - 1).map(|way| once[way] * times[way] as f64).fold(0.0, f64::max);
        let rounds = rounds.min((CELL / turn) as usize).max(3);
        let mut samples: [Vec<f64>; WAYS] = Default::default();
        for round in 0..rounds {
            // the loop, the longest of them, every eighth time
            for way in 0..WAYS - usize::from(round % 8 > 0) {
                samples[way].push(self.time(way, subject, times[way]));
            }
        }
        samples.map(median)
    }

    fn print(&mut self, subject: &dyn Calls, rounds: usize) {
        let [ours, theirs, wide, looped] = self.medians(subject, rounds);
        let (wires, bits) = (self.builder.wires(), free_bits(&self.circuit));
        println!(
            "{:<22}{wires:>6}{bits:>6}{:>6} {ours:>12.2}{theirs:>12.2}{:>7.2}{looped:>14.1}{:>8.1}{wide:>14.2}",
            self.name,
            self.read.len(),
            ours / theirs,
            looped / ours
        );
    }
}

/// Two secrets and their AND, its outputs registered; a probe on the first output.
fn product(d: usize) -> Load {
    let mut builder = Builder::new(d);
    let (a, b) = (builder.input(1), builder.input(0));
    let outputs = builder.and(&a, &b);
    builder.registers(&outputs);
    let name = if d == 2 { "circuit A".to_string() } else { format!("AND, d {d}") };
    Load::new(&name, builder, vec![outputs[0]])
}

/// The PRESENT S-box with two shares; probes on both shares of an output.
fn sbox() -> Load {
    let builder = mask(&present().netlist, 2).builder;
    let last = builder.wires() as u16 - 1;
    Load::new("PRESENT S-box, d 2", builder, vec![last - 1, last])
}

/// INs alone, 28 wires of two shares; eight of them are probed.
fn inputs() -> Load {
    let mut builder = Builder::new(2);
    let rows: Vec<Vec<u16>> = (0..14).map(|_| builder.input(0)).collect();
    let probes = rows.iter().take(8).map(|row| row[1]).collect();
    Load::new("14 INs, d 2", builder, probes)
}

/// INs and ANDs of two shares with so many free bits, and sums of all products; gives the last row.
fn sums(bits: usize) -> (Builder, Vec<u16>) {
    let mut builder = Builder::new(2);
    let inputs = 2 * bits.div_ceil(4);
    let rows: Vec<Vec<u16>> = (0..inputs).map(|at| builder.input((at + 1) % 2)).collect();
    let mut row: Vec<u16> = Vec::new();
    for at in 0..bits - inputs {
        let a = 2 * at % inputs;
        let product = builder.and(&rows[a], &rows[a + 1]);
        row = match row.is_empty() {
            true => product,
            false => builder.xors(&row, &product),
        };
    }
    (builder, row)
}

/// Such sums, then XOR, NOT and REG on them in rows up to a number of wires; the last six are registers, and probed.
fn filled(name: &str, bits: usize, wires: usize) -> Load {
    let (mut builder, mut row) = sums(bits);
    let mut before = row.clone();
    while builder.wires() + 12 <= wires {
        let sums = builder.xors(&row, &before);
        before = builder.nots(&row);
        row = sums;
        if builder.place(row[0]).stage < 200 && builder.wires().is_multiple_of(7) {
            before = builder.registers(&before);
            row = builder.registers(&row);
        }
    }
    probed(name, builder, &[row.clone(), before, row].concat())
}

/// Such sums, then XOR, NOT and REG in random order; registers on the last six are probed.
fn shuffled(name: &str, bits: usize, wires: usize) -> Load {
    let builder = with_gates(&mut Random::new(1), sums(bits).0, wires - 6);
    let last = builder.wires() as u16;
    probed(name, builder, &Vec::from_iter(last - 6..last))
}

/// ANDs of two shares in a chain, each multiplying the last by one secret: nearly all of the free bits are factors.
fn chain(bits: usize) -> Load {
    let mut builder = Builder::new(2);
    let (mut product, mut secret) = (builder.input(1), builder.input(0));
    for _ in 2..bits {
        product = builder.and(&product, &secret);
        secret = builder.registers(&secret);
    }
    Load::new(&format!("{bits} bits, AND chain"), builder, product)
}

/// A circuit with six registers at its end, which are probed.
fn probed(name: &str, mut builder: Builder, wires: &[u16]) -> Load {
    let probes = builder.registers(wires);
    Load::new(name, builder, probes)
}

/// A line for each circuit, then for growing numbers of free bits and of wires.
pub fn print(subject: &dyn Calls, rounds: usize) {
    println!("count: first program, opponent, ratio; single evaluations in a loop, by its first {MOST_LOOPED}, and how often the");
    println!(
        "first program's time they take; 64 pairs in a word, of the gates that the read wires need"
    );
    println!(
        "{:<22}{:>6}{:>6}{:>6} {:>12}{:>12}{:>7}{:>14}{:>8}{:>14}",
        "", "wires", "free", "read", "count", "opponent", "ratio", "loop", "times", "64 in a word"
    );
    let mut fixed = [product(2), product(3), product(4), sbox(), inputs()];
    fixed.iter_mut().for_each(|load| load.print(subject, rounds));
    println!("growth with the free bits");
    for bits in [4, 6, 8, 10, 12, 14, 15, 16] {
        filled(&format!("{bits} free bits"), bits, 300).print(subject, rounds);
    }
    println!("free bits that are factors");
    for bits in [8, 12, 16] {
        chain(bits).print(subject, rounds);
    }
    println!("growth with the wires");
    for wires in [100, 200, 400, 800, 1600, 3200] {
        filled(&format!("{wires} wires"), 8, wires).print(subject, rounds);
    }
    filled("3200 wires, 16 bits", 16, 3200).print(subject, rounds);
    println!("kinds in random order");
    for (bits, wires) in [(4, 300), (8, 300), (8, 3200), (12, 300)] {
        shuffled(&format!("{bits} bits, {wires} wires"), bits, wires).print(subject, rounds);
    }
}
