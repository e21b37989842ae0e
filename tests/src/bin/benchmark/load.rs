//! What a line of the benchmark calls: one circuit, or several by turns, with all that the calls are given; and their times.
use masked_tests::builder::Builder;
use masked_tests::calls::{Answer, Calls, NAMES};
use masked_tests::generate::random::Random;
use masked_tests::tuned::Tuned;
use std::hint::black_box;
use std::time::Instant;

/// Numbers of calls in NAMES.
pub const CHECK: usize = 0;
pub const READ_PROBES: usize = 2;
pub const READ_TEXT: usize = 3;
pub const CLOCK: usize = 6;
pub const CHECK_SHARINGS: usize = 7;

/// A circuit and what its calls are given.
pub struct Load {
    pub builder: Builder,
    text: String,
    shares: Vec<u8>,
    tape: Vec<u8>,
    pub probes: Vec<u16>,
    /// The rules that refuse the table and its text; 0 where they are accepted.
    rule: u64,
    text_rule: u64,
    /// The answer of check_sharings.
    pub sharings: Answer,
}

impl Load {
    /// An accepted circuit; probes the last d-1 wires.
    pub fn new(random: &mut Random, builder: Builder) -> Load {
        Load::refused(random, builder, 0, 0)
    }

    /// A circuit with the rules that refuse its table and its text.
    pub fn refused(random: &mut Random, builder: Builder, rule: u64, text_rule: u64) -> Load {
        let wires = builder.wires();
        assert!(wires <= 8192 && builder.table.len() <= 8192 && wires > 8);
        Load {
            text: builder.text(),
            shares: random.bits(builder.inputs * builder.d),
            tape: random.bits(builder.randoms),
            probes: (wires + 1 - builder.d..wires).map(|wire| wire as u16).collect(),
            rule,
            text_rule,
            sharings: Tuned.check_sharings(&builder.table, &mut vec![0; 16384]),
            builder,
        }
    }

    /// What the call has to answer.
    fn wanted(&self, call: usize) -> u64 {
        match call {
            READ_TEXT => self.text_rule,
            CHECK_SHARINGS => self.sharings.result,
            _ => self.rule,
        }
    }

    fn call(&self, call: usize, calls: &dyn Calls, buffers: &mut Buffers) -> Answer {
        let Load { builder, shares, tape, probes, .. } = self;
        let Buffers { notes, values, reading, bank, table, text } = buffers;
        let given = &builder.table;
        match call {
            CHECK => calls.check(given, notes),
            1 => calls.evaluate(given, notes, shares, tape, values),
            READ_PROBES => calls.read_probes(given, notes, shares, tape, values, probes, reading),
            READ_TEXT => calls.read_text(self.text.as_bytes(), table),
            4 => calls.write_text(given, notes, text),
            CLOCK => calls.clock(given, notes, shares, tape, values, bank),
            CHECK_SHARINGS => calls.check_sharings(given, notes),
            _ => unreachable!("{} is timed by itself", NAMES[call]),
        }
    }
}

/// The buffers of all calls; the bank holds what the last clock left, of either program.
pub struct Buffers {
    notes: Vec<u16>,
    values: Vec<u8>,
    reading: Vec<u8>,
    bank: Vec<u8>,
    table: Vec<u16>,
    text: Vec<u8>,
}

impl Buffers {
    pub fn new() -> Buffers {
        Buffers {
            notes: vec![0; 16384],
            values: vec![0; 8192],
            reading: vec![0; 8192],
            bank: vec![0; 8192],
            table: vec![0; 8192],
            text: vec![0; 40_960],
        }
    }
}

/// A line: circuits that are called one after the other, mostly one.
pub struct Line {
    pub name: String,
    pub loads: Vec<Load>,
}

impl Line {
    pub fn new(random: &mut Random, name: &str, builder: Builder) -> Line {
        Line { name: name.to_string(), loads: vec![Load::new(random, builder)] }
    }

    /// Words and wires of a circuit, in the mean.
    pub fn sizes(&self) -> [usize; 2] {
        let mean = |size: fn(&Builder) -> usize| {
            self.loads.iter().map(|load| size(&load.builder)).sum::<usize>() / self.loads.len()
        };
        [mean(|builder| builder.table.len()), mean(Builder::wires)]
    }

    /// Microseconds of one call, from `turns` over all circuits.
    fn time(&self, call: usize, calls: &dyn Calls, turns: usize, buffers: &mut Buffers) -> f64 {
        let start = Instant::now();
        for _ in 0..turns {
            for load in &self.loads {
                let answer = black_box(load.call(call, calls, buffers));
                assert_eq!(answer.result, load.wanted(call), "{}, {}", self.name, NAMES[call]);
            }
        }
        start.elapsed().as_secs_f64() * 1e6 / (turns * self.loads.len()) as f64
    }

    /// How many turns take a third of a millisecond: that is short beside the swings of a machine's clock.
    fn turns(&self, call: usize, subject: &dyn Calls, buffers: &mut Buffers) -> usize {
        let once = self.time(call, subject, 3, buffers).max(0.1) * self.loads.len() as f64;
        (300.0 / once).clamp(1.0, 5_000.0) as usize
    }
}

/// The medians of both programs for each line. All lines and both programs take turns, so that they meet the same swings.
pub fn medians(lines: &[Line], call: usize, subject: &dyn Calls, rounds: usize) -> Vec<(f64, f64)> {
    let buffers = &mut Buffers::new();
    let turns: Vec<usize> = lines.iter().map(|line| line.turns(call, subject, buffers)).collect();
    let mut samples = vec![(Vec::new(), Vec::new()); lines.len()];
    for _ in 0..rounds {
        for ((line, (ours, theirs)), &turns) in lines.iter().zip(&mut samples).zip(&turns) {
            ours.push(line.time(call, subject, turns, buffers));
            theirs.push(line.time(call, &Tuned, turns, buffers));
        }
    }
    samples.into_iter().map(|(ours, theirs)| (median(ours), median(theirs))).collect()
}

pub fn median(mut times: Vec<f64>) -> f64 {
    times.sort_by(f64::total_cmp);
    times[times.len() / 2]
}
