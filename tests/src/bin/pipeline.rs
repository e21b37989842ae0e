//! The pipeline run clock by clock: on random circuits every wire of stage s shows on clock set + s what a single evaluation of
//! that set gives, from a bank of 0 and from any other bits; and the masked S-boxes with a new input on each clock.
use masked_tests::builder::Builder;
use masked_tests::calls::Calls;
use masked_tests::generate::circuit::{circuit, Shape};
use masked_tests::generate::random::Random;
use masked_tests::mask::masking::mask;
use masked_tests::mask::sbox::{aes, high_first, number, present, Sbox};
use masked_tests::options;
use masked_tests::reference::check::{walk, Rules};
use masked_tests::reference::circuit::Circuit;
use masked_tests::reference::clock::registers;
use masked_tests::sets::{Feed, Stages};
use masked_tests::subject::subject;
use std::process::exit;

/// An accepted table with its buffers.
struct Pipeline<'a> {
    calls: &'a dyn Calls,
    table: Vec<u16>,
    notes: Vec<u16>,
    values: Vec<u8>,
    bank: Vec<u8>,
}

impl Pipeline<'_> {
    fn new(calls: &dyn Calls, table: Vec<u16>, bank: Vec<u8>) -> Pipeline<'_> {
        Pipeline { calls, table, notes: vec![0; 16384], values: vec![9; 8192], bank }
    }

    fn clock(&mut self, feed: &Feed) -> Result<(), String> {
        let Pipeline { calls, table, notes, values, bank } = self;
        match calls.clock(table, notes, &feed.shares, &feed.tape, values, bank).result {
            0 => Ok(()),
            rule => Err(format!("a clock is refused {rule}")),
        }
    }

    /// A step that is refused: by a length, a buffer too short, or a byte over 1. It must leave values and bank as they are.
    fn refused(&mut self, random: &mut Random, feed: &Feed, held: &[usize]) -> Result<(), String> {
        let (mut shares, mut tape) = (feed.shares.clone(), feed.tape.clone());
        let (mut lent, mut lent_bank) = (8192, 8192);
        let spoil = |random: &mut Random, bytes: &mut Vec<u8>| match random.below(bytes.len() + 1) {
            0 => bytes.push(1),
            at => bytes[at - 1] = 2,
        };
        let register = held.get(random.below(held.len().max(1))).copied();
        match random.below(5) {
            0 => spoil(random, &mut shares),
            1 => spoil(random, &mut tape),
            2 => lent = 8191,
            3 => lent_bank = 8191,
            _ => match register {
                Some(wire) => self.bank[wire] |= 2,
                None => lent = 0,
            },
        }
        let before = (self.values.clone(), self.bank.clone());
        let Pipeline { calls, table, notes, values, bank } = self;
        let (values, bank) = (&mut values[..lent], &mut bank[..lent_bank]);
        let rule = calls.clock(table, notes, &shares, &tape, values, bank).result;
        if !(15..=18).contains(&rule) || (&before.0, &before.1) != (&self.values, &self.bank) {
            return Err(format!("a step to be refused gave {rule}, or changed values or bank"));
        }
        held.iter().for_each(|&wire| self.bank[wire] &= 1);
        Ok(())
    }
}

/// What was run and compared.
#[derive(Default)]
struct Tally {
    by_shares: [u64; 9],
    from_zero: u64,
    clocks: u64,
    refused: u64,
    sets: u64,
    wires: u64,
    inner: u64,
    outs: u64,
    last_stage: usize,
    /// Sets that differ where shares, or random bits, are taken from the next clock.
    late: [u64; 2],
}

impl Tally {
    /// Runs one circuit, and holds every set that fits to its single evaluation.
    fn take(&mut self, calls: &dyn Calls, random: &mut Random) -> Result<(), String> {
        let shape = Shape { frames: random.within(4, 60), ..Shape::random(random, 1) };
        let builder = circuit(random, shape);
        let (circuit, refusal) = walk(&builder.table, Rules::All);
        assert!(refusal.is_none());
        let stages = Stages::of(&circuit);
        let clocks = stages.last() + random.within(2, 6);
        let feeds: Vec<Feed> = (0..clocks).map(|_| Feed::random(random, &circuit)).collect();
        let shown = self.run(calls, random, &builder, &circuit, &feeds)?;
        for set in 0..clocks - stages.last() {
            let (shares, tape) = stages.gathered(set, &feeds);
            let single = evaluated(calls, &builder, &shares, &tape)?;
            for (wire, &stage) in stages.wires.iter().enumerate() {
                let (got, wanted) = (shown[set + stage][wire], single[wire]);
                if got != wanted {
                    let clock = set + stage;
                    return Err(format!(
                        "set {set}, wire {wire}, clock {clock}: {got}, single {wanted}"
                    ));
                }
            }
            self.sets += 1;
        }
        self.late(calls, &builder, &stages, &feeds, &shown)?;
        self.note(&circuit, &stages, clocks);
        Ok(())
    }

    /// The values on each clock, with refused steps between; from a bank of 0, or of bits and junk where no register is.
    fn run(
        &mut self,
        calls: &dyn Calls,
        random: &mut Random,
        builder: &Builder,
        circuit: &Circuit,
        feeds: &[Feed],
    ) -> Result<Vec<Vec<u8>>, String> {
        let held: Vec<usize> = registers(circuit).map(|(register, _)| register).collect();
        let from_zero = random.once_in(2);
        let mut bank = if from_zero { vec![0; 8192] } else { random.bytes(8192) };
        held.iter().for_each(|&wire| bank[wire] &= 1);
        self.from_zero += u64::from(from_zero);
        let mut pipeline = Pipeline::new(calls, builder.table.clone(), bank);
        let mut shown = Vec::new();
        for feed in feeds {
            while random.once_in(6) {
                pipeline.refused(random, feed, &held)?;
                self.refused += 1;
            }
            pipeline.clock(feed)?;
            shown.push(pipeline.values[..circuit.wires.len()].to_vec());
        }
        Ok(shown)
    }

    /// Counts where set 0, gathered wrongly, does not fit: if it always did, the comparison would say nothing.
    fn late(
        &mut self,
        calls: &dyn Calls,
        builder: &Builder,
        stages: &Stages,
        feeds: &[Feed],
        shown: &[Vec<u8>],
    ) -> Result<(), String> {
        for (met, (shares, tape)) in self.late.iter_mut().zip([(1, 0), (0, 1)]) {
            let (shares, tape) = stages.gathered_late(0, feeds, shares, tape);
            let single = evaluated(calls, builder, &shares, &tape)?;
            let mut wires = stages.wires.iter().enumerate();
            *met += u64::from(wires.any(|(wire, &stage)| shown[stage][wire] != single[wire]));
        }
        Ok(())
    }

    fn note(&mut self, circuit: &Circuit, stages: &Stages, clocks: usize) {
        let sets = (clocks - stages.last()) as u64;
        let inner = circuit.wires.iter().filter(|wire| wire.place.is_none()).count();
        let outs = circuit.frames.iter().filter(|words| words[0] == 8).count();
        self.by_shares[circuit.d] += 1;
        self.clocks += clocks as u64;
        self.wires += sets * circuit.wires.len() as u64;
        self.inner += sets * inner as u64;
        self.outs += sets * (outs * circuit.d) as u64;
        self.last_stage = self.last_stage.max(stages.last());
    }

    /// Prints what was met; gives how much of it never was.
    fn print(&self) -> usize {
        let circuits: u64 = self.by_shares.iter().sum();
        let Tally { from_zero, clocks, refused, sets, wires, inner, outs, last_stage, .. } = self;
        let shares: Vec<String> = (2..9).map(|d| format!("d {d}: {}", self.by_shares[d])).collect();
        println!("circuits: {}; {from_zero} from a bank of 0", shares.join(", "));
        println!(
            "{clocks} clocks, the highest stage {last_stage}; refused steps between: {refused}"
        );
        println!(
            "{sets} sets, {wires} wires of them, {inner} inner, {outs} of OUTs: as evaluated alone"
        );
        let [shares, tape] = self.late;
        println!(
            "sets that do not fit with shares a clock late: {shares}, with random bits: {tape}"
        );
        let any = [*from_zero, circuits - from_zero, *refused, *inner, *outs, shares, tape];
        any.iter().chain(&self.by_shares[2..]).filter(|&&times| times == 0).count()
    }
}

/// The values of a single evaluation.
fn evaluated(
    calls: &dyn Calls,
    builder: &Builder,
    shares: &[u8],
    tape: &[u8],
) -> Result<Vec<u8>, String> {
    let (mut notes, mut values) = (vec![0; 16384], vec![9; 8192]);
    match calls.evaluate(&builder.table, &mut notes, shares, tape, &mut values).result {
        0 => Ok(values),
        rule => Err(format!("a single evaluation is refused {rule}")),
    }
}

/// A masked S-box with a new random input on each clock; gives how many outputs were wrong.
fn sbox(calls: &dyn Calls, random: &mut Random, sbox: &Sbox, d: usize, clocks: usize) -> usize {
    let masked = mask(&sbox.netlist, d);
    let builder = &masked.builder;
    let latency = builder.place(masked.outputs[0][0]).stage;
    let mut pipeline = Pipeline::new(calls, builder.table.clone(), vec![0; 8192]);
    let inputs: Vec<usize> = (0..clocks).map(|_| random.below(sbox.table.len())).collect();
    let mut wrong = 0;
    for (clock, &input) in inputs.iter().enumerate() {
        let shares = random.sharing(&high_first(input, sbox.bits), d);
        let tape = random.bits(builder.randoms);
        let stepped = pipeline.clock(&Feed { shares, tape }).is_ok();
        let add = |row: &Vec<u16>| {
            row.iter().fold(0, |sum, &wire| sum ^ pipeline.values[usize::from(wire)])
        };
        let bits: Vec<u8> = masked.outputs.iter().map(add).collect();
        let fits =
            clock < latency || number(&bits) == usize::from(sbox.table[inputs[clock - latency]]);
        wrong += usize::from(!stepped || !fits);
    }
    println!(
        "{} d {d}: latency {latency}, {clocks} clocks with an input each, {} outputs, {wrong} wrong",
        sbox.name,
        clocks.saturating_sub(latency)
    );
    wrong
}

fn main() {
    options::only(&["seed", "count", "first", "clocks"]);
    let seed = options::number("seed", 1);
    let count = options::number("count", 1000);
    let first = options::number("first", 0);
    let clocks = options::number("clocks", 1000) as usize;
    let (calls, name) = subject();
    println!("pipeline: through {name}, {count} circuits, seed {seed}");
    let (mut tally, mut failed) = (Tally::default(), 0);
    for number in first..first + count {
        if let Err(what) = tally.take(calls.as_ref(), &mut Random::of_case(seed, number)) {
            failed += 1;
            println!("pipeline: seed {seed} circuit {number} failed: {what}");
        }
    }
    let missing = tally.print();
    let random = &mut Random::new(seed);
    for (masked, d) in [(present(), 2), (present(), 3), (aes(), 2)] {
        failed += u64::from(sbox(calls.as_ref(), random, &masked, d, clocks) > 0);
    }
    println!("pipeline: {} passed, {failed} failed", count + 3 - failed);
    if missing > 0 && count >= 1000 {
        println!("pipeline: {missing} of the numbers above are 0");
    }
    if failed > 0 || (missing > 0 && count >= 1000) {
        exit(1);
    }
}
