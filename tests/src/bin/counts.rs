//! Counts all sharings and tapes of small circuits: equal for accepted ones, not for broken ones.
use masked_tests::builder::Builder;
use masked_tests::generate::circuit::{circuit, Inputs, Shape};
use masked_tests::generate::probes::probe_sets;
use masked_tests::generate::random::Random;
use masked_tests::options;
use masked_tests::reference::check::{walk, Rules};
use masked_tests::reference::circuit::{Circuit, Source};
use masked_tests::reference::count::{difference, free_bits, outcomes, Difference};
use std::process::exit;

/// Most shares and random bits of a circuit that is counted.
const MOST_BITS: usize = 16;

#[derive(Default)]
struct Tally {
    passed: usize,
    failed: usize,
    sets: usize,
    broken: usize,
    leaks: usize,
}

impl Tally {
    fn note(&mut self, good: bool, what: &str) {
        if good {
            self.passed += 1;
        } else {
            self.failed += 1;
            println!("counts: failed: {what}");
        }
    }

    /// An accepted circuit: no set of fewer than d probes tells two sets of secrets apart.
    fn equal(&mut self, random: &mut Random, name: &str, builder: &Builder, most_sets: usize) {
        let (circuit, refusal) = walk(&builder.table, Rules::All);
        assert!(refusal.is_none(), "{name} is accepted: {refusal:?}\n{}", builder.text());
        assert!(circuit.inputs + free_bits(&circuit) <= MOST_BITS);
        let outcomes = outcomes(&circuit);
        let sets = probe_sets(random, circuit.wires.len(), circuit.d, most_sets);
        self.sets += sets.len();
        let found = sets.iter().find_map(|set| difference(&circuit, &outcomes, set));
        let good = found.is_none();
        self.note(good, &format!("{name}: counts differ, {found:?}\n{}", builder.text()));
    }
}

/// A set of fewer than d probes that tells two sets of secrets apart, if the search meets one.
fn leak(random: &mut Random, circuit: &Circuit, most_sets: usize) -> Option<Difference> {
    let outcomes = outcomes(circuit);
    let sets = probe_sets(random, circuit.wires.len(), circuit.d, most_sets);
    sets.iter().find_map(|set| difference(circuit, &outcomes, set))
}

/// IN at stages 1 and 0 and their AND, its outputs registered.
fn and(d: usize) -> Builder {
    let mut builder = Builder::new(d);
    let (a, b) = (builder.input(1), builder.input(0));
    let product = builder.and(&a, &b);
    let output = builder.registers(&product);
    builder.output(&output);
    builder
}

/// A secret times its own delayed shares.
fn square(d: usize) -> Builder {
    let mut builder = Builder::new(d);
    let b = builder.input(0);
    let a = builder.registers(&b);
    let product = builder.and(&a, &b);
    let output = builder.registers(&product);
    builder.output(&output);
    builder
}

fn refresh(d: usize) -> Builder {
    let mut builder = Builder::new(d);
    let row = builder.input(0);
    let output = builder.refresh(&row);
    builder.output(&output);
    builder
}

/// a·(a·b), the inner product one clock before: two gadgets on the same shares.
fn chain(d: usize) -> Builder {
    let mut builder = Builder::new(d);
    let (a, b) = (builder.input(1), builder.input(0));
    let product = builder.and(&a, &b);
    let second = builder.and(&product, &a);
    let sum: Vec<u16> = second.iter().map(|&wire| builder.xor(wire, wire)).collect();
    let output = builder.registers(&sum);
    builder.output(&output);
    builder
}

fn accepted(tally: &mut Tally, random: &mut Random, count: usize) {
    for (d, most_sets) in [(2, 5000), (3, 5000), (4, 1500)] {
        tally.equal(random, &format!("AND d {d}"), &and(d), most_sets);
        tally.equal(random, &format!("AND of one secret d {d}"), &square(d), most_sets);
    }
    for (d, most_sets) in [(2, 5000), (3, 5000), (4, 5000), (5, 1500)] {
        tally.equal(random, &format!("REF d {d}"), &refresh(d), most_sets);
    }
    tally.equal(random, "AND after AND d 2", &chain(2), 5000);
    tally.equal(random, "AND after AND d 3", &chain(3), 5000);
    println!("counts: {} fixed circuits, {} sets of probes", tally.passed, tally.sets);
    for number in 0..count {
        let shape = Shape {
            d: random.pick(&[2, 2, 2, 3, 3, 3, 4, 5, 6]),
            frames: random.within(4, 30),
            first_stage: random.below(2),
            inputs: Inputs::Beside,
            most_free_bits: 12,
        };
        let builder = circuit(random, shape);
        if builder.wires() > 0 {
            tally.equal(random, &format!("random circuit {number}"), &builder, 400);
        }
    }
}

/// The shares 0 and 1 of one secret joined: the joint and the other shares are d-1 probes.
fn joined_shares(tally: &mut Tally, d: usize) {
    let mut builder = Builder::new(d);
    let row = builder.input(0);
    let joint = builder.xor(row[0], row[1]);
    let refused = walk(&builder.table, Rules::All).1;
    tally.note(refused.is_some_and(|r| r.rule == 10), "joined shares are refused by rule 10");
    let (circuit, _) = walk(&builder.table, Rules::WithoutXorLabel);
    let probes: Vec<u16> = row[2..].iter().copied().chain([joint]).collect();
    let found = difference(&circuit, &outcomes(&circuit), &probes);
    tally.note(found.is_some(), &format!("joined shares with d {d}: counts are equal"));
}

/// Random circuits with one XOR across two labels.
fn joined_at_random(tally: &mut Tally, random: &mut Random, count: usize) {
    for _ in 0..count {
        let shape = Shape {
            d: random.within(2, 3),
            frames: random.within(4, 16),
            first_stage: 0,
            inputs: Inputs::Beside,
            most_free_bits: 10,
        };
        let mut builder = circuit(random, shape);
        let open: Vec<u16> = (0..builder.wires() as u16)
            .filter(|&wire| builder.places[usize::from(wire)].is_some())
            .collect();
        if open.is_empty() {
            continue;
        }
        let (x, y) = (random.pick(&open), random.pick(&open));
        let (place, other) = (builder.place(x), builder.place(y));
        if place.label == other.label || place.stage != other.stage {
            continue;
        }
        builder.xor(x, y);
        let (circuit, refusal) = walk(&builder.table, Rules::WithoutXorLabel);
        assert!(refusal.is_none());
        tally.broken += 1;
        tally.leaks += usize::from(leak(random, &circuit, 2000).is_some());
    }
}

/// The slip of letting u feed the output straight, with no register between.
fn without_register_of_u(tally: &mut Tally, random: &mut Random, d: usize) {
    let (mut circuit, _) = walk(&and(d).table, Rules::All);
    let old = circuit.wires.clone();
    for wire in &mut circuit.wires {
        let Source::Sum(terms) = &mut wire.source else { continue };
        for term in terms {
            if let Source::Register(from) = old[*term].source {
                if matches!(old[from].source, Source::NotProduct(..)) {
                    *term = from;
                }
            }
        }
    }
    let found = leak(random, &circuit, 5000);
    tally.note(found.is_some(), &format!("AND with u not registered, d {d}: counts are equal"));
}

fn main() {
    options::only(&["seed", "count"]);
    let random = &mut Random::new(options::number("seed", 1));
    let count = options::number("count", 400) as usize;
    let mut tally = Tally::default();
    accepted(&mut tally, random, count);
    println!("counts: {} accepted circuits, {} sets of probes", tally.passed, tally.sets);
    for d in 2..=8 {
        joined_shares(&mut tally, d);
    }
    for d in 2..=3 {
        without_register_of_u(&mut tally, random, d);
    }
    joined_at_random(&mut tally, random, count);
    let (broken, leaks) = (tally.broken, tally.leaks);
    println!("counts: {leaks} of {broken} random circuits with labels joined have unequal counts");
    tally.note(leaks > 0, "no random circuit with labels joined had unequal counts");
    println!("counts: {} passed, {} failed", tally.passed, tally.failed);
    if tally.failed > 0 {
        exit(1);
    }
}
