//! Times of read_probes by the probes: none, eight wires spread over the circuit, all wires.
use super::load::{medians, Line, READ_PROBES};
use super::rows::{gates, inputs, products, refreshes};
use masked_tests::builder::Builder;
use masked_tests::calls::Calls;
use masked_tests::generate::random::Random;
use masked_tests::generate::shuffled::{shuffled, ALL_KINDS, GATES};
use masked_tests::mask::masking::mask;
use masked_tests::mask::sbox::{aes, present};

const SETS: [&str; 3] = ["none", "8 spread", "all wires"];

/// The probes of a set.
fn probes(set: usize, wires: usize) -> Vec<u16> {
    let probe = |wire: usize| wire as u16;
    match set {
        0 => Vec::new(),
        1 => (1..=8).map(|part| probe(wires * part / 8 - 1)).collect(),
        _ => (0..wires).map(probe).collect(),
    }
}

fn circuits(random: &mut Random) -> Vec<(String, Builder)> {
    let mut circuits = vec![
        ("AES S-box, d 4".to_string(), mask(&aes().netlist, 4).builder),
        ("PRESENT S-box, d 8".to_string(), mask(&present().netlist, 8).builder),
    ];
    for d in [2, 8] {
        circuits.push((format!("gates, d {d}"), gates(d, 8192)));
        circuits.push((format!("gates shuffled, d {d}"), shuffled(random, d, &GATES, 8190)));
        circuits.push((format!("AND chain, d {d}"), products(d, 8192)));
        circuits.push((format!("REF chain, d {d}"), refreshes(d, 8192)));
        circuits.push((format!("IN rows, d {d}"), inputs(d, 8192)));
    }
    for d in [2, 3] {
        circuits.push((format!("all kinds mixed, d {d}"), shuffled(random, d, &ALL_KINDS, 8190)));
    }
    circuits
}

/// A line for each circuit: of each set of probes both medians and their ratio.
pub fn print(random: &mut Random, subject: &dyn Calls, rounds: usize) {
    println!("read_probes by the probes: first program, opponent, ratio");
    let names = SETS.map(|name| format!("{name:>23}")).concat();
    println!("{:<26}{:>6}{:>6} {names}", "", "words", "wires");
    let mut lines: Vec<Line> = circuits(random)
        .into_iter()
        .map(|(name, builder)| Line::new(random, &name, builder))
        .collect();
    let sets = [0, 1, 2].map(|set| {
        for line in &mut lines {
            let [_, wires] = line.sizes();
            line.loads[0].probes = probes(set, wires);
        }
        medians(&lines, READ_PROBES, subject, rounds)
    });
    for (i, line) in lines.iter().enumerate() {
        let [words, wires] = line.sizes();
        print!("{:<26}{words:>6}{wires:>6} ", line.name);
        for set in &sets {
            let (ours, theirs) = set[i];
            print!("{ours:>9.2}{theirs:>8.2}{:>6.2}", ours / theirs);
        }
        println!();
    }
}
