//! A line for each circuit: of each call both medians and their ratio; then lines by size, and clocks a second.
use super::load::{medians, Line, CLOCK};
use super::rows::{gates, inputs, outputs, products, refreshes};
use super::shuffled::{by_turns, large_by_turns, refused};
use masked_tests::builder::Builder;
use masked_tests::calls::{Calls, NAMES};
use masked_tests::generate::random::Random;
use masked_tests::generate::shuffled::{shuffled, ALL_KINDS, GATES};
use masked_tests::mask::masking::mask;
use masked_tests::mask::sbox::{aes, present};

/// The calls that have a column for each circuit; count and check_sharings have lines of their own.
const COLUMNS: [usize; 6] = [0, 1, 2, 3, 4, CLOCK];
/// Words of one circuit by size.
const SIZES: [usize; 5] = [512, 1024, 2048, 4096, 8192];

fn print_lines(lines: &[Line], subject: &dyn Calls, rounds: usize) {
    let columns: Vec<_> =
        COLUMNS.iter().map(|&call| medians(lines, call, subject, rounds)).collect();
    for (i, line) in lines.iter().enumerate() {
        let [words, wires] = line.sizes();
        print!("{:<26}{words:>6}{wires:>6} ", line.name);
        for column in &columns {
            let (ours, theirs) = column[i];
            print!("{ours:>9.2}{theirs:>8.2}{:>6.2}", ours / theirs);
        }
        println!();
    }
}

/// The kinds in rows, then in random order.
pub fn largest(random: &mut Random) -> Vec<Line> {
    let mut lines = Vec::new();
    let mut add = |name: &str, builder: Builder, random: &mut Random| {
        lines.push(Line::new(random, name, builder));
    };
    add("AES S-box, d 4", mask(&aes().netlist, 4).builder, random);
    add("AES S-box, d 5", mask(&aes().netlist, 5).builder, random);
    add("PRESENT S-box, d 8", mask(&present().netlist, 8).builder, random);
    for d in [2, 8] {
        add(&format!("gates, d {d}"), gates(d, 8192), random);
        add(&format!("AND chain, d {d}"), products(d, 8192), random);
        add(&format!("REF chain, d {d}"), refreshes(d, 8192), random);
        add(&format!("IN rows, d {d}"), inputs(d, 8192), random);
        add(&format!("OUT rows, d {d}"), outputs(d, 8192), random);
    }
    for d in [2, 8] {
        let builder = shuffled(random, d, &GATES, 8190);
        add(&format!("gates shuffled, d {d}"), builder, random);
    }
    for d in [2, 3] {
        let builder = shuffled(random, d, &ALL_KINDS, 8190);
        add(&format!("all kinds mixed, d {d}"), builder, random);
    }
    lines.extend(refused(random));
    lines
}

pub fn print(random: &mut Random, subject: &dyn Calls, rounds: usize) {
    println!("each call: first program, opponent, ratio");
    println!(
        "{:<26}{:>6}{:>6} {}",
        "",
        "words",
        "wires",
        COLUMNS.map(|call| format!("{:>23}", NAMES[call])).concat()
    );
    let mut lines = largest(random);
    lines.push(by_turns(random));
    lines.extend(large_by_turns(random));
    print_lines(&lines, subject, rounds);
    println!("growth with the size");
    let by_size: [(&str, &mut dyn FnMut(usize) -> Builder); 3] = [
        ("gates, d 2", &mut |size| gates(2, size)),
        ("gates shuffled, d 2", &mut |size| shuffled(&mut Random::new(1), 2, &GATES, size)),
        ("AND chain, d 3", &mut |size| products(3, size)),
    ];
    for (name, circuit) in by_size {
        let line =
            |size: usize| Line::new(random, &format!("{name}, 1/{}", 8192 / size), circuit(size));
        print_lines(&SIZES.map(line), subject, rounds);
    }
}

/// Clocks a second of the AES S-box, for both programs.
pub fn print_clocks(random: &mut Random, subject: &dyn Calls, rounds: usize) {
    println!("clocks a second: first program, opponent");
    for d in [2, 3, 5] {
        let name = format!("AES S-box, d {d}");
        let line = Line::new(random, &name, mask(&aes().netlist, d).builder);
        let [_, wires] = line.sizes();
        let (ours, theirs) = medians(&[line], CLOCK, subject, rounds)[0];
        println!("{name:<26}{wires:>12}{:>12.0}{:>12.0}", 1e6 / ours, 1e6 / theirs);
    }
}
