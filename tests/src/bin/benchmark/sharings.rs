//! Times of check_sharings: beside the check, which it begins with, so that what the search for sharings adds is seen.
use super::load::{medians, Line, Load, CHECK, CHECK_SHARINGS};
use super::rows::{cut, gates, inputs, outputs, products, refreshes};
use super::shuffled::sharings;
use masked_tests::builder::Builder;
use masked_tests::calls::Calls;
use masked_tests::generate::random::Random;
use masked_tests::generate::shuffled::ALL_KINDS;
use masked_tests::mask::masking::mask;
use masked_tests::mask::sbox::{aes, present};

/// The kinds that stand in runs.
const RUNS: [usize; 4] = [2, 3, 4, 5];

fn circuits(random: &mut Random) -> Vec<(String, Builder)> {
    let mut rows = Vec::new();
    for d in [2, 8] {
        rows.push((format!("gates, d {d}"), gates(d, 8192)));
        rows.push((format!("shuffled runs, d {d}"), sharings(random, d, &RUNS, 8192)));
        rows.push((format!("all kinds, d {d}"), sharings(random, d, &ALL_KINDS, 8192)));
        rows.push((format!("AND chain, d {d}"), products(d, 8192)));
        rows.push((format!("REF chain, d {d}"), refreshes(d, 8192)));
        rows.push((format!("IN rows, d {d}"), inputs(d, 8192)));
        rows.push((format!("OUT rows, d {d}"), outputs(d, 8192)));
        rows.push((format!("gates cut, d {d}"), cut(d)));
    }
    for (sbox, d) in [(present(), 2), (present(), 8), (aes(), 2), (aes(), 5)] {
        let name = format!("{} S-box, d {d}", sbox.name.to_uppercase());
        rows.push((name, mask(&sbox.netlist, d).builder));
    }
    let sizes = [512, 1024, 2048, 4096, 8192];
    rows.extend(sizes.map(|size| (format!("gates, d 2, 1/{}", 8192 / size), gates(2, size))));
    rows
}

/// 64 different tables of whole sharings, called one after the other: runs and all kinds in random order, 2 to 8 shares.
fn by_turns(random: &mut Random) -> Line {
    let load = |at: usize| {
        let d = random.within(2, 8);
        let (kinds, steps): (&[usize], usize) =
            if at.is_multiple_of(2) { (&RUNS, 200 / d) } else { (&ALL_KINDS, 30) };
        let builder = sharings(random, d, kinds, steps);
        Load::new(random, builder)
    };
    Line { name: "64 tables by turns".to_string(), loads: (0..64).map(load).collect() }
}

/// A line for each circuit: of both calls the medians and their ratio, and of what the second adds to the first.
pub fn print(random: &mut Random, subject: &dyn Calls, rounds: usize) {
    println!("check_sharings: first program, opponent, ratio; beside it the check, and what is added to it");
    println!(
        "{:<26}{:>6}{:>6} {:>23}{:>23}{:>23}  answer",
        "", "words", "wires", "check_sharings", "check", "added"
    );
    let mut lines: Vec<Line> = circuits(random)
        .into_iter()
        .map(|(name, builder)| Line::new(random, &name, builder))
        .collect();
    lines.push(by_turns(random));
    let [check, both] = [CHECK, CHECK_SHARINGS].map(|call| medians(&lines, call, subject, rounds));
    for (i, line) in lines.iter().enumerate() {
        let [words, wires] = line.sizes();
        print!("{:<26}{words:>6}{wires:>6} ", line.name);
        let added = (both[i].0 - check[i].0, both[i].1 - check[i].1);
        for (ours, theirs) in [both[i], check[i], added] {
            print!("{ours:>9.2}{theirs:>8.2}{:>6.2}", ours / theirs);
        }
        match line.loads[0].sharings.result {
            0 => println!("  yes"),
            rule => println!("  {rule} at frame {}", line.loads[0].sharings.numbers[0]),
        }
    }
}
