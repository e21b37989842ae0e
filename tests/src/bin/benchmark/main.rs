//! Times the calls against the tuned opponent, in one process, turn by turn.
mod circuits;
mod counting;
mod load;
mod probing;
mod rows;
mod sharings;
mod shuffled;

use masked_tests::generate::random::Random;
use masked_tests::options;
use masked_tests::subject::subject;
use std::process::exit;

/// What `--part` may ask for; without it all are printed.
const PARTS: [&str; 4] = ["calls", "probes", "sharings", "count"];

fn main() {
    options::only(&["rounds", "seed", "part"]);
    let random = &mut Random::new(options::number("seed", 1));
    let rounds = options::number("rounds", 201) as usize;
    let (subject, name) = subject();
    let part = options::text("part");
    if let Some(part) = part.as_ref().filter(|part| !PARTS.contains(&part.as_str())) {
        eprintln!("unknown part '{part}'; known: {}", PARTS.join(", "));
        exit(2);
    }
    println!("benchmark: {name} and the tuned opponent; medians of {rounds} turns, microseconds");
    let wanted = |name: &str| part.as_ref().is_none_or(|part| part == name);
    if wanted("calls") {
        circuits::print(random, subject.as_ref(), rounds);
        circuits::print_clocks(random, subject.as_ref(), rounds);
    }
    if wanted("probes") {
        probing::print(random, subject.as_ref(), rounds);
    }
    if wanted("sharings") {
        sharings::print(random, subject.as_ref(), rounds);
    }
    if wanted("count") {
        counting::print(subject.as_ref(), rounds);
    }
}
