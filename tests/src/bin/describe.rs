//! What the second program says of random circuits, for the comparison with `show` and with judge's explanations.
//!   describe --wires N      N accepted circuits: the text's bytes, then the row of each wire
//!   describe --refusals N   N refused texts: the text's bytes, the refusal, then what was found and wanted
use masked_tests::builder::{text, Builder};
use masked_tests::generate::case::case;
use masked_tests::generate::circuit::{circuit, Shape};
use masked_tests::generate::damage::damaged_lines;
use masked_tests::generate::limits::limit;
use masked_tests::generate::near::near_frame;
use masked_tests::generate::random::Random;
use masked_tests::generate::slips::with_slip;
use masked_tests::options;
use masked_tests::reference::check::{walk, Rules};
use masked_tests::reference::found::found;
use masked_tests::reference::names::{frame_of, names, shown};

const KINDS: [&str; 9] = ["HEAD", "IN", "CON", "XOR", "NOT", "REG", "AND", "REF", "OUT"];

fn hex(bytes: &[u8]) -> String {
    bytes.iter().map(|byte| format!("{byte:02x}")).collect()
}

/// A row as `show wires` has it: number, hexadecimal number, line, kind, name, label, stage, registered, stop.
fn rows(builder: &Builder) -> Vec<String> {
    let (circuit, refusal) = walk(&builder.table, Rules::All);
    assert!(refusal.is_none(), "the generator makes accepted circuits");
    let kinds: Vec<u16> = builder.lines().iter().map(|words| words[0]).collect();
    let names = names(&circuit, &kinds);
    let row = |number: usize| {
        let wire = &circuit.wires[number];
        let frame = frame_of(&circuit, number);
        let yes = |holds: bool| if holds { "yes" } else { "no" };
        let place = match wire.place {
            Some(place) => format!("{} {} {}", place.label, place.stage, yes(place.registered)),
            None => "inner - -".to_string(),
        };
        let stop = yes(wire.source.is_stop());
        let kind = KINDS[usize::from(kinds[frame])];
        format!(
            "{number} {number:04X} {} {kind} {} {place} {stop}",
            frame + 1,
            shown(&names[number])
        )
    };
    (0..circuit.wires.len()).map(row).collect()
}

fn print_wires(seed: u64, count: u64) {
    for number in 0..count {
        let mut random = Random::of_case(seed, number);
        let shape = Shape::random(&mut random, 30);
        let builder = circuit(&mut random, shape);
        println!("{}|{}", hex(builder.text().as_bytes()), rows(&builder).join("|"));
    }
}

/// A text at a limit, or a damaged one: by its bytes, by a slip of the hand, or, mostly, by words of its frames.
fn damaged(random: &mut Random) -> Vec<u8> {
    if random.once_in(24) {
        return limit(random).text().into_bytes();
    }
    let shape = Shape::random(random, 30);
    let builder = circuit(random, shape);
    match random.below(6) {
        0 => case(random).text,
        1 => with_slip(random, builder.text().as_bytes()),
        2 | 3 => text(&damaged_lines(random, &builder)).into_bytes(),
        _ => {
            let mut lines = builder.lines();
            lines.push(near_frame(random, &builder));
            text(&lines).into_bytes()
        }
    }
}

fn print_refusals(seed: u64, count: u64) {
    let (mut number, mut printed) = (0, 0);
    while printed < count {
        let text = damaged(&mut Random::of_case(seed, number));
        number += 1;
        let Some((refusal, facts)) = found(&text) else { continue };
        let facts: Vec<String> =
            facts.0.iter().map(|(name, value)| format!("{name}={value}")).collect();
        println!(
            "{}|{} {} {}|{}",
            hex(&text),
            refusal.rule,
            refusal.frame,
            refusal.word,
            facts.join("|")
        );
        printed += 1;
    }
}

fn main() {
    options::only(&["wires", "refusals", "seed"]);
    let seed = options::number("seed", 1);
    print_wires(seed, options::number("wires", 0));
    print_refusals(seed, options::number("refusals", 0));
}
