//! Whole sharings: 26 at its exact spot by each way to break them, what comes before it, and plain circuits.
use super::cases::{table, CIRCUIT_A};
use super::check::{walk, Rules};
use super::plain::{Gate, Plain};
use super::sharings::plain_circuit;
use super::Reference;
use crate::builder::Builder;
use crate::calls::{Answer, Calls};

/// Three shares: two INs at stage 1 (wires 0 to 2 and 3 to 5), one at stage 0 (6 to 8). The next frame is 4, the next wire 9.
const INPUTS: &str = "0000 0003\n0001 0001\n0001 0001\n0001 0000\n";

/// The answer, the check's beside it; both leave the same notes, the rest of them untouched.
fn judged(table: &[u16]) -> (Answer, Answer) {
    let (mut notes, mut checked) = (vec![7; 16390], vec![7; 16390]);
    let answer = Reference.check_sharings(table, &mut notes);
    let check = Reference.check(table, &mut checked);
    assert!(notes == checked);
    let untouched = if check.result == 0 { 2 * check.numbers[0] as usize } else { 16384 };
    assert!(notes[untouched..].iter().all(|&word| word == 7));
    (answer, check)
}

/// Frames after the INPUTS, with a slash between; the answer must be yes.
fn yes(frames: &str) {
    let (answer, check) = judged(&with_inputs(frames));
    assert_eq!((answer.result, answer), (0, check), "{frames}");
}

/// The same, and the answer must be 26 at this frame.
fn no(frame: usize, frames: &str) {
    let (answer, check) = judged(&with_inputs(frames));
    assert_eq!((answer, check.result), (Answer::new(26, [frame, 0, 0]), 0), "{frames}");
}

fn with_inputs(frames: &str) -> Vec<u16> {
    let lines = frames.split(" / ").map(|line| line.to_string() + "\n");
    table(&(INPUTS.to_string() + &lines.collect::<String>()))
}

fn plain(table: &[u16]) -> Plain {
    plain_circuit(&walk(table, Rules::All).0).expect("whole sharings")
}

#[test]
fn circuit_a_and_the_least_tables() {
    let accepted = Answer::new(0, [28, 1, 3]);
    assert_eq!(judged(&table(CIRCUIT_A)), (accepted, accepted));
    let plain = plain(&table(CIRCUIT_A));
    let gates = [Gate::Secret(0), Gate::Secret(1), Gate::Product(0, 1), Gate::Same(2)];
    assert_eq!((&plain.gates[..], &plain.outputs[..]), (&gates[..], &[3][..]));
    assert_eq!(plain.sharings, [[0, 1], [2, 3], [24, 25], [26, 27]]);
    assert_eq!(plain.truth_table(), [[0], [0], [0], [1]]);
    for d in 2..=8 {
        assert_eq!(judged(&[0, d]).0, Answer::new(0, [0, 0, 0]));
        assert_eq!(judged(&[0, d, 1, 5]).0, Answer::new(0, [d.into(), 0, 0]));
    }
}

#[test]
fn rows() {
    yes("0008 0000 0001 0002 / 0008 0003 0004 0005 / 0008 0000 0001 0002");
    no(4, "0008 0000 0001 0005");
    no(5, "0008 0000 0001 0002 / 0008 0000 0004 0002");
    yes("0007 0000 0003 0004 0005");
    no(4, "0007 0000 0003 0001 0005");
    let and = "0006 0000 0000 0001 0002 0006 0007 0008";
    yes(and);
    no(4, &and.replace("0000 0001 0002", "0003 0001 0002"));
    no(6, &format!("0001 0000 / 0008 0006 0007 0008 / {}", and.replace("0007 0008", "0007 000B")));
    // the product's outputs are wires 60 to 62, its registers 63 to 65
    let registers = "0005 003C / 0005 003D / 0005 003E";
    yes(&format!("{and} / {registers} / 0008 003F 0040 0041"));
    yes(&format!("{and} / 0007 0003 003C 003D 003E"));
}

#[test]
fn runs_over_sharings() {
    for kind in ["0004", "0005"] {
        let run = |wires: [&str; 3]| wires.map(|wire| format!("{kind} {wire}")).join(" / ");
        let good = run(["0000", "0001", "0002"]);
        yes(&good);
        yes(&format!("{good} / {good} / {}", run(["0009", "000A", "000B"])));
        no(4, &run(["0000", "0001", "0005"]));
        no(4, &run(["0003", "0001", "0002"]));
        no(4, &run(["0000", "0001", "0008"]));
        no(7, &format!("{good} / {}", run(["0009", "0001", "000B"])));
        no(4, &run(["0001", "0000", "0002"]));
        no(4, &run(["0001", "0002", "0000"]));
        no(4, &run(["0000", "0000", "0000"]));
        no(4, &run(["0001", "0002", "0003"]));
        no(4, &run(["0005", "0006", "0007"]));
        no(4, &format!("{kind} 0001"));
    }
    let run = |x: [&str; 3], y: [&str; 3]| {
        [0, 1, 2].map(|label| format!("0003 {} {}", x[label], y[label])).join(" / ")
    };
    let [first, second] = [["0000", "0001", "0002"], ["0003", "0004", "0005"]];
    yes(&run(first, second));
    yes(&run(second, first));
    yes(&format!("{} / {}", run(first, first), run(["0009", "000A", "000B"], second)));
    no(4, &run(["0000", "0001", "0005"], second));
    no(4, &run(first, ["0003", "0001", "0005"]));
    no(4, &run(["0000", "0004", "0002"], ["0003", "0001", "0005"]));
    no(4, &run(["0001", "0000", "0002"], ["0004", "0003", "0005"]));
    no(4, &run(["0001", "0002", "0003"], ["0001", "0002", "0003"]));
    no(7, &format!("{} / 0003 0002 0002", run(first, second)));
}

#[test]
fn runs_of_constants() {
    let run = |labels: [u16; 3], stages: [u16; 3]| {
        let frame = |i: usize| format!("0002 {:04X} 000{} {:04X}", labels[i], i % 2, stages[i]);
        [0, 1, 2].map(frame).join(" / ")
    };
    yes(&run([0, 1, 2], [9, 9, 9]));
    yes(&format!("{} / {}", run([0, 1, 2], [9, 9, 9]), run([0, 1, 2], [8, 8, 8])));
    no(4, &run([0, 1, 2], [9, 9, 8]));
    no(4, &run([0, 1, 2], [8, 9, 9]));
    no(4, &run([0, 2, 1], [9, 9, 9]));
    no(4, &run([1, 2, 0], [9, 9, 9]));
    no(4, &run([0, 1, 1], [9, 9, 9]));
    no(4, "0002 0000 0000 0009");
}

#[test]
fn runs_cut_and_split() {
    let good = "0004 0000 / 0004 0001 / 0004 0002";
    no(4, "0004 0000 / 0004 0001");
    no(4, "0004 0000 / 0004 0001 / 0005 0002");
    no(4, "0004 0000 / 0004 0001 / 0001 0000");
    no(4, &format!("0004 0000 / 0004 0001 / {good}"));
    no(4, "0004 0000 / 0004 0001 / 0008 0000 0001 0002 / 0004 0002");
    no(4, "0004 0000 / 0001 0004 / 0004 0001 / 0004 0002");
    no(7, &format!("{good} / 0004 0000"));
    no(7, &format!("{good} / 0005 0000 / 0005 0001"));
    yes(&format!("{good} / 0008 0000 0001 0002 / {good}"));
    // a run that is cut comes before the row behind it that is no sharing
    no(4, "0004 0000 / 0007 0000 0000 0004 0002 / 0004 0001");
}

/// A NOT on share 0 alone flips the bit, and is no run all the same.
#[test]
fn lone_negation() {
    for d in 2..=8 {
        let mut builder = Builder::new(d);
        let mut row = builder.input(0);
        row[0] = builder.not(row[0]);
        let row = builder.registers(&row);
        builder.output(&row);
        assert_eq!(judged(&builder.table).0, Answer::new(26, [2, 0, 0]));
        for secret in [0, 1] {
            let mut shares = vec![0; d];
            shares[d - 1] = secret;
            let (mut notes, mut values) = (vec![0; 16384], vec![9; 8192]);
            Reference.evaluate(&builder.table, &mut notes, &shares, &[], &mut values);
            let sum = row.iter().fold(0, |sum, &wire| sum ^ values[usize::from(wire)]);
            assert_eq!(sum, 1 ^ secret);
        }
    }
}

/// The whole table is checked first, with the notes that the check leaves.
#[test]
fn after_the_check() {
    let refused = |frames: &str, wanted: Answer| {
        assert_eq!(judged(&with_inputs(frames)), (wanted, wanted), "{frames}");
    };
    refused("0004 0000 / 0004 0063", Answer::new(8, [5, 1, 0]));
    refused("0004 0002 / 0008 0000 0001 0009", Answer::new(22, [5, 3, 0]));
    refused("0008 0000 0001 0005 / 0005 0000 / 0008 0009 0001 0002", Answer::new(11, [6, 2, 0]));
    let mut short = vec![7; 16383];
    let answer = Reference.check_sharings(&with_inputs("0004 0000"), &mut short);
    assert_eq!(answer, Answer::new(2, [0, 0, 0]));
    assert!(short.iter().all(|&word| word == 7));
    assert_eq!(judged(&[0; 8193]).0, Answer::new(1, [0, 0, 0]));
    assert_eq!(judged(&[0, 9]).0, Answer::new(4, [0, 1, 0]));
}

/// Runs up to 8,192 words; one frame less at the end, or another wire in the last, and the last run is none.
#[test]
fn tables_of_the_most_words() {
    for d in 2..=8 {
        let mut builder = Builder::new(d);
        let mut row = builder.input(0);
        while !(8192 - builder.table.len()).is_multiple_of(2 * d) {
            builder.input(0);
        }
        while builder.table.len() < 8192 {
            row = builder.nots(&row);
        }
        let wires = builder.wires();
        assert_eq!(judged(&builder.table).0, Answer::new(0, [wires, 0, 0]));
        let no = Answer::new(26, [builder.frames.len() - d, 0, 0]);
        assert_eq!(judged(&builder.table[..8190]).0, no);
        builder.table[8191] = d as u16 - 1;
        assert_eq!(judged(&builder.table).0, no);
    }
}

/// A run of NOTs flips for odd d only; CON's bit is the sum of its values.
#[test]
fn plain_bits() {
    for d in 2..=8 {
        let mut builder = Builder::new(d);
        let (x, y) = (builder.input(1), builder.input(0));
        let negated = builder.nots(&x);
        let mut values = vec![1; d];
        values[d - 1] = 0;
        let constant = builder.constants(&values, 1);
        let sum = builder.xors(&negated, &constant);
        let same = builder.xors(&x, &x);
        let product = builder.and(&sum, &y);
        for row in [negated, constant, sum, same, product] {
            let row = builder.registers(&row);
            builder.output(&row);
        }
        let refreshed = builder.refresh(&x);
        builder.output(&refreshed);
        let flip = (d % 2) as u8;
        let wanted = |x: u8, y: u8| {
            let (negated, constant) = (x ^ flip, 1 ^ flip);
            vec![negated, constant, negated ^ constant, 0, (negated ^ constant) & y, x]
        };
        let rows = [wanted(0, 0), wanted(0, 1), wanted(1, 0), wanted(1, 1)];
        assert_eq!(plain(&builder.table).truth_table(), rows, "d {d}");
    }
}
