//! The circuits that 01 holds against a checker, and one refusal of each rule at its spot.
use super::Reference;
use crate::calls::{Answer, Calls};
use crate::verdict::verdict_line;

pub const CIRCUIT_A: &str = "0000 0002\n0001 0001\n0001 0000\n\
                             0006 0000 0000 0001 0002 0003\n\
                             0005 0018\n0005 0019\n0008 001A 001B\n";

fn judge(text: &str) -> String {
    verdict_line(&Reference, text.as_bytes())
}

/// The words of a text.
pub fn table(text: &str) -> Vec<u16> {
    let mut table = vec![0; 8192];
    let answer = Reference.read_text(text.as_bytes(), &mut table);
    assert_eq!(answer.result, 0);
    table.truncate(answer.numbers[0] as usize);
    table
}

/// Circuit A on A1's shares and tape: values and reading.
fn run_a(probes: &[u16]) -> (Vec<u8>, Vec<u8>) {
    let (mut notes, mut values, mut reading) = (vec![7; 16384], vec![9; 8192], vec![9; 8192]);
    let answer = Reference.read_probes(
        &table(CIRCUIT_A),
        &mut notes,
        &[1, 0, 1, 1],
        &[1],
        &mut values,
        probes,
        &mut reading,
    );
    assert_eq!(answer, Answer::new(0, [28, 1, 3]));
    (values, reading)
}

/// The wires that are read, with their values.
fn read(reading: &[u8]) -> Vec<(usize, u8)> {
    reading.iter().copied().enumerate().filter(|(_, value)| *value != 2).collect()
}

#[test]
fn circuit_a() {
    assert_eq!(judge(CIRCUIT_A), "accepted wires 28 random 1 latency 3");
}

#[test]
fn a1_values() {
    let (values, reading) = run_a(&[]);
    let wanted =
        [1, 0, 1, 1, 1, 1, 1, 1, 1, 1, 0, 0, 0, 0, 0, 0, 0, 0, 1, 1, 0, 0, 0, 0, 1, 1, 1, 1];
    assert_eq!(values[..28], wanted);
    assert!(values[28..].iter().all(|&value| value == 9));
    assert!(reading.iter().all(|&value| value == 2));
}

#[test]
fn a2_to_a4_readings() {
    assert_eq!(read(&run_a(&[24]).1), [(8, 1), (13, 0), (17, 0)]);
    assert_eq!(read(&run_a(&[14]).1), [(3, 1), (4, 1)]);
    assert_eq!(read(&run_a(&[16]).1), [(0, 1), (15, 0)]);
    assert_eq!(read(&run_a(&[16, 16, 15]).1), [(0, 1), (15, 0)]);
}

#[test]
fn a5_to_a8_refusals() {
    let change = |from: &str, to: &str| judge(&CIRCUIT_A.replace(from, to));
    assert_eq!(change("0001 0001\n", "0001 0000\n"), "refused 11 frame 3 word 4");
    assert_eq!(change("0000 0001 0002", "0001 0000 0002"), "refused 10 frame 3 word 2");
    assert_eq!(change("001A", "0017"), "refused 9 frame 6 word 1");
    assert_eq!(change("001A", "001C"), "refused 8 frame 6 word 1");
    assert_eq!(change("0006 0000", "0006 0001"), "refused 12 frame 3 word 1");
}

#[test]
fn b_c_and_d() {
    assert_eq!(judge("0000 0002\n"), "accepted wires 0 random 0 latency 0");
    assert_eq!(judge("0000 0001\n"), "refused 4 frame 0 word 1");
    assert_eq!(judge("0000 0009\n"), "refused 4 frame 0 word 1");
    assert_eq!(judge("0000 0002\n0001 00FF\n0005 0000\n"), "refused 13 frame 2 word 0");
    assert_eq!(judge("0000 0002\n0001 00FE\n0005 0000\n"), "accepted wires 3 random 0 latency 0");
    let d = "0000 0002\n0001 0003\n0008 0000 0001\n";
    assert_eq!(judge(d), "accepted wires 2 random 0 latency 0");
}

#[test]
fn latency_from_the_first_input() {
    let row = |stage| format!("0002 0000 0000 {stage}\n0002 0001 0000 {stage}\n");
    let latency = |frames: String| {
        let line = judge(&format!("0000 0002\n{frames}"));
        line.rsplit(' ').next().expect("a line has words").to_string()
    };
    let out = "0008 0000 0001\n";
    assert_eq!(latency("0001 0005\n".to_string()), "0", "no OUT");
    assert_eq!(latency(row("0004") + out), "0", "no IN");
    assert_eq!(latency(row("0004") + out + "0001 0005\n"), "0", "OUT below IN");
    assert_eq!(latency(row("0004") + out + "0001 0003\n"), "1", "the IN after the OUT");
    assert_eq!(latency(format!("0001 0007\n0001 0002\n0001 0009\n{out}")), "5", "the lowest IN");
    assert_eq!(
        latency(format!("0001 0001\n0001 0003\n0008 0002 0003\n{out}")),
        "2",
        "the highest OUT"
    );
}

#[test]
fn notes_of_circuit_a() {
    let mut notes = vec![7; 16390];
    Reference.check(&table(CIRCUIT_A), &mut notes);
    assert_eq!(notes[..8], [8, 1, 9, 1, 8, 0, 9, 0]);
    assert!(notes[8..48].iter().all(|&word| word == 0xFFFF));
    assert_eq!(notes[48..56], [0, 2, 1, 2, 8, 3, 9, 3]);
    assert!(notes[56..].iter().all(|&word| word == 7));
}

#[test]
fn notes_keep_the_frames_before_a_refusal() {
    let mut notes = vec![7; 16384];
    let answer = Reference.check(&[0, 2, 1, 5, 3, 0, 1], &mut notes);
    assert_eq!(answer, Answer::new(10, [2, 2, 0]));
    assert_eq!(notes[..5], [8, 5, 9, 5, 7]);
}

#[test]
fn words_and_text() {
    assert_eq!(judge(""), "refused 3 frame 0 word 0");
    assert_eq!(judge("\n"), "refused 20 frame 0 word 0");
    assert_eq!(judge("0000 0002"), "refused 20 frame 0 word 0");
    assert_eq!(judge("0000 0002\n0001 000a\n"), "refused 20 frame 1 word 0");
    assert_eq!(judge("0000 0002\r\n"), "refused 20 frame 0 word 0");
    assert_eq!(judge("0000  0002\n"), "refused 20 frame 0 word 0");
    assert_eq!(judge("0000 0002 \n"), "refused 20 frame 0 word 0");
    assert_eq!(judge("0000 0002 0000\n"), "refused 3 frame 0 word 0");
    assert_eq!(judge("0000 0002\n0009\n"), "refused 5 frame 1 word 0");
    assert_eq!(judge("0000 0002\n0000 0002\n"), "refused 5 frame 1 word 0");
    assert_eq!(judge("0000 0002\n0001\n"), "refused 6 frame 1 word 0");
    assert_eq!(judge("0000 0002\n0002 0002 0000 0000\n"), "refused 7 frame 1 word 1");
    assert_eq!(judge("0000 0002\n0002 0001 0002 0000\n"), "refused 7 frame 1 word 2");
    assert_eq!(judge("0000 0002\n0002 0001 0001 0100\n"), "refused 7 frame 1 word 3");
    assert_eq!(judge("0000 0002\n0001 0100\n"), "refused 7 frame 1 word 1");
}

#[test]
fn lent_table_of_text() {
    let mut table = [7; 3];
    let answer = Reference.read_text(b"0000 0002\n0001 0000\n", &mut table);
    assert_eq!(answer, Answer::new(21, [1, 0, 0]));
    assert_eq!(table, [0, 2, 7]);
    let long = format!("0000 0002\n{}", "0001 0000\n".repeat(4096));
    let mut table = vec![7; 9000];
    let answer = Reference.read_text(long.as_bytes(), &mut table);
    assert_eq!(answer, Answer::new(21, [4096, 0, 0]));
    assert_eq!(table[8190..8193], [1, 0, 7]);
}

#[test]
fn buffers_of_calls() {
    let a = table(CIRCUIT_A);
    let notes = &mut vec![7; 16384];
    let run = |shares: &[u8], tape: &[u8], values: usize, probes: &[u16], reading: usize| {
        let (mut values, mut reading) = (vec![9; values], vec![9; reading]);
        let notes = &mut vec![7; 16384];
        let answer =
            Reference.read_probes(&a, notes, shares, tape, &mut values, probes, &mut reading);
        let untouched = values.iter().chain(&reading).all(|&byte| byte == 9);
        assert!(answer.result == 0 || untouched);
        answer
    };
    assert_eq!(run(&[1, 0, 1], &[1], 8192, &[], 8192), Answer::new(15, [0, 0, 0]));
    assert_eq!(run(&[1, 0, 1, 9], &[], 8191, &[], 8192), Answer::new(16, [0, 0, 0]));
    assert_eq!(run(&[1, 0, 1, 9], &[1], 8191, &[], 8192), Answer::new(17, [0, 0, 0]));
    assert_eq!(run(&[1, 0, 1, 1], &[1], 8192, &[], 8191), Answer::new(17, [0, 0, 0]));
    assert_eq!(run(&[1, 0, 1, 2], &[2], 8192, &[99], 8192), Answer::new(18, [0, 3, 0]));
    assert_eq!(run(&[1, 0, 1, 0], &[2], 8192, &[99], 8192), Answer::new(18, [0, 4, 0]));
    assert_eq!(run(&[1, 0, 1, 0], &[0], 8192, &[27, 28], 8192), Answer::new(19, [0, 1, 0]));
    assert_eq!(Reference.check(&vec![0; 8193], &mut []), Answer::new(1, [0, 0, 0]));
    assert_eq!(Reference.check(&[], &mut notes[1..]), Answer::new(2, [0, 0, 0]));
    assert_eq!(Reference.check(&[0], notes), Answer::new(3, [0, 0, 0]));
    assert!(notes.iter().all(|&word| word == 7));
}
