//! Texts that are written: their bytes, their room, and what a refusal leaves.
use super::cases::{table, CIRCUIT_A};
use super::Reference;
use crate::calls::{Answer, Calls};
use crate::generate::circuit::{circuit, Shape};
use crate::generate::limits::limit;
use crate::generate::random::Random;

const JUNK: u8 = 9;

/// The answer for a text buffer of so many bytes, and the buffers afterwards.
fn write(table: &[u16], room: usize) -> (Answer, Vec<u16>, Vec<u8>) {
    let (mut notes, mut text) = (vec![7; 16384], vec![JUNK; room]);
    let answer = Reference.write_text(table, &mut notes, &mut text);
    (answer, notes, text)
}

#[test]
fn circuit_a_in_exact_and_in_more_room() {
    let bytes = CIRCUIT_A.len();
    for room in [bytes, bytes + 1, 40_960] {
        let (answer, notes, text) = write(&table(CIRCUIT_A), room);
        assert_eq!(answer, Answer::new(0, [bytes, 0, 0]));
        assert_eq!(text[..bytes], *CIRCUIT_A.as_bytes());
        assert!(text[bytes..].iter().all(|&byte| byte == JUNK));
        assert_eq!(notes[48..57], [0, 2, 1, 2, 8, 3, 9, 3, 7]);
    }
}

#[test]
fn too_little_room() {
    let a = table(CIRCUIT_A);
    for room in [CIRCUIT_A.len() - 1, 10, 1, 0] {
        let (answer, notes, text) = write(&a, room);
        assert_eq!(answer, Answer::new(23, [0, 0, 0]));
        assert!(text.iter().all(|&byte| byte == JUNK));
        assert_eq!(notes, write(&a, CIRCUIT_A.len()).1);
    }
}

/// The check's refusals come before 23; text and notes are as the check leaves them.
#[test]
fn refused_tables() {
    let refused = |table: &[u16], wanted: Answer| {
        let mut checked = vec![7; 16384];
        assert_eq!(Reference.check(table, &mut checked), wanted);
        for room in [0, 5 * table.len()] {
            let (answer, notes, text) = write(table, room);
            assert_eq!(answer, wanted);
            assert!(notes == checked && text.iter().all(|&byte| byte == JUNK));
        }
    };
    refused(&[0; 8193], Answer::new(1, [0, 0, 0]));
    refused(&[], Answer::new(3, [0, 0, 0]));
    refused(&[0, 9], Answer::new(4, [0, 1, 0]));
    refused(&[0, 2, 1, 5, 9], Answer::new(5, [2, 0, 0]));
    refused(&[0, 2, 1, 5, 3, 0], Answer::new(6, [2, 0, 0]));
    refused(&[0, 2, 1, 5, 2, 0x5A01, 1, 3], Answer::new(7, [2, 1, 0]));
    refused(&[0, 2, 1, 5, 4, 0, 8, 2, 1], Answer::new(22, [3, 1, 0]));
    let notes = &mut vec![7; 16383];
    let answer = Reference.write_text(&table(CIRCUIT_A), notes, &mut []);
    assert_eq!(answer, Answer::new(2, [0, 0, 0]));
}

/// The generator has lines of its own, and the reader takes them as the table.
#[test]
fn random_circuits() {
    for case in 0..400 {
        let mut random = Random::of_case(1, case);
        let builder = match case % 20 {
            0 => limit(&mut random),
            _ => {
                let shape = Shape::random(&mut random, 60);
                circuit(&mut random, shape)
            }
        };
        let (answer, _, text) = write(&builder.table, 5 * builder.table.len());
        if answer.result != 0 {
            assert_eq!(case % 20, 0, "only a circuit at a limit may be refused");
            continue;
        }
        let text = String::from_utf8(text).expect("digits, spaces and line feeds");
        assert_eq!(text, builder.text());
        assert_eq!(table(&text), builder.table);
    }
}
