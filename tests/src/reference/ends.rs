//! Rule 22: which wires an OUT takes, what comes before it in a word, and the register's part of the notes.
use super::Reference;
use crate::builder::Builder;
use crate::calls::{Answer, Calls};

/// Two INs at stages 1 and 0, then what a case adds.
fn inputs(d: usize) -> (Builder, Vec<u16>, Vec<u16>) {
    let mut builder = Builder::new(d);
    let (a, b) = (builder.input(1), builder.input(0));
    (builder, a, b)
}

fn check(builder: &Builder) -> (Answer, Vec<u16>) {
    let mut notes = vec![7; 16384];
    (Reference.check(&builder.table, &mut notes), notes)
}

/// The answer where an OUT of this row follows.
fn with_out(builder: &Builder, row: &[u16]) -> Answer {
    let mut builder = builder.clone();
    builder.output(row);
    check(&builder).0
}

#[test]
fn registered_wires_of_every_kind() {
    for d in 2..=8 {
        let (mut builder, a, b) = inputs(d);
        let constants: Vec<u16> = (0..d).map(|label| builder.constant(label, 1, 3)).collect();
        let delayed = builder.registers(&a);
        let refreshed = builder.refresh(&b);
        for row in [a, b, constants, delayed, refreshed] {
            assert_eq!(with_out(&builder, &row).result, 0);
        }
    }
}

#[test]
fn other_wires_of_every_kind_at_every_word() {
    for d in 2..=8 {
        let (mut builder, a, b) = inputs(d);
        let later = builder.registers(&a);
        let product = builder.and(&a, &b);
        let sums: Vec<u16> = later.iter().map(|&wire| builder.xor(wire, wire)).collect();
        let negated: Vec<u16> = later.iter().map(|&wire| builder.not(wire)).collect();
        let frame = builder.frames.len();
        for row in [product, sums, negated] {
            for label in 0..d {
                let mut out = later.clone();
                out[label] = row[label];
                assert_eq!(with_out(&builder, &out), Answer::new(22, [frame, 1 + label, 0]));
            }
        }
    }
}

#[test]
fn rules_before_it_in_a_word() {
    let d = 8;
    let (mut builder, a, b) = inputs(d);
    let product = builder.and(&a, &b);
    let later = builder.registers(&a);
    let frame = builder.frames.len();
    let refused = |label: usize, wire: u16| {
        let mut row = later.clone();
        row[label] = wire;
        let answer = with_out(&builder, &row);
        assert_eq!(answer.numbers, [frame as u64, 1 + label as u64, 0]);
        answer.result
    };
    let (unmade, inner) = (builder.wires() as u16, product[0] - 1);
    for label in 0..d {
        assert_eq!(refused(label, unmade), 8);
        assert_eq!(refused(label, inner), 9);
        assert_eq!(refused(label, product[(label + 1) % d]), 10);
        assert_eq!(refused(label, product[label]), 22);
    }
    builder.not(a[7]);
    let frame = builder.frames.len();
    let mut row = later.clone();
    row[7] = unmade;
    assert_eq!(with_out(&builder, &row), Answer::new(11, [frame, 8, 0]));
    // the first word gives the row's stage, so its 22 comes before the second word's 11
    row[0] = product[0];
    row[1] = a[1];
    assert_eq!(with_out(&builder, &row), Answer::new(22, [frame, 1, 0]));
}

#[test]
fn labels_do_not_see_the_register() {
    for d in 2..=8 {
        let (mut builder, a, b) = inputs(d);
        let last = builder.d - 1;
        let negated = builder.not(a[last]);
        builder.xor(a[last], negated);
        builder.xor(negated, a[last]);
        let mut mixed = a.clone();
        mixed[last] = negated;
        builder.refresh(&mixed);
        let product = builder.and(&mixed, &b);
        let (answer, notes) = check(&builder);
        assert_eq!(answer.result, 0);
        let note = |wire: u16| notes[2 * usize::from(wire)];
        assert_eq!([note(a[last]), note(negated)], [last as u16 + 8, last as u16]);
        assert_eq!([note(product[last]), note(product[0] - 1)], [last as u16, 0xFFFF]);
    }
}

#[test]
fn notes_stay_as_the_frames_before_left_them() {
    let (mut builder, a, b) = inputs(2);
    let product = builder.and(&a, &b);
    builder.output(&product);
    builder.registers(&product);
    let (answer, notes) = check(&builder);
    assert_eq!(answer, Answer::new(22, [4, 1, 0]));
    assert_eq!(notes[46..53], [0xFFFF, 0xFFFF, 0, 2, 1, 2, 7]);
}
