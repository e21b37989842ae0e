//! Clocks: circuit A stepped by hand, what a refused step leaves, the order of the refusals, and which wires are registers.
use super::cases::{table, CIRCUIT_A};
use super::Reference;
use crate::builder::Builder;
use crate::calls::{Answer, Calls};

/// The wires of circuit A that are registers: R, B and M of both shares, U, V, W of both pairs, and the two REGs.
const REGISTERS: [usize; 13] = [5, 6, 8, 9, 11, 13, 15, 17, 19, 21, 23, 26, 27];

/// A circuit with its buffers; they are longer than asked, and junk where nothing has been written.
struct Run {
    table: Vec<u16>,
    notes: Vec<u16>,
    values: Vec<u8>,
    bank: Vec<u8>,
}

impl Run {
    /// A bank of 0 at the registers, junk elsewhere.
    fn new(table: Vec<u16>, registers: &[usize]) -> Run {
        let mut bank = vec![77; 8200];
        registers.iter().for_each(|&wire| bank[wire] = 0);
        Run { table, notes: vec![7; 16390], values: vec![9; 8200], bank }
    }

    fn of_a() -> Run {
        Run::new(table(CIRCUIT_A), &REGISTERS)
    }

    fn step(&mut self, shares: &[u8], tape: &[u8]) -> Answer {
        let Run { table, notes, values, bank } = self;
        Reference.clock(table, notes, shares, tape, values, bank)
    }

    /// A step with buffers of so many bytes, which is refused and leaves all as it was but the notes.
    fn refused(&mut self, shares: &[u8], tape: &[u8], values: usize, bank: usize) -> Answer {
        let before = (self.values.clone(), self.bank.clone());
        let Run { table, notes, values: sheet, bank: held } = self;
        let (sheet, held) = (&mut sheet[..values], &mut held[..bank]);
        let answer = Reference.clock(table, notes, shares, tape, sheet, held);
        assert!(answer.result != 0 && before == (self.values.clone(), self.bank.clone()));
        answer
    }

    /// The registers' bytes of the bank; all others are as they were.
    fn held(&self, registers: &[usize]) -> Vec<u8> {
        let others = (0..self.bank.len()).filter(|wire| !registers.contains(wire));
        assert!(others.into_iter().all(|wire| self.bank[wire] == 77));
        registers.iter().map(|&wire| self.bank[wire]).collect()
    }
}

/// What circuit A is fed on a clock, all values on it, and the registers' bytes after it.
type Clock = ([u8; 4], u8, [u8; 28], [u8; 13]);

/// Case A1 is set 0: b and r are fed on clock 0, a on clock 1; the product is shown on clock 2, the OUT on clock 3.
#[test]
fn circuit_a_clock_by_clock() {
    let mut run = Run::of_a();
    let clocks: [Clock; 4] = [
        (
            [0, 0, 1, 1],
            1,
            [0, 0, 1, 1, 1, 0, 0, 0, 0, 0, 0, 0, 0, 0, 0, 0, 0, 0, 0, 0, 0, 0, 0, 0, 0, 0, 0, 0],
            [1, 1, 0, 1, 0, 0, 0, 0, 0, 0, 0, 0, 0],
        ),
        (
            [1, 0, 0, 1],
            0,
            [1, 0, 0, 1, 0, 1, 1, 1, 0, 1, 0, 0, 0, 0, 1, 0, 0, 0, 1, 0, 0, 0, 0, 0, 0, 0, 0, 0],
            [0, 0, 1, 1, 0, 0, 1, 0, 1, 0, 0, 0, 0],
        ),
        (
            [0, 0, 0, 0],
            0,
            [0, 0, 0, 0, 0, 0, 0, 0, 1, 1, 0, 0, 0, 0, 0, 1, 0, 0, 0, 1, 0, 0, 0, 0, 1, 1, 0, 0],
            [0, 0, 0, 0, 0, 0, 0, 0, 0, 0, 0, 1, 1],
        ),
        (
            [0, 0, 0, 0],
            0,
            [0, 0, 0, 0, 0, 0, 0, 0, 0, 0, 0, 0, 0, 0, 0, 0, 0, 0, 0, 0, 0, 0, 0, 0, 0, 0, 1, 1],
            [0; 13],
        ),
    ];
    for (clock, (shares, random, values, held)) in clocks.iter().enumerate() {
        assert_eq!(run.step(shares, &[*random]), Answer::new(0, [28, 1, 3]));
        assert_eq!(run.values[..28], *values, "clock {clock}");
        assert_eq!(run.held(&REGISTERS), held, "clock {clock}");
    }
    assert!(run.values[28..].iter().all(|&value| value == 9));
    assert_eq!(run.notes[52..58], [8, 3, 9, 3, 7, 7]);
}

#[test]
fn a_refused_step_is_no_clock() {
    let (mut run, mut other) = (Run::of_a(), Run::of_a());
    for feed in [[0, 0, 1, 1], [1, 0, 0, 1], [1, 1, 0, 0], [0, 1, 1, 0]] {
        assert_eq!(run.refused(&feed[1..], &[1], 8192, 8192).result, 15);
        assert_eq!(run.refused(&feed, &[1, 1], 8192, 8192).result, 16);
        assert_eq!(run.refused(&feed, &[1], 8192, 8191).result, 17);
        assert_eq!(run.refused(&feed, &[2], 8192, 8192).result, 18);
        assert_eq!(run.step(&feed, &[feed[0]]), other.step(&feed, &[feed[0]]));
        assert!(run.values == other.values && run.bank == other.bank);
    }
}

#[test]
fn refusals_in_their_order() {
    let mut run = Run::of_a();
    [5, 13, 27].iter().for_each(|&wire| run.bank[wire] = 2);
    let mut refused = |shares: &[u8], tape: &[u8], values, bank| {
        let answer = run.refused(shares, tape, values, bank);
        assert_eq!(run.notes[..4], [8, 1, 9, 1]);
        answer
    };
    assert_eq!(refused(&[2; 3], &[2; 2], 0, 0), Answer::new(15, [0, 0, 0]));
    assert_eq!(refused(&[2; 5], &[2; 1], 0, 0), Answer::new(15, [0, 0, 0]));
    assert_eq!(refused(&[2; 4], &[2; 2], 0, 0), Answer::new(16, [0, 0, 0]));
    assert_eq!(refused(&[2; 4], &[], 0, 0), Answer::new(16, [0, 0, 0]));
    assert_eq!(refused(&[2; 4], &[2], 8191, 8192), Answer::new(17, [0, 0, 0]));
    assert_eq!(refused(&[2; 4], &[2], 8192, 8191), Answer::new(17, [0, 0, 0]));
    assert_eq!(refused(&[0, 0, 0, 2], &[2], 8192, 8192), Answer::new(18, [0, 3, 0]));
    assert_eq!(refused(&[0, 0, 0, 0], &[2], 8192, 8192), Answer::new(18, [0, 4, 0]));
    assert_eq!(refused(&[0, 0, 0, 0], &[0], 8192, 8192), Answer::new(18, [0, 10, 0]));
    run.bank[5] = 1;
    assert_eq!(run.refused(&[0; 4], &[0], 8192, 8200), Answer::new(18, [0, 18, 0]));
    run.bank[13] = 0;
    assert_eq!(run.refused(&[0; 4], &[0], 8192, 8200), Answer::new(18, [0, 32, 0]));
    run.bank[27] = 1;
    assert_eq!(run.step(&[0; 4], &[0]).result, 0);
    run.table[1] = 9;
    assert_eq!(run.refused(&[2; 3], &[2; 2], 0, 0), Answer::new(4, [0, 1, 0]));
}

/// A byte over 1 is a fault at a register and nowhere else, though OUT takes IN and CON as registered too.
#[test]
fn registers_and_other_wires() {
    for d in 2..=8 {
        let mut builder = Builder::new(d);
        let (a, b) = (builder.input(1), builder.input(0));
        let first_and = builder.wires();
        let product = builder.and(&a, &b);
        let delayed = builder.register(product[0]);
        builder.constant(d - 1, 1, 0);
        builder.not(delayed);
        let first_refresh = builder.wires();
        let refreshed = builder.refresh(&product);
        let gadget = product[0] as usize - first_and;
        let (pairs, own) = (d * (d - 1), d * (d - 1) + 3 * d);
        let in_and = (0..gadget).filter(|&at| match at {
            at if at < pairs => at % 2 == 1,
            at if at < own => (at - pairs) % 3 != 1,
            at => (at - own) % 2 == 1,
        });
        let wanted: Vec<usize> = in_and
            .map(|at| first_and + at)
            .chain([usize::from(delayed)])
            .chain(refreshed.iter().map(|&wire| usize::from(wire)))
            .collect();
        assert_eq!(usize::from(refreshed[0]), first_refresh + pairs / 2 + d);
        let (shares, tape) = (vec![1; 2 * d], vec![1; pairs]);
        let mut run = Run::new(builder.table.clone(), &wanted);
        assert_eq!(run.step(&shares, &tape).result, 0);
        assert!(run.held(&wanted).iter().all(|&byte| byte < 2));
        for &wire in &wanted {
            let index = shares.len() + tape.len() + wire;
            let byte = std::mem::replace(&mut run.bank[wire], 255);
            let answer = run.refused(&shares, &tape, 8192, 8192);
            assert_eq!(answer, Answer::new(18, [0, index, 0]), "d {d}");
            run.bank[wire] = byte;
        }
    }
}
