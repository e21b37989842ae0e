//! A tuned program for the same calls, compiled for each number of shares; only counts allocate. The benchmark's opponent.
mod check;
mod clock;
mod count;
mod evaluate;
mod fault;
mod gates;
mod held;
mod lanes;
mod reach;
mod sharings;
mod starts;
mod sums;
mod text;
mod wide;
mod write;

#[cfg(test)]
mod clocked;
#[cfg(test)]
mod counted;
#[cfg(test)]
mod large;
#[cfg(test)]
mod shared;

use crate::calls::{Answer, Calls};

/// The call of a function that is compiled for each number of shares; `<_>` where it has a type beside it.
macro_rules! by_shares {
    ($d:expr, $function:ident $(<$type:ty>)? ($($given:expr),*)) => {
        match $d {
            2 => $function::<2 $(, $type)?>($($given),*),
            3 => $function::<3 $(, $type)?>($($given),*),
            4 => $function::<4 $(, $type)?>($($given),*),
            5 => $function::<5 $(, $type)?>($($given),*),
            6 => $function::<6 $(, $type)?>($($given),*),
            7 => $function::<7 $(, $type)?>($($given),*),
            _ => $function::<8 $(, $type)?>($($given),*),
        }
    };
}
use by_shares;

/// Rule, frame, word.
type Refused = (u64, usize, usize);

/// What a check found, and what the later passes need of it.
#[derive(Clone, Copy)]
struct Found {
    d: usize,
    inputs: usize,
    randoms: usize,
    wires: usize,
    latency: usize,
}

fn answer(verdict: Result<Found, Refused>) -> Answer {
    numbers(verdict.map(|found| [found.wires, found.randoms, found.latency]))
}

/// The numbers of an accepted call, or the spot of a refusal.
fn numbers(accepted: Result<[usize; 3], Refused>) -> Answer {
    match accepted {
        Ok(numbers) => Answer::new(0, numbers),
        Err((rule, frame, word)) => Answer::new(rule, [frame, word, 0]),
    }
}

pub struct Tuned;

impl Calls for Tuned {
    fn check(&self, table: &[u16], notes: &mut [u16]) -> Answer {
        answer(check::check(table, notes))
    }

    fn evaluate(
        &self,
        table: &[u16],
        notes: &mut [u16],
        shares: &[u8],
        tape: &[u8],
        values: &mut [u8],
    ) -> Answer {
        answer(evaluate::evaluate(table, notes, shares, tape, values))
    }

    fn read_probes(
        &self,
        table: &[u16],
        notes: &mut [u16],
        shares: &[u8],
        tape: &[u8],
        values: &mut [u8],
        probes: &[u16],
        reading: &mut [u8],
    ) -> Answer {
        answer(reach::read_probes(table, notes, shares, tape, values, probes, reading))
    }

    fn read_text(&self, text: &[u8], table: &mut [u16]) -> Answer {
        numbers(text::read(text, table).map(|words| [words, 0, 0]))
    }

    fn write_text(&self, table: &[u16], notes: &mut [u16], text: &mut [u8]) -> Answer {
        numbers(write::write(table, notes, text).map(|bytes| [bytes, 0, 0]))
    }

    fn count(
        &self,
        table: &[u16],
        notes: &mut [u16],
        secrets: &[u8],
        probes: &[u16],
        counts: &mut [u32],
    ) -> Answer {
        numbers(count::count(table, notes, secrets, probes, counts))
    }

    fn clock(
        &self,
        table: &[u16],
        notes: &mut [u16],
        shares: &[u8],
        tape: &[u8],
        values: &mut [u8],
        bank: &mut [u8],
    ) -> Answer {
        answer(clock::clock(table, notes, shares, tape, values, bank))
    }

    fn check_sharings(&self, table: &[u16], notes: &mut [u16]) -> Answer {
        answer(sharings::check_sharings(table, notes))
    }
}

/// The count by another way, 64 pairs in a word; the benchmark shows it beside.
pub fn count_wide(
    table: &[u16],
    notes: &mut [u16],
    secrets: &[u8],
    probes: &[u16],
    counts: &mut [u32],
) -> Answer {
    numbers(wide::count(table, notes, secrets, probes, counts))
}

/// Words and wires of each kind of frame with d shares: 0 words where there is no such kind.
#[derive(Clone, Copy)]
struct Sizes {
    words: [u8; 9],
    wires: [u16; 9],
}

impl Sizes {
    fn new(d: usize) -> Sizes {
        let (words, wires) = (d as u8, d as u16);
        Sizes {
            words: [0, 2, 4, 3, 2, 2, 2 + 2 * words, 2 + words, 1 + words],
            wires: [
                0,
                wires,
                1,
                1,
                1,
                1,
                7 * wires * (wires - 1) + 4 * wires,
                wires * (wires - 1) / 2 + 2 * wires,
                0,
            ],
        }
    }
}
