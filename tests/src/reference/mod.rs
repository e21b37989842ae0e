//! Document 01, and what has landed of 02, in the plainest Rust. It shares no code with the proved checker.
pub mod check;
pub mod circuit;
pub mod clock;
pub mod count;
pub mod evaluate;
pub mod form;
pub mod found;
mod gadgets;
pub mod names;
pub mod plain;
pub mod reach;
pub mod sharings;
pub mod text;
pub mod write;

#[cfg(test)]
mod cases;
#[cfg(test)]
mod clocked;
#[cfg(test)]
mod counted;
#[cfg(test)]
mod ends;
#[cfg(test)]
mod shared;
#[cfg(test)]
mod slips;
#[cfg(test)]
mod written;

use crate::calls::{Answer, Calls};

/// Most words of a table.
pub const MOST_WORDS: usize = 8192;
/// Most wires of a circuit.
pub const MOST_WIRES: usize = 8192;
/// Fewest words of a notes buffer: two for each possible wire.
pub const NOTES_WORDS: usize = 2 * MOST_WIRES;
/// Fewest numbers of a counts buffer: four for each of 256 combinations.
pub const COUNTS_NUMBERS: usize = 1024;
/// Most free bits of a sharing and a tape that are counted.
pub const MOST_FREE_BITS: usize = 16;
/// Most wires that may be read where readings are counted.
pub const MOST_READ: usize = 8;
/// Highest stage.
pub const LAST_STAGE: usize = 255;

/// What an accepted circuit is told of.
#[derive(Clone, Copy, Debug, PartialEq, Eq)]
pub struct Counts {
    pub wires: usize,
    pub randoms: usize,
    pub latency: usize,
}

/// A refusal: the rule's number, and where it was met.
#[derive(Clone, Copy, Debug, PartialEq, Eq)]
pub struct Refusal {
    pub rule: u64,
    pub frame: usize,
    pub word: usize,
}

impl Refusal {
    pub fn new(rule: u64, frame: usize, word: usize) -> Refusal {
        Refusal { rule, frame, word }
    }

    /// A refusal that belongs to no frame.
    pub fn nowhere(rule: u64) -> Refusal {
        Refusal::new(rule, 0, 0)
    }
}

pub type Verdict = Result<Counts, Refusal>;

/// The numbers the C names give for a verdict.
pub fn answer(verdict: Verdict) -> Answer {
    numbers(verdict.map(|c| [c.wires, c.randoms, c.latency]))
}

/// The numbers the C names give: those of an accepted call, or the spot.
fn numbers(accepted: Result<[usize; 3], Refusal>) -> Answer {
    match accepted {
        Ok(numbers) => Answer::new(0, numbers),
        Err(r) => Answer::new(r.rule, [r.frame, r.word, 0]),
    }
}

/// This program behind the same calls as the proved code.
pub struct Reference;

impl Calls for Reference {
    fn check(&self, table: &[u16], notes: &mut [u16]) -> Answer {
        answer(check::check(table, notes).map(|circuit| circuit.counts()))
    }

    fn evaluate(
        &self,
        table: &[u16],
        notes: &mut [u16],
        shares: &[u8],
        tape: &[u8],
        values: &mut [u8],
    ) -> Answer {
        answer(evaluate::evaluate(table, notes, shares, tape, values))
    }

    fn read_probes(
        &self,
        table: &[u16],
        notes: &mut [u16],
        shares: &[u8],
        tape: &[u8],
        values: &mut [u8],
        probes: &[u16],
        reading: &mut [u8],
    ) -> Answer {
        answer(reach::read_probes(table, notes, shares, tape, values, probes, reading))
    }

    fn read_text(&self, text: &[u8], table: &mut [u16]) -> Answer {
        numbers(text::read(text, table).map(|words| [words, 0, 0]))
    }

    fn write_text(&self, table: &[u16], notes: &mut [u16], text: &mut [u8]) -> Answer {
        numbers(write::write(table, notes, text).map(|bytes| [bytes, 0, 0]))
    }

    fn count(
        &self,
        table: &[u16],
        notes: &mut [u16],
        secrets: &[u8],
        probes: &[u16],
        counts: &mut [u32],
    ) -> Answer {
        numbers(count::count(table, notes, secrets, probes, counts))
    }

    fn clock(
        &self,
        table: &[u16],
        notes: &mut [u16],
        shares: &[u8],
        tape: &[u8],
        values: &mut [u8],
        bank: &mut [u8],
    ) -> Answer {
        answer(clock::clock(table, notes, shares, tape, values, bank))
    }

    fn check_sharings(&self, table: &[u16], notes: &mut [u16]) -> Answer {
        answer(sharings::check_sharings(table, notes))
    }
}
