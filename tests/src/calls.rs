//! The open calls, so that one test can run any program behind them.

/// The calls by their names, in the order of the trait.
pub const NAMES: [&str; 8] = [
    "check",
    "evaluate",
    "read_probes",
    "read_text",
    "write_text",
    "count",
    "clock",
    "check_sharings",
];

/// What a call gives back: 0 and its numbers, or the rule and its spot.
#[derive(Clone, Copy, Debug, PartialEq, Eq)]
pub struct Answer {
    pub result: u64,
    pub numbers: [u64; 3],
}

impl Answer {
    pub fn new(result: u64, numbers: [usize; 3]) -> Answer {
        Answer { result, numbers: numbers.map(|number| number as u64) }
    }
}

#[allow(clippy::too_many_arguments)]
pub trait Calls {
    fn check(&self, table: &[u16], notes: &mut [u16]) -> Answer;

    fn evaluate(
        &self,
        table: &[u16],
        notes: &mut [u16],
        shares: &[u8],
        tape: &[u8],
        values: &mut [u8],
    ) -> Answer;

    fn read_probes(
        &self,
        table: &[u16],
        notes: &mut [u16],
        shares: &[u8],
        tape: &[u8],
        values: &mut [u8],
        probes: &[u16],
        reading: &mut [u8],
    ) -> Answer;

    fn read_text(&self, text: &[u8], table: &mut [u16]) -> Answer;

    fn write_text(&self, table: &[u16], notes: &mut [u16], text: &mut [u8]) -> Answer;

    fn count(
        &self,
        table: &[u16],
        notes: &mut [u16],
        secrets: &[u8],
        probes: &[u16],
        counts: &mut [u32],
    ) -> Answer;

    fn clock(
        &self,
        table: &[u16],
        notes: &mut [u16],
        shares: &[u8],
        tape: &[u8],
        values: &mut [u8],
        bank: &mut [u8],
    ) -> Answer;

    fn check_sharings(&self, table: &[u16], notes: &mut [u16]) -> Answer;
}
