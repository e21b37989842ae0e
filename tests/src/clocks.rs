//! Runs of clocks through two programs: answers and every byte of every buffer after each step; and what the runs met.
use crate::buffers::{difference, GUARD};
use crate::calls::{Answer, Calls};
use crate::generate::clocking::{Clocking, Step, ROOM};
use crate::generate::random::Random;
use crate::laws::bytes_hex;
use crate::reference::{Reference, MOST_WIRES};

/// What steps met beside the rules' numbers, and how often.
#[derive(Default)]
pub struct Clocks {
    values_short: u64,
    bank_short: u64,
    share_over: u64,
    random_over: u64,
    register_over: u64,
    /// Accepted, with a byte of the bank over 1 at a wire that is no register.
    other_over: u64,
    /// Refused, with accepted steps of the run before and behind.
    between: u64,
}

/// The buffers of one side, with guards around what is lent.
#[derive(Clone, PartialEq)]
struct Buffers {
    notes: Vec<u16>,
    values: Vec<u8>,
    bank: Vec<u8>,
}

impl Buffers {
    fn junk(random: &mut Random, notes: &[u16], bank: &[u8]) -> Buffers {
        Buffers {
            notes: notes.to_vec(),
            values: random.bytes(ROOM + 2 * GUARD),
            bank: [&random.bytes(GUARD), bank, &random.bytes(GUARD)].concat(),
        }
    }

    fn step(&mut self, calls: &dyn Calls, table: &[u16], step: &Step) -> Answer {
        for &(wire, byte) in &step.put {
            self.bank[GUARD + wire] = byte;
        }
        let lent = self.notes.len() - 2 * GUARD;
        let notes = &mut self.notes[GUARD..GUARD + lent];
        let values = &mut self.values[GUARD..GUARD + step.values];
        let bank = &mut self.bank[GUARD..GUARD + step.bank];
        calls.clock(table, notes, &step.shares, &step.tape, values, bank)
    }

    /// Names the first place where two sides differ.
    fn difference(&self, other: &Buffers) -> String {
        difference("notes", &self.notes, &other.notes)
            .or_else(|| difference("values", &self.values, &other.values))
            .or_else(|| difference("bank", &self.bank, &other.bank))
            .unwrap_or_default()
    }
}

impl Clocks {
    /// Runs the clocks on both sides, with these notes and their guards; gives the answers where they agree.
    pub fn take(
        &mut self,
        random: &mut Random,
        other: &dyn Calls,
        table: &[u16],
        notes: &[u16],
        run: &Clocking,
    ) -> Result<Vec<Answer>, String> {
        let mut ours = Buffers::junk(random, notes, &run.bank);
        let mut theirs = ours.clone();
        let mut answers = Vec::new();
        for (number, step) in run.steps.iter().enumerate() {
            let wanted = ours.step(&Reference, table, step);
            let got = theirs.step(other, table, step);
            let at = || format!("clock, step {number}: {}", described(step));
            if wanted != got {
                return Err(format!("{}: reference {wanted:?}, other {got:?}", at()));
            }
            if ours != theirs {
                return Err(format!("{}: {}", at(), ours.difference(&theirs)));
            }
            // an accepted step leaves the bytes of wires that are no registers
            let over = run.others.iter().any(|&wire| ours.bank[GUARD + wire] > 1);
            self.note(step, &wanted, over);
            answers.push(wanted);
        }
        let accepted = |answer: &Answer| answer.result == 0;
        let first = answers.iter().position(accepted).unwrap_or(0);
        let last = answers.iter().rposition(accepted).unwrap_or(0);
        let between = answers[first..last].iter().filter(|answer| !accepted(answer));
        self.between += between.count() as u64;
        Ok(answers)
    }

    /// Counts what a step met; `over` where a byte of the bank is over 1 at a wire that is no register.
    fn note(&mut self, step: &Step, answer: &Answer, over: bool) {
        let (shares, index) = (step.shares.len(), answer.numbers[1] as usize);
        match answer.result {
            0 if over => self.other_over += 1,
            17 if step.values < MOST_WIRES => self.values_short += 1,
            17 => self.bank_short += 1,
            18 if index < shares => self.share_over += 1,
            18 if index < shares + step.tape.len() => self.random_over += 1,
            18 => self.register_over += 1,
            _ => (),
        }
    }

    /// Prints how often each was met; gives how many never were.
    pub fn print(&self) -> usize {
        let met = [
            ("17 by the values", self.values_short),
            ("17 by the bank alone", self.bank_short),
            ("18 by a share", self.share_over),
            ("18 by a random bit", self.random_over),
            ("18 by a register", self.register_over),
            ("accepted with a byte over 1 at another wire of the bank", self.other_over),
            ("refused between accepted ones", self.between),
        ];
        let cells = met.map(|(name, times)| format!("{name} {times}"));
        println!("steps of clock: {}", cells.join(", "));
        met.iter().filter(|(_, times)| *times == 0).count()
    }
}

fn described(step: &Step) -> String {
    let Step { shares, tape, put, values, bank } = step;
    let (shares, tape) = (bytes_hex(shares), bytes_hex(tape));
    format!("shares {shares} tape {tape} put {put:?} values {values} bank {bank}")
}
