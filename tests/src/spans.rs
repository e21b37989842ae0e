//! How INs and OUTs of accepted circuits stand to each other, and that the latency is the clocks between them.
use crate::reference::write::frames;

/// What a circuit may have that its latency depends on; it may have several of them.
const NAMES: [&str; 8] = [
    "an OUT, no IN",
    "an IN, no OUT",
    "all OUTs below all INs",
    "an IN after an OUT",
    "the lowest IN after all OUTs",
    "the lowest IN not the first",
    "the highest OUT not the last",
    "a latency over 0",
];

/// How many accepted circuits had each of them.
#[derive(Default)]
pub struct Spans([u64; NAMES.len()]);

impl Spans {
    /// Counts what a circuit has, and holds its latency to its frames and notes.
    pub fn take(&mut self, table: &[u16], notes: &[u16], latency: u64) -> Result<(), String> {
        let (mut ins, mut outs) = (Vec::new(), Vec::new());
        // How many INs come before each OUT.
        let mut before = Vec::new();
        for words in frames(table) {
            match words[0] {
                1 => ins.push(words[1]),
                8 => {
                    outs.push(notes[2 * usize::from(words[1]) + 1]);
                    before.push(ins.len());
                }
                _ => (),
            }
        }
        let (lowest, highest) = (ins.iter().min(), outs.iter().max());
        let clocks = lowest.zip(highest).map(|(&from, &to)| i32::from(to) - i32::from(from));
        let lowest_at = ins.iter().position(|stage| Some(stage) == lowest);
        let had = [
            ins.is_empty() && !outs.is_empty(),
            outs.is_empty() && !ins.is_empty(),
            clocks.is_some_and(|clocks| clocks < 0),
            before.iter().any(|&ins_before| ins_before < ins.len()),
            before.last().zip(lowest_at).is_some_and(|(&ins_before, at)| ins_before <= at),
            lowest != ins.first(),
            highest != outs.last(),
            latency > 0,
        ];
        for (met, had) in self.0.iter_mut().zip(had) {
            *met += u64::from(had);
        }
        if latency != clocks.map_or(0, |clocks| clocks.max(0) as u64) {
            return Err(format!("latency {latency} with INs at {ins:?}, OUTs at {outs:?}"));
        }
        Ok(())
    }

    /// Prints how often each was met; gives how many never were.
    pub fn print(&self) -> usize {
        let cells = NAMES.iter().zip(self.0).map(|(name, times)| format!("{name} {times}"));
        println!("for the latency: {}", cells.collect::<Vec<_>>().join(", "));
        self.0.iter().filter(|&&times| times == 0).count()
    }
}
