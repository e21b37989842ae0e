//! What the program prints for a text: the reader, then the checker, then one line.
use crate::calls::{Answer, Calls};
use crate::reference::{MOST_WORDS, NOTES_WORDS};

/// The program judges this many bytes and no more.
pub const JUDGED_BYTES: usize = 49_152;

/// The one line, without its line feed.
pub fn verdict_line(calls: &dyn Calls, text: &[u8]) -> String {
    let judged = &text[..text.len().min(JUDGED_BYTES)];
    let mut table = vec![0; MOST_WORDS];
    let read = calls.read_text(judged, &mut table);
    if read.result != 0 {
        return line(read);
    }
    let words = read.numbers[0] as usize;
    line(calls.check(&table[..words], &mut vec![0; NOTES_WORDS]))
}

fn line(answer: Answer) -> String {
    let [x, y, z] = answer.numbers;
    match answer.result {
        0 => format!("accepted wires {x} random {y} latency {z}"),
        rule => format!("refused {rule} frame {x} word {y}"),
    }
}
