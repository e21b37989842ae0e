//! What holds of accepted calls by itself: a written text is read back, and counts add up.
use crate::calls::{Answer, Calls};
use crate::generate::counting::Counting;
use crate::generate::random::Random;
use crate::generate::text::damage;
use std::collections::BTreeSet;

/// Reads a written text, with exact room and with more: it is the very table, and a damaged one is not.
pub fn read_back(
    random: &mut Random,
    other: &dyn Calls,
    table: &[u16],
    text: &[u8],
) -> Result<(), String> {
    let words = table.len();
    let accepted = Answer::new(0, [words, 0, 0]);
    for room in [words, words + random.within(1, 40)] {
        let junk = random.words(room);
        let mut read = junk.clone();
        let answer = other.read_text(text, &mut read);
        if answer != accepted || read != [table, &junk[words..]].concat() {
            return Err(format!("read back, room for {room} words: {answer:?}, {}", hex(&read)));
        }
    }
    let (mut damaged, mut read) = (text.to_vec(), vec![0; words]);
    damage(random, &mut damaged);
    if damaged != text && other.read_text(&damaged, &mut read) == accepted && read == table {
        return Err(format!("another text is read as the table: {}", bytes_hex(&damaged)));
    }
    Ok(())
}

/// The counts that were added up: how many with each number of wires read and of free bits, and how they compared.
#[derive(Default)]
pub struct Counted {
    wires: [u64; 9],
    bits: [u64; 17],
    fewer_probes: u64,
    unequal: u64,
}

impl Counted {
    /// The counts of each set add up to the number of pairs, and with fewer than d different probes both columns are equal.
    pub fn take(&mut self, case: &Counting, answer: &Answer, counts: &[u32]) -> Result<(), String> {
        let [wires, combinations, pairs] = answer.numbers;
        let rows: Vec<&[u32]> = counts.chunks(4).take(combinations as usize).collect();
        let column = |at: usize| rows.iter().map(move |row| u64::from(row[at]));
        if combinations != 1 << wires || rows.len() as u64 != combinations {
            return Err(format!("count: {combinations} combinations of {wires} wires"));
        }
        let sums = [column(0).sum::<u64>(), column(1).sum()];
        if sums != [pairs; 2] {
            return Err(format!("count: {pairs} pairs, the counts add up to {sums:?}"));
        }
        let equal = column(0).eq(column(1)) && column(2).eq(column(3));
        let fewer = BTreeSet::from_iter(&case.probes).len() < usize::from(case.table[1]);
        if fewer && !equal {
            return Err("count: fewer than d probes, and the columns differ".to_string());
        }
        self.wires[wires as usize] += 1;
        self.bits[pairs.ilog2() as usize] += 1;
        self.fewer_probes += u64::from(fewer);
        self.unequal += u64::from(!equal);
        Ok(())
    }

    pub fn print(&self) {
        let row = |times: &[u64]| {
            let cells =
                times.iter().enumerate().map(|(number, times)| format!("{number}: {times}"));
            cells.collect::<Vec<_>>().join(", ")
        };
        let all: u64 = self.wires.iter().sum();
        println!("counts that add up: {all}; by wires read {}", row(&self.wires));
        println!("by free bits {}", row(&self.bits));
        println!(
            "fewer than d probes, columns equal: {}; columns that differ, d probes or more: {}",
            self.fewer_probes, self.unequal
        );
    }
}

pub fn hex(words: &[u16]) -> String {
    words.iter().map(|word| format!("{word:04X} ")).collect()
}

pub fn bytes_hex(bytes: &[u8]) -> String {
    bytes.iter().map(|byte| format!("{byte:02X}")).collect()
}
