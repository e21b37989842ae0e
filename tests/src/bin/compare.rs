//! Random cases through the reference and the proved code: answers and every byte of every buffer. Each text that is written
//! is read back, each count is added up, each latency is held to where INs and OUTs stand, clocks go in runs, and circuits of
//! whole sharings, and broken ones, are held to how they were made.
use masked_tests::buffers::{difference, GUARD};
use masked_tests::calls::{Answer, Calls, NAMES};
use masked_tests::clocks::Clocks;
use masked_tests::generate::case::{case, Case};
use masked_tests::generate::counting::Counting;
use masked_tests::generate::random::Random;
use masked_tests::generate::sharing::Sharing;
use masked_tests::laws::{bytes_hex, hex, read_back, Counted};
use masked_tests::options;
use masked_tests::reference::write::frames;
use masked_tests::reference::Reference;
use masked_tests::sharings::Sharings;
use masked_tests::spans::Spans;
use std::process::exit;

const CALLS: usize = NAMES.len();
/// The numbers of write_text, count, clock and check_sharings in NAMES.
const WRITE_TEXT: usize = 4;
const COUNT: usize = 5;
const CLOCK: usize = 6;
const CHECK_SHARINGS: usize = 7;
/// The results that a call may have: accepted, and the rules' numbers.
const RULES: usize = 27;

/// The buffers of one side, with guards around what is lent.
#[derive(Clone, PartialEq)]
struct Buffers {
    notes: Vec<u16>,
    values: Vec<u8>,
    reading: Vec<u8>,
    table: Vec<u16>,
    text: Vec<u8>,
    counts: Vec<u32>,
}

impl Buffers {
    fn junk(random: &mut Random, case: &Case) -> Buffers {
        Buffers {
            notes: random.words(case.notes + 2 * GUARD),
            values: random.bytes(case.values + 2 * GUARD),
            reading: random.bytes(case.reading + 2 * GUARD),
            table: random.words(case.text_table + 2 * GUARD),
            text: random.bytes(case.written + 2 * GUARD),
            counts: random.numbers(case.counting.counts + 2 * GUARD),
        }
    }

    /// Makes the call with this number in NAMES, but for clocks, which go in runs, and sharings, which have notes alone.
    fn call(&mut self, call: usize, calls: &dyn Calls, case: &Case) -> Answer {
        let notes = &mut self.notes[GUARD..GUARD + case.notes];
        let values = &mut self.values[GUARD..GUARD + case.values];
        let reading = &mut self.reading[GUARD..GUARD + case.reading];
        let table = &mut self.table[GUARD..GUARD + case.text_table];
        let text = &mut self.text[GUARD..GUARD + case.written];
        let Case { shares, tape, probes, .. } = case;
        match call {
            0 => calls.check(&case.table, notes),
            1 => calls.evaluate(&case.table, notes, shares, tape, values),
            2 => calls.read_probes(&case.table, notes, shares, tape, values, probes, reading),
            3 => calls.read_text(&case.text, table),
            WRITE_TEXT => calls.write_text(&case.table, notes, text),
            COUNT => {
                let Counting { table, secrets, probes, counts } = &case.counting;
                let counts = &mut self.counts[GUARD..GUARD + counts];
                calls.count(table, notes, secrets, probes, counts)
            }
            _ => unreachable!("{} has no arm", NAMES[call]),
        }
    }

    /// Names the first place where two sides differ.
    fn difference(&self, other: &Buffers) -> String {
        difference("notes", &self.notes, &other.notes)
            .or_else(|| difference("values", &self.values, &other.values))
            .or_else(|| difference("reading", &self.reading, &other.reading))
            .or_else(|| difference("table", &self.table, &other.table))
            .or_else(|| difference("text", &self.text, &other.text))
            .or_else(|| difference("counts", &self.counts, &other.counts))
            .unwrap_or_default()
    }
}

/// Runs one call on both sides; gives the answer and the buffers where they agree.
fn agree(
    call: usize,
    other: &dyn Calls,
    case: &Case,
    junk: &Buffers,
) -> Result<(Answer, Buffers), String> {
    let (mut ours, mut theirs) = (junk.clone(), junk.clone());
    let wanted = ours.call(call, &Reference, case);
    let got = theirs.call(call, other, case);
    if wanted != got {
        return Err(format!("{}: reference {wanted:?}, other {got:?}", NAMES[call]));
    }
    if ours != theirs {
        return Err(format!("{}: {}", NAMES[call], ours.difference(&theirs)));
    }
    Ok((wanted, ours))
}

fn print_failure(seed: u64, number: u64, case: &Case, what: &str) {
    println!("compare: seed {seed} case {number} failed: {what}");
    println!("  again: compare --seed {seed} --first {number} --count 1");
    println!("  table ({} words): {}", case.table.len(), hex(&case.table));
    println!("  shares: {}  tape: {}", bytes_hex(&case.shares), bytes_hex(&case.tape));
    println!("  probes: {}", hex(&case.probes));
    println!(
        "  lengths: notes {} values {} reading {} text table {} written text {}",
        case.notes, case.values, case.reading, case.text_table, case.written
    );
    println!("  text bytes: {}", bytes_hex(&case.text));
    let Counting { table, secrets, probes, counts } = &case.counting;
    println!("  counted table: {}", hex(table));
    println!("  secrets: {}  probes: {}  counts {counts}", bytes_hex(secrets), hex(probes));
    let Sharing { table, notes, form } = &case.sharing;
    println!("  sharings' table, {form:?}, notes {notes}: {}", hex(table));
}

/// The rules that each call must have met.
fn wanted_rules(call: usize) -> Vec<usize> {
    match call {
        0 => (0..=14).chain([22]).collect(),
        1 | CLOCK => (0..=18).chain([22]).collect(),
        2 => (0..=19).chain([22]).collect(),
        3 => vec![0, 3, 4, 5, 6, 20, 21],
        WRITE_TEXT => (0..=14).chain([22, 23]).collect(),
        COUNT => (0..=15).chain([17, 18, 19, 22, 24, 25]).collect(),
        CHECK_SHARINGS => (0..=14).chain([22, 26]).collect(),
        _ => unreachable!("{} has no rules", NAMES[call]),
    }
}

/// Prints how often each rule was met; gives how many were never met.
fn print_rules(met: &[[u64; RULES]; CALLS]) -> usize {
    println!("rule       {}", NAMES.map(|name| format!("{name:>15}")).concat());
    let mut missing = 0;
    for rule in 0..RULES {
        let name = if rule == 0 { "accepted".to_string() } else { format!("rule {rule}") };
        let cell = |(call, met): (usize, &[u64; RULES])| match met[rule] {
            0 if wanted_rules(call).contains(&rule) => "NEVER".to_string(),
            0 => "-".to_string(),
            times => times.to_string(),
        };
        let cells: Vec<String> = met.iter().enumerate().map(cell).collect();
        missing += cells.iter().filter(|cell| *cell == "NEVER").count();
        println!(
            "{name:<11}{}",
            cells.iter().map(|cell| format!("{cell:>15}")).collect::<String>()
        );
    }
    missing
}

/// What the accepted circuits were made of.
#[derive(Default)]
struct Shapes {
    by_shares: [u64; 9],
    frames: [u64; 9],
    most_words: usize,
    most_wires: u64,
}

impl Shapes {
    fn note(&mut self, table: &[u16], answer: &Answer) {
        self.by_shares[usize::from(table[1])] += 1;
        self.most_words = self.most_words.max(table.len());
        self.most_wires = self.most_wires.max(answer.numbers[0]);
        for words in &frames(table)[1..] {
            self.frames[usize::from(words[0])] += 1;
        }
    }

    fn print(&self) {
        let shares: Vec<String> = (2..9).map(|d| format!("d {d}: {}", self.by_shares[d])).collect();
        println!("accepted circuits: {}", shares.join(", "));
        let names = ["IN", "CON", "XOR", "NOT", "REG", "AND", "REF", "OUT"];
        let frames =
            names.iter().zip(&self.frames[1..]).map(|(name, count)| format!("{name} {count}"));
        println!("their frames: {}", frames.collect::<Vec<_>>().join(", "));
        println!("the largest: {} words, {} wires", self.most_words, self.most_wires);
    }
}

#[cfg(feature = "proved")]
fn other(name: Option<String>) -> (Box<dyn Calls>, &'static str) {
    match name.as_deref() {
        Some("tuned") => (Box::new(masked_tests::tuned::Tuned), "the tuned opponent"),
        _ => (Box::new(masked_tests::proved::Proved), "the proved code"),
    }
}

#[cfg(not(feature = "proved"))]
fn other(_: Option<String>) -> (Box<dyn Calls>, &'static str) {
    (Box::new(masked_tests::tuned::Tuned), "the tuned opponent, NOT the proved code")
}

/// What the cases met.
#[derive(Default)]
struct Tally {
    met: [[u64; RULES]; CALLS],
    shapes: Shapes,
    spans: Spans,
    read_back: u64,
    counted: Counted,
    clocks: Clocks,
    sharings: Sharings,
}

impl Tally {
    /// Makes every call of a case on both sides, and tries what holds of accepted calls by itself.
    fn take(&mut self, other: &dyn Calls, case: &Case, random: &mut Random) -> Result<(), String> {
        let junk = Buffers::junk(random, case);
        let done = (0..CLOCK)
            .map(|call| agree(call, other, case, &junk))
            .collect::<Result<Vec<(Answer, Buffers)>, String>>()?;
        if let (Answer { result: 0, numbers: [bytes, ..] }, buffers) = &done[WRITE_TEXT] {
            let text = &buffers.text[GUARD..GUARD + *bytes as usize];
            read_back(random, other, &case.table, text)?;
            self.read_back += 1;
        }
        let (answer, buffers) = &done[COUNT];
        if answer.result == 0 {
            self.counted.take(&case.counting, answer, &buffers.counts[GUARD..])?;
        }
        let (answer, buffers) = &done[0];
        if answer.result == 0 {
            self.shapes.note(&case.table, answer);
            self.spans.take(&case.table, &buffers.notes[GUARD..], answer.numbers[2])?;
        }
        for (met, (answer, _)) in self.met.iter_mut().zip(&done) {
            met[answer.result as usize] += 1;
        }
        let run = &case.clocking;
        for answer in self.clocks.take(random, other, &case.table, &junk.notes, run)? {
            self.met[CLOCK][answer.result as usize] += 1;
        }
        let ordinary = self.sharings.take(other, &case.table, &junk.notes)?;
        let notes = random.words(case.sharing.notes + 2 * GUARD);
        let known = self.sharings.take_known(other, &case.sharing, &notes)?;
        for answer in [ordinary, known] {
            self.met[CHECK_SHARINGS][answer.result as usize] += 1;
        }
        Ok(())
    }
}

fn main() {
    options::only(&["seed", "count", "first", "against"]);
    let seed = options::number("seed", 1);
    let count = options::number("count", 20_000);
    let first = options::number("first", 0);
    let (other, name) = other(options::text("against"));
    println!("compare: the reference with {name}, {count} circuits, seed {seed}");
    let mut tally = Tally::default();
    let mut failed = 0;
    for number in first..first + count {
        let mut random = Random::of_case(seed, number);
        let case = case(&mut random);
        if let Err(what) = tally.take(other.as_ref(), &case, &mut random) {
            failed += 1;
            if failed <= 3 {
                print_failure(seed, number, &case, &what);
            }
        }
    }
    tally.shapes.print();
    let missing = print_rules(&tally.met)
        + tally.spans.print()
        + tally.clocks.print()
        + tally.sharings.print();
    println!("texts written and read back: {}", tally.read_back);
    tally.counted.print();
    if missing > 0 && count > 1000 {
        println!(
            "compare: {missing} rules, or cases of the latency, clocks or sharings, were never met"
        );
    }
    println!("compare: {} passed, {failed} failed", count - failed);
    if failed > 0 || (missing > 0 && count > 1000) {
        exit(1);
    }
}
