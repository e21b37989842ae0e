//! Whole sharings through three programs: the answer and every word of the notes; and what was met.
use crate::buffers::{difference, GUARD};
use crate::calls::{Answer, Calls};
use crate::generate::mixing::WAYS;
use crate::generate::sharing::{Form, Sharing};
use crate::reference::write::frames;
use crate::reference::{Reference, NOTES_WORDS};
use crate::tuned::Tuned;
use std::ops::Range;

const KINDS: [&str; 9] = ["HEAD", "IN", "CON", "XOR", "NOT", "REG", "AND", "REF", "OUT"];

/// What the circuits had, how often each answer was given, and how often each way to break them was met.
#[derive(Default)]
pub struct Sharings {
    /// Yes, by d.
    yes: [u64; 9],
    /// Yes with a run of NOTs, for even and for odd d.
    yes_with_not: [u64; 2],
    /// Sharings and OUTs where the answer is yes, by kind.
    made: [u64; 9],
    /// Two runs of one kind behind each other, by kind, and XORs of a sharing with itself, where the answer is yes.
    behind: [u64; 9],
    with_itself: u64,
    /// 26, by the kind of frame it is at.
    no: [u64; 9],
    /// 26 by each way to break, by kind.
    broken: [[u64; 9]; WAYS.len()],
    /// Accepted by the check with notes longer than asked.
    longer_notes: u64,
}

impl Sharings {
    /// Makes the call through the second program, the other and the opponent, with these notes and their guards. All must
    /// agree, and leave the notes as the check leaves them.
    pub fn take(
        &mut self,
        other: &dyn Calls,
        table: &[u16],
        notes: &[u16],
    ) -> Result<Answer, String> {
        let lent = GUARD..notes.len() - GUARD;
        let call = |calls: &dyn Calls| {
            let mut notes = notes.to_vec();
            (calls.check_sharings(table, &mut notes[lent.clone()]), notes)
        };
        let (wanted, ours) = call(&Reference);
        for (calls, name) in [(other, "other"), (&Tuned, "opponent")] {
            let (got, theirs) = call(calls);
            if wanted != got {
                return Err(format!("check_sharings: reference {wanted:?}, {name} {got:?}"));
            }
            if let Some(place) = difference("notes", &ours, &theirs) {
                return Err(format!("check_sharings, {name}: {place}"));
            }
        }
        let mut checked = notes.to_vec();
        let check = other.check(table, &mut checked[lent.clone()]);
        if let Some(place) = difference("notes", &ours, &checked) {
            return Err(format!("check_sharings beside check: {place}"));
        }
        if wanted != check && (check.result, wanted.result) != (0, 26) {
            return Err(format!("check_sharings: {wanted:?}, the check {check:?}"));
        }
        self.note(table, &wanted, lent.len());
        Ok(wanted)
    }

    /// The same for a circuit of which something is known: it must be answered so.
    pub fn take_known(
        &mut self,
        other: &dyn Calls,
        case: &Sharing,
        notes: &[u16],
    ) -> Result<Answer, String> {
        let answer = self.take(other, &case.table, notes)?;
        if case.notes < NOTES_WORDS {
            return Ok(answer);
        }
        let wanted = match case.form {
            Form::Spoiled => answer,
            Form::Whole => Answer { result: 0, ..answer },
            Form::Broken { frame, .. } => Answer::new(26, [frame, 0, 0]),
        };
        if answer != wanted {
            return Err(format!("check_sharings: {answer:?} of a circuit {:?}", case.form));
        }
        if let Form::Broken { way, kind, .. } = case.form {
            self.broken[way as usize][kind] += 1;
        }
        Ok(answer)
    }

    fn note(&mut self, table: &[u16], answer: &Answer, notes: usize) {
        if !matches!(answer.result, 0 | 26) {
            return;
        }
        let frames = frames(table);
        self.longer_notes += u64::from(notes > NOTES_WORDS);
        if answer.result == 26 {
            self.no[usize::from(frames[answer.numbers[0] as usize][0])] += 1;
            return;
        }
        let d = usize::from(table[1]);
        self.yes[d] += 1;
        let has_not = frames.iter().any(|words| words[0] == 4);
        self.yes_with_not[d % 2] += u64::from(has_not);
        self.note_frames(&frames[1..], d);
    }

    /// Counts what whole sharings are made of: the frames behind HEAD.
    fn note_frames(&mut self, frames: &[&[u16]], d: usize) {
        let (mut at, mut last) = (0, 0);
        while let Some(words) = frames.get(at) {
            let kind = usize::from(words[0]);
            let is_run = (2..=5).contains(&kind);
            self.made[kind] += 1;
            self.behind[kind] += u64::from(is_run && kind == last);
            self.with_itself += u64::from(kind == 3 && words[1] == words[2]);
            at += if is_run { d } else { 1 };
            last = kind;
        }
    }

    /// Prints how often each was met; gives how many never were.
    pub fn print(&self) -> usize {
        let by_kind = |kinds: Range<usize>, times: &[u64; 9]| -> Vec<(String, u64)> {
            kinds.map(|kind| (KINDS[kind].to_string(), times[kind])).collect()
        };
        let mut yes: Vec<_> = (2..9).map(|d| (format!("d {d}"), self.yes[d])).collect();
        yes.extend(
            ["with NOT and even d", "with NOT and odd d"]
                .map(str::to_string)
                .into_iter()
                .zip(self.yes_with_not),
        );
        let mut made = by_kind(1..9, &self.made);
        made.push(("XOR of one with itself".to_string(), self.with_itself));
        let mut no = by_kind(2..9, &self.no);
        no.push(("yes or 26 with longer notes".to_string(), self.longer_notes));
        let rows = print_row("whole sharings, yes", &yes)
            + print_row("their sharings and OUTs", &made)
            + print_row("their runs behind a run of the kind", &by_kind(2..6, &self.behind))
            + print_row("26 at a frame of", &no);
        let header = KINDS[2..].iter().map(|kind| format!("{kind:>7}"));
        println!("{:<26}{}", "broken, 26 at its frame", header.collect::<String>());
        rows + (0..WAYS.len()).map(|way| self.print_way(way)).sum::<usize>()
    }

    /// One line of the ways to break; gives how many kinds of its frames were never met.
    fn print_way(&self, way: usize) -> usize {
        let (_, name, kinds) = WAYS[way];
        let cell = |kind: usize| match self.broken[way][kind] {
            0 if kinds.contains(&kind) => "NEVER".to_string(),
            0 => "-".to_string(),
            times => times.to_string(),
        };
        let cells: Vec<String> = (2..9).map(cell).collect();
        println!("{name:<26}{}", cells.iter().map(|cell| format!("{cell:>7}")).collect::<String>());
        cells.iter().filter(|cell| *cell == "NEVER").count()
    }
}

/// Prints names with their numbers; gives how many are 0.
fn print_row(title: &str, row: &[(String, u64)]) -> usize {
    let cells: Vec<String> = row.iter().map(|(name, times)| format!("{name} {times}")).collect();
    println!("{title}: {}", cells.join(", "));
    row.iter().filter(|(_, times)| *times == 0).count()
}
