//! The checker in one pass, compiled for each d. The notes themselves hold what it looks up; a frame is asked for all its rules
//! at once, and only where one is broken it is found out which.
use super::fault::{fault, Made};
use super::gates::{begins_row, single_gates};
use super::{by_shares, Found, Refused};

pub type Notes = [[u16; 2]; 8192];
/// A wire's note as one number: the label, the bit of a registered wire beside it, and the stage from STAGE on.
pub type Note = u32;
pub const INNER: Note = 0xFFFF_FFFF;
pub const REGISTERED: Note = 8;
pub const STAGE: Note = 1 << 16;
/// What a note is below, where its wire is not inner.
const STAGES_END: Note = 256 * STAGE;
/// What a gate adds to the note of its wire, by its kind.
const RAISED: [Note; 8] = [0, 0, 0, 0, 0, STAGE | REGISTERED, 0, 0];

/// What the frames so far have made.
struct Pass<'a, const D: usize> {
    notes: &'a mut Notes,
    wires: usize,
    randoms: usize,
    inputs: usize,
    /// How many wires there are more than frames, HEAD among them.
    beside: usize,
    /// The lowest stage of an IN, and the highest of an OUT.
    lowest: Note,
    highest: Note,
}

pub fn check(table: &[u16], notes: &mut [u16]) -> Result<Found, Refused> {
    if table.len() > 8192 {
        return Err((1, 0, 0));
    }
    let Some(notes) = notes.as_chunks_mut().0.first_chunk_mut() else {
        return Err((2, 0, 0));
    };
    let [0, d, ref frames @ ..] = *table else {
        return Err((3, 0, 0));
    };
    if d.wrapping_sub(2) > 6 {
        return Err((4, 0, 1));
    }
    by_shares!(d, walk(frames, notes))
}

fn walk<const D: usize>(frames: &[u16], notes: &mut Notes) -> Result<Found, Refused> {
    let mut pass = Pass::<D> {
        notes,
        wires: 0,
        randoms: 0,
        inputs: 0,
        beside: 0usize.wrapping_sub(1),
        lowest: STAGES_END,
        highest: 0,
    };
    let mut rest = frames;
    while let [kind, ..] = *rest {
        let after = if kind > 5 {
            if kind == 6 {
                pass.and(rest)
            } else if kind == 7 {
                pass.refresh(rest)
            } else {
                pass.output(rest)
            }
        } else if kind > 2 {
            pass.gates(rest)
        } else if kind == 1 {
            pass.inputs(rest)
        } else {
            pass.constant(rest)
        };
        let Some(after) = after else {
            let (rule, word) = fault(pass.made(), rest);
            return Err((rule, pass.wires.wrapping_sub(pass.beside), word));
        };
        rest = after;
    }
    let Pass { wires, randoms, inputs, lowest, highest, .. } = pass;
    let latency = (highest.saturating_sub(lowest) / STAGE) as usize;
    Ok(Found { d: D, inputs, randoms, wires, latency })
}

#[inline(always)]
pub fn joined([label, stage]: [u16; 2]) -> Note {
    Note::from(label) | (Note::from(stage) << 16)
}

#[inline(always)]
fn parted(note: Note) -> [u16; 2] {
    [note as u16, (note >> 16) as u16]
}

/// XORs, NOTs and REGs up to another frame, one that breaks a rule, or the table's end: a row of one kind at a time, or some
/// gates as one case without a branch between them. Gives how many words are left and the number of wires.
#[inline(never)]
fn gates<const D: usize>(frames: &[u16], notes: &mut Notes, mut wires: usize) -> (usize, usize) {
    let mut rest = frames;
    while let [kind @ 3..=5, ..] = *rest {
        if !begins_row::<D>(rest) {
            let before = rest.len();
            let mut made = true;
            rest = single_gates::<D>(rest, |_, kind, x, y| {
                made = make_gate(kind, x, y, notes, wires);
                wires += usize::from(made);
                made
            });
            if !made || rest.len() == before {
                break;
            }
        } else if kind == 3 {
            let (words, after) = rest.split_at(3 * D);
            for (i, gate) in words.chunks_exact(3).enumerate() {
                if !make_gate(kind, gate[1], gate[2], notes, wires) {
                    return (rest.len() - 3 * i, wires);
                }
                wires += 1;
            }
            rest = after;
        } else {
            let (words, after) = rest.split_at(2 * D);
            for (i, gate) in words.chunks_exact(2).enumerate() {
                if !make_gate(kind, gate[1], gate[1], notes, wires) {
                    return (rest.len() - 2 * i, wires);
                }
                wires += 1;
            }
            rest = after;
        }
    }
    (rest.len(), wires)
}

/// Makes one wire; false where a rule is broken.
#[inline(always)]
fn make_gate(kind: u16, x: u16, y: u16, notes: &mut Notes, wires: usize) -> bool {
    if wires >= 8192 {
        return false;
    }
    let made = &notes[..wires];
    let (Some(&x), Some(&y)) = (made.get(usize::from(x)), made.get(usize::from(y))) else {
        return false;
    };
    let (x, y) = (joined(x), joined(y));
    // an inner wire's stage is past all others, and stays so
    let new = u64::from(x & !REGISTERED) + u64::from(RAISED[usize::from(kind & 7)]);
    if (x ^ y) & !REGISTERED != 0 {
        return false;
    }
    if new >= u64::from(STAGES_END) {
        return false;
    }
    notes[wires] = parted(new as Note);
    true
}

/// Each gives what follows the frame, or None where it breaks a rule.
impl<const D: usize> Pass<'_, D> {
    fn made(&self) -> Made<'_, D> {
        Made { notes: self.notes, wires: self.wires, randoms: self.randoms }
    }

    #[inline(always)]
    fn gates<'b>(&mut self, rest: &'b [u16]) -> Option<&'b [u16]> {
        let (left, wires) = gates::<D>(rest, self.notes, self.wires);
        if wires == self.wires {
            return None;
        }
        self.wires = wires;
        rest.get(rest.len() - left..)
    }

    /// A run of INs.
    #[inline(always)]
    fn inputs<'b>(&mut self, frames: &'b [u16]) -> Option<&'b [u16]> {
        let mut rest = frames;
        while let [1, stage @ 0..=255, ref after @ ..] = *rest {
            let stage = Note::from(stage) * STAGE;
            if self.make(D, |label| stage | REGISTERED | label as Note).is_none() {
                break;
            }
            self.inputs += 1;
            self.lowest = stage.min(self.lowest);
            rest = after;
        }
        (rest.len() < frames.len()).then_some(rest)
    }

    #[inline(always)]
    fn constant<'b>(&mut self, rest: &'b [u16]) -> Option<&'b [u16]> {
        let (&[kind, label, value, stage], after) = rest.split_first_chunk()?;
        if kind != 2 || usize::from(label) >= D || value > 1 || stage > 255 {
            return None;
        }
        *self.notes.get_mut(self.wires)? = [label | REGISTERED as u16, stage];
        self.wires += 1;
        Some(after)
    }

    #[inline(always)]
    fn and<'b>(&mut self, rest: &'b [u16]) -> Option<&'b [u16]> {
        let (words, after) = rest.split_at_checked(2 + 2 * D)?;
        let (a, b) = (self.row(&words[2..])?, self.row(&words[2 + D..])?);
        let stage = a[0] & !(STAGE - 1);
        let unlike = unlike(&a, stage) | unlike(&b, stage.wrapping_sub(STAGE));
        if unlike & !REGISTERED != 0 || usize::from(words[1]) != self.randoms {
            return None;
        }
        self.gadget(7 * D * (D - 1) + 4 * D, &a, 0)?;
        Some(after)
    }

    #[inline(always)]
    fn refresh<'b>(&mut self, rest: &'b [u16]) -> Option<&'b [u16]> {
        let (words, after) = rest.split_at_checked(2 + D)?;
        let row = self.row(&words[2..])?;
        let unlike = unlike(&row, row[0] & !(STAGE - 1));
        if unlike & !REGISTERED != 0 || usize::from(words[1]) != self.randoms {
            return None;
        }
        self.gadget(D * (D - 1) / 2 + 2 * D, &row, REGISTERED)?;
        Some(after)
    }

    #[inline(always)]
    fn output<'b>(&mut self, rest: &'b [u16]) -> Option<&'b [u16]> {
        let (words, after) = rest.split_at_checked(1 + D)?;
        let row = self.row(&words[1..]).filter(|_| words[0] == 8)?;
        let stage = row[0] & !(STAGE - 1);
        if unlike(&row, stage | REGISTERED) != 0 {
            return None;
        }
        self.highest = stage.max(self.highest);
        self.beside = self.beside.wrapping_sub(1);
        Some(after)
    }

    /// The notes of a row; None where a wire is not made.
    #[inline(always)]
    fn row(&self, words: &[u16]) -> Option<[Note; D]> {
        let highest = words[..D].iter().fold(0, |highest, &word| word.max(highest));
        if usize::from(highest) >= self.wires {
            return None;
        }
        let mut row = [0; D];
        for (note, &wire) in row.iter_mut().zip(words) {
            *note = joined(self.notes[usize::from(wire & 8191)]);
        }
        Some(row)
    }

    /// Inner wires and a row of outputs, one stage behind this row.
    #[inline(always)]
    fn gadget(&mut self, made: usize, row: &[Note; D], registered: Note) -> Option<()> {
        if row[0] >= STAGES_END - STAGE {
            return None;
        }
        self.make(made, |i| ((row[i] & !REGISTERED) + STAGE) | registered)?;
        self.randoms += D * (D - 1) / 2;
        Some(())
    }

    /// So many wires, the last ones a row with these notes, the others inner.
    #[inline(always)]
    fn make(&mut self, made: usize, note: impl Fn(usize) -> Note) -> Option<()> {
        let place = self.notes.get_mut(self.wires..self.wires + made)?;
        let (inner, row) = place.split_at_mut(made - D);
        inner.fill([0xFFFF; 2]);
        for (label, place) in row.iter_mut().enumerate() {
            *place = parted(note(label));
        }
        self.wires += made;
        self.beside = self.beside.wrapping_add(made - 1);
        Some(())
    }
}

/// The bits in which a row's notes differ from this one with the labels in it.
#[inline(always)]
fn unlike<const D: usize>(row: &[Note; D], note: Note) -> Note {
    (0..D).fold(0, |all, i| all | (row[i] ^ (note | i as Note)))
}
