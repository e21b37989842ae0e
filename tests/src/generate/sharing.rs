//! What check_sharings is given: circuits of whole sharings, ones that break them at a known frame, and spoiled ones.
use super::case::{sheet, spoiled};
use super::damage::damaged_lines;
use super::mixing::{broken, Way, SPARE, WAYS};
use super::random::Random;
use super::whole::Whole;
use crate::reference::{MOST_WORDS, NOTES_WORDS};

pub struct Sharing {
    pub table: Vec<u16>,
    /// Length of the notes.
    pub notes: usize,
    pub form: Form,
}

/// What is known of a circuit before it is judged.
#[derive(Clone, Copy, Debug, PartialEq, Eq)]
pub enum Form {
    Whole,
    /// Accepted, and broken in this way in frames of a kind: 26 at this frame.
    Broken {
        way: Way,
        kind: usize,
        frame: usize,
    },
    /// Words or frames changed without a thought.
    Spoiled,
}

/// The circuit that the random numbers give.
pub fn sharing(random: &mut Random) -> Sharing {
    let (table, form) = match random.below(8) {
        0 if random.once_in(4) => full(random),
        0 | 1 => (Whole::random(random, 0).builder.table, Form::Whole),
        2 => {
            let whole = Whole::random(random, 0);
            (spoiled(random, &whole.builder).concat(), Form::Spoiled)
        }
        3 => {
            let whole = Whole::random(random, 0);
            (damaged_lines(random, &whole.builder).concat(), Form::Spoiled)
        }
        _ => broken_circuit(random),
    };
    Sharing { table, notes: sheet(random, NOTES_WORDS), form }
}

/// Runs up to 8,192 words or nearly so; behind them nothing, INs, or a run of NOTs that the table's end cuts.
fn full(random: &mut Random) -> (Vec<u16>, Form) {
    let mut whole = Whole::new(random.within(2, 8), 0);
    let row = whole.input(0);
    whole.grow(random, &[3, 4, 5], 2 * MOST_WORDS, 0);
    // a frame of IN or NOT has two words, and a run of NOTs would not fit
    let frames = (MOST_WORDS - whole.builder.table.len()) / 2;
    let frame = whole.builder.frames.len();
    let form = match random.below(3) {
        0 if frames > 0 => {
            whole.builder.nots(&row[..frames]);
            Form::Broken { way: Way::CutByEnd, kind: 4, frame }
        }
        1 => {
            (0..frames).for_each(|_| drop(whole.input(1)));
            Form::Whole
        }
        _ => Form::Whole,
    };
    (whole.builder.table, form)
}

/// A circuit with one thing broken in it, mostly with more behind it.
fn broken_circuit(random: &mut Random) -> (Vec<u16>, Form) {
    let cells: Vec<(Way, usize)> =
        WAYS.iter().flat_map(|(way, _, kinds)| kinds.iter().map(|&kind| (*way, kind))).collect();
    let (way, kind) = random.pick(&cells);
    let mut whole = Whole::random(random, SPARE);
    let frame = broken(random, &mut whole, way, kind);
    if way != Way::CutByEnd && !random.once_in(4) {
        whole.grow_on(random);
    }
    (whole.builder.table, Form::Broken { way, kind, frame })
}
