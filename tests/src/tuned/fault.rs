//! The rule that a refused frame breaks, and the word: its rules gone through one after the other.
use super::check::{joined, Note, Notes, INNER, REGISTERED, STAGE};
use super::Sizes;

/// Rule and word inside a frame.
type Fault = (u64, usize);

/// What the frames before the refused one have made.
pub struct Made<'a, const D: usize> {
    pub notes: &'a Notes,
    pub wires: usize,
    pub randoms: usize,
}

/// What refuses the frame that these words begin with.
#[cold]
#[inline(never)]
pub fn fault<const D: usize>(made: Made<D>, rest: &[u16]) -> Fault {
    let sizes = Sizes::new(D);
    let kind = usize::from(rest[0]);
    let words = match sizes.words.get(kind) {
        None | Some(0) => return (5, 0),
        Some(&length) if usize::from(length) > rest.len() => return (6, 0),
        Some(&length) => &rest[..usize::from(length)],
    };
    match words_fit(&made, words) {
        Err(fault) => fault,
        Ok(stage) if stage > 255 => (13, 0),
        Ok(_) => (14, 0),
    }
}

/// The rules of the words; gives the stage of the new wires.
fn words_fit<const D: usize>(made: &Made<D>, words: &[u16]) -> Result<Note, Fault> {
    match words[0] {
        1 => in_range(words, 1, 255),
        2 => {
            in_range(words, 1, D as u16 - 1)?;
            in_range(words, 2, 1)?;
            in_range(words, 3, 255)
        }
        3 => {
            let first = named(made, words, 1)?;
            let second = named(made, words, 2)?;
            like(second, first, 2)?;
            Ok(first / STAGE)
        }
        4 => Ok(named(made, words, 1)? / STAGE),
        5 => Ok(named(made, words, 1)? / STAGE + 1),
        6 | 7 => {
            if usize::from(words[1]) != made.randoms {
                return Err((12, 1));
            }
            let stage = named(made, words, 2)? / STAGE * STAGE;
            row(made, words, 2, stage, 0)?;
            if words[0] == 6 {
                row(made, words, 2 + D, stage.wrapping_sub(STAGE), 0)?;
            }
            Ok(stage / STAGE + 1)
        }
        _ => {
            let stage = named(made, words, 1)? / STAGE * STAGE;
            row(made, words, 1, stage, REGISTERED)?;
            Ok(0)
        }
    }
}

/// Rule 7.
fn in_range(words: &[u16], word: usize, most: u16) -> Result<Note, Fault> {
    if words[word] > most {
        Err((7, word))
    } else {
        Ok(words[word].into())
    }
}

/// Rules 8 and 9; gives the note.
fn named<const D: usize>(made: &Made<D>, words: &[u16], word: usize) -> Result<Note, Fault> {
    if usize::from(words[word]) >= made.wires {
        return Err((8, word));
    }
    match joined(made.notes[usize::from(words[word])]) {
        INNER => Err((9, word)),
        note => Ok(note),
    }
}

/// Rules 10 and 11: label and stage as in the wanted note.
fn like(note: Note, wanted: Note, word: usize) -> Result<(), Fault> {
    if ((note ^ wanted) % STAGE) & !REGISTERED != 0 {
        return Err((10, word));
    }
    if note / STAGE != wanted / STAGE {
        return Err((11, word));
    }
    Ok(())
}

/// Rules 8 to 11 of a row, and 22 where its wires have to be registered.
fn row<const D: usize>(
    made: &Made<D>,
    words: &[u16],
    first: usize,
    stage: Note,
    registered: Note,
) -> Result<(), Fault> {
    for label in 0..D {
        let note = named(made, words, first + label)?;
        like(note, stage | label as Note, first + label)?;
        if note & registered != registered {
            return Err((22, first + label));
        }
    }
    Ok(())
}
