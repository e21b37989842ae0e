//! The checker: the refusals 1 to 14 and 22, frame by frame, and the notes.
use super::circuit::{Circuit, NewWires, Place, Source};
use super::gadgets::{and, pairs, refresh};
use super::{Refusal, LAST_STAGE, MOST_WIRES, MOST_WORDS, NOTES_WORDS};

/// Which rules hold. Counting breaks one on purpose.
#[derive(Clone, Copy, PartialEq, Eq)]
pub enum Rules {
    All,
    /// XOR may join wires of different labels; the result has the first's.
    WithoutXorLabel,
}

/// What a registered wire's note has beside its label.
const REGISTERED: u16 = 8;

/// A refusal inside one frame: rule and word.
type Fault = (u64, usize);

/// Words of a frame, its kind included; None where the kind is not 1 to 8.
pub fn frame_length(kind: u16, d: usize) -> Option<usize> {
    match kind {
        1 | 4 | 5 => Some(2),
        2 => Some(4),
        3 => Some(3),
        6 => Some(2 + 2 * d),
        7 => Some(2 + d),
        8 => Some(1 + d),
        _ => None,
    }
}

/// The whole call: the verdict, and the notes of what was made.
pub fn check(table: &[u16], notes: &mut [u16]) -> Result<Circuit, Refusal> {
    if table.len() > MOST_WORDS {
        return Err(Refusal::nowhere(1));
    }
    if notes.len() < NOTES_WORDS {
        return Err(Refusal::nowhere(2));
    }
    let (circuit, refusal) = walk(table, Rules::All);
    for (number, wire) in circuit.wires.iter().enumerate() {
        notes[2 * number..2 * number + 2].copy_from_slice(&note(wire.place));
    }
    match refusal {
        Some(refusal) => Err(refusal),
        None => Ok(circuit),
    }
}

/// A wire's two words of the notes.
fn note(place: Option<Place>) -> [u16; 2] {
    match place {
        None => [0xFFFF, 0xFFFF],
        Some(place) if place.registered => [place.label as u16 + REGISTERED, place.stage as u16],
        Some(place) => [place.label as u16, place.stage as u16],
    }
}

/// Walks the frames; gives what the frames before a refusal have made.
pub fn walk(table: &[u16], rules: Rules) -> (Circuit, Option<Refusal>) {
    let mut circuit = Circuit::new(0);
    if table.len() < 2 || table[0] != 0 {
        return (circuit, Some(Refusal::new(3, 0, 0)));
    }
    circuit.d = usize::from(table[1]);
    if !(2..=8).contains(&circuit.d) {
        return (circuit, Some(Refusal::new(4, 0, 1)));
    }
    let mut rest = &table[2..];
    let mut frame = 1;
    while !rest.is_empty() {
        let Some(length) = frame_length(rest[0], circuit.d) else {
            return (circuit, Some(Refusal::new(5, frame, 0)));
        };
        if rest.len() < length {
            return (circuit, Some(Refusal::new(6, frame, 0)));
        }
        circuit.starts.push(circuit.wires.len());
        if let Err((rule, word)) = take_frame(&mut circuit, &rest[..length], rules) {
            return (circuit, Some(Refusal::new(rule, frame, word)));
        }
        circuit.frames.push(rest[..length].to_vec());
        rest = &rest[length..];
        frame += 1;
    }
    (circuit, None)
}

/// Checks one frame and adds its wires.
fn take_frame(circuit: &mut Circuit, words: &[u16], rules: Rules) -> Result<(), Fault> {
    match words[0] {
        1 => take_in(circuit, words),
        2 => take_con(circuit, words),
        3 => take_xor(circuit, words, rules),
        4 => {
            let place = named(circuit, words, 1)?;
            take_gate(circuit, place.label, place.stage, Source::Not(words[1].into()))
        }
        5 => {
            let place = named(circuit, words, 1)?;
            take_gate(circuit, place.label, place.stage + 1, Source::Register(words[1].into()))
        }
        6 => take_and(circuit, words),
        7 => take_ref(circuit, words),
        _ => take_out(circuit, words),
    }
}

/// A word that must not pass `most`: rule 7.
fn in_range(words: &[u16], word: usize, most: usize) -> Result<usize, Fault> {
    let value = usize::from(words[word]);
    if value > most {
        return Err((7, word));
    }
    Ok(value)
}

/// A word that names a wire: rules 8 and 9.
fn named(circuit: &Circuit, words: &[u16], word: usize) -> Result<Place, Fault> {
    match circuit.wires.get(usize::from(words[word])) {
        None => Err((8, word)),
        Some(wire) => wire.place.ok_or((9, word)),
    }
}

/// One wire of a row: rules 8 to 11. `stage` is what it must have, where that is fixed; it may be -1, which none has.
fn row_wire(
    circuit: &Circuit,
    words: &[u16],
    word: usize,
    label: usize,
    stage: Option<i64>,
) -> Result<Place, Fault> {
    let place = named(circuit, words, word)?;
    if place.label != label {
        return Err((10, word));
    }
    if stage.is_some_and(|stage| stage != place.stage as i64) {
        return Err((11, word));
    }
    Ok(place)
}

/// d wires in a row: the i-th has label i, all have one stage, which it gives.
fn row(
    circuit: &Circuit,
    words: &[u16],
    first_word: usize,
    first_stage: Option<i64>,
) -> Result<usize, Fault> {
    let mut wanted = first_stage;
    let mut stage = 0;
    for label in 0..circuit.d {
        stage = row_wire(circuit, words, first_word + label, label, wanted)?.stage;
        wanted = Some(stage as i64);
    }
    Ok(stage)
}

/// The wires that d words name.
fn row_wires(circuit: &Circuit, words: &[u16], first_word: usize) -> Vec<usize> {
    words[first_word..first_word + circuit.d].iter().map(|&w| usize::from(w)).collect()
}

fn take_in(circuit: &mut Circuit, words: &[u16]) -> Result<(), Fault> {
    let stage = in_range(words, 1, LAST_STAGE)?;
    let mut new = NewWires::after(circuit);
    for label in 0..circuit.d {
        new.open(label, stage, Source::Share(circuit.inputs * circuit.d + label));
    }
    add(circuit, stage, new)?;
    circuit.inputs += 1;
    Ok(())
}

fn take_con(circuit: &mut Circuit, words: &[u16]) -> Result<(), Fault> {
    let label = in_range(words, 1, circuit.d - 1)?;
    let value = in_range(words, 2, 1)?;
    let stage = in_range(words, 3, LAST_STAGE)?;
    take_gate(circuit, label, stage, Source::Constant(value as u8))
}

fn take_xor(circuit: &mut Circuit, words: &[u16], rules: Rules) -> Result<(), Fault> {
    let first = named(circuit, words, 1)?;
    let second = named(circuit, words, 2)?;
    if second.label != first.label && rules == Rules::All {
        return Err((10, 2));
    }
    if second.stage != first.stage {
        return Err((11, 2));
    }
    let source = Source::Sum(vec![words[1].into(), words[2].into()]);
    take_gate(circuit, first.label, first.stage, source)
}

/// Adds the one wire of a gate.
fn take_gate(
    circuit: &mut Circuit,
    label: usize,
    stage: usize,
    source: Source,
) -> Result<(), Fault> {
    let mut new = NewWires::after(circuit);
    new.open(label, stage, source);
    add(circuit, stage, new)
}

/// The first-random word: rule 12.
fn first_random(circuit: &Circuit, words: &[u16]) -> Result<usize, Fault> {
    if usize::from(words[1]) != circuit.randoms {
        return Err((12, 1));
    }
    Ok(circuit.randoms)
}

fn take_and(circuit: &mut Circuit, words: &[u16]) -> Result<(), Fault> {
    let d = circuit.d;
    let first = first_random(circuit, words)?;
    let stage = row(circuit, words, 2, None)?;
    row(circuit, words, 2 + d, Some(stage as i64 - 1))?;
    let a = row_wires(circuit, words, 2);
    let b = row_wires(circuit, words, 2 + d);
    let mut new = NewWires::after(circuit);
    and(&mut new, first, &a, &b, stage + 1);
    add(circuit, stage + 1, new)?;
    circuit.randoms += pairs(d);
    Ok(())
}

fn take_ref(circuit: &mut Circuit, words: &[u16]) -> Result<(), Fault> {
    let first = first_random(circuit, words)?;
    let stage = row(circuit, words, 2, None)?;
    let inputs = row_wires(circuit, words, 2);
    let mut new = NewWires::after(circuit);
    refresh(&mut new, first, &inputs, stage + 1);
    add(circuit, stage + 1, new)?;
    circuit.randoms += pairs(circuit.d);
    Ok(())
}

/// OUT: a row of registered wires, rule 22 behind each word's others.
fn take_out(circuit: &Circuit, words: &[u16]) -> Result<(), Fault> {
    let mut wanted = None;
    for label in 0..circuit.d {
        let place = row_wire(circuit, words, 1 + label, label, wanted)?;
        if !place.registered {
            return Err((22, 1 + label));
        }
        wanted = Some(place.stage as i64);
    }
    Ok(())
}

/// The frame's end: rules 13 and 14, then the wires are made.
fn add(circuit: &mut Circuit, new_stage: usize, new: NewWires) -> Result<(), Fault> {
    if new_stage > LAST_STAGE {
        return Err((13, 0));
    }
    if circuit.wires.len() + new.wires.len() > MOST_WIRES {
        return Err((14, 0));
    }
    circuit.wires.extend(new.wires);
    Ok(())
}
