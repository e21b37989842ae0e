//! Whole sharings: refusal 26, and the plain circuit of a circuit that has no other wires to name.
use super::check::check;
use super::circuit::Circuit;
use super::plain::{Gate, Plain};
use super::{Refusal, Verdict};
use std::collections::BTreeMap;

/// The whole call: checks, then asks that each frame belongs to a sharing and that each row is one.
pub fn check_sharings(table: &[u16], notes: &mut [u16]) -> Verdict {
    let circuit = check(table, notes)?;
    plain_circuit(&circuit)?;
    Ok(circuit.counts())
}

/// The plain circuit of an accepted circuit; refused 26 at the first frame, or first frame of a run, that fits no sharing.
pub fn plain_circuit(circuit: &Circuit) -> Result<Plain, Refusal> {
    let mut search = Search::of(circuit);
    let mut frame = 1;
    while frame <= circuit.frames.len() {
        match search.take(frame) {
            Some(frames) => frame += frames,
            None => return Err(Refusal::new(26, frame, 0)),
        }
    }
    Ok(search.plain)
}

struct Search<'a> {
    circuit: &'a Circuit,
    plain: Plain,
    /// The number of the sharing that has these wires, in their order.
    numbers: BTreeMap<Vec<usize>, usize>,
}

impl Search<'_> {
    fn of(circuit: &Circuit) -> Search<'_> {
        let (gates, sharings, outputs) = (Vec::new(), Vec::new(), Vec::new());
        let plain = Plain { d: circuit.d, inputs: 0, gates, sharings, outputs };
        Search { circuit, plain, numbers: BTreeMap::new() }
    }

    /// The earlier sharing that these words name, wire by wire.
    fn named(&self, words: &[u16]) -> Option<usize> {
        let wires: Vec<usize> = words.iter().map(|&word| usize::from(word)).collect();
        self.numbers.get(&wires).copied()
    }

    fn add(&mut self, wires: Vec<usize>, gate: Gate) {
        self.numbers.insert(wires.clone(), self.plain.gates.len());
        self.plain.sharings.push(wires);
        self.plain.gates.push(gate);
    }

    /// The last d wires that a frame makes: the outputs of an IN, an AND or a REF.
    fn outputs(&self, frame: usize) -> Vec<usize> {
        let end = self.circuit.starts.get(frame + 1).copied().unwrap_or(self.circuit.wires.len());
        (end - self.circuit.d..end).collect()
    }

    /// Takes what begins at a frame, and gives how many frames that are; None where it fits nothing.
    fn take(&mut self, frame: usize) -> Option<usize> {
        let d = self.circuit.d;
        let words = &self.circuit.frames[frame - 1];
        match words[0] {
            1 => {
                self.add(self.outputs(frame), Gate::Secret(self.plain.inputs));
                self.plain.inputs += 1;
            }
            6 => {
                let (a, b) = (self.named(&words[2..2 + d])?, self.named(&words[2 + d..])?);
                self.add(self.outputs(frame), Gate::Product(a, b));
            }
            7 => {
                let row = self.named(&words[2..])?;
                self.add(self.outputs(frame), Gate::Same(row));
            }
            8 => {
                let row = self.named(&words[1..])?;
                self.plain.outputs.push(row);
            }
            _ => {
                self.take_run(frame)?;
                return Some(d);
            }
        }
        Some(1)
    }

    /// Takes a run: d frames of one kind, labels 0 to d-1 in order, over earlier sharings or, for CON, at one stage.
    fn take_run(&mut self, frame: usize) -> Option<()> {
        let Circuit { d, frames, starts, wires, .. } = self.circuit;
        let run = frames.get(frame - 1..frame - 1 + d)?;
        let kind = run[0][0];
        let made = starts[frame..frame + d].to_vec();
        let labels = made.iter().map(|&wire| wires[wire].place.map(|place| place.label));
        if run.iter().any(|words| words[0] != kind) || !labels.eq((0..*d).map(Some)) {
            return None;
        }
        let column = |word: usize| run.iter().map(|words| words[word]).collect::<Vec<u16>>();
        let gate = match kind {
            2 if column(3).iter().any(|stage| *stage != run[0][3]) => return None,
            2 => Gate::Constant((column(2).iter().sum::<u16>() % 2) as u8),
            3 => Gate::Sum(self.named(&column(1))?, self.named(&column(2))?),
            4 => Gate::Nots(self.named(&column(1))?),
            _ => Gate::Same(self.named(&column(1))?),
        };
        self.add(made, gate);
        Some(())
    }
}
