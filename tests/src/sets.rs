//! The sets of a run of clocks: how many clocks behind its set's number each share, random bit and wire stands, and what a
//! single evaluation of a set is given.
use crate::generate::random::Random;
use crate::reference::circuit::{Circuit, Source};

/// What one clock is fed.
pub struct Feed {
    pub shares: Vec<u8>,
    pub tape: Vec<u8>,
}

impl Feed {
    pub fn random(random: &mut Random, circuit: &Circuit) -> Feed {
        let shares = random.bits(circuit.d * circuit.inputs);
        Feed { shares, tape: random.bits(circuit.randoms) }
    }
}

/// The stage of each share, of each random bit and of each wire, inner ones included.
pub struct Stages {
    pub shares: Vec<usize>,
    pub tape: Vec<usize>,
    pub wires: Vec<usize>,
}

impl Stages {
    /// A random bit has the stage of its gadget's b wires, or of a refresh's inputs.
    pub fn of(circuit: &Circuit) -> Stages {
        let (d, pairs) = (circuit.d, circuit.d * (circuit.d - 1) / 2);
        let named =
            |word: u16| circuit.wires[usize::from(word)].place.expect("no inner wire").stage;
        let (mut shares, mut tape) = (Vec::new(), Vec::new());
        for words in &circuit.frames {
            match words[0] {
                1 => shares.extend(vec![usize::from(words[1]); d]),
                6 => tape.extend(vec![named(words[2 + d]); pairs]),
                7 => tape.extend(vec![named(words[2]); pairs]),
                _ => (),
            }
        }
        let mut stages = Stages { shares, tape, wires: Vec::new() };
        for wire in &circuit.wires {
            let of_gate = stages.of_gate(&wire.source);
            let stage = of_gate.or(wire.place.map(|place| place.stage)).expect("CON has a stage");
            assert!(wire.place.is_none_or(|place| place.stage == stage));
            stages.wires.push(stage);
        }
        stages
    }

    /// The one stage of a gate's operands, for a register the next; none for CON.
    fn of_gate(&self, source: &Source) -> Option<usize> {
        let operands = match source {
            Source::Share(at) => return Some(self.shares[*at]),
            Source::Constant(_) => return None,
            Source::Random(at) => return Some(self.tape[*at]),
            Source::Register(x) => return Some(self.wires[*x] + 1),
            Source::Not(x) => vec![*x],
            Source::Sum(terms) => terms.clone(),
            Source::Product(x, y) | Source::NotProduct(x, y) => vec![*x, *y],
        };
        let stage = self.wires[operands[0]];
        assert!(operands.iter().all(|&operand| self.wires[operand] == stage));
        Some(stage)
    }

    /// The highest stage of a wire.
    pub fn last(&self) -> usize {
        self.wires.iter().copied().max().unwrap_or(0)
    }

    /// What the single evaluation of a set is given, from what the clocks were fed: shares and tape.
    pub fn gathered(&self, set: usize, feeds: &[Feed]) -> (Vec<u8>, Vec<u8>) {
        self.gathered_late(set, feeds, 0, 0)
    }

    /// The same with shares and tape so many clocks late, which gives another set's.
    pub fn gathered_late(
        &self,
        set: usize,
        feeds: &[Feed],
        late_shares: usize,
        late_tape: usize,
    ) -> (Vec<u8>, Vec<u8>) {
        let shares = self.shares.iter().enumerate();
        let tape = self.tape.iter().enumerate();
        (
            shares.map(|(at, stage)| feeds[set + stage + late_shares].shares[at]).collect(),
            tape.map(|(at, stage)| feeds[set + stage + late_tape].tape[at]).collect(),
        )
    }
}

#[cfg(test)]
mod tests {
    use super::*;
    use crate::builder::Builder;
    use crate::reference::check::{walk, Rules};

    /// A product of INs at stages 4 and 3, its outputs refreshed: the random bits stand at 3 and at 5.
    #[test]
    fn stages_of_a_product_and_a_refresh() {
        let mut builder = Builder::new(2);
        let (a, b) = (builder.input(4), builder.input(3));
        let product = builder.and(&a, &b);
        builder.refresh(&product);
        builder.constant(0, 1, 9);
        let stages = Stages::of(&walk(&builder.table, Rules::All).0);
        assert_eq!((stages.shares, stages.tape), (vec![4, 4, 3, 3], vec![3, 5]));
        let pair = [4, 5, 3, 4, 4, 5];
        let wires =
            [&[4, 4, 3, 3, 3, 4, 4, 4, 5, 4, 4, 5][..], &pair, &pair, &[5, 5], &[5, 5, 5, 6, 6, 9]];
        assert_eq!(stages.wires, wires.concat());
    }

    #[test]
    fn sets_are_gathered_from_their_clocks() {
        let mut builder = Builder::new(2);
        let (a, b) = (builder.input(1), builder.input(0));
        builder.and(&a, &b);
        let stages = Stages::of(&walk(&builder.table, Rules::All).0);
        let feed = |clock: u8| Feed { shares: vec![clock; 4], tape: vec![clock] };
        let feeds: Vec<Feed> = (0..5).map(feed).collect();
        assert_eq!(stages.gathered(2, &feeds), (vec![3, 3, 2, 2], vec![2]));
        assert_eq!(stages.gathered_late(2, &feeds, 0, 1), (vec![3, 3, 2, 2], vec![3]));
    }
}
