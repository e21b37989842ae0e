//! Circuits of whole sharings: gates stand in runs, and every row is a sharing.
use super::random::Random;
use crate::builder::{Builder, Place};
use crate::reference::{LAST_STAGE, MOST_WIRES, MOST_WORDS};

/// Kinds as they are drawn, for circuits of all kinds and for ones of gates alone.
const ALL_KINDS: [usize; 17] = [1, 1, 2, 2, 3, 3, 3, 4, 4, 4, 5, 5, 6, 6, 7, 7, 8];
const GATES: [usize; 4] = [2, 3, 4, 5];

pub struct Whole {
    pub builder: Builder,
    /// The wires of each sharing made so far.
    pub sharings: Vec<Vec<u16>>,
    /// INs and CONs stand at this stage or up to two later.
    first_stage: usize,
}

impl Whole {
    pub fn new(d: usize, first_stage: usize) -> Whole {
        Whole { builder: Builder::new(d), sharings: Vec::new(), first_stage }
    }

    /// An accepted circuit; now and then one as large as may be. `spare` words and wires stay free.
    pub fn random(random: &mut Random, spare: usize) -> Whole {
        let d = random.within(2, 8);
        let first_stage =
            if random.once_in(6) { random.within(248, LAST_STAGE) } else { random.below(4) };
        let mut whole = Whole::new(d, first_stage);
        match random.below(32) {
            0 => whole.grow(random, &ALL_KINDS, 300, spare),
            1 if random.once_in(2) => whole.grow(random, &GATES, 2000, spare),
            _ => {
                let steps = random.below(25);
                whole.grow(random, &ALL_KINDS, steps, spare);
            }
        }
        whole
    }

    /// Adds up to so many sharings and OUTs of these kinds; at times a kind comes several times in a row.
    pub fn grow(&mut self, random: &mut Random, kinds: &[usize], steps: usize, spare: usize) {
        let mut kind = random.pick(kinds);
        for _ in 0..steps {
            if !random.once_in(4) {
                kind = random.pick(kinds);
            }
            if self.has_room(kind, spare) {
                self.add(random, kind);
            }
        }
    }

    /// A few more of all kinds.
    pub fn grow_on(&mut self, random: &mut Random) {
        let steps = random.below(8);
        self.grow(random, &ALL_KINDS, steps, 0);
    }

    /// Whether the most words and wires that a step of this kind may need are left beside the spare ones.
    fn has_room(&self, kind: usize, spare: usize) -> bool {
        let d = self.builder.d;
        let words = [0, 2, 4 * d, 3 * d, 2 * d, 2 * d, 2 + 4 * d, 2 + d, 1 + 3 * d][kind];
        let wires = match kind {
            6 => self.builder.and_wires() + d,
            7 => self.builder.refresh_wires(),
            _ => d,
        };
        self.builder.table.len() + words + spare <= MOST_WORDS
            && self.builder.wires() + wires + spare <= MOST_WIRES
    }

    /// What looking the first wire of a sharing up tells; the others differ in their labels alone.
    pub fn place(&self, sharing: &[u16]) -> Place {
        self.builder.place(sharing[0])
    }

    pub fn stage(&self, sharing: &[u16]) -> usize {
        self.place(sharing).stage
    }

    /// A sharing that fits, more often one of the last made.
    pub fn pick(&self, random: &mut Random, fits: impl Fn(&Place) -> bool) -> Option<Vec<u16>> {
        let fitting: Vec<&Vec<u16>> =
            self.sharings.iter().filter(|sharing| fits(&self.place(sharing))).collect();
        if fitting.is_empty() {
            return None;
        }
        let from = if random.once_in(2) { fitting.len().saturating_sub(3) } else { 0 };
        Some(random.pick(&fitting[from..]).clone())
    }

    /// A sharing at a stage: one made before, or a new IN.
    pub fn at(&mut self, random: &mut Random, stage: usize) -> Vec<u16> {
        match self.pick(random, |place| place.stage == stage) {
            Some(sharing) => sharing,
            None => self.input(stage),
        }
    }

    /// Keeps a sharing and gives it.
    fn keep(&mut self, sharing: Vec<u16>) -> Vec<u16> {
        self.sharings.push(sharing.clone());
        sharing
    }

    pub fn input(&mut self, stage: usize) -> Vec<u16> {
        let sharing = self.builder.input(stage);
        self.keep(sharing)
    }

    /// A run of CONs with random values.
    pub fn constants(&mut self, random: &mut Random, stage: usize) -> Vec<u16> {
        let values = random.bits(self.builder.d);
        let sharing = self.builder.constants(&values, stage);
        self.keep(sharing)
    }

    pub fn registers(&mut self, sharing: &[u16]) -> Vec<u16> {
        let sharing = self.builder.registers(sharing);
        self.keep(sharing)
    }

    /// Adds an IN, a run, an AND, a REF or an OUT; nothing where no sharing fits.
    pub fn add(&mut self, random: &mut Random, kind: usize) {
        let stage = (self.first_stage + random.below(3)).min(LAST_STAGE);
        match kind {
            1 => drop(self.input(stage)),
            2 => drop(self.constants(random, stage)),
            6 => self.add_and(random),
            8 => self.add_out(random),
            _ => {
                let highest = if kind < 5 { LAST_STAGE } else { LAST_STAGE - 1 };
                let Some(x) = self.pick(random, |place| place.stage <= highest) else {
                    return;
                };
                let sharing = match kind {
                    3 => {
                        let stage = self.stage(&x);
                        let y = self.at(random, stage);
                        self.builder.xors(&x, &y)
                    }
                    4 => self.builder.nots(&x),
                    5 => self.builder.registers(&x),
                    _ => self.builder.refresh(&x),
                };
                self.keep(sharing);
            }
        }
    }

    /// AND: of a sharing and one a stage before it, or of a sharing and its registers.
    fn add_and(&mut self, random: &mut Random) {
        let Some(b) = self.pick(random, |place| place.stage + 2 <= LAST_STAGE) else {
            return;
        };
        let stage = self.stage(&b) + 1;
        let a = match self.pick(random, |place| place.stage == stage) {
            Some(a) => a,
            None => self.registers(&b),
        };
        let sharing = self.builder.and(&a, &b);
        self.keep(sharing);
    }

    /// OUT of a registered sharing, or of one that gets its run of REGs first.
    fn add_out(&mut self, random: &mut Random) {
        let Some(sharing) = self.pick(random, |place| place.registered || place.stage < LAST_STAGE)
        else {
            return;
        };
        let place = self.place(&sharing);
        let row = match place.registered && (place.stage == LAST_STAGE || random.once_in(2)) {
            true => sharing,
            false => self.registers(&sharing),
        };
        self.builder.output(&row);
    }
}

#[cfg(test)]
mod tests {
    use super::*;
    use crate::reference::check::{walk, Rules};
    use crate::reference::plain::Gate;
    use crate::reference::sharings::plain_circuit;
    use std::collections::BTreeSet;

    /// The kinds that make the sharings of a circuit, each with the kind and the operand that name it.
    fn named(whole: &Whole) -> BTreeSet<(usize, usize, usize)> {
        let (circuit, refusal) = walk(&whole.builder.table, Rules::All);
        assert_eq!(refusal, None);
        let plain = plain_circuit(&circuit).expect("whole sharings");
        let kind_of = |wire: usize| {
            let frame = circuit.starts.iter().rposition(|&start| start <= wire).expect("HEAD");
            usize::from(circuit.frames[frame - 1][0])
        };
        let maker = |sharing: usize| kind_of(plain.sharings[sharing][0]);
        let mut met: BTreeSet<_> = plain.outputs.iter().map(|&row| (8, 0, maker(row))).collect();
        for (sharing, gate) in plain.gates.iter().enumerate() {
            let kind = maker(sharing);
            match *gate {
                Gate::Sum(x, y) | Gate::Product(x, y) => {
                    met.extend([(kind, 0, maker(x)), (kind, 1, maker(y))]);
                }
                Gate::Nots(x) | Gate::Same(x) => drop(met.insert((kind, 0, maker(x)))),
                Gate::Secret(_) | Gate::Constant(_) => (),
            }
        }
        met
    }

    /// Each operand names sharings of every kind; OUT those of the registered ones.
    #[test]
    fn sharings_of_every_kind_are_named() {
        let mut met = BTreeSet::new();
        for case in 0..1000 {
            met.extend(named(&Whole::random(&mut Random::of_case(1, case), 0)));
        }
        let operands = [(3, 0), (3, 1), (4, 0), (5, 0), (6, 0), (6, 1), (7, 0)];
        let gates = operands
            .iter()
            .flat_map(|&(kind, operand)| (1..=7).map(move |maker| (kind, operand, maker)));
        let outs = [1, 2, 5, 7].map(|maker| (8, 0, maker));
        assert_eq!(met, gates.chain(outs).collect());
    }
}
