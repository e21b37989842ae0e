//! Accepted circuits with their kinds in random order, so that no frame's kind is foreseen; each frame names any wires that fit.
use super::random::Random;
use crate::builder::{Builder, Place};
use crate::reference::{MOST_WIRES, MOST_WORDS};

pub const GATES: [usize; 3] = [3, 4, 5];
pub const ALL_KINDS: [usize; 8] = [1, 2, 3, 4, 5, 6, 7, 8];

/// Registers and gadgets name wires below this stage.
const LAST_STAGE: usize = 250;

/// One IN at each of three stages, then these kinds, up to a number of words.
pub fn shuffled(random: &mut Random, d: usize, kinds: &[usize], words: usize) -> Builder {
    let mut builder = Builder::new(d);
    (0..3).for_each(|stage| drop(builder.input(stage)));
    Shuffled::of(builder).grow(random, kinds, words, MOST_WIRES)
}

/// A circuit with more XORs, NOTs and REGs behind, up to a number of wires.
pub fn with_gates(random: &mut Random, builder: Builder, wires: usize) -> Builder {
    Shuffled::of(builder).grow(random, &GATES, MOST_WORDS, wires)
}

/// A circuit with the wires that its frames may name.
struct Shuffled {
    builder: Builder,
    named: Vec<u16>,
    /// By stage, then label; and of them the registered ones.
    places: Vec<Vec<u16>>,
    registered: Vec<Vec<u16>>,
}

impl Shuffled {
    fn of(builder: Builder) -> Shuffled {
        let empty = vec![Vec::new(); 256 * builder.d];
        let wires: Vec<u16> = (0..builder.wires() as u16).collect();
        let mut all =
            Shuffled { builder, named: Vec::new(), places: empty.clone(), registered: empty };
        for wire in wires {
            if all.builder.places[usize::from(wire)].is_some() {
                all.keep(wire);
            }
        }
        all
    }

    /// Adds frames of these kinds while there is room for any of them.
    fn grow(mut self, random: &mut Random, kinds: &[usize], words: usize, wires: usize) -> Builder {
        let d = self.builder.d;
        let (most_words, most_wires) = match kinds.contains(&6) {
            true => (2 + 2 * d, self.builder.and_wires()),
            false => (3, 1),
        };
        while self.builder.table.len() + most_words <= words
            && self.builder.wires() + most_wires <= wires
        {
            let kind = random.pick(kinds);
            for wire in self.add(random, kind) {
                self.keep(wire);
            }
        }
        self.builder
    }

    fn keep(&mut self, wire: u16) {
        let Place { label, stage, registered } = self.builder.place(wire);
        let at = stage * self.builder.d + label;
        self.named.push(wire);
        self.places[at].push(wire);
        if registered {
            self.registered[at].push(wire);
        }
    }

    /// Adds a frame; gives the wires that others may name.
    fn add(&mut self, random: &mut Random, kind: usize) -> Vec<u16> {
        match kind {
            1 => self.builder.input(random.below(3)),
            2 => {
                let (label, value) = (random.below(self.builder.d), random.below(2) as u16);
                vec![self.builder.constant(label, value, random.below(3))]
            }
            3..=5 => vec![self.gate(random, kind)],
            6 => {
                let stage = self.stage(random, &self.places, 1);
                let (a, b) = [stage, stage - 1].map(|at| self.row(random, &self.places, at)).into();
                self.builder.and(&a, &b)
            }
            7 => {
                let stage = self.stage(random, &self.places, 0);
                let row = self.row(random, &self.places, stage);
                self.builder.refresh(&row)
            }
            _ => {
                let stage = self.stage(random, &self.registered, 0);
                let row = self.row(random, &self.registered, stage);
                self.builder.output(&row);
                Vec::new()
            }
        }
    }

    fn gate(&mut self, random: &mut Random, kind: usize) -> u16 {
        let x = random.pick(&self.named);
        let Place { label, stage, .. } = self.builder.place(x);
        match kind {
            3 => {
                let y = random.pick(&self.places[stage * self.builder.d + label]);
                self.builder.xor(x, y)
            }
            5 if stage < LAST_STAGE => self.builder.register(x),
            _ => self.builder.not(x),
        }
    }

    /// A stage that has wires of each label, as has the one that stands `before` it.
    fn stage(&self, random: &mut Random, places: &[Vec<u16>], before: usize) -> usize {
        let d = self.builder.d;
        let full = |stage: usize| (0..d).all(|label| !places[stage * d + label].is_empty());
        let fits = |stage: &usize| full(*stage) && full(stage - before);
        let stages: Vec<usize> = (before..LAST_STAGE).filter(fits).collect();
        random.pick(&stages)
    }

    fn row(&self, random: &mut Random, places: &[Vec<u16>], stage: usize) -> Vec<u16> {
        let d = self.builder.d;
        (0..d).map(|label| random.pick(&places[stage * d + label])).collect()
    }
}

#[cfg(test)]
mod tests {
    use super::*;
    use crate::reference::check::{walk, Rules};

    /// All are accepted, and as large as was asked for.
    #[test]
    fn accepted() {
        for (case, d) in (2..=8).enumerate() {
            let random = &mut Random::of_case(8, case as u64);
            let mixed = shuffled(random, d, &ALL_KINDS, 2000);
            let gates = shuffled(random, d, &GATES, 2000);
            let more = with_gates(random, mixed.clone(), (mixed.wires() + 100).min(MOST_WIRES));
            assert!(gates.table.len() > 1990);
            for builder in [mixed, gates, more] {
                assert_eq!(walk(&builder.table, Rules::All).1, None, "d {d}");
            }
        }
    }
}
