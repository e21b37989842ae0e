//! Frames that are nearly right: whole rows at wrong stages, single words off, several faults at once.
use super::circuit::Pool;
use super::random::Random;
use crate::builder::{Builder, Place};

const STAGES: [u16; 10] = [0, 1, 2, 3, 253, 254, 255, 256, 257, 0xFFFF];

/// One frame to follow the circuit's own.
pub fn near_frame(random: &mut Random, builder: &Builder) -> Vec<u16> {
    let pool = Pool::of(builder);
    let d = builder.d;
    match random.pick(&[1, 2, 3, 3, 4, 5, 6, 6, 6, 6, 7, 7, 8, 8, 8, 8]) {
        1 => vec![1, random.pick(&STAGES)],
        2 => {
            let (label, value) = (random.within(0, d + 1) as u16, random.below(4) as u16);
            vec![2, label, value, random.pick(&STAGES)]
        }
        3 => vec![3, wire(random, builder), wire(random, builder)],
        kind @ (4 | 5) => vec![kind, wire(random, builder)],
        kind @ (6 | 7) => {
            let rows = if kind == 6 { 2 } else { 1 };
            let mut words = vec![kind, first_random(random, builder)];
            (0..rows).for_each(|_| words.extend(row(random, builder, &pool)));
            words
        }
        kind if random.once_in(4) => [vec![kind], row(random, builder, &pool)].concat(),
        kind => [vec![kind], ending_row(random, builder)].concat(),
    }
}

/// A row of registered wires, at times with one word that names a wire without a register: one that is inner, has
/// another label, stands at another stage, or is wrong in nothing else.
fn ending_row(random: &mut Random, builder: &Builder) -> Vec<u16> {
    let registered = Pool::registered(builder);
    let stages = registered.full_stages();
    if stages.is_empty() {
        return (0..builder.d).map(|_| wire(random, builder)).collect();
    }
    let stage = random.pick(&stages);
    let mut row = registered.row(random, stage);
    let label = if random.once_in(3) { builder.d - 1 } else { random.below(builder.d) };
    let fault = random.below(6);
    let fits = |place: &Option<Place>| match place {
        None => fault == 0,
        Some(place) if place.registered => false,
        Some(place) => match fault {
            1 => place.label != label,
            2 => place.label == label && place.stage != stage,
            3 | 4 => place.label == label && place.stage == stage,
            _ => false,
        },
    };
    let wires: Vec<usize> =
        (0..builder.wires()).filter(|&wire| fits(&builder.places[wire])).collect();
    if !wires.is_empty() {
        row[label] = random.pick(&wires) as u16;
    }
    row
}

/// Mostly a wire that frames may name; else an inner one, or none at all.
fn wire(random: &mut Random, builder: &Builder) -> u16 {
    let wires = builder.wires();
    if wires == 0 || random.once_in(16) {
        return random.pick(&[wires as u16, wires as u16 + 1, 8191, 8192, 0xFFFF]);
    }
    let mut wire = random.below(wires);
    for _ in 0..8 {
        if builder.places[wire].is_some() {
            break;
        }
        wire = random.below(wires);
    }
    wire as u16
}

/// The number of random bits used so far, or one near it.
fn first_random(random: &mut Random, builder: &Builder) -> u16 {
    let used = builder.randoms as u16;
    match random.below(12) {
        0 => used.wrapping_add(1),
        1 => used.saturating_sub(builder.pairs() as u16),
        2 => builder.wires() as u16,
        _ => used,
    }
}

/// A row of one stage, any one, with words replaced or swapped now and then.
fn row(random: &mut Random, builder: &Builder, pool: &Pool) -> Vec<u16> {
    let d = builder.d;
    let stages = pool.full_stages();
    let mut row = match stages.is_empty() {
        true => (0..d).map(|_| wire(random, builder)).collect(),
        false => {
            let stage = random.pick(&stages);
            pool.row(random, stage)
        }
    };
    if random.once_in(4) {
        row[random.below(d)] = wire(random, builder);
    }
    if random.once_in(12) {
        row.swap(random.below(d), random.below(d));
    }
    row
}

#[cfg(test)]
mod tests {
    use super::*;
    use crate::generate::circuit::{circuit, Shape};
    use crate::reference::check::{walk, Rules};
    use crate::reference::circuit::Source;
    use std::collections::BTreeSet;

    /// The rule that refuses the last frame, an OUT, at a wire without a register; and that wire's kind of gate.
    fn met(random: &mut Random) -> Option<(u64, &'static str)> {
        let shape = Shape::random(random, 40);
        let mut builder = circuit(random, shape);
        let words = near_frame(random, &builder);
        builder.table.extend(&words);
        let (circuit, refusal) = walk(&builder.table, Rules::All);
        let refusal = refusal.filter(|refusal| words[0] == 8 && refusal.rule != 8)?;
        let wire = &circuit.wires[usize::from(words[refusal.word])];
        let gate = match (wire.place, &wire.source) {
            (None, source) if !source.is_stop() => "inner",
            (Some(_), Source::Not(_)) => "NOT",
            (Some(_), Source::Sum(terms)) if terms.len() == 2 => "XOR",
            (Some(_), Source::Sum(_)) => "AND",
            _ => return None,
        };
        Some((refusal.rule, gate))
    }

    #[test]
    fn outs_without_registers() {
        let met: BTreeSet<_> =
            (0..4000).filter_map(|case| met(&mut Random::of_case(1, case))).collect();
        let gates = ["AND", "NOT", "XOR"];
        let wanted = [10, 11, 22].iter().flat_map(|&rule| gates.map(|gate| (rule, gate)));
        assert_eq!(met, wanted.chain([(9, "inner")]).collect());
    }
}
