//! Valid random circuits, built frame by frame from a pool of wires by label and stage.
use super::random::Random;
use crate::builder::{Builder, Place};
use std::collections::BTreeMap;

const MOST: usize = 8192;
const LAST_STAGE: usize = 255;

/// The wires that frames may name, by stage, then label.
pub struct Pool {
    wires: BTreeMap<usize, Vec<Vec<u16>>>,
    d: usize,
}

impl Pool {
    fn new(d: usize) -> Pool {
        Pool { wires: BTreeMap::new(), d }
    }

    /// All that a circuit has made.
    pub fn of(builder: &Builder) -> Pool {
        Pool::with(builder, |_| true)
    }

    /// Those of them that an OUT may name.
    pub fn registered(builder: &Builder) -> Pool {
        Pool::with(builder, |place| place.registered)
    }

    fn with(builder: &Builder, wanted: fn(&Place) -> bool) -> Pool {
        let mut pool = Pool::new(builder.d);
        for (wire, place) in builder.places.iter().enumerate() {
            if place.as_ref().is_some_and(wanted) {
                pool.add(builder, wire as u16);
            }
        }
        pool
    }

    fn add(&mut self, builder: &Builder, wire: u16) {
        let Place { label, stage, .. } = builder.place(wire);
        self.wires.entry(stage).or_insert_with(|| vec![Vec::new(); self.d])[label].push(wire);
    }

    /// Stages where each label has a wire.
    pub fn full_stages(&self) -> Vec<usize> {
        let full = |labels: &Vec<Vec<u16>>| labels.iter().all(|wires| !wires.is_empty());
        self.wires.iter().filter(|(_, labels)| full(labels)).map(|(&stage, _)| stage).collect()
    }

    /// A wire of a label and stage, more often one of the last made.
    fn wire(&self, random: &mut Random, label: usize, stage: usize) -> u16 {
        let wires = &self.wires[&stage][label];
        let from = if random.once_in(2) { wires.len().saturating_sub(2) } else { 0 };
        random.pick(&wires[from..])
    }

    pub fn row(&self, random: &mut Random, stage: usize) -> Vec<u16> {
        (0..self.d).map(|label| self.wire(random, label, stage)).collect()
    }
}

/// Where the INs stand, so that the latency is met in all its cases.
#[derive(Clone, Copy)]
pub enum Inputs {
    /// At the CONs' stages.
    Beside,
    /// So many stages later, with rows of CONs among them.
    Later(usize),
    /// Nowhere: rows of CONs in their place.
    None,
}

/// What shapes a random circuit.
#[derive(Clone, Copy)]
pub struct Shape {
    pub d: usize,
    pub frames: usize,
    /// CONs stand at this stage or up to two later.
    pub first_stage: usize,
    pub inputs: Inputs,
    /// Most of shares and random bits together.
    pub most_free_bits: usize,
}

impl Shape {
    pub fn random(random: &mut Random, most_frames: usize) -> Shape {
        let first_stage =
            if random.once_in(6) { random.within(248, LAST_STAGE) } else { random.below(4) };
        let inputs = match random.below(16) {
            0 => Inputs::None,
            1 | 2 => Inputs::Later(random.within(1, 12)),
            _ => Inputs::Beside,
        };
        Shape {
            d: random.within(2, 8),
            frames: random.below(most_frames + 1),
            first_stage,
            inputs,
            most_free_bits: usize::MAX,
        }
    }
}

/// A circuit that the checker accepts.
pub fn circuit(random: &mut Random, shape: Shape) -> Builder {
    let mut builder = Builder::new(shape.d);
    let mut pool = Pool::new(shape.d);
    for _ in 0..shape.frames {
        for wire in step(random, shape, &mut builder, &pool) {
            pool.add(&builder, wire);
        }
    }
    builder
}

/// Adds one frame, or none where the one drawn has no wires to name or no room.
fn step(random: &mut Random, shape: Shape, builder: &mut Builder, pool: &Pool) -> Vec<u16> {
    let room = MOST - builder.wires().max(builder.table.len());
    if room < builder.and_wires().max(20) {
        return Vec::new();
    }
    let kind = random.pick(&[1, 1, 2, 3, 3, 3, 3, 4, 4, 5, 5, 5, 6, 6, 6, 7, 7, 8]);
    let free_bits = builder.inputs * shape.d + builder.randoms;
    let needs = [0, shape.d, 0, 0, 0, 0, builder.pairs(), builder.pairs(), 0][kind];
    if free_bits + needs > shape.most_free_bits {
        return Vec::new();
    }
    let stage = (shape.first_stage + random.below(3)).min(LAST_STAGE);
    match kind {
        1 => input(random, shape.inputs, builder, stage),
        2 => {
            let (label, value) = (random.below(shape.d), random.below(2) as u16);
            vec![builder.constant(label, value, stage)]
        }
        3..=5 => gate(random, kind, builder, pool),
        6 | 7 => gadget(random, kind, builder, pool),
        _ => end(random, builder, pool),
    }
}

/// IN, or a row of CONs.
fn input(random: &mut Random, inputs: Inputs, builder: &mut Builder, stage: usize) -> Vec<u16> {
    match inputs {
        Inputs::Beside => builder.input(stage),
        Inputs::Later(clocks) if random.once_in(2) => {
            builder.input((stage + clocks).min(LAST_STAGE))
        }
        _ => (0..builder.d)
            .map(|label| builder.constant(label, random.below(2) as u16, stage))
            .collect(),
    }
}

/// XOR, NOT or REG; now and then NOT or REG on a whole row.
fn gate(random: &mut Random, kind: usize, builder: &mut Builder, pool: &Pool) -> Vec<u16> {
    let stages: Vec<usize> = pool.wires.keys().copied().collect();
    if stages.is_empty() {
        return Vec::new();
    }
    let stage = random.pick(&stages);
    let labels: Vec<usize> =
        (0..pool.d).filter(|&label| !pool.wires[&stage][label].is_empty()).collect();
    if kind == 5 && stage == LAST_STAGE {
        return Vec::new();
    }
    let chosen = if random.once_in(3) { labels } else { vec![random.pick(&labels)] };
    let mut made = Vec::new();
    for label in chosen {
        let x = pool.wire(random, label, stage);
        made.push(match kind {
            3 => builder.xor(x, pool.wire(random, label, stage)),
            4 => builder.not(x),
            _ => builder.register(x),
        });
    }
    made
}

/// AND or REF, where the pool has the rows for it.
fn gadget(random: &mut Random, kind: usize, builder: &mut Builder, pool: &Pool) -> Vec<u16> {
    let full = pool.full_stages();
    let fits = |stage: &usize| match kind {
        6 => *stage < LAST_STAGE && *stage > 0 && full.contains(&(stage - 1)),
        _ => *stage < LAST_STAGE,
    };
    let stages: Vec<usize> = full.iter().copied().filter(fits).collect();
    if stages.is_empty() {
        return Vec::new();
    }
    let stage = random.pick(&stages);
    let row = pool.row(random, stage);
    match kind {
        6 => {
            let b = pool.row(random, stage - 1);
            builder.and(&row, &b)
        }
        _ => builder.refresh(&row),
    }
}

/// OUT: of wires that are registered already, or of a row that gets its REGs first.
fn end(random: &mut Random, builder: &mut Builder, pool: &Pool) -> Vec<u16> {
    let registered = Pool::registered(builder);
    let stages = registered.full_stages();
    if !stages.is_empty() && random.once_in(2) {
        let stage = random.pick(&stages);
        builder.output(&registered.row(random, stage));
        return Vec::new();
    }
    let mut stages = pool.full_stages();
    stages.retain(|&stage| stage < LAST_STAGE);
    if stages.is_empty() {
        return Vec::new();
    }
    let stage = random.pick(&stages);
    let row = builder.registers(&pool.row(random, stage));
    builder.output(&row);
    row
}
