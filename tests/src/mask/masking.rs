//! The masking itself: a row of d wires for each net, at each stage where it is needed. Every row is a whole sharing.
use super::netlist::{Gate, Netlist};
use crate::builder::Builder;
use std::collections::BTreeMap;

pub struct Masked {
    pub builder: Builder,
    /// The wires of each output.
    pub outputs: Vec<Vec<u16>>,
}

/// A net's rows by stage: the first is the one made, the others are registers.
type Rows = BTreeMap<usize, Vec<u16>>;

struct Masking {
    builder: Builder,
    nets: Vec<Rows>,
    /// The sharings of 1, by stage.
    ones: Rows,
}

/// Masks with d shares; all inputs stand at stage 0, all outputs at one stage and behind registers.
pub fn mask(netlist: &Netlist, d: usize) -> Masked {
    let mut masking = Masking { builder: Builder::new(d), nets: Vec::new(), ones: Rows::new() };
    for gate in &netlist.gates {
        let (stage, row) = masking.gate(*gate);
        masking.nets.push(BTreeMap::from([(stage, row)]));
    }
    let registered = |&net: &usize| match netlist.gates[net] {
        Gate::Input => masking.first_stage(net),
        _ => masking.first_stage(net) + 1,
    };
    let last = netlist.outputs.iter().map(registered).max().unwrap_or(0);
    let outputs: Vec<Vec<u16>> =
        netlist.outputs.iter().map(|&net| masking.row_at(net, last)).collect();
    for row in &outputs {
        masking.builder.output(row);
    }
    Masked { builder: masking.builder, outputs }
}

impl Masking {
    fn first_stage(&self, net: usize) -> usize {
        *self.nets[net].keys().next().expect("a net has its own row")
    }

    /// The net's row at a stage, through registers where it is made earlier.
    fn row_at(&mut self, net: usize, stage: usize) -> Vec<u16> {
        let (&from, row) = self.nets[net].range(..=stage).next_back().expect("made by that stage");
        let mut row = row.clone();
        for next in from + 1..=stage {
            row = self.builder.registers(&row);
            self.nets[net].insert(next, row.clone());
        }
        row
    }

    /// Adds a gate's frames; gives its stage and row.
    fn gate(&mut self, gate: Gate) -> (usize, Vec<u16>) {
        match gate {
            Gate::Input => (0, self.builder.input(0)),
            Gate::Not(x) => self.not(x),
            Gate::Xor(x, y) => {
                let stage = self.first_stage(x).max(self.first_stage(y));
                let (x, y) = (self.row_at(x, stage), self.row_at(y, stage));
                (stage, self.builder.xors(&x, &y))
            }
            Gate::And(x, y) => self.and(x, y),
        }
    }

    /// A run of NOTs flips the bit where d is odd; where d is even, the sum with a sharing of 1 does.
    fn not(&mut self, x: usize) -> (usize, Vec<u16>) {
        let stage = self.first_stage(x);
        let row = self.row_at(x, stage);
        if self.builder.d % 2 == 1 {
            return (stage, self.builder.nots(&row));
        }
        let one = self.one_at(stage);
        (stage, self.builder.xors(&row, &one))
    }

    /// The sharing of 1 at a stage, made where it is first needed: share 0 is 1, the others are 0.
    fn one_at(&mut self, stage: usize) -> Vec<u16> {
        let Masking { builder, ones, .. } = self;
        let values: Vec<u8> = (0..builder.d).map(|label| u8::from(label == 0)).collect();
        ones.entry(stage).or_insert_with(|| builder.constants(&values, stage)).clone()
    }

    /// AND: b stands one stage before a, so the later net is a.
    fn and(&mut self, x: usize, y: usize) -> (usize, Vec<u16>) {
        let (x_stage, y_stage) = (self.first_stage(x), self.first_stage(y));
        let both = x_stage == y_stage;
        let x_first = both && self.nets[y].contains_key(&(y_stage + 1)) || x_stage < y_stage;
        let (a, b) = if x_first { (y, x) } else { (x, y) };
        let stage = x_stage.max(y_stage) + usize::from(both);
        let (a, b) = (self.row_at(a, stage), self.row_at(b, stage - 1));
        (stage + 1, self.builder.and(&a, &b))
    }
}
