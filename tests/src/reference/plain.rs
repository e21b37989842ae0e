//! The plain circuit of whole sharings: a plain gate for each sharing, and its bit from the secret bits.

/// A sharing's plain gate. The numbers are sharings made before, except in the first two.
#[derive(Clone, Copy, Debug, PartialEq, Eq)]
pub enum Gate {
    /// The secret bit of the IN with this number.
    Secret(usize),
    Constant(u8),
    Sum(usize, usize),
    /// A run of NOTs.
    Nots(usize),
    /// A run of REGs, or a REF.
    Same(usize),
    Product(usize, usize),
}

/// The plain circuit, and the wires that stand for each of its bits.
#[derive(Clone, Debug)]
pub struct Plain {
    pub d: usize,
    /// Number of INs.
    pub inputs: usize,
    /// The gate of each sharing, in the order made.
    pub gates: Vec<Gate>,
    /// The d wires of each sharing.
    pub sharings: Vec<Vec<usize>>,
    /// The sharing of each OUT.
    pub outputs: Vec<usize>,
}

impl Plain {
    /// The bit of every sharing, from the secret bits of the INs.
    pub fn values(&self, secrets: &[u8]) -> Vec<u8> {
        let mut values: Vec<u8> = Vec::new();
        for gate in &self.gates {
            values.push(match *gate {
                Gate::Secret(number) => secrets[number],
                Gate::Constant(bit) => bit,
                Gate::Sum(x, y) => (values[x] + values[y]) % 2,
                // d flips, which cancel in pairs
                Gate::Nots(x) if self.d.is_multiple_of(2) => values[x],
                Gate::Nots(x) => 1 - values[x],
                Gate::Same(x) => values[x],
                Gate::Product(x, y) => values[x] * values[y],
            });
        }
        values
    }

    /// The bits of the OUTs.
    pub fn outputs(&self, secrets: &[u8]) -> Vec<u8> {
        let values = self.values(secrets);
        self.outputs.iter().map(|&sharing| values[sharing]).collect()
    }

    /// The bits of the OUTs for every set of secret bits; the first IN is the highest bit of a row's number.
    pub fn truth_table(&self) -> Vec<Vec<u8>> {
        let secrets = |row: usize| (0..self.inputs).rev().map(move |at| (row >> at & 1) as u8);
        (0..1 << self.inputs).map(|row| self.outputs(&secrets(row).collect::<Vec<_>>())).collect()
    }
}
