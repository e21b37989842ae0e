//! Plain circuits of XOR, AND and NOT, read from straight-line programs.
use std::collections::HashMap;

/// A net's gate; the numbers are nets made before.
#[derive(Clone, Copy, Debug)]
pub enum Gate {
    Input,
    Xor(usize, usize),
    And(usize, usize),
    Not(usize),
}

pub struct Netlist {
    pub gates: Vec<Gate>,
    pub outputs: Vec<usize>,
}

impl Netlist {
    /// Lines `name = x op y` with op one of ^ & |; an operand may begin with ~.
    pub fn parse(inputs: &[&str], program: &str, outputs: &[&str]) -> Netlist {
        let mut reader = Reader { gates: Vec::new(), nets: HashMap::new() };
        for name in inputs {
            let net = reader.gate(Gate::Input);
            reader.nets.insert(name.to_string(), net);
        }
        for line in program.lines().map(str::trim).filter(|line| !line.is_empty()) {
            reader.line(line);
        }
        let outputs = outputs.iter().map(|name| reader.nets[*name]).collect();
        Netlist { gates: reader.gates, outputs }
    }

    /// The outputs' bits for the inputs' bits.
    pub fn evaluate(&self, inputs: &[u8]) -> Vec<u8> {
        let mut inputs = inputs.iter();
        let mut values: Vec<u8> = Vec::new();
        for gate in &self.gates {
            values.push(match *gate {
                Gate::Input => *inputs.next().expect("a bit for each input"),
                Gate::Xor(x, y) => values[x] ^ values[y],
                Gate::And(x, y) => values[x] & values[y],
                Gate::Not(x) => 1 ^ values[x],
            });
        }
        self.outputs.iter().map(|&net| values[net]).collect()
    }

    /// Number of AND, XOR and NOT gates.
    pub fn sizes(&self) -> [usize; 3] {
        let count =
            |wanted: fn(&Gate) -> bool| self.gates.iter().filter(|gate| wanted(gate)).count();
        [
            count(|gate| matches!(gate, Gate::And(..))),
            count(|gate| matches!(gate, Gate::Xor(..))),
            count(|gate| matches!(gate, Gate::Not(_))),
        ]
    }
}

struct Reader {
    gates: Vec<Gate>,
    nets: HashMap<String, usize>,
}

impl Reader {
    fn gate(&mut self, gate: Gate) -> usize {
        self.gates.push(gate);
        self.gates.len() - 1
    }

    fn operand(&mut self, word: &str) -> usize {
        match word.strip_prefix('~') {
            Some(name) => self.gate(Gate::Not(self.nets[name])),
            None => self.nets[word],
        }
    }

    fn line(&mut self, line: &str) {
        let words: Vec<&str> = line.split_whitespace().collect();
        let [name, "=", x, op, y] = words[..] else {
            panic!("not of the form 'name = x op y': {line}")
        };
        let (x, y) = (self.operand(x), self.operand(y));
        let net = match op {
            "^" => self.gate(Gate::Xor(x, y)),
            "&" => self.gate(Gate::And(x, y)),
            "|" => {
                let (x, y) = (self.gate(Gate::Not(x)), self.gate(Gate::Not(y)));
                let neither = self.gate(Gate::And(x, y));
                self.gate(Gate::Not(neither))
            }
            _ => panic!("unknown gate: {line}"),
        };
        self.nets.insert(name.to_string(), net);
    }
}
