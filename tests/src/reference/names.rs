//! The wires' names in their gadgets, told from the equations that drive them and not from their order.
use super::circuit::{Circuit, Source};

/// Letter and labels, as r(0,1) or B(0); a gate's wire has its kind's name.
pub type Name = (&'static str, Vec<usize>);

pub fn shown(name: &Name) -> String {
    let labels: Vec<String> = name.1.iter().map(usize::to_string).collect();
    if labels.is_empty() {
        return name.0.to_string();
    }
    format!("{}({})", name.0, labels.join(","))
}

/// The name of every wire, in order. A gadget's wires are told from those of gates by `kinds`, a kind for each frame.
pub fn names(circuit: &Circuit, kinds: &[u16]) -> Vec<Name> {
    let mut names: Vec<Name> = Vec::new();
    for wire in 0..circuit.wires.len() {
        let frame = frame_of(circuit, wire);
        let name = match kinds[frame] {
            6 => of_and(circuit, &names, wire, frame),
            7 => of_ref(circuit, &names, wire, frame),
            1 => ("in", vec![label(circuit, wire)]),
            kind => (["con", "xor", "not", "reg"][usize::from(kind) - 2], vec![]),
        };
        names.push(name);
    }
    names
}

/// The last frame that begins at or before a wire; a frame that makes none begins where the next does.
pub fn frame_of(circuit: &Circuit, wire: usize) -> usize {
    circuit.starts.iter().rposition(|&start| start <= wire).expect("HEAD begins at wire 0")
}

fn label(circuit: &Circuit, wire: usize) -> usize {
    circuit.wires[wire].place.expect("a wire that frames name").label
}

/// The pair of labels whose random bit this is: bits go by pairs, and gadgets take them in turn.
fn pair(circuit: &Circuit, bit: usize) -> Vec<usize> {
    let all: Vec<Vec<usize>> = (0..circuit.d)
        .flat_map(|j| (0..j).map(move |i| vec![i, j]))
        .collect::<std::collections::BTreeSet<_>>()
        .into_iter()
        .collect();
    all[bit % all.len()].clone()
}

/// The other label of a pair.
fn other(pair: &[usize], one: usize) -> usize {
    pair[0] + pair[1] - one
}

fn of_and(circuit: &Circuit, names: &[Name], wire: usize, frame: usize) -> Name {
    let own = |x: usize| x >= circuit.starts[frame];
    match &circuit.wires[wire].source {
        Source::Random(bit) => ("r", pair(circuit, *bit)),
        Source::Register(x) if !own(*x) => ("B", vec![label(circuit, *x)]),
        Source::Register(x) => {
            let registers = [("r", "R"), ("m", "M"), ("u", "U"), ("v", "V"), ("w", "W")];
            let letter = registers
                .iter()
                .find(|pair| pair.0 == names[*x].0)
                .expect("a register of r, m, u, v or w");
            (letter.1, names[*x].1.clone())
        }
        Source::Product(_, x) if names[*x].0 == "B" => ("m", names[*x].1.clone()),
        Source::Product(_, x) => ("w", names[*x].1.clone()),
        Source::NotProduct(a, big_r) => {
            let i = label(circuit, *a);
            ("u", vec![i, other(&names[*big_r].1, i)])
        }
        Source::Sum(_) if circuit.wires[wire].place.is_some() => ("c", vec![label(circuit, wire)]),
        Source::Sum(terms) => {
            let j = label(circuit, terms[0]);
            ("v", vec![other(&names[terms[1]].1, j), j])
        }
        _ => unreachable!("AND has no other gates"),
    }
}

fn of_ref(circuit: &Circuit, names: &[Name], wire: usize, frame: usize) -> Name {
    match &circuit.wires[wire].source {
        Source::Random(bit) => ("r", pair(circuit, *bit)),
        Source::Sum(terms) => {
            assert!(terms[0] < circuit.starts[frame]);
            ("s", vec![label(circuit, terms[0])])
        }
        Source::Register(x) => ("S", names[*x].1.clone()),
        _ => unreachable!("REF has no other gates"),
    }
}
