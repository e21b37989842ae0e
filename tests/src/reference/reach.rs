//! Readings: what probes observe, back to the last stops, and the reading sheet.
use super::check::check;
use super::circuit::{Circuit, Source};
use super::evaluate::{inputs_fit, values, write_values};
use super::{Refusal, Verdict, MOST_WIRES};
use std::collections::BTreeSet;

/// The whole call: checks, evaluates, then writes what the probes read.
pub fn read_probes(
    table: &[u16],
    notes: &mut [u16],
    shares: &[u8],
    tape: &[u8],
    sheet: &mut [u8],
    probes: &[u16],
    reading: &mut [u8],
) -> Verdict {
    let circuit = check(table, notes)?;
    inputs_fit(&circuit, shares, tape, sheet.len().min(reading.len()))?;
    are_wires(&circuit, probes)?;
    let values = values(&circuit, shares, tape);
    write_values(sheet, &values);
    reading[..MOST_WIRES].fill(2);
    for wire in observed(&circuit, probes) {
        reading[wire] = values[wire];
    }
    Ok(circuit.counts())
}

/// Rule 19.
pub fn are_wires(circuit: &Circuit, probes: &[u16]) -> Result<(), Refusal> {
    for (index, &probe) in probes.iter().enumerate() {
        if usize::from(probe) >= circuit.wires.len() {
            return Err(Refusal::new(19, 0, index));
        }
    }
    Ok(())
}

/// Every stop that some probe reads.
pub fn observed(circuit: &Circuit, probes: &[u16]) -> BTreeSet<usize> {
    let mut stops = BTreeSet::new();
    let mut seen = BTreeSet::new();
    for &probe in probes {
        go_back(circuit, usize::from(probe), &mut seen, &mut stops);
    }
    stops
}

/// Goes back through gates to the stops, never through a register.
fn go_back(
    circuit: &Circuit,
    wire: usize,
    seen: &mut BTreeSet<usize>,
    stops: &mut BTreeSet<usize>,
) {
    if !seen.insert(wire) {
        return;
    }
    match &circuit.wires[wire].source {
        Source::Share(_) | Source::Constant(_) | Source::Random(_) | Source::Register(_) => {
            stops.insert(wire);
        }
        Source::Not(x) => go_back(circuit, *x, seen, stops),
        Source::Sum(terms) => {
            for x in terms {
                go_back(circuit, *x, seen, stops);
            }
        }
        Source::Product(x, y) | Source::NotProduct(x, y) => {
            go_back(circuit, *x, seen, stops);
            go_back(circuit, *y, seen, stops);
        }
    }
}
