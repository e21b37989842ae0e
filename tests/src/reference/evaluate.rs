//! Evaluation: the refusals 15 to 18, and the value of every wire.
use super::check::check;
use super::circuit::{Circuit, Source};
use super::{Refusal, Verdict, MOST_WIRES};

/// The whole call: checks, then writes the value of each wire.
pub fn evaluate(
    table: &[u16],
    notes: &mut [u16],
    shares: &[u8],
    tape: &[u8],
    sheet: &mut [u8],
) -> Verdict {
    let circuit = check(table, notes)?;
    inputs_fit(&circuit, shares, tape, sheet.len())?;
    write_values(sheet, &values(&circuit, shares, tape));
    Ok(circuit.counts())
}

/// Rules 15 to 18. `smallest_sheet` is the length of the shortest buffer to write.
pub fn inputs_fit(
    circuit: &Circuit,
    shares: &[u8],
    tape: &[u8],
    smallest_sheet: usize,
) -> Result<(), Refusal> {
    if shares.len() != circuit.d * circuit.inputs {
        return Err(Refusal::nowhere(15));
    }
    if tape.len() != circuit.randoms {
        return Err(Refusal::nowhere(16));
    }
    if smallest_sheet < MOST_WIRES {
        return Err(Refusal::nowhere(17));
    }
    are_bits(shares.iter().chain(tape))
}

/// Rule 18.
pub fn are_bits<'a>(bytes: impl Iterator<Item = &'a u8>) -> Result<(), Refusal> {
    for (index, &byte) in bytes.enumerate() {
        if byte > 1 {
            return Err(Refusal::new(18, 0, index));
        }
    }
    Ok(())
}

/// The value of every wire, in order.
pub fn values(circuit: &Circuit, shares: &[u8], tape: &[u8]) -> Vec<u8> {
    let mut values: Vec<u8> = Vec::new();
    for wire in &circuit.wires {
        values.push(value(&wire.source, shares, tape, &values));
    }
    values
}

/// The value of one wire, from those of the wires before it.
#[inline]
pub fn value(source: &Source, shares: &[u8], tape: &[u8], values: &[u8]) -> u8 {
    match source {
        Source::Share(index) => shares[*index],
        Source::Constant(value) => *value,
        Source::Random(index) => tape[*index],
        Source::Register(x) => values[*x],
        Source::Not(x) => 1 - values[*x],
        Source::Sum(terms) => terms.iter().fold(0, |sum, x| (sum + values[*x]) % 2),
        Source::Product(x, y) => values[*x] * values[*y],
        Source::NotProduct(x, y) => (1 - values[*x]) * values[*y],
    }
}

/// Writes the values; the bytes past the last wire stay.
pub fn write_values(sheet: &mut [u8], values: &[u8]) {
    sheet[..values.len()].copy_from_slice(values);
}
