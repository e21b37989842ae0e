//! One clock of the pipeline: the refusals 15 to 18, the value of every wire on it, and what the registers keep of it.
use super::check::check;
use super::circuit::{Circuit, Source};
use super::evaluate::{inputs_fit, value, write_values};
use super::{Refusal, Verdict};

/// The whole call: checks, writes the value of each wire, then what each register shows on the next clock. Any refusal leaves
/// both as they were.
pub fn clock(
    table: &[u16],
    notes: &mut [u16],
    shares: &[u8],
    tape: &[u8],
    sheet: &mut [u8],
    bank: &mut [u8],
) -> Verdict {
    let circuit = check(table, notes)?;
    inputs_fit(&circuit, shares, tape, sheet.len().min(bank.len()))?;
    registers_fit(&circuit, bank, shares.len() + tape.len())?;
    let values = values(&circuit, shares, tape, bank);
    write_values(sheet, &values);
    for (register, operand) in registers(&circuit) {
        bank[register] = values[operand];
    }
    Ok(circuit.counts())
}

/// Every register with the wire that it takes, in rising order.
pub fn registers(circuit: &Circuit) -> impl Iterator<Item = (usize, usize)> + '_ {
    circuit.wires.iter().enumerate().filter_map(|(number, wire)| match wire.source {
        Source::Register(operand) => Some((number, operand)),
        _ => None,
    })
}

/// Rule 18 of the bank, whose wires count on from the tape; the bytes of other wires may be any.
fn registers_fit(circuit: &Circuit, bank: &[u8], from: usize) -> Result<(), Refusal> {
    match registers(circuit).find(|&(register, _)| bank[register] > 1) {
        Some((register, _)) => Err(Refusal::new(18, 0, from + register)),
        None => Ok(()),
    }
}

/// The value of every wire on this clock: a register shows its byte of the bank, other gates are as in an evaluation.
fn values(circuit: &Circuit, shares: &[u8], tape: &[u8], bank: &[u8]) -> Vec<u8> {
    let mut values: Vec<u8> = Vec::new();
    for (number, wire) in circuit.wires.iter().enumerate() {
        values.push(match &wire.source {
            Source::Register(_) => bank[number],
            source => value(source, shares, tape, &values),
        });
    }
    values
}
