//! Counting: how many pairs of sharing and tape give each reading. The call, its refusals 15 to 25; and the search for a reading
//! that two sets of secret bits give a different number of times.
use super::check::check;
use super::circuit::Circuit;
use super::evaluate::{are_bits, values};
use super::reach::{are_wires, observed};
use super::{Refusal, COUNTS_NUMBERS, MOST_FREE_BITS, MOST_READ};
use std::collections::HashMap;

/// The whole call: checks, goes through all pairs of both sets, then writes four numbers for each combination. Gives the number
/// of wires read, of combinations and of pairs. Any refusal leaves the counts as they were.
pub fn count(
    table: &[u16],
    notes: &mut [u16],
    secrets: &[u8],
    probes: &[u16],
    counts: &mut [u32],
) -> Result<[usize; 3], Refusal> {
    let circuit = check(table, notes)?;
    inputs_fit(&circuit, secrets, probes, counts.len())?;
    let read = Vec::from_iter(observed(&circuit, probes));
    if read.len() > MOST_READ {
        return Err(Refusal::nowhere(25));
    }
    let (first, second) = secrets.split_at(circuit.inputs);
    let columns = [arising(&circuit, first, &read), arising(&circuit, second, &read)];
    let (combinations, pairs) = (1 << read.len(), 1 << free_bits(&circuit));
    for combination in 0..combinations {
        let [x, y] = [columns[0][combination], columns[1][combination]];
        let row = [x, y, part(x, pairs), part(y, pairs)].map(|number| number as u32);
        counts[4 * combination..4 * combination + 4].copy_from_slice(&row);
    }
    Ok([read.len(), combinations, pairs])
}

/// Rules 15, 17 to 19 and 24.
fn inputs_fit(
    circuit: &Circuit,
    secrets: &[u8],
    probes: &[u16],
    counts: usize,
) -> Result<(), Refusal> {
    if secrets.len() != 2 * circuit.inputs {
        return Err(Refusal::nowhere(15));
    }
    if counts < COUNTS_NUMBERS {
        return Err(Refusal::nowhere(17));
    }
    are_bits(secrets.iter())?;
    are_wires(circuit, probes)?;
    if free_bits(circuit) > MOST_FREE_BITS {
        return Err(Refusal::nowhere(24));
    }
    Ok(())
}

/// How often each combination of the read wires' values arises under one set; the lowest wire is the highest bit.
fn arising(circuit: &Circuit, secrets: &[u8], read: &[usize]) -> Vec<usize> {
    let mut times = vec![0; 1 << read.len()];
    for (shares, tape) in pairs(circuit, secrets) {
        let values = values(circuit, &shares, &tape);
        let combination =
            read.iter().fold(0, |number, &wire| 2 * number + usize::from(values[wire]));
        times[combination] += 1;
    }
    times
}

/// Parts per thousand, to the nearest whole number, halves up.
fn part(count: usize, pairs: usize) -> usize {
    let (whole, rest) = (1000 * count / pairs, 1000 * count % pairs);
    if 2 * rest >= pairs {
        whole + 1
    } else {
        whole
    }
}

/// The bits that a sharing and a tape of one set are free to be: all shares but one of each IN, and the tape.
pub fn free_bits(circuit: &Circuit) -> usize {
    (circuit.d - 1) * circuit.inputs + circuit.randoms
}

/// Every pair of sharing and tape of one set of secret bits, one for each IN. The last share of an IN completes its bit.
pub fn pairs<'a>(
    circuit: &'a Circuit,
    secrets: &'a [u8],
) -> impl Iterator<Item = (Vec<u8>, Vec<u8>)> + 'a {
    let bits = free_bits(circuit);
    (0..1usize << bits).map(move |number| {
        let drawn: Vec<u8> = (0..bits).map(|bit| (number >> bit & 1) as u8).collect();
        let (drawn, tape) = drawn.split_at(bits - circuit.randoms);
        let mut shares = Vec::new();
        for (row, secret) in drawn.chunks(circuit.d - 1).zip(secrets) {
            shares.extend(row);
            shares.push(row.iter().fold(*secret, |sum, share| (sum + share) % 2));
        }
        (shares, tape.to_vec())
    })
}

/// One sharing and tape: the secrets they share, as bits of a number, and all wires' values.
pub struct Outcome {
    pub secrets: usize,
    pub values: Vec<u8>,
}

/// Every sharing of every set of secrets with every tape.
pub fn outcomes(circuit: &Circuit) -> Vec<Outcome> {
    let mut outcomes = Vec::new();
    for secrets in 0..1 << circuit.inputs {
        let bits: Vec<u8> = (0..circuit.inputs).map(|at| (secrets >> at & 1) as u8).collect();
        for (shares, tape) in pairs(circuit, &bits) {
            outcomes.push(Outcome { secrets, values: values(circuit, &shares, &tape) });
        }
    }
    outcomes
}

/// A reading that two sets of secrets give a different number of times.
#[derive(Debug)]
pub struct Difference {
    pub probes: Vec<u16>,
    pub observed: Vec<usize>,
    /// For each set of secrets, the number of pairs of sharing and tape.
    pub counts: Vec<u64>,
}

/// Counts the pairs for each reading of the probes; gives a reading whose counts are not all equal.
pub fn difference(circuit: &Circuit, outcomes: &[Outcome], probes: &[u16]) -> Option<Difference> {
    let observed = Vec::from_iter(observed(circuit, probes));
    assert!(observed.len() <= 128, "a reading of a small circuit fits one number");
    let mut counts: HashMap<u128, Vec<u64>> = HashMap::new();
    for outcome in outcomes {
        let reading =
            observed.iter().fold(0, |bits, &wire| bits << 1 | u128::from(outcome.values[wire]));
        let of_reading = counts.entry(reading).or_insert_with(|| vec![0; 1 << circuit.inputs]);
        of_reading[outcome.secrets] += 1;
    }
    let unequal = counts.into_values().find(|of| of.iter().any(|count| *count != of[0]))?;
    Some(Difference { probes: probes.to_vec(), observed, counts: unequal })
}
