//! The slips that 01 lists, each told from the right reading or value.
use super::check::{walk, Rules};
use super::circuit::Circuit;
use super::evaluate::values;
use super::reach::observed;

fn circuit(table: &[u16]) -> Circuit {
    let (circuit, refusal) = walk(table, Rules::All);
    assert_eq!(refusal, None);
    circuit
}

/// A row of two INs and their AND, d shares: a from wire 0, b from wire d.
fn and(d: u16) -> Vec<u16> {
    let mut table = vec![0, d, 1, 1, 1, 0, 6, 0];
    table.extend(0..2 * d);
    table
}

#[test]
fn a_reading_goes_back_past_a_gadgets_output() {
    for d in 2..=8 {
        let circuit = circuit(&and(d));
        let output = circuit.wires.len() as u16 - 1;
        let stops = observed(&circuit, &[output]);
        assert_eq!(stops.len(), 2 * usize::from(d) - 1);
        assert!(!stops.contains(&usize::from(output)));
    }
}

#[test]
fn both_partial_products_are_registered() {
    // A2 and A4 with d 2: the output reads U = 13 and W = 17, never u's or w's own stops.
    let stops = observed(&circuit(&and(2)), &[24]);
    assert_eq!(Vec::from_iter(stops), [8, 13, 17]);
}

#[test]
fn a_pair_shares_one_random_bit() {
    for d in 2..=8u16 {
        let circuit = circuit(&and(d));
        let pairs = usize::from(d * (d - 1) / 2);
        assert_eq!(circuit.randoms, pairs);
        assert_eq!(circuit.wires.len(), usize::from(2 * d + 7 * d * (d - 1) + 4 * d));
        for round in 0..64usize {
            let bit =
                |at: usize| ((round * 2_654_435_761 + at * 40_503 * (round + 3)) >> 7) as u8 & 1;
            let shares: Vec<u8> = (0..2 * usize::from(d)).map(bit).collect();
            let tape: Vec<u8> = (0..pairs).map(|at| bit(at + 99)).collect();
            let values = values(&circuit, &shares, &tape);
            let sum = |from: usize| values[from..from + usize::from(d)].iter().sum::<u8>() % 2;
            let product = sum(0) * sum(d.into());
            assert_eq!(sum(values.len() - usize::from(d)), product);
        }
    }
}

#[test]
fn two_paths_to_one_stop_do_not_cancel() {
    let circuit = circuit(&[0, 2, 1, 0, 3, 0, 0]);
    assert_eq!(Vec::from_iter(observed(&circuit, &[2])), [0]);
    assert_eq!(values(&circuit, &[1, 0], &[])[2], 0);
}

#[test]
fn a_refresh_keeps_the_secret_and_reads_as_registers() {
    for d in 2..=8u16 {
        let mut table = vec![0, d, 1, 0, 7, 0];
        table.extend(0..d);
        let circuit = circuit(&table);
        let pairs = d * (d - 1) / 2;
        assert_eq!(circuit.wires.len(), usize::from(d + pairs + 2 * d));
        let output = d + pairs + d;
        assert_eq!(Vec::from_iter(observed(&circuit, &[output])), [usize::from(output)]);
        assert_eq!(observed(&circuit, &[output - d]).len(), usize::from(d));
        for round in 0..32u32 {
            let shares: Vec<u8> =
                (0..u32::from(d)).map(|at| (round >> (at % 5)) as u8 & 1).collect();
            let tape: Vec<u8> =
                (0..u32::from(pairs)).map(|at| ((round * 7 + at * 5) >> 2) as u8 & 1).collect();
            let values = values(&circuit, &shares, &tape);
            let sum = |wires: &[u8]| wires.iter().sum::<u8>() % 2;
            assert_eq!(sum(&values[usize::from(output)..]), sum(&shares));
        }
    }
}
