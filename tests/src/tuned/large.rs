//! Large tables held to the second program, valid and damaged: gates in rows and in random order, and all kinds, in all calls that
//! take them in blocks, rows and runs.
use super::Tuned;
use crate::builder::Builder;
use crate::calls::{Answer, Calls};
use crate::generate::case::{bits, probes, spoiled};
use crate::generate::circuit::{circuit, Inputs, Shape};
use crate::generate::random::Random;
use crate::generate::shuffled::{shuffled, ALL_KINDS, GATES};
use crate::generate::text::random_text;
use crate::generate::whole::Whole;
use crate::reference::check::{walk, Rules};
use crate::reference::circuit::Circuit;
use crate::reference::Reference;
use std::collections::BTreeMap;

fn large(random: &mut Random) -> Builder {
    let (d, words) = (random.within(2, 8), random.within(100, 3000));
    match random.below(4) {
        0 => shuffled(random, d, &GATES, words),
        1 => shuffled(random, d, &ALL_KINDS, words),
        2 => {
            let mut whole = Whole::new(d, 0);
            whole.input(0);
            whole.grow(random, &[1, 2, 3, 3, 4, 4, 5, 5, 6, 7, 8], words / 20, 20);
            whole.builder
        }
        _ => {
            let inputs = Inputs::Beside;
            let most_free_bits = usize::MAX;
            circuit(random, Shape { d, frames: words / 5, first_stage: 0, inputs, most_free_bits })
        }
    }
}

/// Makes a call through both programs, on the same junk; gives the answer.
fn both<B: Clone + PartialEq>(
    name: &str,
    junk: &B,
    call: impl Fn(&dyn Calls, &mut B) -> Answer,
) -> Answer {
    let (mut ours, mut theirs) = (junk.clone(), junk.clone());
    let wanted = call(&Reference, &mut ours);
    assert_eq!(call(&Tuned, &mut theirs), wanted, "{name}");
    assert!(ours == theirs, "{name}: {wanted:?}, other bytes");
    wanted
}

/// None, a few, or up to all wires.
fn many_probes(random: &mut Random, made: &Circuit) -> Vec<u16> {
    match (random.below(4), made.wires.len() as u16) {
        (0, wires) => (0..wires).collect(),
        (1, wires) => (0..wires).filter(|_| random.once_in(20)).collect(),
        _ => probes(random, made),
    }
}

#[test]
fn large_tables() {
    let mut met = BTreeMap::new();
    for case in 0..500 {
        let random = &mut Random::of_case(9, case);
        let builder = large(random);
        let lines = spoiled(random, &builder);
        let table = lines.concat();
        let (made, _) = walk(&table, Rules::All);
        let (shares, tape) = (bits(random, made.d * made.inputs), bits(random, made.randoms));
        let (probed, text) = (many_probes(random, &made), random_text(random, &lines));
        let name = |call: &str| format!("case {case}, {call}");
        let notes = random.words(16_400);
        let sheets = (notes.clone(), random.bytes(8200), random.bytes(8200));
        let answers = [
            both(&name("check"), &notes, |calls, notes| calls.check(&table, notes)),
            both(&name("sharings"), &notes, |calls, notes| calls.check_sharings(&table, notes)),
            both(&name("readings"), &sheets, |calls, (notes, values, reading)| {
                calls.read_probes(&table, notes, &shares, &tape, values, &probed, reading)
            }),
            both(&name("clock"), &sheets, |calls, (notes, values, bank)| {
                bank.iter_mut().for_each(|byte| *byte &= 1);
                calls.clock(&table, notes, &shares, &tape, values, bank)
            }),
            both(&name("written text"), &(notes.clone(), random.bytes(50_000)), |calls, sheets| {
                calls.write_text(&table, &mut sheets.0, &mut sheets.1)
            }),
            both(&name("read text"), &random.words(8200), |calls, read| {
                calls.read_text(&text, read)
            }),
        ];
        for (call, answer) in answers.iter().enumerate() {
            *met.entry((call, answer.result)).or_insert(0) += 1;
        }
    }
    assert!((0..6).all(|call| met[&(call, 0)] > 50), "{met:?}");
    assert!([5, 6, 20].iter().all(|rule| met.contains_key(&(5, *rule))), "{met:?}");
}
