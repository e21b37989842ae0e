//! Clocks held to the second program, on circuits of all kinds and at the limits.
use super::Tuned;
use crate::buffers::GUARD;
use crate::clocks::Clocks;
use crate::generate::case::lines;
use crate::generate::clocking::clocking;
use crate::generate::random::Random;
use crate::reference::check::{walk, Rules};
use crate::reference::NOTES_WORDS;
use std::collections::BTreeMap;

#[test]
fn random_clocks() {
    let mut clocks = Clocks::default();
    let mut met = BTreeMap::new();
    for case in 0..6000 {
        let mut random = Random::of_case(5, case);
        let table = lines(&mut random).concat();
        let (made, refusal) = walk(&table, Rules::All);
        let run = clocking(&mut random, &made, refusal.is_none());
        let notes = random.words(NOTES_WORDS + 2 * GUARD);
        let answers = clocks.take(&mut random, &Tuned, &table, &notes, &run);
        for answer in answers.unwrap_or_else(|what| panic!("case {case}: {what}")) {
            *met.entry(answer.result).or_insert(0) += 1;
        }
    }
    assert_eq!(clocks.print(), 0);
    assert!([0, 15, 16, 17, 18].iter().all(|rule| met.contains_key(rule)), "{met:?}");
}
