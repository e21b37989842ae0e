//! Both ways of counting held to the second program.
use super::{count_wide, Tuned};
use crate::calls::Calls;
use crate::generate::counting::{counting, Counting};
use crate::generate::random::Random;
use crate::reference::Reference;
use std::collections::BTreeSet;

#[test]
fn random_counts() {
    let mut met = BTreeSet::new();
    for case in 0..12_000 {
        let mut random = Random::of_case(3, case);
        let Counting { table, secrets, probes, counts } = counting(&mut random);
        let junk = (random.words(16384), random.numbers(counts));
        let [mut ours, mut theirs, mut wide] = [junk.clone(), junk.clone(), junk];
        let answer = Reference.count(&table, &mut ours.0, &secrets, &probes, &mut ours.1);
        let tuned = Tuned.count(&table, &mut theirs.0, &secrets, &probes, &mut theirs.1);
        assert_eq!((answer, ours == theirs), (tuned, true), "case {case}");
        let other = count_wide(&table, &mut wide.0, &secrets, &probes, &mut wide.1);
        assert_eq!((answer, ours == wide), (other, true), "case {case}, 64 pairs in a word");
        met.insert((answer.result, if answer.result == 0 { answer.numbers[2] } else { 0 }));
    }
    let free_bits = met.iter().filter(|(rule, _)| *rule == 0).count();
    assert!(free_bits == 17, "{met:?}");
    assert!([15, 17, 18, 19, 24, 25].iter().all(|&rule| met.contains(&(rule, 0))), "{met:?}");
}
