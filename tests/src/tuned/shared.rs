//! Whole sharings held to the second program, and to how the circuits were made.
use super::Tuned;
use crate::buffers::GUARD;
use crate::generate::case::lines;
use crate::generate::random::Random;
use crate::generate::sharing::sharing;
use crate::reference::NOTES_WORDS;
use crate::sharings::Sharings;

#[test]
fn random_sharings() {
    let mut sharings = Sharings::default();
    for case in 0..6000 {
        let mut random = Random::of_case(6, case);
        let known = sharing(&mut random);
        let notes = random.words(known.notes + 2 * GUARD);
        let answer = sharings.take_known(&Tuned, &known, &notes);
        answer.unwrap_or_else(|what| panic!("case {case}: {what}"));
        let table = lines(&mut random).concat();
        let notes = random.words(NOTES_WORDS + 2 * GUARD);
        let answer = sharings.take(&Tuned, &table, &notes);
        answer.unwrap_or_else(|what| panic!("case {case}: {what}"));
    }
    assert_eq!(sharings.print(), 0);
}
