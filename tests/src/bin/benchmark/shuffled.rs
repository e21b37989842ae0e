//! Circuits with their kinds in random order: whole sharings, tables refused at their last frame, and many tables by turns.
use super::load::{Line, Load};
use masked_tests::builder::Builder;
use masked_tests::generate::random::Random;
use masked_tests::generate::shuffled::{shuffled, ALL_KINDS, GATES};
use masked_tests::generate::whole::Whole;

/// Whole sharings of these kinds in random order, up to so many of them and to 8,192 words or wires.
pub fn sharings(random: &mut Random, d: usize, kinds: &[usize], steps: usize) -> Builder {
    let mut whole = Whole::new(d, 0);
    whole.input(0);
    whole.grow(random, kinds, steps, 0);
    whole.builder
}

/// Gates behind which an XOR names wires of two labels, then behind which a frame has no kind. The first text is not refused.
pub fn refused(random: &mut Random) -> [Line; 2] {
    let mut label = shuffled(random, 2, &GATES, 8188);
    label.xor(0, 1);
    let mut kind = shuffled(random, 2, &GATES, 8188);
    kind.frames.push(kind.table.len());
    kind.table.extend([9, 0]);
    let label = Load::refused(random, label, 10, 0);
    let kind = Load::refused(random, kind, 5, 5);
    [("refused 10 at the end", label), ("refused 5 at the end", kind)]
        .map(|(name, load)| Line { name: name.to_string(), loads: vec![load] })
}

/// 64 different tables of a few hundred words, called one after the other: gates and all kinds, 2 to 8 shares.
pub fn by_turns(random: &mut Random) -> Line {
    let load = |at: usize| {
        let (d, words) = (random.within(2, 8), random.within(200, 600));
        let kinds: &[usize] = if at.is_multiple_of(2) { &GATES } else { &ALL_KINDS };
        let builder = shuffled(random, d, kinds, words);
        Load::new(random, builder)
    };
    Line { name: "64 tables by turns".to_string(), loads: (0..64).map(load).collect() }
}

/// 16 tables as large as they can be, called one after the other: too many kinds to be learnt by heart.
pub fn large_by_turns(random: &mut Random) -> Vec<Line> {
    let rows: [(&str, usize, &[usize]); 4] = [
        ("16 shuffled, d 2", 2, &GATES),
        ("16 shuffled, d 8", 8, &GATES),
        ("16 mixed, d 2", 2, &ALL_KINDS),
        ("16 mixed, d 3", 3, &ALL_KINDS),
    ];
    let line = |(name, d, kinds): (&str, usize, &[usize])| {
        let load = |_| {
            let builder = shuffled(random, d, kinds, 8190);
            Load::new(random, builder)
        };
        Line { name: name.to_string(), loads: (0..16).map(load).collect() }
    };
    rows.map(line).into()
}
