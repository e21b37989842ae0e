//! Ways to break whole sharings that the checker still accepts, each at a known frame.
use super::random::Random;
use super::whole::Whole;
use crate::builder::Place;
use crate::reference::LAST_STAGE;

/// Words and wires that breaking needs at most, with the sharings it is given.
pub const SPARE: usize = 700;

/// How a run or a row is broken.
#[derive(Clone, Copy, Debug, PartialEq, Eq)]
pub enum Way {
    Mixed,
    MixedSecond,
    WordsExchanged,
    Across,
    CutByKind,
    CutByRun,
    CutByEnd,
    SplitByOut,
    SplitByKind,
    FramesExchanged,
    LaterLabelFirst,
    TwoStages,
    Lone,
}

/// Each way with its name, and the kinds of frames that can be broken so; in the order of Way.
pub const WAYS: [(Way, &str, &[usize]); 13] = [
    (Way::Mixed, "of two sharings", &[3, 4, 5, 6, 7, 8]),
    (Way::MixedSecond, "b, second words, of two", &[3, 6]),
    (Way::WordsExchanged, "both words exchanged", &[3]),
    (Way::Across, "wires in a row, of two", &[3, 4, 5]),
    (Way::CutByKind, "cut by another kind", &RUNS),
    (Way::CutByRun, "cut by a run of its kind", &RUNS),
    (Way::CutByEnd, "cut by the table's end", &RUNS),
    (Way::SplitByOut, "split by an OUT", &RUNS),
    (Way::SplitByKind, "split by another kind", &RUNS),
    (Way::FramesExchanged, "two frames exchanged", &RUNS),
    (Way::LaterLabelFirst, "begins at a later label", &RUNS),
    (Way::TwoStages, "at two stages", &[2]),
    (Way::Lone, "a lone frame", &RUNS),
];

/// The kinds whose frames stand in runs.
const RUNS: [usize; 4] = [2, 3, 4, 5];

/// Adds frames of this kind that are broken in this way; gives the frame where 26 must be met.
pub fn broken(random: &mut Random, whole: &mut Whole, way: Way, kind: usize) -> usize {
    match kind {
        6..=8 => mixed_row(random, whole, way, kind),
        _ => broken_run(random, whole, way, kind),
    }
}

/// Some labels from y, the others from x; at least one from each.
fn mixed(random: &mut Random, x: &[u16], y: &[u16]) -> Vec<u16> {
    let chosen = random.within(1, (1 << x.len()) - 2);
    let word = |(label, (&x, &y))| if chosen >> label & 1 == 1 { y } else { x };
    x.iter().zip(y).enumerate().map(word).collect()
}

/// Two different sharings of one stage, which has one before it and two behind it.
fn pair(random: &mut Random, whole: &mut Whole, registered: bool) -> (Vec<u16>, Vec<u16>) {
    for _ in 0..4 {
        let fits =
            |place: &Place| (1..=253).contains(&place.stage) && (place.registered || !registered);
        let x = whole.pick(random, fits);
        let stage = x.as_ref().map(|x| whole.stage(x));
        let y = whole.pick(random, |place| fits(place) && Some(place.stage) == stage);
        if let (Some(x), Some(y)) = (x, y) {
            if x != y {
                return (x, y);
            }
        }
    }
    let stage = random.within(1, 3);
    (whole.input(stage), whole.constants(random, stage))
}

/// AND with a or b, REF or OUT with its row, of two sharings.
fn mixed_row(random: &mut Random, whole: &mut Whole, way: Way, kind: usize) -> usize {
    let (x, y) = pair(random, whole, kind == 8);
    let row = mixed(random, &x, &y);
    let stage = whole.stage(&x);
    let other = match (kind, way) {
        (6, Way::MixedSecond) => whole.at(random, stage + 1),
        _ => whole.at(random, stage - 1),
    };
    let frame = whole.builder.frames.len();
    match (kind, way) {
        (6, Way::MixedSecond) => drop(whole.builder.and(&other, &row)),
        (6, _) => drop(whole.builder.and(&row, &other)),
        (7, _) => drop(whole.builder.refresh(&row)),
        _ => whole.builder.output(&row),
    }
    frame
}

/// The words of a whole run of this kind.
fn run(random: &mut Random, whole: &mut Whole, kind: usize) -> Vec<Vec<u16>> {
    let d = whole.builder.d;
    let (x, y) = pair(random, whole, false);
    let y = if random.once_in(4) { x.clone() } else { y };
    let stage = random.below(4) as u16;
    let words = |label: usize, bit: u8| match kind {
        2 => vec![2, label as u16, u16::from(bit), stage],
        3 => vec![3, x[label], y[label]],
        kind => vec![kind as u16, x[label]],
    };
    random.bits(d).into_iter().enumerate().map(|(label, bit)| words(label, bit)).collect()
}

/// The last wires of a sharing and the first of the next, whose numbers rise by one; and such a row beside it for an XOR.
fn across(random: &mut Random, whole: &mut Whole) -> (Vec<u16>, Vec<u16>) {
    let d = whole.builder.d;
    let near = |pair: &&[Vec<u16>]| {
        pair[0][d - 1] + 1 == pair[1][0] && pair.iter().all(|x| whole.stage(x) < LAST_STAGE)
    };
    let pairs: Vec<Vec<u16>> =
        whole.sharings.windows(2).filter(near).map(<[Vec<u16>]>::concat).collect();
    let pair = match pairs.is_empty() {
        true => [whole.input(0), whole.input(random.below(2))].concat(),
        false => random.pick(&pairs),
    };
    let other = match random.once_in(2) {
        true => pair.clone(),
        false => [0, d].map(|first| whole.input(whole.stage(&pair[first..]))).concat(),
    };
    let from = random.within(1, d - 1);
    (pair[from..from + d].to_vec(), other[from..from + d].to_vec())
}

/// A run whose first words, or XOR's second words, name two sharings; or whose words are exchanged in some frames.
fn mixed_run(random: &mut Random, whole: &mut Whole, way: Way, kind: usize) -> Vec<Vec<u16>> {
    let (x, y) = pair(random, whole, false);
    let stage = whole.stage(&x);
    let any_stage = whole.pick(random, |place| place.stage < LAST_STAGE).filter(|z| *z != x);
    let third = whole.at(random, stage);
    let (first, second) = match way {
        Way::Across => across(random, whole),
        Way::MixedSecond => (third, mixed(random, &x, &y)),
        Way::WordsExchanged => {
            let first = mixed(random, &x, &y);
            let other = |(label, &wire)| if wire == x[label] { y[label] } else { x[label] };
            let second = first.iter().enumerate().map(other).collect();
            (first, second)
        }
        _ if kind == 3 => (mixed(random, &x, &y), third),
        // NOT and REG may name wires of several stages
        _ => (mixed(random, &x, &any_stage.unwrap_or(y)), third),
    };
    let words = |(&first, &second)| match kind {
        3 => vec![3, first, second],
        kind => vec![kind as u16, first],
    };
    first.iter().zip(&second).map(words).collect()
}

/// Adds the frames of gates.
fn put(whole: &mut Whole, frames: &[Vec<u16>]) {
    let builder = &mut whole.builder;
    for words in frames {
        match words[0] {
            2 => builder.constant(words[1].into(), words[2], words[3].into()),
            3 => builder.xor(words[1], words[2]),
            4 => builder.not(words[1]),
            _ => builder.register(words[1]),
        };
    }
}

/// Adds a whole IN, or a whole run of another kind than this.
fn put_other(random: &mut Random, whole: &mut Whole, kind: usize) {
    let others: Vec<usize> = (1..=5).filter(|&other| other != kind).collect();
    let other = random.pick(&others);
    whole.add(random, other);
}

/// A run with what may cut or split it, made before its first frame.
struct Parts {
    frames: Vec<Vec<u16>>,
    /// Another run of its kind.
    again: Vec<Vec<u16>>,
    /// A sharing that an OUT may name.
    ending: Vec<u16>,
}

/// Adds a broken run, and what cuts or splits it.
fn broken_run(random: &mut Random, whole: &mut Whole, way: Way, kind: usize) -> usize {
    let d = whole.builder.d;
    let parts = Parts {
        frames: match way {
            Way::Mixed | Way::MixedSecond | Way::WordsExchanged | Way::Across => {
                mixed_run(random, whole, way, kind)
            }
            _ => run(random, whole, kind),
        },
        again: run(random, whole, kind),
        ending: pair(random, whole, true).0,
    };
    let frame = whole.builder.frames.len();
    let first = if random.once_in(2) { d - 1 } else { random.within(1, d - 1) };
    match way {
        Way::CutByKind | Way::CutByRun | Way::SplitByOut | Way::SplitByKind => {
            parted(random, whole, way, parts, first);
        }
        _ => {
            let frames = altered(random, way, parts.frames, first);
            put(whole, &frames);
        }
    }
    frame
}

/// Adds the first frames of a run, what cuts or splits it, and, where it is split, the others.
fn parted(random: &mut Random, whole: &mut Whole, way: Way, parts: Parts, first: usize) {
    let Parts { frames, again, ending } = parts;
    let kind = frames[0][0];
    put(whole, &frames[..first]);
    match way {
        Way::CutByRun => put(whole, &again),
        // the other labels follow, of another kind
        Way::CutByKind if random.once_in(2) => {
            let other = if kind == 4 { 5 } else { 4 };
            let frames: Vec<_> = ending[first..].iter().map(|&wire| vec![other, wire]).collect();
            put(whole, &frames);
        }
        Way::SplitByOut => whole.builder.output(&ending),
        _ => put_other(random, whole, kind.into()),
    }
    if matches!(way, Way::SplitByOut | Way::SplitByKind) {
        put(whole, &frames[first..]);
    }
}

/// The frames of a run that is broken by itself; `first` is a label over 0.
fn altered(
    random: &mut Random,
    way: Way,
    mut frames: Vec<Vec<u16>>,
    first: usize,
) -> Vec<Vec<u16>> {
    let d = frames.len();
    match way {
        Way::CutByEnd => frames.truncate(first),
        Way::FramesExchanged => {
            let other = random.below(d);
            frames.swap(other, (other + first) % d);
        }
        Way::LaterLabelFirst if random.once_in(2) => frames.rotate_left(first),
        Way::LaterLabelFirst => drop(frames.remove(0)),
        Way::TwoStages => {
            let [x, y] = [0, 1].map(|later| vec![frames[0][3] + later; d]);
            let stages = mixed(random, &x, &y);
            frames.iter_mut().zip(stages).for_each(|(words, stage)| words[3] = stage);
        }
        Way::Lone => frames = vec![random.pick(&frames)],
        _ => (),
    }
    frames
}

#[cfg(test)]
mod tests {
    use super::*;

    /// The counts of what was met go by `way as usize`.
    #[test]
    fn ways_stand_in_the_order_of_the_enum() {
        for (at, (way, ..)) in WAYS.iter().enumerate() {
            assert_eq!(*way as usize, at);
        }
    }
}
