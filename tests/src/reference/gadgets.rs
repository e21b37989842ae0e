//! The wires of AND and REF, in 01's order and with 01's equations.
use super::circuit::{NewWires, Source};

/// Number of unordered pairs of shares: the random bits of one gadget.
pub fn pairs(d: usize) -> usize {
    d * (d - 1) / 2
}

/// The place of the pair i<j among all such pairs, by i, then j; the order does not matter.
fn pair_index(d: usize, i: usize, j: usize) -> usize {
    let (low, high) = (i.min(j), i.max(j));
    let mut index = 0;
    for x in 0..d {
        for y in x + 1..d {
            if (x, y) == (low, high) {
                return index;
            }
            index += 1;
        }
    }
    unreachable!("i and j are different and below d")
}

/// AND: the outputs stand at `stage`.
pub fn and(new: &mut NewWires, first_random: usize, a: &[usize], b: &[usize], stage: usize) {
    let d = a.len();
    let mut r = Vec::new();
    let mut big_r = Vec::new();
    for pair in 0..pairs(d) {
        r.push(new.inner(Source::Random(first_random + pair)));
        big_r.push(new.inner(Source::Register(r[pair])));
    }
    let mut sums: Vec<Vec<usize>> = vec![Vec::new(); d];
    for i in 0..d {
        let big_b = new.inner(Source::Register(b[i]));
        let m = new.inner(Source::Product(a[i], big_b));
        sums[i].push(new.inner(Source::Register(m)));
    }
    for i in 0..d {
        for (j, &other) in b.iter().enumerate() {
            if i == j {
                continue;
            }
            let pair = pair_index(d, i, j);
            let u = new.inner(Source::NotProduct(a[i], big_r[pair]));
            sums[i].push(new.inner(Source::Register(u)));
            let v = new.inner(Source::Sum(vec![other, r[pair]]));
            let big_v = new.inner(Source::Register(v));
            let w = new.inner(Source::Product(a[i], big_v));
            sums[i].push(new.inner(Source::Register(w)));
        }
    }
    for (i, sum) in sums.into_iter().enumerate() {
        new.open(i, stage, Source::Sum(sum));
    }
}

/// REF: the outputs stand at `stage`.
pub fn refresh(new: &mut NewWires, first_random: usize, inputs: &[usize], stage: usize) {
    let d = inputs.len();
    let r: Vec<usize> =
        (0..pairs(d)).map(|pair| new.inner(Source::Random(first_random + pair))).collect();
    let mut s = Vec::new();
    for i in 0..d {
        let mut terms = vec![inputs[i]];
        for j in 0..d {
            if j != i {
                terms.push(r[pair_index(d, i, j)]);
            }
        }
        s.push(new.inner(Source::Sum(terms)));
    }
    for (i, sum) in s.into_iter().enumerate() {
        new.open(i, stage, Source::Register(sum));
    }
}
