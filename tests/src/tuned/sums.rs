//! Every wire as a sum of variables: 1, the free bits, the set of secrets, and products of two such sums. XOR, NOT and REG cost
//! one step for all pairs together; of an AND a product for each output is left, and those that are read inside it.
use super::count::Task;
use super::reach::places;
use super::{by_shares, Sizes};

/// A bit for each variable. There are 18 at most before the products, up to 32 products of outputs, and 8 of wires that are read.
pub type Sum = u64;
pub const ONE: Sum = 1;

/// The sums of the read wires, and the products, each of two sums of variables before it.
pub struct Sums {
    pub read: [Sum; 8],
    products: [[Sum; 2]; 40],
    count: usize,
    /// The bit of the first product.
    pub first: usize,
}

impl Sums {
    /// The free bits stand behind ONE, those of the shares first; the set of secrets behind them.
    pub fn new(table: &[u16], task: &Task, secrets: &[u8]) -> Sums {
        let first = task.bits + 2;
        let mut sums = Sums { read: [0; 8], products: [[0; 2]; 40], count: 0, first };
        by_shares!(task.found.d, walk(&table[2..], task, secrets, &mut sums));
        sums
    }

    fn product(&mut self, x: Sum, y: Sum) -> Sum {
        match (x, y) {
            (0, _) | (_, 0) => 0,
            (ONE, other) | (other, ONE) => other,
            _ if x == y => x,
            _ => {
                self.products[self.count] = [x, y];
                self.count += 1;
                1 << (self.first + self.count - 1)
            }
        }
    }

    pub fn products(&self) -> &[[Sum; 2]] {
        &self.products[..self.count]
    }

    /// The variables that the read wires need, by way of products too, and those that are multiplied in these products.
    pub fn needed(&self) -> (Sum, Sum) {
        let mut needed = self.read.iter().fold(0, |all, sum| all | sum);
        let mut factors = 0;
        for (at, [x, y]) in self.products().iter().enumerate().rev() {
            if (needed >> (self.first + at)) & 1 == 1 {
                needed |= x | y;
                factors |= x | y;
            }
        }
        (needed, factors)
    }
}

fn walk<const D: usize>(frames: &[u16], task: &Task, secrets: &[u8], sums: &mut Sums) {
    let (sizes, second) = (Sizes::new(D), 1 << (task.bits + 1));
    let mut wires: Vec<Sum> = Vec::with_capacity(task.found.wires);
    let (mut input, mut random) = (0, 1 + (D - 1) * task.found.inputs);
    let mut rest = frames;
    while let [kind, ..] = *rest {
        if kind.wrapping_sub(3) < 3 {
            rest = gates(rest, &mut wires);
            continue;
        }
        let (words, after) = rest.split_at(usize::from(sizes.words[usize::from(kind)]));
        if kind == 1 {
            let secret = [secrets[input], secrets[task.found.inputs + input]];
            let last = (second * Sum::from(secret[0] ^ secret[1])) ^ Sum::from(secret[0]);
            let free = (0..D - 1).map(|share| 1 << (1 + (D - 1) * input + share));
            wires.extend(free.clone().chain([free.fold(last, |sum, share| sum ^ share)]));
            input += 1;
        } else if kind == 2 {
            wires.push(words[2].into());
        } else if kind < 8 {
            let a = row::<D>(&words[2..], &wires);
            if kind == 6 {
                let b = row::<D>(&words[2 + D..], &wires);
                and::<D>(&a, &b, random, task, sums, &mut wires);
            } else {
                refresh::<D>(&a, random, &mut wires);
            }
            random += D * (D - 1) / 2;
        }
        rest = after;
    }
    for (sum, &wire) in sums.read.iter_mut().zip(task.read()) {
        // an inner wire of an AND has its sum already
        if *sum == 0 {
            *sum = wires[usize::from(wire)];
        }
    }
}

/// The sums of the wires that the first D words name.
fn row<const D: usize>(words: &[u16], wires: &[Sum]) -> [Sum; D] {
    let mut row = [0; D];
    for (sum, &wire) in row.iter_mut().zip(words) {
        *sum = wires[usize::from(wire)];
    }
    row
}

/// XORs, NOTs and REGs up to another frame or the table's end; gives what is left.
fn gates<'a>(frames: &'a [u16], wires: &mut Vec<Sum>) -> &'a [u16] {
    let mut rest = frames;
    while let [kind @ 3..=5, x, ref after @ ..] = *rest {
        let x = wires[usize::from(x)];
        let sum;
        (sum, rest) = match *after {
            [y, ref after @ ..] if kind == 3 => (x ^ wires[usize::from(y)], after),
            _ if kind == 4 => (x ^ ONE, after),
            _ => (x, after),
        };
        wires.push(sum);
    }
    rest
}

/// The outputs are a(i) · (sum of b) + sum of r(i,j); inner wires have no sum but where they are read.
fn and<const D: usize>(
    a: &[Sum; D],
    b: &[Sum; D],
    random: usize,
    task: &Task,
    sums: &mut Sums,
    wires: &mut Vec<Sum>,
) {
    let first = wires.len();
    let inner = 7 * D * (D - 1) + 3 * D;
    for (at, &wire) in task.read().iter().enumerate() {
        let place = usize::from(wire).wrapping_sub(first);
        if place < inner {
            sums.read[at] = inside::<D>(place, a, b, random, sums);
        }
    }
    wires.resize(first + inner, 0);
    let sum_b = b.iter().fold(0, |sum, b| sum ^ b);
    for (i, &a) in a.iter().enumerate() {
        let sum_r = (0..D - 1).fold(0, |sum, k| sum ^ bit::<D>(random, i, k));
        wires.push(sums.product(a, sum_b) ^ sum_r);
    }
}

/// r(i,j) by i and the place of j among the others.
fn bit<const D: usize>(random: usize, i: usize, k: usize) -> Sum {
    1 << (random + usize::from(const { places(D) }[i][k] / 2))
}

/// The sum of an inner wire by its place; a register has that of its gate.
fn inside<const D: usize>(
    place: usize,
    a: &[Sum; D],
    b: &[Sum; D],
    random: usize,
    sums: &mut Sums,
) -> Sum {
    let first_cross = D * (D - 1) + 3 * D;
    if place < D * (D - 1) {
        return 1 << (random + place / 2);
    }
    if place < first_cross {
        let (i, wire) = ((place - D * (D - 1)) / 3, (place - D * (D - 1)) % 3);
        return if wire == 0 { b[i] } else { sums.product(a[i], b[i]) };
    }
    let (pair, wire) = ((place - first_cross) / 6, (place - first_cross) % 6);
    let (i, k) = (pair / (D - 1), pair % (D - 1));
    let r = bit::<D>(random, i, k);
    let v = b[k + usize::from(k >= i)] ^ r;
    match wire {
        0 | 1 => sums.product(a[i] ^ ONE, r),
        2 | 3 => v,
        _ => sums.product(a[i], v),
    }
}

fn refresh<const D: usize>(row: &[Sum; D], random: usize, wires: &mut Vec<Sum>) {
    wires.extend((0..D * (D - 1) / 2).map(|at| 1 << (random + at)));
    for _ in 0..2 {
        wires
            .extend((0..D).map(|i| (0..D - 1).fold(row[i], |sum, k| sum ^ bit::<D>(random, i, k))));
    }
}
