//! Counts: the check's pass, the stops and every wire's sum once, then all values of the free bits that are multiplied in what the
//! read wires need, or of all that they need where these are few, many at a time, eight in the bits of each byte. The other free
//! bits are only added: each moves all counts.
use super::evaluate::bits;
use super::lanes::{Lanes, Planes};
use super::sums::{Sum, Sums};
use super::{check, reach, Found, Refused, Sizes};

/// Bytes that a variable has in one pass, where there are values enough: 512 pairs.
const MOST_PLANES: usize = 64;

pub fn count(
    table: &[u16],
    notes: &mut [u16],
    secrets: &[u8],
    probes: &[u16],
    counts: &mut [u32],
) -> Result<[usize; 3], Refused> {
    let task = Task::new(table, notes, secrets, probes, counts.len())?;
    let sums = Sums::new(table, &task, secrets);
    let (needed, factors) = sums.needed();
    let free_bits = |sum: Sum| ((sum >> 1) & ((1 << task.bits) - 1)).count_ones() as usize;
    let varied = if free_bits(needed) <= task.wires { needed } else { factors };
    let free = free_bits(varied);
    let mut tally = Tally::new(task.wires, free);
    match free {
        0..=3 => all_pairs::<1>(&task, &sums, needed, varied, &mut tally),
        4 | 5 => all_pairs::<4>(&task, &sums, needed, varied, &mut tally),
        6 | 7 => all_pairs::<16>(&task, &sums, needed, varied, &mut tally),
        _ => all_pairs::<MOST_PLANES>(&task, &sums, needed, varied, &mut tally),
    }
    let mut times = tally.all();
    let doubled = move_counts(&task, &sums, varied, &mut times);
    Ok(task.answer(counts, |set, combination| times[set << task.wires | combination] << doubled))
}

/// Each free bit that does not vary, set or not: every count and the one that it is moved to, added. Gives how many of them move
/// nothing, and so double all counts.
fn move_counts(task: &Task, sums: &Sums, varied: Sum, times: &mut [u32]) -> usize {
    let mut doubled = 0;
    for bit in (1..=task.bits).filter(|&bit| (varied >> bit) & 1 == 0) {
        let read = sums.read[..task.wires].iter();
        let shift = read.fold(0, |shift, sum| shift << 1 | (sum >> bit & 1) as usize);
        if shift == 0 {
            doubled += 1;
            continue;
        }
        for set in times.chunks_exact_mut(1 << task.wires) {
            for one in 0..set.len() {
                let other = one ^ shift;
                if one < other {
                    let sum = set[one] + set[other];
                    (set[one], set[other]) = (sum, sum);
                }
            }
        }
    }
    doubled
}

/// An accepted table, the wires that are read, rising, and the number of free bits.
pub struct Task {
    pub found: Found,
    read: [u16; 8],
    pub wires: usize,
    pub bits: usize,
}

impl Task {
    /// All refusals.
    pub fn new(
        table: &[u16],
        notes: &mut [u16],
        secrets: &[u8],
        probes: &[u16],
        counts: usize,
    ) -> Result<Task, Refused> {
        let found = check::check(table, notes)?;
        if secrets.len() != 2 * found.inputs {
            return Err((15, 0, 0));
        }
        if counts < 1024 {
            return Err((17, 0, 0));
        }
        bits(secrets, 0)?;
        let last = reach::wires(&found, probes)?;
        let bits = (found.d - 1) * found.inputs + found.randoms;
        if bits > 16 {
            return Err((24, 0, 0));
        }
        let mut marks = vec![0; found.wires];
        let starts = starts(&table[2..], found.d, last);
        reach::mark(table, found.d, &starts, probes, &mut marks);
        let (mut read, mut wires) = ([0; 8], 0);
        for wire in (0..found.wires).filter(|&wire| marks[wire] != 0) {
            *read.get_mut(wires).ok_or((25, 0, 0))? = wire as u16;
            wires += 1;
        }
        Ok(Task { found, read, wires, bits })
    }

    pub fn read(&self) -> &[u16] {
        &self.read[..self.wires]
    }

    /// The shares of both sets from the free bits; the last share of each IN completes its bit. Gives how many free bits they take.
    #[inline(always)]
    pub fn share<T: Lanes>(&self, secrets: &[u8], free: &[T; 17], shares: &mut [T; 32]) -> usize {
        let Found { d, inputs, .. } = self.found;
        let (second, mut used) = (free[self.bits], 0);
        for (input, row) in shares.chunks_exact_mut(d).take(inputs).enumerate() {
            let mut last = match (secrets[input], secrets[inputs + input]) {
                (0, 0) => T::ZEROS,
                (0, _) => second,
                (_, 0) => T::ONES ^ second,
                _ => T::ONES,
            };
            for share in &mut row[..d - 1] {
                *share = free[used];
                last = last ^ free[used];
                used += 1;
            }
            row[d - 1] = last;
        }
        used
    }

    /// Writes the rows, from the times of each combination under each set; gives the numbers of an accepted call.
    pub fn answer(&self, counts: &mut [u32], times: impl Fn(usize, usize) -> u32) -> [usize; 3] {
        let combinations = 1 << self.wires;
        let pairs = 1u32 << self.bits;
        // at most 2000 · 2^16 + 2^16, which 32 bits hold
        let part = |count: u32| (2000 * count + pairs) >> (self.bits + 1);
        for (combination, row) in counts.chunks_exact_mut(4).take(combinations).enumerate() {
            let [x, y] = [times(0, combination), times(1, combination)];
            row.copy_from_slice(&[x, y, part(x), part(y)]);
        }
        [self.wires, combinations, pairs as usize]
    }
}

/// Of each frame up to a wire's, how many words are left before it, and how many wires are made.
fn starts(frames: &[u16], d: usize, last: Option<u16>) -> Vec<[u16; 2]> {
    let sizes = Sizes::new(d);
    let mut starts = Vec::with_capacity(frames.len() / 2);
    let (mut rest, mut wires) = (frames, 0);
    while let [kind, ..] = *rest {
        if last.is_none_or(|last| wires > last) {
            break;
        }
        starts.push([rest.len() as u16, wires]);
        rest = &rest[usize::from(sizes.words[usize::from(kind)])..];
        wires += sizes.wires[usize::from(kind)];
    }
    starts
}

/// How often each combination of the first set arose, then of the second: a place for each bit of a byte, so that one addition
/// does not wait for the last.
pub struct Tally {
    times: Vec<[u32; 8]>,
    wires: usize,
    bits: usize,
}

impl Tally {
    pub fn new(wires: usize, bits: usize) -> Tally {
        Tally { times: vec![[0; 8]; 2 << wires], wires, bits }
    }

    /// Adds the pairs of one byte; the columns are the read wires' bytes, the first in the highest place.
    #[inline(always)]
    fn add(&mut self, number: usize, columns: u64) {
        let rows = transposed(columns).to_le_bytes();
        if self.bits < 3 {
            for (lane, &row) in rows.iter().enumerate().take(2 << self.bits) {
                let set = lane >> self.bits;
                self.times[set << self.wires | usize::from(row)][lane] += 1;
            }
            return;
        }
        let set = (number >> (self.bits - 3) & 1) << self.wires;
        let times = &mut self.times[set..];
        for (lane, &row) in rows.iter().enumerate() {
            times[usize::from(row)][lane] += 1;
        }
    }

    /// Adds the pairs of one word; up to four wires by counting bits, more of them byte by byte.
    #[inline(always)]
    pub fn add_word(&mut self, number: usize, columns: &[u64]) {
        if columns.len() > 4 {
            for byte in 0..8.min((2usize << self.bits).div_ceil(8)) {
                let column = |lanes: u64| lanes >> (8 * byte) & 0xFF;
                self.add(8 * number + byte, columns.iter().fold(0, |all, &x| all << 8 | column(x)));
            }
            return;
        }
        if self.bits < 6 {
            let first = (1 << (1 << self.bits)) - 1;
            self.add_lanes(0, first, columns);
            self.add_lanes(1, first << (1 << self.bits), columns);
        } else {
            self.add_lanes(number >> (self.bits - 6) & 1, !0, columns);
        }
    }

    /// Adds some pairs of one word to a set, up to four wires.
    #[inline(always)]
    fn add_lanes(&mut self, set: usize, lanes: u64, columns: &[u64]) {
        let (mut parts, mut count) = ([lanes; 16], 1);
        for &column in columns.iter().rev() {
            for at in 0..count {
                parts[(count + at) & 15] = parts[at] & column;
                parts[at] &= !column;
            }
            count *= 2;
        }
        for (combination, part) in parts[..count].iter().enumerate() {
            self.times[set << self.wires | combination][0] += part.count_ones();
        }
    }

    pub fn times(&self, set: usize, combination: usize) -> u32 {
        self.times[set << self.wires | combination].iter().sum()
    }

    /// Those of all combinations of the first set, then of the second.
    fn all(&self) -> Vec<u32> {
        self.times.iter().map(|lanes| lanes.iter().sum()).collect()
    }
}

/// Bit i of byte j comes to bit j of byte i.
#[inline(always)]
fn transposed(mut x: u64) -> u64 {
    for (shift, mask) in [(7, 0x00AA_00AA_00AA_00AA), (14, 0xCCCC_0000_CCCC), (28, 0xF0F0_F0F0)] {
        let moved = (x ^ (x >> shift)) & mask;
        x ^= moved ^ (moved << shift);
    }
    x
}

/// Numbers the pairs by the free bits that vary, and the set by the bit behind them; goes through them all, 8 · P a pass.
fn all_pairs<const P: usize>(
    task: &Task,
    sums: &Sums,
    needed: Sum,
    varied: Sum,
    tally: &mut Tally,
) {
    let mut lanes = [Planes::<P>::ZEROS; 64];
    lanes[0] = Planes::ONES;
    let variables = (1..=task.bits).filter(|&bit| (varied >> bit) & 1 == 1).chain([task.bits + 1]);
    let fixed = 3 + P.ilog2() as usize;
    for (bit, variable) in variables.clone().enumerate().take(fixed) {
        lanes[variable] = pattern(bit);
    }
    let bytes = (1 << (tally.bits + 1)) / 8;
    for first in (0..bytes.max(1)).step_by(P) {
        for (bit, variable) in variables.clone().enumerate().skip(fixed) {
            let on = (first >> (bit - 3)) & 1 == 1;
            lanes[variable] = if on { Planes::ONES } else { Planes::ZEROS };
        }
        for (at, &[x, y]) in sums.products().iter().enumerate() {
            if (needed >> (sums.first + at)) & 1 == 1 {
                lanes[sums.first + at] = sum_of(x, &lanes) & sum_of(y, &lanes);
            }
        }
        let mut read = [Planes::<P>::ZEROS; 8];
        for (read, &sum) in read.iter_mut().zip(&sums.read[..task.wires]) {
            *read = sum_of(sum, &lanes);
        }
        for plane in 0..P {
            let column = |columns, read: &Planes<P>| (columns << 8) | u64::from(read.0[plane]);
            tally.add(first + plane, read[..task.wires].iter().fold(0, column));
        }
    }
}

#[inline(always)]
fn sum_of<const P: usize>(sum: Sum, lanes: &[Planes<P>; 64]) -> Planes<P> {
    let (mut value, mut left) = (Planes::ZEROS, sum);
    while left != 0 {
        value = value ^ lanes[left.trailing_zeros() as usize & 63];
        left &= left - 1;
    }
    value
}

/// A bit of the pairs' numbers that changes within a pass.
fn pattern<const P: usize>(bit: usize) -> Planes<P> {
    match bit {
        0 => Planes([0xAA; P]),
        1 => Planes([0xCC; P]),
        2 => Planes([0xF0; P]),
        _ => Planes(std::array::from_fn(|at| (at >> (bit - 3) & 1) as u8 * 0xFF)),
    }
}
