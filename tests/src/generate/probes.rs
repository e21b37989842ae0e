//! Sets of fewer than d probes: all of them, or a sample.
use super::random::Random;

/// All sets of up to d-1 wires where there are at most `most`; else the single wires and a sample.
pub fn probe_sets(random: &mut Random, wires: usize, d: usize, most: usize) -> Vec<Vec<u16>> {
    let number: f64 = (0..d).map(|size| choices(wires, size)).sum();
    if number <= most as f64 {
        return (0..d).flat_map(|size| subsets(wires, size)).collect();
    }
    let mut sets: Vec<Vec<u16>> = (0..wires).map(|wire| vec![wire as u16]).collect();
    while sets.len() < most {
        let size = if random.once_in(4) { random.within(1, d - 1) } else { d - 1 };
        sets.push((0..size).map(|_| random.below(wires) as u16).collect());
    }
    sets
}

/// Number of sets of `size` out of `wires`, nearly.
fn choices(wires: usize, size: usize) -> f64 {
    (0..size).map(|at| (wires as f64 - at as f64).max(0.0) / (at as f64 + 1.0)).product()
}

/// Every set of `size` out of the first `wires` wires.
fn subsets(wires: usize, size: usize) -> Vec<Vec<u16>> {
    if size == 0 {
        return vec![Vec::new()];
    }
    let mut sets = Vec::new();
    for last in 0..wires {
        for mut set in subsets(last, size - 1) {
            set.push(last as u16);
            sets.push(set);
        }
    }
    sets
}
