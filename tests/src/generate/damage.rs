//! Damage to a valid circuit's frames: words changed, dropped, added and swapped.
use super::random::Random;
use crate::builder::Builder;

/// The circuit's frames after one to three strokes of damage.
pub fn damaged_lines(random: &mut Random, builder: &Builder) -> Vec<Vec<u16>> {
    let mut lines = builder.lines();
    for _ in 0..random.within(1, 3) {
        if lines.is_empty() {
            break;
        }
        match random.below(12) {
            0 => drop_word(random, &mut lines),
            1 => add_word(random, &mut lines),
            2 => swap_words(random, &mut lines),
            3 => move_lines(random, &mut lines),
            4 => {
                let d = random.pick(&[0, 1, 2, 3, 4, 5, 6, 7, 8, 9, 0xFFFF]);
                set(&mut lines[0], 1, d);
            }
            5 => change_kind(random, &mut lines),
            _ => change_operand(random, builder, &mut lines),
        }
    }
    lines
}

/// Sets a word, where the line has it.
fn set(line: &mut [u16], at: usize, word: u16) {
    if let Some(place) = line.get_mut(at) {
        *place = word;
    }
}

fn drop_word(random: &mut Random, lines: &mut [Vec<u16>]) {
    let at = if random.once_in(2) { lines.len() - 1 } else { random.below(lines.len()) };
    let line = &mut lines[at];
    if !line.is_empty() {
        line.remove(random.below(line.len()));
    }
}

fn add_word(random: &mut Random, lines: &mut [Vec<u16>]) {
    let at = random.below(lines.len());
    let word = random.pick(&[0, 1, 2, 8, 0xFFFF]);
    let into = random.below(lines[at].len() + 1);
    lines[at].insert(into, word);
}

/// Swaps two words of one frame, so that labels stand in the wrong order.
fn swap_words(random: &mut Random, lines: &mut [Vec<u16>]) {
    let line = random.below(lines.len());
    let words = lines[line].len();
    if words > 2 {
        let (x, y) = (random.within(1, words - 1), random.within(1, words - 1));
        lines[line].swap(x, y);
    }
}

/// Drops, doubles or swaps whole frames.
fn move_lines(random: &mut Random, lines: &mut Vec<Vec<u16>>) {
    let (x, y) = (random.below(lines.len()), random.below(lines.len()));
    match random.below(3) {
        0 => {
            lines.remove(x);
        }
        1 => lines.insert(y, lines[x].clone()),
        _ => lines.swap(x, y),
    }
}

fn change_kind(random: &mut Random, lines: &mut [Vec<u16>]) {
    let at = random.below(lines.len());
    let kind = random.pick(&[0, 1, 2, 3, 4, 5, 6, 7, 8, 9, 0x0100, 0x0106, 0xFFFF]);
    set(&mut lines[at], 0, kind);
}

/// Changes one word after a kind: to a near number, another wire, or far off.
fn change_operand(random: &mut Random, builder: &Builder, lines: &mut [Vec<u16>]) {
    let at = random.below(lines.len());
    let words = lines[at].len();
    if words < 2 {
        return;
    }
    let word = if random.once_in(2) { random.within(1, words - 1) } else { words - 1 };
    let old = lines[at][word];
    let wires = builder.wires();
    let new = match random.below(10) {
        0 => old.wrapping_add(1),
        1 => old.wrapping_sub(1),
        2 => wires as u16,
        3 => random.pick(&[0, 1, 2, 3, 7, 8, 9, 254, 255, 256, 8191, 8192, 0xFFFF]),
        4 => random.number() as u16,
        5 => old ^ 1 << random.below(16),
        6 => builder.randoms as u16,
        _ if wires > 0 => random.below(wires) as u16,
        _ => 0,
    };
    lines[at][word] = new;
}

/// A table with no thought behind it, but for its first words.
pub fn noise(random: &mut Random) -> Vec<u16> {
    let length = random.below(40);
    let small = random.within(1, 12);
    let mut table: Vec<u16> = (0..length).map(|_| random.below(small) as u16).collect();
    if table.len() >= 2 && !random.once_in(8) {
        table[0] = 0;
        table[1] = random.within(2, 8) as u16;
    }
    table
}
