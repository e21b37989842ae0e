//! How passes take XORs, NOTs and REGs: a row of d gates of one kind at a time, as masked circuits have them, or else one by one
//! without a branch between the three. A branch is foreseen where kinds stand in rows, and costs much where they do not.

/// Whether D gates of one kind come first, and words enough for any such row.
#[inline(always)]
pub fn begins_row<const D: usize>(rest: &[u16]) -> bool {
    let Some(words) = rest.get(..3 * D) else {
        return false;
    };
    let length = gate_length(words[0]);
    (1..D).fold(0, |unlike, i| unlike | (words[length * i] ^ words[0])) == 0
}

/// Takes XORs, NOTs and REGs one by one, 8d + 1 at most, so that another time it is looked for a row at another place of rows. It
/// stops where another frame stands, one is cut, or one is not taken. There is no branch between the three kinds: the last word
/// is y, and for NOT and REG x once more. Gives what is left.
#[inline(always)]
pub fn single_gates<const D: usize>(
    frames: &[u16],
    mut take: impl FnMut(&[u16], u16, u16, u16) -> bool,
) -> &[u16] {
    let (mut rest, mut sum) = (frames, frames[0]);
    for _ in 0..8 * D + 1 {
        let Some(words @ &[kind @ 3..=5, x, third, fourth]) = rest.first_chunk() else {
            return last_gate(rest, take);
        };
        let length = gate_length(sum);
        // the next kind's bit from both places where it may stand, so that it does not wait for the place
        sum = ((third ^ fourth) & sum) ^ third;
        if !take(rest, kind, x, words[length - 1]) {
            return rest;
        }
        rest = &rest[length..];
    }
    rest
}

/// The same for one gate where less than four words are left.
#[inline(always)]
fn last_gate(rest: &[u16], mut take: impl FnMut(&[u16], u16, u16, u16) -> bool) -> &[u16] {
    match *rest {
        [3, x, y] if take(rest, 3, x, y) => &[],
        [kind @ 4..=5, x, ref after @ ..] if after.len() < 2 && take(rest, kind, x, x) => after,
        _ => rest,
    }
}

/// Words of a gate: 3 for XOR, whose number alone has this bit of XOR, NOT and REG.
#[inline(always)]
pub fn gate_length(kind: u16) -> usize {
    usize::from(4 | (kind & 2)) / 2
}
