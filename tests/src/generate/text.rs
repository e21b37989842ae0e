//! Texts: of good frames, of damaged ones, and with changed bytes.
use super::random::Random;
use crate::builder::text;

/// The lines as text, at times damaged.
pub fn random_text(random: &mut Random, lines: &[Vec<u16>]) -> Vec<u8> {
    let mut bytes = text(lines).into_bytes();
    match random.below(24) {
        0 => bytes.clear(),
        1 => bytes = random_bytes(random),
        2..=11 => {
            for _ in 0..random.within(1, 3) {
                damage(random, &mut bytes);
            }
        }
        _ => (),
    }
    bytes
}

/// Short texts of the reader's own letters, or of any bytes.
fn random_bytes(random: &mut Random) -> Vec<u8> {
    let length = random.below(60);
    if random.once_in(2) {
        return random.bytes(length);
    }
    (0..length).map(|_| random.pick(b"0000 0123456789ABCDEF \n")).collect()
}

/// One stroke of damage to a text's bytes; it may leave them as they were.
pub fn damage(random: &mut Random, text: &mut Vec<u8>) {
    if text.is_empty() {
        text.push(b'\n');
        return;
    }
    let at = random.below(text.len());
    match random.below(11) {
        0 => text.truncate(at),
        1 => {
            text.pop();
        }
        2 => {
            text.remove(at);
        }
        3 => {
            let other = random.within(at, text.len().min(at + 6) - 1);
            text.swap(at, other);
        }
        4 => text.insert(at, random.pick(b" \n0\r\tA")),
        5 => double_line_feed(random, text),
        6 => text[at] = random.number() as u8,
        7 => text[at] ^= 1 << random.below(8),
        8 => text[at] = text[at].to_ascii_lowercase(),
        9 => join_lines(&mut text[at..]),
        _ => text[at] = random.pick(b"0123456789ABCDEFabcdefGg@/:` \n\r\t-+"),
    }
}

/// One long line, of any number of words, in place of those up to the end; its last line feed stays.
fn join_lines(text: &mut [u8]) {
    let end = text.len().saturating_sub(1);
    for byte in &mut text[..end] {
        if *byte == b'\n' {
            *byte = b' ';
        }
    }
}

/// Makes an empty line somewhere, also at the end.
fn double_line_feed(random: &mut Random, text: &mut Vec<u8>) {
    let feeds: Vec<usize> = (0..text.len()).filter(|&at| text[at] == b'\n').collect();
    if !feeds.is_empty() {
        text.insert(random.pick(&feeds), b'\n');
    }
}
