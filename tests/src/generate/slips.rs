//! Slips of people who write texts by hand or by an editor: line ends, spaces, letters, comments.
use super::random::Random;

/// The text with one slip.
pub fn with_slip(random: &mut Random, text: &[u8]) -> Vec<u8> {
    let mut lines: Vec<Vec<u8>> =
        text.split_inclusive(|&byte| byte == b'\n').map(<[u8]>::to_vec).collect();
    let at = random.below(lines.len());
    let line = &mut lines[at];
    let end = line.len() - 1;
    match random.below(13) {
        0 => lines.iter_mut().for_each(|line| line.insert(line.len() - 1, b'\r')),
        1 => line.insert(end, b'\r'),
        2 => line.insert(end, b' '),
        3 => line.insert(0, b' '),
        4 => line.insert(4.min(end), b' '),
        5 => *line = line.to_ascii_lowercase(),
        6 => line[4.min(end)] = b'\t',
        7 => drop(line.splice(
            end..end,
            random.pick(&[&b" # a"[..], b" abcd", b" ;", b"#", b" 12"]).iter().copied(),
        )),
        8 => lines.insert(at, b"\n".to_vec()),
        9 => lines.insert(at, b"  \n".to_vec()),
        10 => drop(lines.last_mut().expect("HEAD").pop()),
        11 => drop(lines[0].splice(
            0..0,
            random.pick(&[&b"\xEF\xBB\xBF"[..], b"\xFF\xFE", b"\xFE\xFF"]).iter().copied(),
        )),
        _ => drop(line.splice(0..0, *b"0x")),
    }
    lines.concat()
}
