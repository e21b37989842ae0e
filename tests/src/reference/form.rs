//! Rule 20: which fault of a line is told, byte by byte.
use super::check::frame_length;
use super::found::Facts;

/// The facts of a line that is not of the form; `number` 0 is the first line, whose kind has two words.
pub fn fault(line: &[u8], number: usize, d: usize) -> Facts {
    let mut facts = Facts::default();
    let inside = line.strip_suffix(b"\n").unwrap_or(line);
    if inside.is_empty() {
        facts.text("cause", "empty line");
        return facts;
    }
    if number == 0
        && [&b"\xEF\xBB\xBF"[..], b"\xFF\xFE", b"\xFE\xFF"]
            .iter()
            .any(|mark| inside.starts_with(mark))
    {
        facts.text("cause", "byte order mark");
        return facts;
    }
    // the words of four digits at the start, and where the first other thing begins
    let mut good = Vec::new();
    let mut at = 0;
    while let Some(word) = word_at(inside, at) {
        good.push(word);
        at += 4;
        if at == inside.len() {
            facts.text("cause", "no line feed");
            return facts;
        }
        at += 1;
    }
    bad_word(&mut facts, inside, at, behind(&good, number, d));
    facts
}

/// The word at a place, where four digits stand there and then a space or the end.
fn word_at(line: &[u8], at: usize) -> Option<u16> {
    let digits = line.get(at..at + 4)?;
    if !digits.iter().all(|byte| byte.is_ascii_digit() || (b'A'..=b'F').contains(byte)) {
        return None;
    }
    if !matches!(line.get(at + 4), None | Some(b' ')) {
        return None;
    }
    u16::from_str_radix(std::str::from_utf8(digits).ok()?, 16).ok()
}

/// True where the good words are all that their kind asks for.
fn behind(good: &[u16], number: usize, d: usize) -> bool {
    match good.first() {
        None => false,
        Some(_) if number == 0 => good.len() == 2,
        Some(&kind) => frame_length(kind, d) == Some(good.len()),
    }
}

/// Spaces at a place where a word should stand, `at` bytes into the line.
fn bad_spaces(facts: &mut Facts, rest: &[u8], at: usize) {
    let spaces_only = rest.iter().all(|&byte| byte == b' ');
    match (at, spaces_only) {
        (0, true) => facts.text("cause", "spaces alone"),
        (0, false) => facts.text("cause", "space in front"),
        _ => {
            facts.text("cause", if spaces_only { "space behind" } else { "two spaces" });
            facts.number("column", at);
        }
    }
}

/// What stands at a place where a word should.
fn bad_word(facts: &mut Facts, line: &[u8], at: usize, behind: bool) {
    let rest = &line[at..];
    if matches!(rest.first(), None | Some(b' ')) {
        return bad_spaces(facts, rest, at);
    }
    let token = &rest[..rest.iter().position(|&byte| byte == b' ').unwrap_or(rest.len())];
    let first = |wanted: &dyn Fn(u8) -> bool| {
        token.iter().position(|&byte| wanted(byte)).map(|found| at + found + 1)
    };
    if let Some(column) = first(&|byte| byte == b'\t') {
        facts.text("cause", "tab");
        facts.number("column", column);
    } else if let Some(column) = first(&|byte| byte == b'\r') {
        facts.text("cause", "carriage return");
        facts.number("column", column);
    } else if behind {
        facts.text("cause", "behind the words");
        facts.number("column", at + 1);
    } else if let Some(column) = first(&|byte| !byte.is_ascii_hexdigit()) {
        facts.text("cause", "no digit");
        facts.number("column", column);
        facts.number("byte", usize::from(line[column - 1]));
    } else if token.len() != 4 {
        facts.text("cause", "digits");
        facts.number("column", at + 1);
        facts.number("digits", token.len());
    } else {
        facts.text("cause", "lower case");
        facts.number(
            "column",
            first(&|byte| byte.is_ascii_lowercase()).expect("else it were a word"),
        );
    }
}
