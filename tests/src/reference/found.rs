//! What was found and what was wanted where a text is refused.
use super::check::{frame_length, walk, Rules};
use super::circuit::{Circuit, Place};
use super::names::{frame_of, names, shown};
use super::{form, text, Refusal, LAST_STAGE, MOST_WIRES, MOST_WORDS};

/// Names with their numbers or words, in any order.
#[derive(Default)]
pub struct Facts(pub Vec<(&'static str, String)>);

impl Facts {
    pub fn number(&mut self, name: &'static str, value: usize) {
        self.0.push((name, value.to_string()));
    }

    pub fn text(&mut self, name: &'static str, value: &str) {
        self.0.push((name, value.to_string()));
    }

    fn because(mut self, cause: &str) -> Facts {
        self.text("cause", cause);
        self
    }

    fn of(pairs: &[(&'static str, usize)]) -> Facts {
        Facts(pairs.iter().map(|(name, value)| (*name, value.to_string())).collect())
    }
}

/// The refusal of a text and its facts; None where it is accepted.
pub fn found(text: &[u8]) -> Option<(Refusal, Facts)> {
    let mut table = vec![0; MOST_WORDS];
    let lines: Vec<&[u8]> = text.split_inclusive(|&byte| byte == b'\n').collect();
    match text::read(text, &mut table) {
        Err(refusal) => Some((refusal, by_reader(&lines, &table, refusal))),
        Ok(words) => {
            let (circuit, refusal) = walk(&table[..words], Rules::All);
            let refusal = refusal?;
            Some((refusal, by_check(&circuit, &lines, refusal)))
        }
    }
}

/// The numbers of a line of the form.
fn numbers(line: &[u8]) -> Vec<u16> {
    let line = std::str::from_utf8(line).expect("a line of the form is ASCII");
    line.trim_end().split(' ').map(|word| u16::from_str_radix(word, 16).expect("a word")).collect()
}

/// `table` has the words of the lines before, of which HEAD's are the first.
fn by_reader(lines: &[&[u8]], table: &[u16], refusal: Refusal) -> Facts {
    if lines.is_empty() {
        return Facts::default().because("empty");
    }
    let d = usize::from(table[1]);
    let line = lines[refusal.frame];
    if refusal.rule == 20 {
        return form::fault(line, refusal.frame, d);
    }
    let words = numbers(line);
    let kind = usize::from(words[0]);
    match refusal.rule {
        3 if kind != 0 => Facts::of(&[("found", kind)]).because("kind"),
        3 => Facts::of(&[("found", words.len())]).because("words"),
        4 => Facts::of(&[("found", words[1].into())]),
        5 => Facts::of(&[("found", kind)]),
        6 => {
            let wanted = frame_length(words[0], d).expect("5 comes before");
            Facts::of(&[("kind", kind), ("d", d), ("wanted", wanted), ("found", words.len())])
        }
        _ => {
            let before: usize = lines[..refusal.frame].iter().map(|line| (line.len()) / 5).sum();
            let total = before + words.len();
            Facts::of(&[
                ("before", before),
                ("words", words.len()),
                ("total", total),
                ("most", MOST_WORDS),
            ])
        }
    }
}

/// `circuit` is what the frames before have made.
fn by_check(circuit: &Circuit, lines: &[&[u8]], refusal: Refusal) -> Facts {
    let words = numbers(lines[refusal.frame]);
    let named = usize::from(words[refusal.word]);
    let wires = circuit.wires.len();
    match refusal.rule {
        7 => range(circuit, &words, refusal.word),
        8 if wires == 0 => Facts::of(&[("wire", named), ("wires", 0)]),
        8 => Facts::of(&[("wire", named), ("wires", wires), ("last", wires - 1)]),
        9 => inner(circuit, lines, named),
        10 => label(circuit, &words, refusal.word),
        11 => stage(circuit, &words, refusal.word),
        12 => Facts::of(&[("found", named), ("wanted", circuit.randoms)]),
        13 => {
            let operand = if words[0] == 5 { words[1] } else { words[2] };
            let before = place(circuit, operand).stage;
            Facts::of(&[("before", before), ("stage", before + 1), ("most", LAST_STAGE)])
        }
        22 => unregistered(circuit, lines, named),
        _ => {
            let makes = made(circuit.d, words[0]);
            Facts::of(&[
                ("wires", wires),
                ("makes", makes),
                ("total", wires + makes),
                ("most", MOST_WIRES),
            ])
        }
    }
}

/// Wires that a frame makes, counted one by one.
fn made(d: usize, kind: u16) -> usize {
    let above: usize = (0..d).map(|i| (i + 1..d).count()).sum();
    let different = 2 * above;
    match kind {
        1 => d,
        6 => 2 * above + 3 * d + 6 * different + d,
        7 => above + d + d,
        8 => 0,
        _ => 1,
    }
}

fn place(circuit: &Circuit, wire: u16) -> Place {
    circuit.wires[usize::from(wire)].place.expect("8 and 9 come before")
}

fn range(circuit: &Circuit, words: &[u16], word: usize) -> Facts {
    let (cause, most) = match (words[0], word) {
        (2, 1) => ("label", circuit.d - 1),
        (2, 2) => ("value", 1),
        _ => ("stage", LAST_STAGE),
    };
    Facts::of(&[("found", words[word].into()), ("most", most)]).because(cause)
}

/// The kind of each line.
fn kinds(lines: &[&[u8]]) -> Vec<u16> {
    lines.iter().map(|line| numbers(line)[0]).collect()
}

/// What makes the wire that is not registered: an AND, an XOR or a NOT.
fn unregistered(circuit: &Circuit, lines: &[&[u8]], wire: usize) -> Facts {
    let (kinds, frame) = (kinds(lines), frame_of(circuit, wire));
    let kind = usize::from(kinds[frame]);
    let mut facts = Facts::of(&[("wire", wire), ("kind", kind), ("line", frame + 1)]);
    facts.text("name", &shown(&names(circuit, &kinds)[wire]));
    facts
}

fn inner(circuit: &Circuit, lines: &[&[u8]], wire: usize) -> Facts {
    let frame = frame_of(circuit, wire);
    let end = circuit.starts.get(frame + 1).copied().unwrap_or(circuit.wires.len());
    let mut facts = Facts::of(&[
        ("wire", wire),
        ("line", frame + 1),
        ("first", end - circuit.d),
        ("last", end - 1),
    ]);
    facts.text("name", &shown(&names(circuit, &kinds(lines))[wire]));
    facts
}

/// The words of the row in which a word stands: a or b of an AND, or all of a REF or an OUT.
fn row<'a>(circuit: &Circuit, words: &'a [u16]) -> Vec<&'a [u16]> {
    let operands = if matches!(words[0], 6 | 7) { &words[2..] } else { &words[1..] };
    operands.chunks(circuit.d).collect()
}

fn label(circuit: &Circuit, words: &[u16], word: usize) -> Facts {
    let wire = words[word];
    let mut facts = Facts::of(&[("wire", wire.into()), ("found", place(circuit, wire).label)]);
    if words[0] == 3 {
        facts.number("other", words[1].into());
        facts.number("wanted", place(circuit, words[1]).label);
        return facts;
    }
    let before = if words[0] == 8 { 1 } else { 2 };
    facts.number("wanted", (word - before) % circuit.d);
    facts
}

fn stage(circuit: &Circuit, words: &[u16], word: usize) -> Facts {
    let wire = words[word];
    let mut facts = Facts::of(&[("wire", wire.into()), ("found", place(circuit, wire).stage)]);
    let rows = row(circuit, words);
    if words[0] == 6 && word >= 2 + circuit.d {
        let a = place(circuit, rows[0][0]).stage;
        facts.number("a", a);
        if a > 0 {
            facts.number("wanted", a - 1);
        }
        return facts;
    }
    let first = if words[0] == 3 { words[1] } else { rows[0][0] };
    facts.number("other", first.into());
    facts.number("wanted", place(circuit, first).stage);
    facts
}
