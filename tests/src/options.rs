//! Words after a program's name: `--name number`, and flags.
use std::process::exit;

/// The value after `--name`, or the default.
pub fn number(name: &str, default: u64) -> u64 {
    match text(name) {
        None => default,
        Some(word) => word.parse().unwrap_or_else(|_| {
            eprintln!("--{name} takes a number, not '{word}'");
            exit(2)
        }),
    }
}

/// The word after `--name`.
pub fn text(name: &str) -> Option<String> {
    let words: Vec<String> = std::env::args().collect();
    let at = words.iter().position(|word| *word == format!("--{name}"))?;
    match words.get(at + 1) {
        Some(word) => Some(word.clone()),
        None => {
            eprintln!("--{name} takes a word after it");
            exit(2)
        }
    }
}

/// Stops where a word was given that the program does not know.
pub fn only(known: &[&str]) {
    for word in std::env::args().skip(1).filter(|word| word.starts_with("--")) {
        if !known.contains(&&word[2..]) {
            eprintln!("unknown option '{word}'; known: {}", known.join(", "));
            exit(2);
        }
    }
}
