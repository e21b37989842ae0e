//! Judges the examples and holds each line printed to expected.txt and to the README.
use masked_tests::calls::Calls;
use masked_tests::options;
use masked_tests::reference::Reference;
use masked_tests::verdict::verdict_line;
use std::path::Path;
use std::process::exit;

#[cfg(feature = "proved")]
fn programs() -> Vec<(&'static str, Box<dyn Calls>)> {
    vec![
        ("the reference", Box::new(Reference)),
        ("the proved code", Box::new(masked_tests::proved::Proved)),
    ]
}

#[cfg(not(feature = "proved"))]
fn programs() -> Vec<(&'static str, Box<dyn Calls>)> {
    vec![("the reference", Box::new(Reference))]
}

fn read(path: &Path) -> Vec<u8> {
    std::fs::read(path).unwrap_or_else(|error| {
        eprintln!("verdicts: {}: {error}", path.display());
        exit(2)
    })
}

/// The names of the circuits in the folder, in order.
fn names(folder: &Path) -> Vec<String> {
    let entries = std::fs::read_dir(folder).unwrap_or_else(|error| {
        eprintln!("verdicts: {}: {error}", folder.display());
        exit(2)
    });
    let name = |entry: std::io::Result<std::fs::DirEntry>| {
        entry.ok().map(|entry| entry.file_name().to_string_lossy().into_owned())
    };
    let mut names: Vec<String> =
        entries.filter_map(name).filter(|name| name.ends_with(".hex")).collect();
    names.sort();
    names
}

fn main() {
    options::only(&["folder"]);
    let folder = options::text("folder").unwrap_or("../examples".to_string());
    let folder = Path::new(&folder);
    let expected = String::from_utf8_lossy(&read(&folder.join("expected.txt"))).into_owned();
    let readme = String::from_utf8_lossy(&read(&folder.join("README.md"))).into_owned();
    let lines: Vec<(&str, &str)> = expected.lines().filter_map(|l| l.split_once('\t')).collect();
    let programs = programs();
    let (mut passed, mut failed) = (0, 0);
    let mut note = |good: bool, what: String| {
        passed += usize::from(good);
        failed += usize::from(!good);
        if !good {
            println!("verdicts: failed: {what}");
        }
    };
    for (name, wanted) in &lines {
        let text = read(&folder.join(name));
        for (program, calls) in &programs {
            let got = verdict_line(calls.as_ref(), &text);
            note(got == *wanted, format!("{name}: {program} says '{got}', not '{wanted}'"));
        }
        let row = format!("| {name} | `{wanted}` |");
        note(readme.contains(&row), format!("{name}: the README has no row '{row}'"));
    }
    for name in names(folder) {
        note(lines.iter().any(|line| line.0 == name), format!("{name}: not in expected.txt"));
    }
    let judges: Vec<&str> = programs.iter().map(|program| program.0).collect();
    println!("verdicts: {} circuits, judged by {}", lines.len(), judges.join(" and "));
    println!("verdicts: {passed} passed, {failed} failed");
    if failed > 0 {
        exit(1);
    }
}
