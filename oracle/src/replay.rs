//! Writes cases and the answers to them, for a program to be tested without the Rust.

use std::collections::{BTreeMap, BTreeSet};
use std::fs;
use std::io;
use std::path::Path;

use crate::answer::answer;
use crate::case::Case;
use crate::compare::{Class, named, owed};
use crate::generate;

/// Cases that the Rust answers, each once; what is left out is counted by class. Says whether the stand-in knew everything.
pub fn replay(seed: u64, count: usize, folder: &Path) -> io::Result<bool> {
    let mut counts: BTreeMap<Class, u64> = BTreeMap::new();
    let (mut seen, mut known) = (BTreeSet::new(), true);
    let (mut cases, mut answers) = (vec![], vec![]);
    for line in generate::stored_lines(seed, count) {
        let Some(case) = Case::parse(&line).filter(|_| seen.insert(line.clone())) else {
            continue;
        };
        let rust = answer(&case);
        match owed(&case, &rust) {
            None => {
                eprintln!("{rust}: {line}");
                known = false;
            }
            Some((Class::Same, text)) => {
                cases.push(line);
                answers.push(text);
            }
            Some((class, _)) => *counts.entry(class).or_default() += 1,
        }
    }
    write(folder, "stdin", &cases)?;
    write(folder, "stdout", &answers)?;
    eprintln!("{:>9}  written", cases.len());
    for (class, count) in counts {
        eprintln!("{count:>9}  left out, {}", class.text());
    }
    Ok(known)
}

/// What is owed to a line.
pub fn owed_line(line: &str) -> Option<String> {
    match Case::parse(line) {
        None => Some("bad case".to_string()),
        Some(case) => owed(&case, &answer(&case)).map(|(_, text)| text),
    }
}

/// To the lines of the folder's stdin its stdout: what is owed by our papers, where the Rust has another answer or none too.
pub fn limits(folder: &Path) -> io::Result<bool> {
    let path = folder.join("stdin");
    let text = fs::read_to_string(&path).map_err(|why| named(path.display(), why))?;
    let answers: Vec<Option<String>> = text.lines().map(owed_line).collect();
    let unknown = text.lines().zip(&answers).filter(|(_, answer)| answer.is_none());
    unknown.for_each(|(line, _)| eprintln!("unknown: {line}"));
    let known = answers.iter().all(Option::is_some);
    write(folder, "stdout", &answers.into_iter().flatten().collect::<Vec<_>>())?;
    Ok(known)
}

fn write(folder: &Path, name: &str, lines: &[String]) -> io::Result<()> {
    let path = folder.join(name);
    fs::write(&path, lines.join("\n") + "\n").map_err(|why| named(path.display(), why))
}
