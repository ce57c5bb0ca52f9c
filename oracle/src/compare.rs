//! Holds another program's answers against the published code, and sorts what differs.

use std::collections::BTreeMap;
use std::fmt::Display;
use std::io::{self, Read, Write};
use std::process::{Command, Stdio};

use crate::answer::{Answer, answer};
use crate::case::Case;
use crate::plan_numbers::at;
use crate::rules;
use crate::text::refused;

/// Cases a run of the program gets at once.
const BATCH: usize = 20_000;
const SHOWN_FINDINGS: usize = 20;

/// How two answers go together: agreement, or a difference of docs/DIFFERENCES.md.
#[derive(Clone, Copy, Debug, PartialEq, Eq, PartialOrd, Ord)]
pub enum Class {
    Same,
    /// The Rust has no counterpart for this word: the rule's answer.
    SameByRule(&'static str),
    /// The step holds 16 bits of the ring divider, the register 12.
    SameRingDivider,
    /// The sheet but for the settling delay, which is the rule's.
    SameSettling,
    /// The sheet but for the stored system frequency, which is the datasheet's.
    SameScale,
    /// Both say it is no case.
    NoCase,
    /// Refused with this number where the Rust panics.
    Panics(u8),
    /// Refused with this number where the Rust loses bits.
    Loses(u8),
    /// The buffer is too short: the Rust has none.
    Room,
    ExactVco,
    PioShift,
    GpoutWhole0,
    GpoutScale,
    /// The search refuses a reference under the datasheet's minimum.
    UnderMinimum,
    /// An enable code that is none: the crystal counts as running.
    CrystalCode,
}

impl Class {
    pub fn text(self) -> String {
        match self {
            Class::Same => "same answer".to_string(),
            Class::SameByRule(word) => format!("`{word}` as the rule says, no counterpart in the Rust"),
            Class::SameRingDivider => "same answer, ring divider over the register's 12 bits".to_string(),
            Class::SameSettling => {
                "same steps, settling delay by the rule, the Rust's is shorter".to_string()
            }
            Class::SameScale => {
                "same steps, system frequency by a divider of 65536ths, the Rust takes 256ths".to_string()
            }
            Class::NoCase => "no case on both sides".to_string(),
            Class::Panics(number) => format!("refused {number}, the Rust panics"),
            Class::Loses(3) => "refused 3 by the rule, the Rust's shorter settling delay fits".to_string(),
            Class::Loses(number) => format!("refused {number}, the Rust loses bits"),
            Class::Room => "refused 19, no counterpart: the Rust has no buffer".to_string(),
            Class::ExactVco => "not valid by the exact VCO, the Rust's product overflows".to_string(),
            Class::PioShift => "PIO value, the Rust's shifts lose bits".to_string(),
            Class::GpoutWhole0 => "Gpout whole part 0 is 65536, the Rust takes 65535".to_string(),
            Class::GpoutScale => "Gpout by a divider of 65536ths, the Rust takes 256ths".to_string(),
            Class::UnderMinimum => "refused 15, reference under 5 MHz: the Rust has no minimum".to_string(),
            Class::CrystalCode => {
                "a crystal whose enable code is none runs, for the Rust it is off".to_string()
            }
        }
    }
}

/// What is owed where the Rust answers so, and how the two go together; nothing where the stand-in does not know.
pub fn owed(case: &Case, rust: &Answer) -> Option<(Class, String)> {
    let same = |class: Class| (class, rust.to_string());
    let refuses = |class: Class, number: u8| (class, refused(number));
    Some(match rust {
        Answer::Sheet(steps) | Answer::Settled(steps) | Answer::Scaled(steps)
            if case.room() < steps.len() * 8 =>
        {
            refuses(Class::Room, 19)
        }
        Answer::Panic(_) if case.name == "valid" => (Class::ExactVco, exact_vco(case)?),
        Answer::Panic(refusals) => {
            let number = first_due(case, refusals)?;
            refuses(Class::Panics(number), number)
        }
        Answer::Drops(number) => match pio_value(case) {
            Some(value) => (Class::PioShift, value),
            None => refuses(Class::Loses(*number), *number),
        },
        Answer::Says(says) if gpout_ruled(case).is_some() && gpout_value(case) != *says => {
            (gpout_ruled(case)?, gpout_value(case))
        }
        Answer::Says(_) if case.name == "search" && case.numbers[0] < rules::MINIMUM => {
            refuses(Class::UnderMinimum, 15)
        }
        Answer::Unknown(_) => return None,
        Answer::Ruled(text) if ["sleep", "wake"].contains(&case.name) && !text.starts_with("refused") => {
            same(Class::CrystalCode)
        }
        Answer::Ruled(_) => same(Class::SameByRule(case.name)),
        Answer::Settled(_) => same(Class::SameSettling),
        Answer::Scaled(_) => same(Class::SameScale),
        _ if ring_divider(case) => same(Class::SameRingDivider),
        _ => same(Class::Same),
    })
}

/// The class of an answer of ours; nothing where it is a finding.
pub fn class(case: &Case, rust: &Answer, ours: &str) -> Option<Class> {
    owed(case, rust).filter(|(_, owed)| owed == ours).map(|(class, _)| class)
}

/// Of the refusals at one place of the Rust the one that is due: a divider out of its range comes before a frequency.
fn first_due(case: &Case, refusals: &[u8]) -> Option<u8> {
    match refusals {
        [7, 8] => Some(if (1..=4).contains(&case.plan()[at::REFERENCE + 1]) { 8 } else { 7 }),
        [9, 10] => Some(if (1..=16_777_215).contains(&case.plan()[at::SYSTEM + 1]) { 10 } else { 9 }),
        [number] => Some(*number),
        _ => None,
    }
}

/// Over what the datasheet's field holds, 0xAA0 included.
fn ring_divider(case: &Case) -> bool {
    case.name == "sheet" && case.chip() == Some(0) && case.plan()[at::RING + 11] > 0xfff - 0xaa0
}

/// No, where the VCO is over 32 bits.
fn exact_vco(case: &Case) -> Option<String> {
    let n = &case.numbers;
    ((n[0] / n[1]) as u64 * n[2] as u64 > u32::MAX as u64).then(|| "0".to_string())
}

/// The value by docs/FORMAT.md, PIO divider, where there is one.
fn pio_value(case: &Case) -> Option<String> {
    if case.name != "pio" || case.numbers[1] == 0 {
        return None;
    }
    let value = case.numbers[0] as u64 * 256 / case.numbers[1] as u64;
    (256..=16_777_215).contains(&value).then(|| value.to_string())
}

/// The class of a Gpout whose divider the Rust takes otherwise than the datasheet.
fn gpout_ruled(case: &Case) -> Option<Class> {
    match (case.name, &case.numbers[..]) {
        ("gpout", [0, _, 0, _, ..] | [1, _, 0, 0, ..]) => Some(Class::GpoutWhole0),
        ("gpout", [1, _, _, fraction, ..]) if *fraction != 0 => Some(Class::GpoutScale),
        _ => None,
    }
}

/// The value by docs/FORMAT.md, Gpout.
fn gpout_value(case: &Case) -> String {
    let n = &case.numbers;
    // The clock's number of each source.
    let clock = match (n[0], n[1]) {
        (_, 0) => 2,
        (_, 3) => 3,
        (0, 4) | (1, 5) => 0,
        (0, 5) | (1, 6) => 1,
        (0, 6) | (1, 8) => 5,
        (0, 7) | (1, 9) => 7,
        (0, 8) | (1, 10) => 8,
        _ => 4,
    };
    let scale = [256, 65_536][n[0] as usize];
    let whole = if n[2] == 0 { 65_536 } else { n[2] as u64 };
    (n[4 + clock] as u64 * scale / (whole * scale + n[3] as u64)).to_string()
}

/// Compares, prints the counts by class, and says whether there was no finding.
pub fn compare(mut lines: impl Iterator<Item = String>, program: &str) -> io::Result<bool> {
    let mut counts: BTreeMap<Class, u64> = BTreeMap::new();
    let mut findings = 0;
    loop {
        let batch: Vec<String> = lines.by_ref().take(BATCH).collect();
        if batch.is_empty() {
            break;
        }
        let theirs = ask(program, &(batch.join("\n") + "\n"))?;
        let ours: Vec<&str> = theirs.split_terminator('\n').collect();
        if ours.len() != batch.len() {
            println!("finding: {} answers to {} cases", ours.len(), batch.len());
            println!("  first without one: {}", batch.get(ours.len()).map_or("-", String::as_str));
            return Ok(false);
        }
        for (line, ours) in batch.iter().zip(ours) {
            let (rust, class) = match Case::parse(line) {
                None => ("bad case".to_string(), (ours == "bad case").then_some(Class::NoCase)),
                Some(case) => {
                    let rust = answer(&case);
                    let class = class(&case, &rust, ours);
                    (if class.is_none() { rust.to_string() } else { String::new() }, class)
                }
            };
            match class {
                Some(class) => *counts.entry(class).or_default() += 1,
                None => {
                    findings += 1;
                    if findings <= SHOWN_FINDINGS {
                        println!("finding: {line}\n  program: {ours}\n  Rust:    {rust}");
                    }
                }
            }
        }
    }
    for (class, count) in &counts {
        println!("| {} | {count} |", class.text());
    }
    println!("| findings | {findings} |");
    Ok(findings == 0)
}

/// The error with the name of what could not be started or written.
pub fn named(what: impl Display, why: io::Error) -> io::Error {
    io::Error::new(why.kind(), format!("{what}: {why}"))
}

/// The program's output for an input.
pub fn ask(program: &str, input: &str) -> io::Result<String> {
    let started = Command::new(program).stdin(Stdio::piped()).stdout(Stdio::piped()).spawn();
    let mut child = started.map_err(|why| named(program, why))?;
    let mut to_program = child.stdin.take().unwrap();
    let mut output = child.stdout.take().unwrap();
    let text = input.to_string();
    let writer = std::thread::spawn(move || to_program.write_all(text.as_bytes()));
    let mut answers = Vec::new();
    output.read_to_end(&mut answers)?;
    // A program that stops early is seen by its missing answers.
    let _ = writer.join();
    let status = child.wait()?;
    if !status.success() {
        println!("{program} ends with {status}");
    }
    Ok(String::from_utf8_lossy(&answers).into_owned())
}
