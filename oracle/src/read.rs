//! Sheets read back. The Rust's sheets of random accepted plans are handed to the program, whole and with one bit turned
//! over, some with each bit in turn: a whole one is read to its plan, with the smallest multiplier and settling time;
//! another to what the plain reader finds. Each plan that is answered is written to exactly these bytes.

use std::collections::BTreeMap;
use std::io;

use crate::answer::{answer, bytes};
use crate::case::Case;
use crate::compare::ask;
use crate::generate;
use crate::plain_reader;
use crate::plan_numbers::at;
use crate::random::Random;
use crate::rules;
use crate::text::{call, hex};

const BATCH: usize = 10_000;
const SHOWN_FINDINGS: usize = 20;

/// A sheet as it is handed over, whole or damaged, and what has to be answered.
struct Asked {
    reading: u32,
    sheet: Vec<u8>,
    whole: bool,
    expected: String,
}

impl Asked {
    fn line(&self) -> String {
        format!("read {} {}", hex(&self.sheet), self.reading)
    }
}

/// Compares, prints the counts, and says whether there was no finding.
pub fn read(seed: u64, count: usize, program: &str) -> io::Result<bool> {
    let mut random = Random::new(seed);
    let mut counts: BTreeMap<&str, u64> = BTreeMap::new();
    let (mut findings, mut left) = (0, count);
    while left > 0 {
        let plans = std::iter::repeat_with(|| accepted(&mut random)).take(left.min(BATCH));
        let mut batch: Vec<Asked> = plans.flatten().collect();
        let each = batch.first().map_or(vec![], each_bit);
        batch.extend(each);
        left -= left.min(BATCH);
        let lines: Vec<String> = batch.iter().map(Asked::line).collect();
        let answers = ask(program, &(lines.join("\n") + "\n"))?;
        let answers: Vec<&str> = answers.split_terminator('\n').collect();
        let written = written_again(program, &batch, &answers)?;
        for ((asked, line), (ours, again)) in batch.iter().zip(&lines).zip(answers.iter().zip(&written)) {
            match class(asked, ours, again.as_deref()) {
                Some(class) => *counts.entry(class).or_default() += 1,
                None => {
                    findings += 1;
                    if findings <= SHOWN_FINDINGS {
                        println!(
                            "finding: {line}\n  program: {ours}\n  expected: {}\n  again: {again:?}",
                            asked.expected
                        );
                    }
                }
            }
        }
        if answers.len() != batch.len() {
            println!("finding: {} answers to {} cases", answers.len(), batch.len());
            return Ok(false);
        }
    }
    for (class, count) in &counts {
        println!("| {class} | {count} |");
    }
    println!("| findings | {findings} |");
    Ok(findings == 0)
}

fn class(asked: &Asked, ours: &str, again: Option<&str>) -> Option<&'static str> {
    let same_bytes = again == Some(&call(asked.sheet.len(), &[], &asked.sheet));
    let class = match (asked.whole, ours) {
        (true, _) => "read back to its plan, written to the same bytes",
        (false, "refused 26") => "one bit turned over: refused 26",
        (false, "refused 18") => "one bit turned over: refused 18, now for the RP2040",
        (false, _) => "one bit turned over: another plan's sheet, written to the same bytes",
    };
    (ours == asked.expected && (same_bytes || ours.starts_with("refused"))).then_some(class)
}

/// The sheet of each answered plan, by the program's own writer.
fn written_again(program: &str, batch: &[Asked], answers: &[&str]) -> io::Result<Vec<Option<String>>> {
    // What is answered is CHIP PLAN, as `sheet` takes it.
    let again = |(asked, ours): (&Asked, &&str)| {
        (!ours.starts_with("refused")).then(|| format!("sheet {} 528 {ours}", asked.reading))
    };
    let lines: Vec<Option<String>> = batch.iter().zip(answers).map(again).collect();
    let asked: Vec<&str> = lines.iter().flatten().map(String::as_str).collect();
    let text = ask(program, &(asked.join("\n") + "\n"))?;
    let mut sheets = text.split_terminator('\n').map(str::to_string);
    Ok(lines.into_iter().map(|line| line.and_then(|_| sheets.next())).collect())
}

/// A random plan's sheet, then the same with a bit turned over; nothing where the plan is refused.
fn accepted(r: &mut Random) -> Vec<Asked> {
    let chip = r.between(0, 1);
    let case = generate::of(r, "sheet", chip);
    let Some(steps) = answer(&case).steps() else {
        return vec![];
    };
    let (sheet, reading) = (bytes(&steps), case.numbers[0]);
    let bit = r.between(0, 8 * sheet.len() as u32 - 1) as usize;
    let whole = Asked { reading, sheet, whole: true, expected: smallest(&case) };
    let damaged = damaged(&whole, bit);
    vec![whole, damaged]
}

/// The sheet with one of its bits turned over.
fn damaged(asked: &Asked, bit: usize) -> Asked {
    let mut sheet = asked.sheet.clone();
    sheet[bit / 8] ^= 1 << (bit % 8);
    let expected = plain_reader::read(&sheet, asked.reading);
    Asked { reading: asked.reading, sheet, whole: false, expected }
}

fn each_bit(asked: &Asked) -> Vec<Asked> {
    (0..asked.sheet.len() * 8).map(|bit| damaged(asked, bit)).collect()
}

/// The plan with the smallest multiplier and the smallest settling time that give the same steps; the time is given.
pub fn smallest(case: &Case) -> String {
    let mut plan = case.plan().to_vec();
    if plan[at::CRYSTAL] == 1 {
        let khz = plan[at::CRYSTAL + 1] as u64 / 1000;
        plan[at::CRYSTAL + 2] =
            least(plan[at::CRYSTAL + 2], |multiplier| (khz * multiplier as u64 + 128) / 256);
    }
    let code = plan[at::VOLTAGE];
    let time = match (plan[at::SETTLING], code) {
        _ if code == case.numbers[0] => 0,
        (1, _) => plan[at::SETTLING + 1],
        (_, 12) => 1000,
        (_, 13..=15) => 2000,
        _ => 0,
    };
    let ring = plan[at::RING + 1];
    plan[at::SETTLING] = 1;
    plan[at::SETTLING + 1] = least(time, |time| rules::settling_cycles(time, ring));
    call(case.numbers[2], &plan, &[])
}

/// The least number up to this one with the same value; the value rises with the number.
fn least(number: u32, value: impl Fn(u32) -> u64) -> u32 {
    let (mut low, mut high) = (0, number);
    while low < high {
        let middle = low + (high - low) / 2;
        if value(middle) < value(number) { low = middle + 1 } else { high = middle }
    }
    low
}
