//! Runs a case on the published code.

use std::fmt::{self, Display, Formatter};

use crate::book;
use crate::case::Case;
use crate::clocks::{self, ClockConfig};
use crate::cuts;
use crate::margin::margin;
use crate::on_chip;
use crate::panics::{Panic, catch};
use crate::pio_programs::clock_divider::calculate_pio_clock_divider_value;
use crate::plain_reader;
use crate::plan::{self, dividers, pll};
use crate::recorder::{self, Record};
use crate::rp235x;
use crate::rules;
use crate::run;
use crate::sleep;
use crate::steps::Step;
use crate::text::{call, refused};

/// What the published code says to a case.
#[derive(Debug, PartialEq, Eq)]
pub enum Answer {
    Says(String),
    /// The Rust has no counterpart: what our papers say.
    Ruled(String),
    Sheet(Vec<Step>),
    /// The Rust's sheet, but with the settling delay of docs/FORMAT.md, which is longer.
    Settled(Vec<Step>),
    /// The same with the system frequency of the RP2350 datasheet, whose divider has 65536ths.
    Scaled(Vec<Step>),
    Refused(u8),
    /// It panics. The refusals that this place of the code belongs to.
    Panic(Vec<u8>),
    /// It goes on with bits lost: the refusal that this belongs to.
    Drops(u8),
    /// It did something that the stand-in does not know.
    Unknown(String),
}

impl Answer {
    /// The steps of a sheet.
    pub fn steps(self) -> Option<Vec<Step>> {
        match self {
            Answer::Sheet(steps) | Answer::Settled(steps) | Answer::Scaled(steps) => Some(steps),
            _ => None,
        }
    }
}

impl Display for Answer {
    fn fmt(&self, f: &mut Formatter<'_>) -> fmt::Result {
        match self {
            Answer::Says(text) | Answer::Ruled(text) => f.write_str(text),
            Answer::Sheet(steps) | Answer::Settled(steps) | Answer::Scaled(steps) => {
                f.write_str(&call(steps.len() * 8, &[], &bytes(steps)))
            }
            Answer::Refused(number) => f.write_str(&refused(*number)),
            Answer::Panic(_) => f.write_str("panic"),
            Answer::Drops(number) => write!(f, "drops {number}"),
            Answer::Unknown(what) => write!(f, "unknown {what}"),
        }
    }
}

/// The bytes of a sheet.
pub fn bytes(steps: &[Step]) -> Vec<u8> {
    steps.iter().flat_map(|step| step.word.to_be_bytes()).collect()
}

/// The answer to a line.
pub fn answer_line(line: &str) -> String {
    Case::parse(line).map_or("bad case".to_string(), |case| answer(&case).to_string())
}

pub fn answer(case: &Case) -> Answer {
    let n = &case.numbers;
    match case.name {
        "valid" => plain(&[], || says(pll(&n[1..5]).is_valid(n[0]) as u32)),
        "output" => plain(&[16], || says(pll(&n[1..5]).output_frequency(n[0]))),
        "search" => search(n[0], n[1]),
        "usb_pll" => Answer::Ruled(rules::usb_pll(n[0]).map_or(refused(25), setting)),
        "book" => search(book::INPUT, n[0]),
        "margin" => margin(n[0], n[1]),
        "pio" => match plain(&[17], || says(calculate_pio_clock_divider_value(n[0], n[1]).to_bits())) {
            Answer::Says(_) if cuts::pio(n[0], n[1]) => Answer::Drops(17),
            answer => answer,
        },
        "wait" => Answer::Ruled(rules::longest_wait(n[0]).to_string()),
        "list" => Answer::Ruled(rules::list(n[0], n[1], n[2] as usize)),
        "manual" => on_chip::says(|| ClockConfig::manual_pll(n[0], pll(&n[1..5]), plan::voltage(n[5]))),
        "read" => Answer::Ruled(plain_reader::read(&case.sheet, n[0])),
        "start" | "run" | "bench_start" | "bench_run" => Answer::Ruled(run::answer(case)),
        "sleep" | "wake" => sleep::answer(case),
        _ if case.chip() == Some(0) => on_chip::answer(case),
        _ => rp235x::on_chip::answer(case),
    }
}

/// The plan that a preset answers.
pub fn planned(preset: &Case) -> Option<Vec<u32>> {
    let text = answer(preset).to_string();
    text.split(' ')
        .skip(1)
        .map(|word| word.parse().ok())
        .collect::<Option<Vec<u32>>>()
        .filter(|plan| plan.len() > 1)
}

fn says(number: u32) -> Answer {
    Answer::Says(number.to_string())
}

/// REFDIV FBDIV POST1 POST2.
fn setting(dividers: [u32; 4]) -> String {
    dividers.map(|divider| divider.to_string()).join(" ")
}

fn search(input: u32, target: u32) -> Answer {
    plain(&[], || match clocks::search(input, target) {
        Some(found) => Answer::Says(setting(dividers(&found))),
        None => Answer::Refused(15),
    })
}

/// Runs code that touches registers, the regulator at a reading. Nothing where it panics.
pub fn run<T>(reading: u8, code: impl FnOnce() -> T) -> (Option<T>, Record) {
    recorder::start(reading);
    let result = catch(code);
    let mut record = recorder::finish();
    if let Err(Panic::Elsewhere(place)) = &result {
        record.unknown.get_or_insert_with(|| place.clone());
    }
    (result.ok(), record)
}

/// Runs code that touches no register. The refusals are those of its panics.
fn plain(refusals: &[u8], code: impl FnOnce() -> Answer) -> Answer {
    match catch(code) {
        Ok(answer) => answer,
        Err(Panic::Published) => Answer::Panic(refusals.to_vec()),
        Err(Panic::Elsewhere(place)) => Answer::Unknown(place),
    }
}
