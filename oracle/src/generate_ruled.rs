//! Cases of requests, some of which rest on rules of the port's own, as `generate` has those that rest on the Rust:
//! first the limits, then random ones. Of these, stored files hold those of `sleep` and `wake` that the Rust answers.

use crate::answer::{answer, bytes};
use crate::book;
use crate::case::Case;
use crate::generate;
use crate::random::Random;
use crate::run;
use crate::sleep::cases as sleep;
use crate::values;

#[rustfmt::skip]
pub const NAMES: [&str; 13] = [
    "usb_pll", "book", "margin", "list", "wait", "start", "run", "bench_start", "bench_run", "sleep", "wake", "read",
    "system_from",
];

pub fn limits() -> Vec<Case> {
    let mut cases = Vec::new();
    for input in values::SEARCH_INPUTS {
        for target in [0, 1, 48_000_000, 125_000_000, 200_000_000, 800_000_000, 1_600_000_000, u32::MAX] {
            cases.extend([0, 2, 1024].map(|room| Case::new("list", &[input, target, room])));
            cases.push(Case::new("margin", &[input, target]));
        }
    }
    for crystal in values::CRYSTALS.into_iter().chain(values::PLL_INPUTS) {
        cases.push(Case::new("usb_pll", &[crystal]));
    }
    // Every output, the middle to the next one, and their neighbours.
    let outputs: Vec<u32> = book::by_output(book::INPUT).into_iter().map(|(output, _)| output).collect();
    for (&output, &next) in outputs.iter().zip(outputs.iter().skip(1).chain([&u32::MAX])) {
        let middle = output + (next - output) / 2;
        cases.extend(
            [output - 1, output, output + 1, middle, middle + 1].map(|target| Case::new("book", &[target])),
        );
    }
    cases.extend([0, u32::MAX].map(|target| Case::new("book", &[target])));
    // 8 settings, up to a buffer that is just long enough.
    cases.extend((0..=17).map(|room| Case::new("list", &[12_000_000, 48_000_000, room])));
    let polls = [0, 1, 999_998, 999_999, 1_000_000, 1_000_001, u32::MAX];
    cases.extend(polls.map(|polls| Case::new("wait", &[polls])));
    cases.extend(run::limits());
    cases.extend(sleep::limits());
    cases
}

pub fn list(r: &mut Random) -> Vec<u32> {
    let mut numbers = generate::search(r);
    numbers.push(if r.percent(80) { 1024 } else { r.between(0, 40) });
    numbers
}

pub fn system_from(r: &mut Random, chip: u32) -> Vec<u32> {
    let crystal = crystal(r);
    vec![chip, crystal, generate::search_target(r, crystal)]
}

/// A sheet of the Rust, or one with a bit turned over, or none; mostly at its own reading.
pub fn read(r: &mut Random, chip: u32) -> Case {
    let written = generate::of(r, "sheet", chip);
    let mut sheet = bytes(&answer(&written).steps().unwrap_or_default());
    if !sheet.is_empty() && r.percent(50) {
        let at = r.between(0, sheet.len() as u32 - 1) as usize;
        sheet[at] ^= 1 << r.between(0, 7);
    }
    let reading = if r.percent(90) { written.numbers[0] } else { r.between(0, 40) };
    Case { sheet, ..Case::new("read", &[reading]) }
}

/// Most have a USB PLL, and most of those a startup delay that fits.
pub fn crystal(r: &mut Random) -> u32 {
    match r.between(0, 9) {
        0 => r.pick(&values::CRYSTALS),
        1..=2 => r.between(10, 64) * 500_000,
        3..=7 => {
            // From a setting: a reference that divides without a remainder, where one is found soon.
            let mut crystal = 12_000_000;
            for _ in 0..20 {
                let (feedback, post1) = (r.between(16, 320), r.between(1, 7));
                let vco = 48_000_000 * post1 * r.between(1, post1);
                if vco.is_multiple_of(feedback) {
                    let most = if r.percent(80) { 6 } else { 63 };
                    crystal = (vco / feedback).saturating_mul(r.between(1, most));
                    break;
                }
            }
            crystal
        }
        8 => r.between(5_000_000, 33_000_000),
        _ => generate::search(r)[0],
    }
}
