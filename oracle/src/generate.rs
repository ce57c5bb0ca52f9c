//! Cases from a seed: first every limit, the same for all seeds, then random ones. `voltage` has 256 inputs of each chip
//! and all of them are among the first.

use crate::answer::planned;
use crate::case::Case;
use crate::generate_ruled as ruled;
use crate::limits;
use crate::plan_numbers::at;
use crate::random::Random;
use crate::random_plan;
use crate::run;
use crate::sleep::cases as sleep;
use crate::values;

/// Lines: cases, and a few lines that are none.
pub fn lines(seed: u64, count: usize) -> impl Iterator<Item = String> {
    let (mut of_rust, mut of_rules) = (random_lines(seed, |r| case(r, 0)), random_lines(!seed, ruled_case));
    let mut of_rp235x = random_lines(seed ^ RP235X, |r| case(r, 1));
    // Of random cases one in five rests on rules of the port's own, and one in five is the RP235x's.
    let random = (1..).map(move |at: usize| match at % 5 {
        0 => of_rules(),
        1 => of_rp235x(),
        _ => of_rust(),
    });
    limits::all().into_iter().chain(ruled::limits()).map(|case| case.text()).chain(random).take(count)
}

/// Those that stored files are made from, the cases that rest on the Rust: so many of them, then those of `sleep` and `wake`.
pub fn stored_lines(seed: u64, count: usize) -> impl Iterator<Item = String> {
    let mut chips = [0, 0, 1].into_iter().cycle();
    let random = random_lines(seed, move |r| case(r, chips.next().unwrap()));
    let mut names = ["sleep", "wake"].into_iter().cycle();
    let sleeps = random_lines(seed ^ SLEEP, move |r| of(r, names.next().unwrap(), 0));
    let rust = limits::all().into_iter().map(|case| case.text()).chain(std::iter::repeat_with(random));
    let fixed = sleep::limits().into_iter().map(|case| case.text());
    rust.take(count).chain(fixed).chain(std::iter::repeat_with(sleeps).take(SLEEPS))
}

/// Random cases of `sleep` and `wake` in stored files, half of them of each.
const SLEEPS: usize = 660;

// Set the seeds of the RP235x's cases and of the stored sleeps apart.
const RP235X: u64 = 235 << 32;
const SLEEP: u64 = 11 << 32;

/// Cases that are compared alone: those of a name, with `bench` those of both its calls, with `235x` all of that chip.
pub fn lines_of(word: &str, seed: u64, count: usize) -> Option<Box<dyn Iterator<Item = String>>> {
    if word == "235x" {
        let asked = |line: &String| Case::parse(line).is_some_and(|case| case.chip() == Some(1));
        return Some(Box::new(lines(seed, usize::MAX).filter(asked).take(count)));
    }
    let all = crate::case::ROWS.map(|(name, _)| name).into_iter();
    let names: Vec<&str> = match word {
        "bench" => all.filter(|name| name.starts_with("bench")).collect(),
        _ => all.filter(|name| *name == word).collect(),
    };
    let fixed = limits::all().into_iter().chain(ruled::limits());
    let fixed: Vec<Case> = fixed.filter(|case| names.contains(&case.name)).collect();
    let mut names = (!names.is_empty()).then_some(names)?.into_iter().cycle();
    let random = random_lines(seed, move |r| {
        let chip = r.between(0, 1);
        of(r, names.next().unwrap(), chip)
    });
    let lines = fixed.into_iter().map(|case| case.text()).chain(std::iter::repeat_with(random));
    Some(Box::new(lines.take(count)))
}

fn random_lines(seed: u64, mut case: impl FnMut(&mut Random) -> Case) -> impl FnMut() -> String {
    let mut r = Random::new(seed);
    move || {
        let case = case(&mut r);
        if r.percent(1) { no_case(&mut r, &case) } else { case.text() }
    }
}

fn case(r: &mut Random, chip: u32) -> Case {
    let name = match r.between(0, 99) {
        0..=7 => "gpout",
        8..=11 => "crystal",
        12..=16 => "system",
        17..=20 => "system_from",
        21 => r.pick(&["rosc", "default"]),
        22..=33 if chip == 0 => "search",
        34..=40 if chip == 0 => "valid",
        41..=47 if chip == 0 => "output",
        48..=54 if chip == 0 => "pio",
        55..=58 if chip == 0 => "manual",
        22..=25 => "crystal",
        _ => "sheet",
    };
    of(r, name, chip)
}

fn ruled_case(r: &mut Random) -> Case {
    let (name, chip) = (r.pick(&ruled::NAMES), r.between(0, 1));
    of(r, name, chip)
}

/// A random case of this name, for this chip where it takes one.
pub fn of(r: &mut Random, name: &'static str, chip: u32) -> Case {
    let numbers = match name {
        "valid" | "output" => setting(r),
        "search" | "margin" => search(r),
        "usb_pll" => vec![ruled::crystal(r)],
        "book" => vec![search_target(r, 12_000_000)],
        "voltage" => vec![chip, r.between(0, 255)],
        "pio" => pio(r),
        "gpout" => gpout(r, chip),
        "wait" => vec![if r.percent(50) { r.between(0, 1_000_001) } else { r.any() }],
        "list" => ruled::list(r),
        "crystal" => vec![chip, random_plan::crystal_hz(r)],
        "rosc" | "default" => vec![chip],
        "system" => vec![chip, search(r)[1]],
        "system_from" => ruled::system_from(r, chip),
        "manual" => [setting(r), vec![r.pick(&[0, 6, 7, 8, 9, 10, 11, 12, 13, 14, 15])]].concat(),
        "sheet" => return sheet(r, chip),
        "read" => return ruled::read(r, chip),
        "sleep" | "wake" => sleep::numbers(r),
        _ => return run::random(r, name),
    };
    Case::new(name, &numbers)
}

/// A random plan, or that of a preset, with a reading and a buffer's length.
fn sheet(r: &mut Random, chip: u32) -> Case {
    let reading = match r.between(0, 49) {
        0..=15 => 11,
        16..=48 => r.between(0, [15, 31][chip as usize]),
        _ => r.between(0, 255),
    };
    let longest = values::longest(chip);
    let room = match r.between(0, 9) {
        0..=4 => longest,
        5..=6 => 1024,
        7 => r.between(0, 1024),
        8 => r.between(34, longest / 8 + 1) * 8,
        _ => r.pick(&values::ROOMS),
    };
    let preset = if r.percent(20) {
        let names = ["rosc", "crystal", "system", "system_from", "manual"];
        let name = r.pick(&names[..names.len() - chip as usize]);
        planned(&of(r, name, chip))
    } else {
        None
    };
    let plan = preset.unwrap_or_else(|| random_plan::plan(r, chip));
    Case::sheet(reading, room, chip, &plan)
}

const POSTS: std::ops::RangeInclusive<u32> = 1..=7;

/// Outputs that are exact, their neighbours, the middle between two outputs, and anything.
pub fn search(r: &mut Random) -> Vec<u32> {
    let input = match r.between(0, 9) {
        0..=3 => 12_000_000,
        4 => r.pick(&values::SEARCH_INPUTS),
        5 => r.between(1, 100) * 1_000_000,
        6..=8 => r.between(2_343_750, 100_000_000),
        _ => r.any(),
    };
    vec![input, search_target(r, input)]
}

pub fn search_target(r: &mut Random, input: u32) -> u32 {
    match r.between(0, 9) {
        0..=3 => output(r, input).wrapping_add(r.pick(&[0, 0, 1, u32::MAX])),
        4..=6 => between_outputs(r, input),
        7..=8 => r.between(10_000_000, 1_700_000_000),
        _ => r.any(),
    }
}

/// An output of the search's ranges, without a remainder where one is found soon.
fn output(r: &mut Random, input: u32) -> u32 {
    let mut output = 0;
    for _ in 0..8 {
        let vco = r.between(16, 320) as u64 * input as u64;
        let post1 = r.between(1, 7);
        let product = (post1 * r.between(1, post1)) as u64;
        output = (vco / product) as u32;
        if (750_000_000..=1_600_000_000).contains(&vco) && vco.is_multiple_of(product) {
            break;
        }
    }
    output
}

/// The middle between an output and the next higher one: a tie, or one off it.
fn between_outputs(r: &mut Random, input: u32) -> u32 {
    let low = output(r, input);
    let mut high = u32::MAX;
    for feedback in 16..=320 {
        let vco = feedback * input as u64;
        if (750_000_000..=1_600_000_000).contains(&vco) {
            for product in POSTS.flat_map(|post1| (1..=post1).map(move |post2| post1 * post2)) {
                let output = (vco / product as u64) as u32;
                if output > low && output < high {
                    high = output;
                }
            }
        }
    }
    (low + (high - low) / 2).saturating_add(r.between(0, 1))
}

/// An input and a PLL's dividers: valid, at a limit, or anything.
fn setting(r: &mut Random) -> Vec<u32> {
    let input = if r.percent(30) { r.pick(&values::PLL_INPUTS) } else { random_plan::crystal_hz(r) };
    let mut dividers = random_plan::pll(r, input).unwrap_or([1, r.between(16, 320), 6, 2]);
    if r.percent(50) {
        let place = r.between(0, 3) as usize;
        dividers[place] = match place {
            _ if r.percent(40) => r.pick(values::values_at(0, at::SYSTEM_PLL + 1 + place)),
            1 => r.between(0, 700),
            _ => r.between(0, 70),
        };
    }
    if r.percent(3) {
        // The VCO at the end of 32 bits, and one feedback divider past it.
        let feedback = r.between(16, 700);
        return vec![u32::MAX / feedback, 1, feedback + r.between(0, 1), r.between(1, 7), 1];
    }
    if r.percent(3) {
        dividers = [r.between(0, 255), r.between(0, 65_535), r.between(0, 255), r.between(0, 255)];
    }
    [&[input], dividers.as_slice()].concat()
}

fn pio(r: &mut Random) -> Vec<u32> {
    let target = if r.percent(10) { r.between(0, 300) } else { r.any() };
    let system = match r.between(0, 9) {
        // Equal, one off, and both ends of the answers.
        0 => target.wrapping_add(r.pick(&[0, 1, u32::MAX])),
        1 => (target as u64 * 16_777_215 / 256).min(u32::MAX as u64) as u32,
        2 => (target as u64 * 65_536).min(u32::MAX as u64) as u32,
        // A quotient of 24 bits and a little more.
        3 => target.wrapping_mul((1 << 24) + r.between(0, 65_536)),
        4..=5 => target.wrapping_mul(r.between(1, 300)).wrapping_add(r.between(0, 2)).wrapping_sub(1),
        6 => r.between(0, 500_000_000),
        _ => r.any(),
    };
    vec![system, target]
}

fn gpout(r: &mut Random, chip: u32) -> Vec<u32> {
    let sources = [[0, 3, 4, 5, 6, 7, 8, 10], [0, 3, 5, 6, 8, 9, 10, 11]][chip as usize];
    let source = if r.percent(80) { r.pick(&sources) } else { r.between(0, 255) };
    let whole = match r.between(0, 5) {
        0 => 0,
        1 => r.pick(&[1, 2, 65_535, 65_536, 16_777_215, 16_777_216, u32::MAX]),
        2 => r.any(),
        _ => r.between(1, 70_000),
    };
    // Of the RP2040's one in fifty is none.
    let most = if chip == 1 || r.percent(2) { 65_535 } else { 255 };
    let fraction = if r.percent(40) { 0 } else { r.between(0, most) };
    let mut numbers = vec![chip, source, whole, fraction];
    numbers.extend((0..9).map(|_| if r.percent(50) { r.any() } else { r.between(1_000_000, 300_000_000) }));
    numbers.push(r.between(0, 65_535));
    numbers
}

/// A line that is no case, near one that is.
fn no_case(r: &mut Random, case: &Case) -> String {
    let text = case.text();
    let damaged = match r.between(0, 7) {
        0 => format!("{text} 0"),
        1 => text.rsplit_once(' ').map_or(String::new(), |(less, _)| less.to_string()),
        2 => text.replacen(' ', "  ", 1),
        3 => format!("{text}x"),
        4 => format!("x{text}"),
        5 => text.replacen(' ', " 4294967296 ", 1),
        6 => text.replacen(' ', " -", 1),
        // Another number at one place: not all of these are no cases.
        _ => {
            let mut words: Vec<String> = text.split(' ').map(str::to_string).collect();
            let place = r.between(1, words.len() as u32 - 1) as usize;
            words[place] = r.any().to_string();
            return words.join(" ");
        }
    };
    if Case::parse(&damaged).is_none() && !damaged.is_empty() { damaged } else { text }
}
