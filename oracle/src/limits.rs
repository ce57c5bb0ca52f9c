//! Every limit of docs/FORMAT.md with its neighbours, the corners it names, and the presets.

use crate::answer::planned;
use crate::case::Case;
use crate::plan_numbers::{self, PARTS, at};
use crate::values::{CRYSTALS, PLL_INPUTS, ROOMS, SEARCH_INPUTS, longest, values_at};

const MAX: u32 = u32::MAX;
const READING: u32 = 11;
const CHIPS: [u32; 2] = [0, 1];

/// Parts of the crystal preset, in the order of a plan.
#[rustfmt::skip]
const CRYSTAL_PLAN: [u32; 48] = [
    1, 6_500_000, 1, 0, 0, 0, 0, 0, 0, 0, 0, 16,
    1, 12_000_000, 128,
    1, 1, 125, 6, 2,
    1, 1, 120, 6, 5,
    11, 0, 0,
    2, 1,
    1, 1, 0,
    1, 0,
    1, 0, 1, 0,
    1, 0, 1, 0,
    1, 0, 1024, 0, 0,
];

#[rustfmt::skip]
const ROSC_PLAN: [u32; 48] = [
    1, 140_000_000, 2, 0, 0, 0, 0, 0, 0, 0, 0, 1,
    0, 0, 0,
    0, 0, 0, 0, 0,
    0, 0, 0, 0, 0,
    11, 0, 0,
    0, 1,
    3, 1, 0,
    1, 3,
    0, 0, 0, 0,
    1, 2, 3, 0,
    1, 2, 2986, 171, 0,
];

/// Everything fed by the ring, with a voltage change.
#[rustfmt::skip]
const RING_PLAN: [u32; 48] = [
    1, 6_000_000, 3, 1, 2, 3, 4, 5, 6, 7, 0, 31,
    1, 12_000_000, 1,
    0, 0, 0, 0, 0,
    0, 0, 0, 0, 0,
    15, 1, 500,
    0, 4,
    0, 1, 128,
    1, 0,
    1, 2, 4, 3,
    1, 2, 4, 3,
    1, 2, 92, 0, 3,
];

fn on(chip: u32, plan: &[u32; 48]) -> Vec<u32> {
    plan[..plan_numbers::of(chip).len()].to_vec()
}

/// The crystal preset of 12 MHz.
pub fn crystal_plan(chip: u32) -> Vec<u32> {
    let mut plan = on(chip, &CRYSTAL_PLAN);
    // 150 MHz.
    plan[at::SYSTEM_PLL + 3] -= chip;
    plan
}

/// The RP235x's with a fraction of one half.
fn ring_plan(chip: u32) -> Vec<u32> {
    let mut plan = on(chip, &RING_PLAN);
    plan[at::SYSTEM + 2] = [128, 32_768][chip as usize];
    plan
}

pub fn all() -> Vec<Case> {
    let mut cases = Vec::new();
    for chip in CHIPS {
        presets(&mut cases, chip);
        shapes(&mut cases, chip);
        plans(&mut cases, chip);
        gpouts(&mut cases, chip);
    }
    plans_2040(&mut cases);
    plans_235x(&mut cases);
    settings(&mut cases);
    cases.retain(Case::well_formed);
    cases
}

/// Each preset, and its plan's sheet at readings and with rooms; the first have them all.
fn presets(cases: &mut Vec<Case>, chip: u32) {
    cases.extend((0..=255).map(|reading| Case::new("voltage", &[chip, reading])));
    let room = longest(chip);
    let readings = (0..=[17, 33][chip as usize]).chain([255]).map(|reading| (reading, room));
    let all: Vec<(u32, u32)> = readings.chain(ROOMS.map(|room| (READING, room))).collect();
    let both = [(READING, room), (12, room)];
    let mut preset = |case: Case, places: &[(u32, u32)]| {
        let plan = planned(&case).unwrap_or_default();
        cases.push(case);
        cases.extend(
            places
                .iter()
                .map(|&(reading, room)| Case::sheet(reading, room, chip, &plan))
                .filter(Case::well_formed),
        );
    };
    preset(Case::new("rosc", &[chip]), &all);
    preset(Case::new("default", &[chip]), &all);
    preset(Case::new("crystal", &[chip, 12_000_000]), &all);
    preset(Case::new("system", &[chip, 133_000_001]), &all);
    preset(Case::new("system_from", &[chip, 8_000_000, 200_000_000]), &all);
    for hz in PLL_INPUTS.into_iter().chain(values_at(chip, at::CRYSTAL + 1).iter().copied()) {
        preset(Case::new("crystal", &[chip, hz]), &both[..1]);
    }
    #[rustfmt::skip]
    let targets = [
        0, 1, 15_306_122, 48_000_000, 125_000_000, 132_999_999, 133_000_000, 133_000_001, 149_999_999, 150_000_000, 150_000_001,
        200_000_000, MAX,
    ];
    for hz in targets {
        preset(Case::new("system", &[chip, hz]), &both);
    }
    for crystal in CRYSTALS {
        for hz in targets {
            preset(Case::new("system_from", &[chip, crystal, hz]), &both[..1]);
        }
    }
    if chip == 0 {
        preset(Case::new("manual", &[12_000_000, 1, 100, 3, 2, 12]), &all);
        for code in [0, 6, 7, 8, 9, 10, 11, 12, 13, 14, 15] {
            preset(Case::new("manual", &[12_000_000, 1, 125, 6, 2, code]), &both[..1]);
        }
        for (input, feedback) in [(5_000_000, 150), (5_000_000, 149), (6_250_000, 256), (50_000_000, 106)] {
            preset(Case::new("manual", &[input, 1, feedback, 1, 1, 11]), &both[..1]);
        }
    }
}

/// Every choice of the parts that may be absent, with sources that run where there are any.
fn shapes(cases: &mut Vec<Case>, chip: u32) {
    let parts = &PARTS[..PARTS.len() - chip as usize];
    for shape in 0..1 << parts.len() {
        let mut plan = crystal_plan(chip);
        plan[at::VOLTAGE..at::REFERENCE].copy_from_slice(&[12, 1, 500]);
        let crystal = shape >> 1 & 1 == 1;
        plan[at::REFERENCE] = if crystal { 2 } else { 0 };
        plan[at::SYSTEM] = 0;
        for &(part, _) in parts.iter().filter(|(part, _)| *part >= at::USB) {
            plan[part + 1] = if crystal { 3 } else { 2 };
        }
        for (part, &(flag, end)) in parts.iter().enumerate() {
            if shape >> part & 1 == 0 {
                plan[flag..end].fill(0);
            }
        }
        sheet(cases, chip, if shape % 3 == 0 { 12 } else { READING }, &plan, &[]);
    }
}

/// One place of a plan at a time, then each source.
fn plans(cases: &mut Vec<Case>, chip: u32) {
    let bases = [crystal_plan(chip), on(chip, &ROSC_PLAN), ring_plan(chip)];
    for base in &bases {
        for reading in 0..=[16, 32][chip as usize] {
            sheet(cases, chip, reading, base, &[]);
        }
        for place in 0..base.len() {
            for &value in values_at(chip, place) {
                sheet(cases, chip, READING, base, &[(place, value)]);
            }
        }
        let places = [at::REFERENCE, at::SYSTEM, at::PERIPHERAL + 1, at::USB + 1, at::ADC + 1, at::RTC + 1];
        for &place in &places[..places.len() - chip as usize] {
            for source in 0..=4 {
                for fraction in 0..=chip {
                    sheet(cases, chip, READING, base, &[(place, source), (at::SYSTEM + 2, fraction)]);
                }
            }
        }
    }
}

const RING_HZ: usize = at::RING + 1;
const REFERENCE_DIVIDER: usize = at::REFERENCE + 1;

/// The limits that need several places.
fn plans_2040(cases: &mut Vec<Case>) {
    let base = &ring_plan(0);
    let mut sheet =
        |reading: u32, base: &[u32], edits: &[(usize, u32)]| sheet(cases, 0, reading, base, edits);
    for hz in [1_000_000, 1_000_001, 2_000_000, 6_500_000, 139_999_999, 140_000_000, 140_000_001, MAX] {
        for &time in values_at(0, 27) {
            sheet(READING, base, &[(RING_HZ, hz), (27, time)]);
            sheet(15, base, &[(RING_HZ, hz), (27, time)]);
        }
    }
    // No ring, and a ring of 0 Hz.
    let mut ringless = crystal_plan(0);
    ringless[at::VOLTAGE..at::REFERENCE].copy_from_slice(&[12, 1, 0]);
    for flag in [1, 0] {
        ringless[at::RING..at::CRYSTAL].fill(0);
        ringless[at::RING] = flag;
        for &time in values_at(0, 27) {
            sheet(READING, &ringless, &[(27, time)]);
            sheet(READING, &ringless, &[(27, time), (at::SYSTEM_PLL + 1, 0)]);
        }
        sheet(READING, &ringless, &[(at::SETTLING, 0)]);
    }
    for &hz in values_at(0, at::CRYSTAL + 1) {
        for &multiplier in values_at(0, 14) {
            sheet(READING, base, &[(at::CRYSTAL + 1, hz), (14, multiplier)]);
        }
    }
    for divider in 0..=5 {
        for hz in [0, 1, 2, 3, 4, 511_999_999, 512_000_000, 1_023_999_999, 1_024_000_000, 2_048_000_000] {
            sheet(READING, base, &[(RING_HZ, hz), (REFERENCE_DIVIDER, divider)]);
            sheet(READING, base, &[(RING_HZ, hz), (at::USB + 2, divider), (REFERENCE_DIVIDER, 1)]);
            sheet(READING, base, &[(RING_HZ, hz), (at::ADC + 2, divider), (REFERENCE_DIVIDER, 1)]);
        }
    }
    for &whole in values_at(0, at::SYSTEM + 1) {
        for &fraction in values_at(0, at::SYSTEM + 2) {
            for hz in [1, 2, 65_535, 65_536, 65_791, 65_792, 16_777_215, 16_777_216, 140_000_000, MAX] {
                let ring = (RING_HZ, hz);
                sheet(READING, base, &[ring, (at::SYSTEM + 1, whole), (at::SYSTEM + 2, fraction)]);
                sheet(READING, base, &[ring, (at::RTC + 2, whole), (at::RTC + 3, fraction)]);
            }
        }
    }
}

fn plans_235x(cases: &mut Vec<Case>) {
    let base = &ring_plan(1);
    let mut sheet = |edits: &[(usize, u32)]| sheet(cases, 1, READING, base, edits);
    for &whole in values_at(1, at::SYSTEM + 1) {
        for &fraction in values_at(1, at::SYSTEM + 2) {
            for hz in [1, 2, 3, 255, 256, 257, 65_535, 65_536, 65_537, 140_000_000, MAX] {
                let divider = [(at::SYSTEM + 1, whole), (at::SYSTEM + 2, fraction)];
                sheet(&[&[(RING_HZ, hz), (REFERENCE_DIVIDER, 1)], divider.as_slice()].concat());
            }
        }
    }
    for hz in [511_999_999, 512_000_000] {
        sheet(&[(RING_HZ, hz), (REFERENCE_DIVIDER, 1)]);
    }
}

fn sheet(cases: &mut Vec<Case>, chip: u32, reading: u32, base: &[u32], edits: &[(usize, u32)]) {
    let mut plan = base.to_vec();
    edits.iter().for_each(|&(place, value)| plan[place] = value);
    cases.push(Case::sheet(reading, longest(chip), chip, &plan));
}

/// `valid`, `output`, `search` and `pio`.
fn settings(cases: &mut Vec<Case>) {
    for input in PLL_INPUTS {
        let mut dividers: Vec<[u32; 4]> = Vec::new();
        dividers.extend([0, 1, 2, 3, 62, 63, 64, 255].map(|refdiv| [refdiv, 125, 6, 2]));
        let feedbacks = [0, 1, 15, 16, 17, 62, 63, 85, 86, 106, 149, 150, 319, 320, 321, 65_535];
        dividers.extend(feedbacks.map(|feedback| [1, feedback, 1, 1]));
        let posts =
            [(7, 7), (6, 7), (7, 8), (8, 1), (0, 1), (1, 0), (15, 17), (16, 16), (255, 1), (255, 255)];
        dividers.extend(posts.map(|(post1, post2)| [1, 100, post1, post2]));
        for dividers in dividers {
            let numbers = [&[input], dividers.as_slice()].concat();
            cases.push(Case::new("valid", &numbers));
            cases.push(Case::new("output", &numbers));
        }
    }
    for input in SEARCH_INPUTS {
        for target in
            [0, 1, 47_831_632, 125_000_000, 133_000_000, 133_000_001, 200_000_000, 1_600_000_000, MAX]
        {
            cases.push(Case::new("search", &[input, target]));
        }
    }
    let hz = [0, 1, 255, 256, 257, 65_535, 65_536, 16_777_215, 16_777_216, 100_000_000, 125_000_000, MAX];
    for system in hz {
        for target in hz {
            for system in [system.saturating_sub(1), system, system.saturating_add(1)] {
                cases.push(Case::new("pio", &[system, target]));
            }
        }
    }
}

fn gpouts(cases: &mut Vec<Case>, chip: u32) {
    for source in (0..=17).chain([255]) {
        for whole in [0, 1, 2, 65_535, 65_536, 16_777_215, 16_777_216, MAX] {
            for fraction in [0, 1, 255, 256, 65_535] {
                let mut numbers = vec![chip, source, whole, fraction];
                numbers.extend([6_500_000, 12_000_000, 131_070_000, 48_000_000, 12_000_001]);
                numbers.extend([125_000_000, 125_000_001, 48_000_001, 48_000_002, 46_875]);
                cases.push(Case::new("gpout", &numbers));
            }
        }
    }
}
