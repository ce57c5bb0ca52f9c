//! Random plans: every shape, most of them accepted, then some damaged.

use crate::plan_numbers::{self, Fits, PARTS, at};
use crate::random::Random;
use crate::values::{PLL_INPUTS, values_at};

/// The frequencies that a source can have: ring, crystal, system PLL, USB PLL.
#[derive(Default)]
struct Sources {
    ring: u32,
    crystal: u32,
    system_pll: u32,
    usb_pll: u32,
}

/// For the RP235x without RTC, and with numbers of its own in three places.
pub fn plan(r: &mut Random, chip: u32) -> Vec<u32> {
    let mut plan = whole(r);
    if chip == 1 {
        plan.truncate(plan_numbers::of(chip).len());
        plan[at::VOLTAGE] = r.between(0, 15);
        if plan[11] > 22_015 && r.percent(90) {
            plan[11] = r.between(0, 22_015);
        }
        let whole = if r.percent(70) { 1 } else { r.any().clamp(1, 65_535) };
        let fraction = if r.percent(60) { 0 } else { r.any() & 0xffff };
        set(&mut plan, at::SYSTEM + 1, &[whole, fraction]);
    }
    if r.percent(40) {
        for _ in 0..r.between(1, 2) {
            damage(r, &mut plan, chip);
        }
    }
    plan
}

pub fn crystal_hz(r: &mut Random) -> u32 {
    match r.between(0, 9) {
        0..=3 => 12_000_000,
        4..=6 => r.between(6_200_000, 12_900_000),
        7 => r.between(4_900_000, 60_000_000),
        8 => r.pick(&PLL_INPUTS),
        _ => r.any(),
    }
}

/// Valid dividers for an input, where there are any.
pub fn pll(r: &mut Random, input: u32) -> Option<[u32; 4]> {
    let top = (input / 5_000_000).min(63);
    let refdiv = if r.percent(60) { 1 } else { r.between(1, top) };
    let reference = input / refdiv;
    if top == 0 || reference > 100_000_000 {
        return None;
    }
    let (low, high) = (750_000_000u32.div_ceil(reference).max(16), (1_600_000_000 / reference).min(320));
    if low > high {
        return None;
    }
    let feedback = match r.between(0, 4) {
        0 => low,
        1 => high,
        _ => r.between(low, high),
    };
    let post1 = r.between(1, 7);
    Some([refdiv, feedback, post1, r.between(1, post1)])
}

fn output(input: u32, dividers: [u32; 4]) -> u32 {
    input / dividers[0] * dividers[1] / (dividers[2] * dividers[3])
}

fn whole(r: &mut Random) -> Vec<u32> {
    let mut plan = vec![0; plan_numbers::of(0).len()];
    let mut hz = Sources::default();
    ring(r, &mut plan, &mut hz);
    crystal(r, &mut plan, &mut hz);
    plan[at::VOLTAGE] = r.pick(values_at(0, at::VOLTAGE));
    if r.percent(30) {
        let time = if r.percent(80) { r.between(0, 5000) } else { r.any() };
        set(&mut plan, at::SETTLING, &[1, time]);
    }
    let source = r.pick(&with_hz(&[hz.ring, hz.usb_pll, hz.crystal]));
    let divider = r.between(1, 4);
    set(&mut plan, at::REFERENCE, &[source, divider]);
    let reference = [hz.ring, hz.usb_pll, hz.crystal][source as usize] / divider;
    let source = r.pick(&with_hz(&[reference, hz.system_pll, hz.usb_pll, hz.ring, hz.crystal]));
    let whole = if r.percent(70) { 1 } else { r.any().clamp(1, 16_777_215) };
    let fraction = if r.percent(70) { 0 } else { r.between(0, 255) };
    set(&mut plan, at::SYSTEM, &[source, whole, fraction]);
    if r.percent(80) {
        let source = r.pick(&with_hz(&[1, hz.system_pll, hz.usb_pll, hz.ring, hz.crystal]));
        set(&mut plan, at::PERIPHERAL, &[1, source]);
    }
    let sources = [hz.usb_pll, hz.system_pll, hz.ring, hz.crystal];
    for part in [at::USB, at::ADC] {
        if r.percent(60) {
            set(&mut plan, part, &[1, r.pick(&with_hz(&sources)), r.between(1, 4), r.between(0, 3)]);
        }
    }
    if r.percent(60) {
        let source = r.pick(&with_hz(&sources));
        // At the least divider, near it, or anywhere.
        let least = sources[source as usize] / 65_536 + 1;
        let whole = match r.between(0, 3) {
            0 => least,
            1 => r.between((least - 1).max(1), least + 3),
            _ => r.between(least, 16_777_215),
        };
        set(&mut plan, at::RTC, &[1, source, whole, r.between(0, 255), r.between(0, 3)]);
    }
    plan
}

fn ring(r: &mut Random, plan: &mut [u32], hz: &mut Sources) {
    if !r.percent(75) {
        return;
    }
    hz.ring = match r.between(0, 4) {
        0 => 6_500_000,
        1 => 140_000_000,
        2 => r.any(),
        _ => r.between(1, 300_000_000),
    };
    set(plan, at::RING, &[1, hz.ring, r.between(0, 3)]);
    if r.percent(50) {
        (3..=10).for_each(|place| plan[place] = r.between(0, 7));
    }
    plan[11] = match r.between(0, 3) {
        0 => r.between(0, 62_815),
        _ => r.between(0, 32),
    };
}

fn crystal(r: &mut Random, plan: &mut [u32], hz: &mut Sources) {
    if !r.percent(80) {
        return;
    }
    hz.crystal = crystal_hz(r);
    let multiplier = match r.between(0, 3) {
        0..=1 => 128,
        2 => r.between(0, 350),
        _ => (4_194_175 / (hz.crystal / 1000).max(1)).saturating_add(r.between(0, 1)),
    };
    set(plan, at::CRYSTAL, &[1, hz.crystal, multiplier]);
    for (place, hz, input) in
        [(at::SYSTEM_PLL, &mut hz.system_pll, hz.crystal), (at::USB_PLL, &mut hz.usb_pll, hz.crystal)]
    {
        if r.percent(75)
            && let Some(dividers) = pll(r, input)
        {
            plan[place] = 1;
            set(plan, place + 1, &dividers);
            *hz = output(input, dividers);
        }
    }
}

fn set(plan: &mut [u32], place: usize, values: &[u32]) {
    plan[place..place + values.len()].copy_from_slice(values);
}

/// The numbers of the sources that run; all of them where none does.
fn with_hz(hz: &[u32]) -> Vec<u32> {
    let running: Vec<u32> = (0..hz.len() as u32).filter(|&source| hz[source as usize] != 0).collect();
    if running.is_empty() { (0..hz.len() as u32).collect() } else { running }
}

/// Another number at one place. A part that goes away leaves zeros, a part that comes starts with them.
fn damage(r: &mut Random, plan: &mut [u32], chip: u32) {
    let numbers = plan_numbers::of(chip);
    let place = r.between(0, numbers.len() as u32 - 1) as usize;
    let &(flag, end) =
        PARTS.iter().find(|&&(flag, end)| (flag..end).contains(&place)).unwrap_or(&(place, place));
    if flag != end && place == flag {
        if plan[flag] == 1 {
            plan[flag..end].fill(0);
            if flag == at::CRYSTAL {
                plan[at::SYSTEM_PLL..at::VOLTAGE].fill(0);
            }
        } else if ![at::SYSTEM_PLL, at::USB_PLL].contains(&flag) || plan[at::CRYSTAL] == 1 {
            plan[flag] = 1;
        }
    } else if flag == end || plan[flag] == 1 {
        let value = if r.percent(50) { r.pick(values_at(chip, place)) } else { r.any() };
        let value = match numbers[place] {
            Fits::UpTo(top) if value > top => r.between(0, top),
            Fits::Code => r.pick(values_at(chip, at::VOLTAGE)),
            _ => value,
        };
        plan[place] = value;
    }
}
