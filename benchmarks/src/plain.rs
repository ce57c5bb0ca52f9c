//! What stands beside our calls and is not of the published code; and its functions, as calls that are not inlined.

use crate::clocks::{self, Gpout};
use crate::peripherals::PIN_21;
use crate::pio_programs::clock_divider::calculate_pio_clock_divider_value;
use crate::plain_runner::Runner;

/// The lowest and the highest target with the setting of this one, by halving.
pub fn halved_margin(input: u32, target: u32) -> (u32, u32) {
    let setting = |target| clocks::search(input, target).map(|c| (c.fbdiv, c.post_div1, c.post_div2));
    let (given, mut bottom, mut low) = (setting(target), 0, target);
    while bottom < low {
        let middle = bottom + (low - bottom) / 2;
        if setting(middle) == given { low = middle } else { bottom = middle + 1 }
    }
    let (mut high, mut top) = (target, u32::MAX);
    while high < top {
        let middle = top - (top - high) / 2;
        if setting(middle) == given { high = middle } else { top = middle - 1 }
    }
    (low, high)
}

/// Writes the settings of a target without remainder as `dizbaral_list` does. Each feedback divider whose VCO is in range is
/// tried with each pair of post dividers; `None` where they do not fit.
#[inline(never)]
pub fn plain_list(input: u32, target: u32, list: &mut [u8]) -> Option<usize> {
    let mut length = 0;
    for feedback in 16..=320 {
        let vco = input as u64 * feedback as u64;
        if !(750_000_000..=1_600_000_000).contains(&vco) {
            continue;
        }
        for post1 in (1..=7).rev() {
            for post2 in (1..=post1).rev() {
                if vco == target as u64 * (post1 * post2) as u64 {
                    let bytes = ((feedback << 7 | post1 << 4 | post2 << 1) as u16).to_be_bytes();
                    list.get_mut(length..length + 2)?.copy_from_slice(&bytes);
                    length += 2;
                }
            }
        }
    }
    Some(length)
}

#[inline(never)]
pub fn start(runner: &mut Runner, sheet: &[u8]) -> Option<u8> {
    runner.start(sheet)
}

#[inline(never)]
pub fn pio(system: u32, target: u32) -> u32 {
    calculate_pio_clock_divider_value(system, target).to_bits()
}

#[inline(never)]
pub fn gpout(output: &Gpout<PIN_21>) -> u32 {
    output.get_freq()
}
