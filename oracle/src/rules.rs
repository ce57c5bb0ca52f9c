//! What the Rust has no counterpart for, worked out plainly from docs/FORMAT.md and docs/PLL.md: every setting is tried.

use crate::text::{call, refused};

/// A setting of the search: feedback divider, post 1, post 2.
pub type Setting = (u32, u32, u32);

/// The datasheet's least reference frequency of a PLL.
pub const MINIMUM: u32 = 5_000_000;
const REFERENCE: std::ops::RangeInclusive<u32> = MINIMUM..=800_000_000;
const VCO: std::ops::RangeInclusive<u64> = 750_000_000..=1_600_000_000;

/// The search's candidates, in no order that counts.
pub fn candidates(input: u32) -> impl Iterator<Item = Setting> {
    let permitted = move |feedback: &u32| input >= MINIMUM && VCO.contains(&vco(input, *feedback));
    let feedbacks = (16..=320).filter(permitted);
    feedbacks.flat_map(|feedback| {
        (1..=7).flat_map(move |post1| (1..=post1).map(move |post2| (feedback, post1, post2)))
    })
}

fn vco(input: u32, feedback: u32) -> u64 {
    input as u64 * feedback as u64
}

/// Cycles of the settling delay: the ring's MHz rounded up for each microsecond, 12 where it has no frequency.
pub fn settling_cycles(time_us: u32, ring_hz: u32) -> u64 {
    let each = if ring_hz == 0 { 12 } else { ring_hz.div_ceil(1_000_000) };
    time_us as u64 * each as u64
}

/// The USB PLL of a crystal, as reference divider, feedback divider, post 1, post 2: every setting is tried, in the order
/// in which they are preferred.
pub fn usb_pll(crystal: u32) -> Option<[u32; 4]> {
    let divides = |&refdiv: &u32| crystal.is_multiple_of(refdiv) && REFERENCE.contains(&(crystal / refdiv));
    let settings = (1..=63).filter(divides).flat_map(|refdiv| {
        (16..=320).rev().flat_map(move |feedback| {
            (1..=7)
                .rev()
                .flat_map(move |post1| (1..=post1).rev().map(move |p2| [refdiv, feedback, post1, p2]))
        })
    });
    let gives_48_mhz = |&[refdiv, feedback, post1, post2]: &[u32; 4]| {
        let vco = vco(crystal / refdiv, feedback);
        VCO.contains(&vco) && vco == 48_000_000 * (post1 * post2) as u64
    };
    settings.into_iter().find(gives_48_mhz)
}

/// A clock over a divider of a whole part from 1 on and 65536ths, as in the RP2350 datasheet.
pub fn divided_by_65536ths(source: u32, whole: u16, fraction: u16) -> u32 {
    let divider = (whole as u64) << 16 | fraction as u64;
    (((source as u64) << 16) / divider) as u32
}

/// The lister's answer: the settings that give the target with no remainder, in its order, 2 bytes each.
pub fn list(input: u32, target: u32, room: usize) -> String {
    let exact = |&(feedback, post1, post2): &Setting| {
        vco(input, feedback) == target as u64 * post1 as u64 * post2 as u64
    };
    let mut settings: Vec<Setting> = candidates(input).filter(exact).collect();
    settings.sort_by_key(|&(feedback, post1, post2)| (feedback, 7 - post1, 7 - post2));
    if settings.len() * 2 > room {
        return refused(19);
    }
    let packed = |(feedback, post1, post2): Setting| (feedback << 7 | post1 << 4 | post2 << 1) as u16;
    let bytes: Vec<u8> = settings.into_iter().flat_map(|setting| packed(setting).to_be_bytes()).collect();
    call(bytes.len(), &[], &bytes)
}

/// The most calls before a run is done where each wait hears at most so many unready polls: 66 steps, of which 10 are waits.
pub fn longest_wait(polls: u32) -> u32 {
    if polls < 1_000_000 { 66 + 10 * polls } else { u32::MAX }
}
