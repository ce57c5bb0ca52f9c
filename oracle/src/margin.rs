//! How far a target may be nudged. The edges are the middles between neighbouring outputs; the Rust's search is asked on
//! both sides of each.

use crate::answer::Answer;
use crate::book;
use crate::clocks;
use crate::rules::{self, Setting};
use crate::text::refused;

/// What stands for an edge that is absent: 2^32.
const ABSENT: u64 = 1 << 32;

pub fn margin(input: u32, target: u32) -> Answer {
    if input < rules::MINIMUM {
        return Answer::Ruled(refused(15));
    }
    let Some(chosen) = search(input, target) else {
        return Answer::Refused(15);
    };
    let Some((lower, higher)) = edges(input, chosen) else {
        return Answer::Unknown(format!("{chosen:?} is not the first of its output"));
    };
    if !probed(input, target, chosen, lower, higher) {
        return Answer::Unknown(format!("the search does not change at {lower:?} and {higher:?}"));
    }
    let number = |edge: Option<u32>| edge.map_or(ABSENT, u64::from);
    Answer::Ruled(format!("{} {}", number(lower), number(higher)))
}

fn search(input: u32, target: u32) -> Option<Setting> {
    let found = clocks::search(input, target)?;
    Some((found.fbdiv as u32, found.post_div1 as u32, found.post_div2 as u32))
}

/// The greatest target below those of a setting, and the smallest above. A setting serves the targets that its output is
/// nearest to; in the middle between two outputs the search's order decides, where the greater dividers come first.
fn edges(input: u32, chosen: Setting) -> Option<(Option<u32>, Option<u32>)> {
    let mut outputs = book::by_output(input);
    outputs.dedup_by_key(|&mut (output, _)| output);
    let at = outputs.iter().position(|&(_, setting)| setting == chosen)?;
    // The last target of the lower one of two neighbours.
    let last = |below: usize| {
        let ((low, low_setting), (high, high_setting)) = (outputs[below], outputs[below + 1]);
        let (sum, tie) = (low as u64 + high as u64, (low ^ high) & 1 == 0);
        (sum / 2) as u32 - (tie && high_setting > low_setting) as u32
    };
    let lower = at.checked_sub(1).map(last);
    let higher = (at + 1 < outputs.len()).then(|| last(at) + 1);
    Some((lower, higher))
}

/// Each edge has another setting; the targets beside them, halfway to the target and at absent edges have this one.
fn probed(input: u32, target: u32, chosen: Setting, lower: Option<u32>, higher: Option<u32>) -> bool {
    let shares = |target: u32| search(input, target) == Some(chosen);
    let first = lower.map_or(0, |edge| edge + 1);
    let last = higher.map_or(u32::MAX, |edge| edge - 1);
    let between = first <= target && target <= last;
    let halfway = [first + (target - first) / 2, target + (last - target) / 2];
    let edges = [lower, higher].into_iter().flatten();
    between && [first, last].into_iter().chain(halfway).all(shares) && !edges.into_iter().any(shares)
}
