//! A plan's sheet: the published `init`, run at a reading.

use crate::answer::{Answer, run};
use crate::cuts::Cuts;

/// No reading where the regulator's field does not hold it.
pub fn sheet(reading: Option<u8>, cuts: Cuts, init: impl FnOnce()) -> Answer {
    let Some(reading) = reading else {
        return Answer::Drops(18);
    };
    let (done, mut record) = run(reading, init);
    if record.output_writes != 0 {
        return Answer::Unknown("a clock output is set up".to_string());
    }
    if let Some(what) = record.unknown {
        return Answer::Unknown(what);
    }
    cuts.add_to(&mut record);
    let mut steps = record.steps;
    match (done, record.lost) {
        (Some(()), None) => {
            let settled = cuts.settle(&mut steps);
            match cuts.scale(&mut steps) {
                true => Answer::Scaled(steps),
                false if settled => Answer::Settled(steps),
                false => Answer::Sheet(steps),
            }
        }
        (Some(()), Some(number)) => Answer::Drops(number),
        (None, lost) => {
            let panics = cuts.refusals_after(&steps);
            match lost.filter(|&number| panics.iter().all(|&panic| number < panic)) {
                // The Rust waits for a shorter time and goes on.
                Some(3) => Answer::Drops(3),
                Some(number) => Answer::Panic(vec![number]),
                None => Answer::Panic(panics),
            }
        }
    }
}
