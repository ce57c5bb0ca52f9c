//! Where the published code loses bits itself, before a register's field could show it; where it settles for a shorter
//! time than the rule; and which refusal the place of a panic belongs to.

use crate::recorder::Record;
use crate::rules;
use crate::steps::{self, Step};

/// `remainder << 8` and `integer << 8` have 32 bits.
pub fn pio(system: u32, target: u32) -> bool {
    system / target >= 1 << 24 || system % target >= 1 << 24
}

/// What has to be known of a plan after the run.
pub struct Cuts {
    /// Cycles of the settling delay, where there is one.
    pub settling: u64,
    pub startup: bool,
    pub system_pll: bool,
    pub system_whole_0: bool,
    /// The clock that RTC divides, whole part and fraction.
    pub rtc: Option<(u32, u32, u8)>,
    /// A system divider of the RP235x, where it has a whole part and a fraction.
    pub scale: Option<Scale>,
}

/// The datasheet scales this divider by 65536, the Rust by 256.
pub struct Scale {
    /// The clock that the system clock divides.
    pub source: u32,
    pub whole: u16,
    pub fraction: u16,
    /// Whether the peripheral clock is the system clock.
    pub peripheral: bool,
}

impl Scale {
    fn hz(&self, steps: &[Step]) -> u32 {
        rules::divided_by_65536ths(stored(steps, self.source), self.whole, self.fraction)
    }
}

impl Cuts {
    /// Adds the losses that no register's field has seen.
    pub fn add_to(&self, record: &mut Record) {
        if voltage_step(&record.steps).is_some() && self.settling > u32::MAX as u64 {
            record.lose(3);
        }
        if self.startup {
            record.lose(4);
        }
        // A whole part of 0 means 65536 to the chip: the divider asked for is not held.
        if self.system_whole_0 {
            record.lose(9);
        }
        if let Some((source, whole, fraction)) = self.rtc
            && (whole == 0 || rtc_over(stored(&record.steps, source), whole, fraction))
        {
            record.lose(14);
        }
    }

    /// Puts the rule's settling delay in the place of the Rust's, and says whether it is another one. It has to fit.
    pub fn settle(&self, steps: &mut [Step]) -> bool {
        let after = voltage_step(steps).map(|at| at + 1);
        let Some(delay) = after.and_then(|at| steps.get_mut(at)).filter(|step| step.kind == 14) else {
            return false;
        };
        let ruled = steps::delay(self.settling as u32).expect("32 bits");
        std::mem::replace(delay, ruled) != ruled
    }

    /// Puts the datasheet's frequency of the system clock in the place of the Rust's, and the divider as the plan has it.
    /// Says whether it is another one.
    pub fn scale(&self, steps: &mut [Step]) -> bool {
        let Some(scale) = &self.scale else {
            return false;
        };
        let hz = scale.hz(steps);
        let mut changed = false;
        for step in steps {
            let ruled = match (step.kind, step.stored()) {
                (45, _) => steps::wide_divider(scale.whole, scale.fraction),
                (_, Some((5, _))) => steps::store(5, hz),
                (_, Some((6, _))) if scale.peripheral => steps::store(6, hz),
                _ => continue,
            };
            changed |= std::mem::replace(step, ruled.expect("it fits")) != *step;
        }
        changed
    }

    /// The refusals of the tests that come next after the steps so far. None where the datasheet's system frequency passes
    /// the test that the Rust's does not.
    pub fn refusals_after(&self, steps: &[Step]) -> Vec<u8> {
        let Some(last) = steps.last() else {
            return vec![];
        };
        match (last.kind, last.stored()) {
            (10, _) => vec![2],
            (13 | 43, _) => vec![3],
            (15 | 44, _) | (37, Some((0, _))) => vec![4],
            (18, _) if self.system_pll => vec![5],
            (14 | 18, _) => vec![6],
            (37, Some((3, _))) => vec![7, 8],
            (42, _) if self.scale.as_ref().is_some_and(|scale| scale.hz(steps) != 0) => vec![],
            (27 | 42, _) => vec![9, 10],
            (30, _) => vec![11],
            (32, _) => vec![12],
            (34, _) => vec![13],
            (36, _) => vec![14],
            _ => vec![],
        }
    }
}

/// Where the voltage changes; the next step is the settling delay, or the brownout level.
fn voltage_step(steps: &[Step]) -> Option<usize> {
    steps.iter().position(|step| [13, 43].contains(&step.kind))
}

/// Over the 16 bits of the RTC's frequency, which come from `as u16`.
fn rtc_over(source: u32, whole: u32, fraction: u8) -> bool {
    source as u64 * 256 / (whole as u64 * 256 + fraction as u64) > u16::MAX as u64
}

/// The frequency stored for a clock, 0 before.
fn stored(steps: &[Step], clock: u32) -> u32 {
    let hz = |step: &Step| step.stored().filter(|&(stored, _)| stored == clock).map(|(_, hz)| hz);
    steps.iter().find_map(hz).unwrap_or(0)
}
