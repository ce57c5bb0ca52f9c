//! A plan as 43 numbers and as the configuration of the published code.

#[path = "../plan_parts.rs"]
mod parts;

use super::clocks::*;
use crate::plan_numbers::at;
pub use parts::{numbers, pll, system_freq_from};

/// The voltage of a code from 0 to 15.
fn voltage(code: u32) -> CoreVoltage {
    use CoreVoltage::*;
    let voltages = [
        V0_55, V0_60, V0_65, V0_70, V0_75, V0_80, V0_85, V0_90, V0_95, V1_00, V1_05, V1_10, V1_15, V1_20,
        V1_25, V1_30,
    ];
    voltages.into_iter().find(|&voltage| voltage as u32 == code).expect("a voltage code")
}

/// `n` is well formed: every number fits its place.
pub fn config(n: &[u32]) -> ClockConfig {
    parts::config(n, voltage(n[at::VOLTAGE]))
}
