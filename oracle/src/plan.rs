//! A plan as 48 numbers and as the configuration of the published code.

#[path = "plan_parts.rs"]
mod parts;

use crate::clocks::*;
use crate::plan_numbers::at;
pub use parts::{dividers, pll, system_freq_from};
use parts::{index, part, put};

const RTC: [RtcClkSrc; 4] = [RtcClkSrc::PllUsb, RtcClkSrc::PllSys, RtcClkSrc::Rosc, RtcClkSrc::Xosc];

/// The voltage of a code that the text accepts.
pub fn voltage(code: u32) -> CoreVoltage {
    use CoreVoltage::*;
    let voltages = [V0_80, V0_85, V0_90, V0_95, V1_00, V1_05, V1_10, V1_15, V1_20, V1_25, V1_30];
    voltages.into_iter().find(|&voltage| voltage as u32 == code).expect("a voltage code")
}

/// `n` is well formed: every number fits its place.
pub fn config(n: &[u32]) -> ClockConfig {
    let mut config = parts::config(n, voltage(n[at::VOLTAGE]));
    config.rtc_clk = part(n, at::RTC, |n| RtcClkConfig {
        src: RTC[n[0] as usize],
        div_int: n[1],
        div_frac: n[2] as u8,
        phase: n[3] as u8,
    });
    config
}

pub fn numbers(config: &ClockConfig) -> Vec<u32> {
    let mut n = parts::numbers(config);
    n.resize(48, 0);
    let numbers =
        |rtc: &RtcClkConfig| vec![index(&RTC, rtc.src), rtc.div_int, rtc.div_frac.into(), rtc.phase.into()];
    put(&mut n, at::RTC, config.rtc_clk.as_ref().map(numbers));
    n
}
