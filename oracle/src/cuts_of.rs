//! What has to be known of a plan after the run: the part that both chips have. Stands in each chip's module.

use super::clocks::{ClockConfig, CoreVoltage};
use crate::cuts::Cuts;
use crate::rules;

pub fn cuts(config: &ClockConfig) -> Cuts {
    let xosc = config.xosc.as_ref();
    let ring_hz = config.rosc.as_ref().map_or(0, |ring| ring.hz);
    Cuts {
        settling: rules::settling_cycles(settling_time(config), ring_hz),
        startup: xosc.is_some_and(|x| startup_over(x.hz, x.delay_multiplier)),
        system_pll: xosc.is_some_and(|x| x.sys_pll.is_some()),
        system_whole_0: config.sys_clk.div_int == 0,
        rtc: None,
        scale: None,
    }
}

/// The settling time in microseconds, by docs/FORMAT.md, Voltages, where none is given.
fn settling_time(config: &ClockConfig) -> u32 {
    config.voltage_stabilization_delay_us.unwrap_or(match config.core_voltage {
        CoreVoltage::V1_15 => 1000,
        CoreVoltage::V1_20 | CoreVoltage::V1_25 | CoreVoltage::V1_30 => 2000,
        _ => 0,
    })
}

/// Over the 14 bits of the startup register, which come after `as u16`.
fn startup_over(hz: u32, multiplier: u32) -> bool {
    ((hz / 1000) as u64 * multiplier as u64 + 128) / 256 > 16383
}
