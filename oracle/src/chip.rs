//! What the RP2040 has otherwise than the RP235x.

use crate::clocks::{ClockConfig, GpoutSrc, RtcClkSrc};
use crate::cuts::Cuts;
use crate::cuts_of;

pub const CHIP: u32 = 0;
/// The field of the regulator's register has 4 bits; the code takes 32 bits of a clock output's whole part.
pub const READINGS: u32 = 15;
pub const GPOUT_BITS: u32 = 32;

pub fn cuts(config: &ClockConfig) -> Cuts {
    let clock = |source| match source {
        RtcClkSrc::PllUsb => 3,
        RtcClkSrc::PllSys => 2,
        RtcClkSrc::Rosc => 0,
        RtcClkSrc::Xosc => 1,
    };
    let rtc = config.rtc_clk.as_ref().map(|rtc| (clock(rtc.src), rtc.div_int, rtc.div_frac));
    Cuts { rtc, ..cuts_of::cuts(config) }
}

pub fn gpout_source(code: u32) -> Option<GpoutSrc> {
    Some(match code {
        0 => GpoutSrc::PllSys,
        3 => GpoutSrc::PllUsb,
        4 => GpoutSrc::Rosc,
        5 => GpoutSrc::Xosc,
        6 => GpoutSrc::Sys,
        7 => GpoutSrc::Usb,
        8 => GpoutSrc::Adc,
        9 => GpoutSrc::Rtc,
        10 => GpoutSrc::Ref,
        _ => return None,
    })
}
