//! What the RP235x has otherwise than the RP2040.

use super::clocks::{ClockConfig, GpoutSrc, PeriClkSrc, SysClkSrc};
use super::cuts_of;
use crate::cuts::{Cuts, Scale};

pub const CHIP: u32 = 1;
/// The field of the regulator's register has 5 bits; the code takes 16 bits of a clock output's whole part.
pub const READINGS: u32 = 31;
pub const GPOUT_BITS: u32 = 16;

pub fn cuts(config: &ClockConfig) -> Cuts {
    let system = &config.sys_clk;
    let source = match system.src {
        SysClkSrc::Ref => 4,
        SysClkSrc::PllSys => 2,
        SysClkSrc::PllUsb => 3,
        SysClkSrc::Rosc => 0,
        SysClkSrc::Xosc => 1,
    };
    let scale = (system.div_int != 0 && system.div_frac != 0).then_some(Scale {
        source,
        whole: system.div_int,
        fraction: system.div_frac,
        peripheral: config.peri_clk_src == Some(PeriClkSrc::Sys),
    });
    Cuts { scale, ..cuts_of::cuts(config) }
}

pub fn gpout_source(code: u32) -> Option<GpoutSrc> {
    Some(match code {
        0 => GpoutSrc::PllSys,
        3 => GpoutSrc::PllUsb,
        5 => GpoutSrc::Rosc,
        6 => GpoutSrc::Xosc,
        7 => GpoutSrc::Lposc,
        8 => GpoutSrc::Sys,
        9 => GpoutSrc::Usb,
        10 => GpoutSrc::Adc,
        11 => GpoutSrc::Ref,
        _ => return None,
    })
}
