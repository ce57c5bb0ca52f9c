//! A plan as numbers and as the configuration of the published code: the parts that both chips have. Stands in each chip's
//! module.

use super::super::clocks::*;
use crate::plan_numbers::at;

// The sources and ranges, each in the order of its numbers.
const RANGES: [RoscRange; 4] = [RoscRange::Low, RoscRange::Medium, RoscRange::High, RoscRange::TooHigh];
const REFERENCE: [RefClkSrc; 3] = [RefClkSrc::Rosc, RefClkSrc::PllUsb, RefClkSrc::Xosc];
const SYSTEM: [SysClkSrc; 5] =
    [SysClkSrc::Ref, SysClkSrc::PllSys, SysClkSrc::PllUsb, SysClkSrc::Rosc, SysClkSrc::Xosc];
const PERIPHERAL: [PeriClkSrc; 5] =
    [PeriClkSrc::Sys, PeriClkSrc::PllSys, PeriClkSrc::PllUsb, PeriClkSrc::Rosc, PeriClkSrc::Xosc];
const USB: [UsbClkSrc; 4] = [UsbClkSrc::PllUsb, UsbClkSrc::PllSys, UsbClkSrc::Rosc, UsbClkSrc::Xosc];
const ADC: [AdcClkSrc; 4] = [AdcClkSrc::PllUsb, AdcClkSrc::PllSys, AdcClkSrc::Rosc, AdcClkSrc::Xosc];

pub fn pll(dividers: &[u32]) -> PllConfig {
    PllConfig {
        refdiv: dividers[0] as u8,
        fbdiv: dividers[1] as u16,
        post_div1: dividers[2] as u8,
        post_div2: dividers[3] as u8,
    }
}

pub fn dividers(pll: &PllConfig) -> [u32; 4] {
    [pll.refdiv.into(), pll.fbdiv.into(), pll.post_div1.into(), pll.post_div2.into()]
}

/// The plan of `system_freq` with another crystal and these PLLs, from the Rust's own pieces.
pub fn system_freq_from(crystal_hz: u32, hz: u32, sys_pll: PllConfig, usb_pll: PllConfig) -> ClockConfig {
    // The voltage goes by the target alone.
    let mut config = ClockConfig::system_freq(hz).expect("system_freq never errs");
    let crystal = config.xosc.as_mut().expect("a crystal");
    (crystal.hz, crystal.sys_pll, crystal.usb_pll) = (crystal_hz, Some(sys_pll), Some(usb_pll));
    config
}

/// `n` is well formed: every number fits its place.
pub fn config(n: &[u32], core_voltage: CoreVoltage) -> ClockConfig {
    ClockConfig {
        rosc: part(n, at::RING, |n| RoscConfig {
            hz: n[0],
            range: RANGES[n[1] as usize],
            drive_strength: std::array::from_fn(|at| n[2 + at] as u8),
            div: n[10] as u16,
        }),
        xosc: part(n, at::CRYSTAL, |crystal| XoscConfig {
            hz: crystal[0],
            sys_pll: part(n, at::SYSTEM_PLL, pll),
            usb_pll: part(n, at::USB_PLL, pll),
            delay_multiplier: crystal[1],
        }),
        core_voltage,
        voltage_stabilization_delay_us: part(n, at::SETTLING, |n| n[0]),
        ref_clk: RefClkConfig { src: REFERENCE[n[at::REFERENCE] as usize], div: n[at::REFERENCE + 1] as u8 },
        sys_clk: SysClkConfig {
            src: SYSTEM[n[at::SYSTEM] as usize],
            div_int: n[at::SYSTEM + 1] as _,
            div_frac: n[at::SYSTEM + 2] as _,
        },
        peri_clk_src: part(n, at::PERIPHERAL, |n| PERIPHERAL[n[0] as usize]),
        usb_clk: part(n, at::USB, |n| UsbClkConfig {
            src: USB[n[0] as usize],
            div: n[1] as u8,
            phase: n[2] as u8,
        }),
        adc_clk: part(n, at::ADC, |n| AdcClkConfig {
            src: ADC[n[0] as usize],
            div: n[1] as u8,
            phase: n[2] as u8,
        }),
        ..ClockConfig::default()
    }
}

/// A part that may be absent: its flag, then its numbers.
pub fn part<T>(n: &[u32], flag: usize, make: impl FnOnce(&[u32]) -> T) -> Option<T> {
    (n[flag] == 1).then(|| make(&n[flag + 1..]))
}

/// The other way round: of a configuration the numbers that both chips have.
#[allow(clippy::unnecessary_cast)]
pub fn numbers(config: &ClockConfig) -> Vec<u32> {
    let mut n = vec![0; at::RTC];
    let xosc = config.xosc.as_ref();
    let of_pll = |pll: Option<&PllConfig>| pll.map(|pll| dividers(pll).to_vec());
    let ring = config.rosc.as_ref().map(|ring| {
        let strengths = ring.drive_strength.map(u32::from);
        [&[ring.hz, index(&RANGES, ring.range)], strengths.as_slice(), &[ring.div.into()]].concat()
    });
    put(&mut n, at::RING, ring);
    put(&mut n, at::CRYSTAL, xosc.map(|xosc| vec![xosc.hz, xosc.delay_multiplier]));
    put(&mut n, at::SYSTEM_PLL, of_pll(xosc.and_then(|xosc| xosc.sys_pll.as_ref())));
    put(&mut n, at::USB_PLL, of_pll(xosc.and_then(|xosc| xosc.usb_pll.as_ref())));
    n[at::VOLTAGE] = config.core_voltage as u32;
    put(&mut n, at::SETTLING, config.voltage_stabilization_delay_us.map(|time| vec![time]));
    n[at::REFERENCE] = index(&REFERENCE, config.ref_clk.src);
    n[at::REFERENCE + 1] = config.ref_clk.div.into();
    n[at::SYSTEM] = index(&SYSTEM, config.sys_clk.src);
    n[at::SYSTEM + 1] = config.sys_clk.div_int as u32;
    n[at::SYSTEM + 2] = config.sys_clk.div_frac as u32;
    put(&mut n, at::PERIPHERAL, config.peri_clk_src.map(|source| vec![index(&PERIPHERAL, source)]));
    let usb = config.usb_clk.as_ref().map(|usb| vec![index(&USB, usb.src), usb.div.into(), usb.phase.into()]);
    put(&mut n, at::USB, usb);
    let adc = config.adc_clk.as_ref().map(|adc| vec![index(&ADC, adc.src), adc.div.into(), adc.phase.into()]);
    put(&mut n, at::ADC, adc);
    n
}

/// The flag and the numbers of a part that is there.
pub fn put(n: &mut [u32], flag: usize, numbers: Option<Vec<u32>>) {
    if let Some(numbers) = numbers {
        n[flag] = 1;
        n[flag + 1..][..numbers.len()].copy_from_slice(&numbers);
    }
}

pub fn index<T: PartialEq>(all: &[T], one: T) -> u32 {
    all.iter().position(|other| *other == one).expect("one of them") as u32
}
