//! Steps of the sheet, as docs/FORMAT.md has them: which write, wait, delay or store is which step, and its bytes.

use crate::pac::Name;
use crate::pac::fields::*;
use crate::pac::rp235x::fields as rp235x;
use crate::pac::values::{clocks::ClkRefCtrlAuxsrc, rosc, xosc};

/// A step: its kind and its eight bytes as a number, most significant byte first.
#[derive(Clone, Copy, Debug, PartialEq, Eq)]
pub struct Step {
    pub kind: u8,
    pub word: u64,
}

/// How a register got its value.
#[derive(Clone, Copy, Debug, PartialEq, Eq)]
pub enum Change {
    Written,
    /// Changed from this value.
    Modified(u32),
}

impl Step {
    /// Kind and fields with their widths, most significant bit first, then zeros.
    fn pack(kind: u8, fields: &[(u32, u32)]) -> Result<Step, String> {
        let mut word = kind as u64;
        let mut used = 6;
        for &(value, width) in fields {
            if value as u64 >> width != 0 {
                return Err(format!("step {kind} with {value} in {width} bits"));
            }
            word = word << width | value as u64;
            used += width;
        }
        Ok(Step { kind, word: word << (64 - used) })
    }

    /// The clock and the frequency of a store.
    pub fn stored(self) -> Option<(u32, u32)> {
        let field =
            |above: u32, width: u32| ((self.word >> (64 - above - width)) & ((1 << width) - 1)) as u32;
        (self.kind == 37).then(|| (field(6, 4), field(10, 32)))
    }
}

pub fn delay(cycles: u32) -> Result<Step, String> {
    Step::pack(14, &[(cycles, 32)])
}

pub fn store(clock: u32, hz: u32) -> Result<Step, String> {
    Step::pack(37, &[(clock, 4), (hz, 32)])
}

/// The first step of a sheet for the RP235x.
pub fn mark() -> Step {
    Step { kind: 38, word: 38 << 58 }
}

/// The system divider of the RP235x.
pub fn wide_divider(whole: u16, fraction: u16) -> Result<Step, String> {
    Step::pack(45, &[(whole as u32, 16), (fraction as u32, 16)])
}

pub fn wait_released(mask: u32) -> Result<Step, String> {
    Step::pack(3, &[(mask, 25)])
}

pub fn wait_sys(source: u32) -> Result<Step, String> {
    Step::pack(6, &[(source, 1)])
}

pub fn wait_ref(source: u32) -> Result<Step, String> {
    Step::pack(8, &[(source, 2)])
}

pub fn wait_stable() -> Result<Step, String> {
    Step::pack(18, &[])
}

pub fn wait_lock(pll: u8) -> Result<Step, String> {
    Step::pack(22, &[(pll as u32, 1)])
}

/// The step of a register's new value.
pub fn of_change(name: Name, index: u8, change: Change, value: u32) -> Result<Step, String> {
    let index = index as u32;
    let step = match change {
        Change::Written => match name {
            Name::PllPower | Name::PllControl | Name::PllFeedback | Name::PllPosts => {
                pll_write(name, index, value)
            }
            _ => oscillator_write(name, value)
                .or_else(|| clock_write(name, value))
                .or_else(|| rp235x_write(name, value)),
        },
        Change::Modified(from) => modification(name, index, from, value),
    };
    step.unwrap_or_else(|| Err(format!("{name:?} {index} {change:?} to {value:#x}")))
}

/// A step, or nothing where the rest of the register is not as this step needs it.
type Perhaps = Option<Result<Step, String>>;

fn step_if(rest: bool, kind: u8, fields: &[(u32, u32)]) -> Perhaps {
    rest.then(|| Step::pack(kind, fields))
}

fn step(kind: u8, fields: &[(u32, u32)]) -> Perhaps {
    step_if(true, kind, fields)
}

/// Resets, ring, crystal and voltage.
fn oscillator_write(name: Name, value: u32) -> Perhaps {
    match name {
        Name::Reset => step(1, &[(value, 25)]),
        Name::ResusControl => step_if(value == 0, 4, &[]),
        Name::RoscStrengthsA => {
            let r = Freqa(value);
            let strengths = [r.ds0(), r.ds1(), r.ds2(), r.ds3()].map(|strength| (strength as u32, 3));
            step_if(r.passwd() == rosc::Passwd::PASS, 9, &strengths)
        }
        Name::RoscStrengthsB => {
            let r = Freqb(value);
            let strengths = [r.ds4(), r.ds5(), r.ds6(), r.ds7()].map(|strength| (strength as u32, 3));
            step_if(r.passwd() == rosc::Passwd::PASS, 10, &strengths)
        }
        Name::RoscDivider => step(11, &[(value, 16)]),
        Name::RoscControl => {
            let r = RoscCtrl(value);
            let range = match r.freq_range() {
                rosc::FreqRange::LOW => 0,
                rosc::FreqRange::MEDIUM => 1,
                rosc::FreqRange::HIGH => 2,
                rosc::FreqRange::TOOHIGH => 3,
                _ => return None,
            };
            step_if(r.enable() == rosc::Enable::ENABLE, 12, &[(range, 2)])
        }
        Name::Brownout => {
            let r = Bod(value);
            step_if(r.en(), 15, &[(r.vsel() as u32, 4)])
        }
        Name::XoscStartup => step(16, &[(value, 14)]),
        Name::XoscControl => {
            let r = XoscCtrl(value);
            let range = r.freq_range() == xosc::CtrlFreqRange::_1_15MHZ;
            step_if(range && r.enable() == xosc::Enable::ENABLE, 17, &[])
        }
        _ => None,
    }
}

fn pll_write(name: Name, pll: u32, value: u32) -> Perhaps {
    let pll = (pll, 1);
    match name {
        Name::PllPower => {
            let r = Pwr(value);
            let [pd, vcopd, postdivpd, dsmpd] =
                [r.pd(), r.vcopd(), r.postdivpd(), r.dsmpd()].map(|bit| (bit as u32, 1));
            step(19, &[pll, pd, vcopd, postdivpd, dsmpd])
        }
        Name::PllControl => step(20, &[pll, (value, 6)]),
        Name::PllFeedback => step(21, &[pll, (value, 12)]),
        Name::PllPosts => {
            let r = Prim(value);
            step(23, &[pll, (r.postdiv1() as u32, 3), (r.postdiv2() as u32, 3)])
        }
        _ => None,
    }
}

/// The clocks' controls and dividers, and the tick.
fn clock_write(name: Name, value: u32) -> Perhaps {
    match name {
        Name::RefControl => {
            let r = ClkRefCtrl(value);
            let usb = r.auxsrc() == ClkRefCtrlAuxsrc::CLKSRC_PLL_USB;
            step_if(usb, 25, &[(r.src() as u32, 2)])
        }
        Name::RefDivider => step(26, &[(ClkRefDiv(value).int() as u32, 2)]),
        Name::Tick => {
            let r = Tick(value);
            step_if(r.enable(), 27, &[(r.cycles() as u32, 9)])
        }
        Name::SysControl => {
            let r = ClkSysCtrl(value);
            step(28, &[(r.auxsrc() as u32, 2), (r.src() as u32, 1)])
        }
        Name::SysDivider => {
            let r = ClkSysDiv(value);
            step(29, &[(r.int(), 24), (r.frac() as u32, 8)])
        }
        Name::PeriControl => {
            let r = ClkPeriCtrl(value);
            step_if(r.enable(), 30, &[(r.auxsrc() as u32, 3)])
        }
        Name::UsbDivider => step(31, &[(ClkUsbDiv(value).int() as u32, 2)]),
        Name::UsbControl => {
            let r = ClkUsbCtrl(value);
            step_if(r.enable(), 32, &[(r.phase() as u32, 2), (r.auxsrc() as u32, 2)])
        }
        Name::AdcDivider => step(33, &[(ClkAdcDiv(value).int() as u32, 2)]),
        Name::AdcControl => {
            let r = ClkAdcCtrl(value);
            step_if(r.enable(), 34, &[(r.phase() as u32, 2), (r.auxsrc() as u32, 2)])
        }
        Name::RtcDivider => {
            let r = ClkRtcDiv(value);
            step(35, &[(r.int(), 24), (r.frac() as u32, 8)])
        }
        Name::RtcControl => {
            let r = ClkRtcCtrl(value);
            step_if(r.enable(), 36, &[(r.phase() as u32, 2), (r.auxsrc() as u32, 2)])
        }
        _ => None,
    }
}

/// The password of the RP235x's power registers, in their top 16 bits.
const PASSWORD: u32 = 0x5afe;

/// A divider as the step has it, 4 as 0. Of a greater one the field has told the recorder.
fn two_bits(divider: u8) -> (u32, u32) {
    (divider as u32 & 3, 2)
}

/// What the RP235x has otherwise.
fn rp235x_write(name: Name, value: u32) -> Perhaps {
    let enabled = rp235x::TickControl(value).enable();
    match name {
        Name::Rp235xRefDivider => step(26, &[two_bits(rp235x::ClkRefDiv(value).int())]),
        Name::Rp235xUsbDivider => step(31, &[two_bits(rp235x::ClkUsbDiv(value).int())]),
        Name::Rp235xAdcDivider => step(33, &[two_bits(rp235x::ClkAdcDiv(value).int())]),
        Name::TimerCycles => step(39, &[(value, 9)]),
        Name::TimerControl => step_if(enabled, 40, &[]),
        Name::WatchdogCycles => step(41, &[(value, 9)]),
        Name::WatchdogControl => step_if(enabled, 42, &[]),
        Name::Rp235xBrownout => {
            let r = rp235x::Bod(value);
            step_if(value >> 16 == PASSWORD && r.en(), 44, &[(r.vsel() as u32, 5)])
        }
        Name::Rp235xSysDivider => {
            let r = rp235x::ClkSysDiv(value);
            Some(wide_divider(r.int(), r.frac()))
        }
        _ => None,
    }
}

/// A change of a part of a register: the other bits must have stayed.
fn modification(name: Name, index: u32, from: u32, value: u32) -> Perhaps {
    let changed = from ^ value;
    match name {
        // It starts from ones: what is 0 now was cleared.
        Name::Reset => step(2, &[(!value, 25)]),
        Name::SysControl => step_if(changed & !1 == 0, 5, &[(value & 1, 1)]),
        Name::RefControl => step_if(changed & !3 == 0, 7, &[(value & 3, 2)]),
        Name::Vreg => step_if(changed & !0xf0 == 0, 13, &[(Vreg(value).vsel() as u32, 4)]),
        Name::Rp235xVreg => {
            let others = changed & 0xffff & !0x1f0;
            let level = rp235x::Vreg(value).vsel() as u32;
            step_if(others == 0 && value >> 16 == PASSWORD, 43, &[(level, 5)])
        }
        Name::PllPower => step_if(changed == 1 << 3 && !Pwr(value).postdivpd(), 24, &[(index, 1)]),
        _ => None,
    }
}
