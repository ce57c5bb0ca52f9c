//! The cheapest recorder: each register access, delay and store of the published code that is a step becomes the
//! step's word, written to a buffer that stands ready. Nothing is checked, and a wait passes at once. Every
//! function is inlined where the register is known, so that a step costs its shifts and one store.

use crate::clocks::clock_number;
use crate::pac::Name;
use crate::pac::fields::*;

struct Recorder {
    vreg: u32,
    sys_control: u32,
    ref_control: u32,
    gpout_control: u32,
    gpout_divider: u32,
    released: u32,
    length: usize,
}

static mut RECORDER: Recorder = Recorder {
    vreg: 0,
    sys_control: 0,
    ref_control: 0,
    gpout_control: 0,
    gpout_divider: 0,
    released: 0,
    length: 0,
};

static mut WORDS: [u64; 128] = [0; 128];

/// Only the one thread of this program gets here.
#[inline(always)]
fn recorder() -> &'static mut Recorder {
    let recorder = &raw mut RECORDER;
    unsafe { &mut *recorder }
}

/// Before a run at a reading of the regulator.
#[inline(always)]
pub fn start(reading: u8) {
    recorder().vreg = (reading as u32) << 4 | 1;
    recorder().length = 0;
}

/// The sheet after a run. The buffer is not cleared between runs.
pub fn sheet() -> &'static [u8] {
    let words = &raw const WORDS;
    unsafe { std::slice::from_raw_parts(words.cast(), recorder().length * 8) }
}

/// What `get_freq` reads of a clock output.
#[inline(always)]
pub fn set_gpout(source: u8, whole: u32, fraction: u8) {
    recorder().gpout_control = (source as u32) << 5;
    recorder().gpout_divider = whole << 8 | fraction as u32;
}

#[inline(always)]
fn step(kind: u64, fields: u64, width: u32) {
    let words = &raw mut WORDS;
    let recorder = recorder();
    let word = kind << 58 | fields << (58 - width);
    unsafe { words.cast::<u64>().add(recorder.length).write(word.to_be()) };
    recorder.length += 1;
}

#[inline(always)]
fn step1(kind: u64, field: u32, width: u32) {
    step(kind, field as u64, width);
}

#[inline(always)]
fn strengths(kind: u64, word: u32) {
    step1(kind, (word & 7) << 9 | (word >> 4 & 7) << 6 | (word >> 8 & 7) << 3 | word >> 12 & 7, 12);
}

#[inline(always)]
pub fn read(name: Name, index: u8) -> u32 {
    match name {
        Name::Vreg => recorder().vreg,
        Name::GpoutControl => recorder().gpout_control,
        Name::GpoutDivider => recorder().gpout_divider,
        Name::ResetDone => {
            step1(3, recorder().released, 25);
            u32::MAX
        }
        Name::SysSelected => {
            let source = recorder().sys_control & 1;
            step1(6, source, 1);
            1 << source
        }
        Name::RefSelected => {
            let source = recorder().ref_control & 3;
            step1(8, source, 2);
            1 << source
        }
        Name::XoscStatus => {
            step(18, 0, 0);
            1 << 31
        }
        Name::PllControl => {
            step(22, index as u64, 1);
            1 << 31
        }
        _ => 0,
    }
}

/// What `modify` starts from.
#[inline(always)]
pub fn shown(name: Name, _index: u8) -> u32 {
    match name {
        Name::Reset => u32::MAX,
        Name::Vreg => recorder().vreg,
        Name::SysControl => recorder().sys_control,
        Name::RefControl => recorder().ref_control,
        _ => 0,
    }
}

#[inline(always)]
pub fn modify(name: Name, index: u8, value: u32) {
    match name {
        Name::Reset => {
            recorder().released = !value;
            step1(2, !value, 25);
        }
        Name::SysControl => {
            recorder().sys_control = value;
            step1(5, value & 1, 1);
        }
        Name::RefControl => {
            recorder().ref_control = value;
            step1(7, value & 3, 2);
        }
        Name::Vreg => step1(13, value >> 4 & 15, 4),
        Name::PllPower => step(24, index as u64, 1),
        _ => {}
    }
}

#[inline(always)]
pub fn write(name: Name, index: u8, value: u32) {
    let pll = index as u32;
    match name {
        Name::Reset => step1(1, value, 25),
        Name::ResusControl => step(4, 0, 0),
        Name::RoscStrengthsA => strengths(9, value),
        Name::RoscStrengthsB => strengths(10, value),
        Name::RoscDivider => step1(11, value, 16),
        // Low, Medium, TooHigh, High are 0xfa4 to 0xfa7.
        Name::RoscControl => step1(12, value & 3 ^ value >> 1 & 1, 2),
        Name::Brownout => step1(15, value >> 4 & 15, 4),
        Name::XoscStartup => step1(16, value, 14),
        Name::XoscControl => step(17, 0, 0),
        Name::PllPower => {
            let power = Pwr(value);
            let [pd, vcopd, postdivpd, dsmpd] =
                [power.pd(), power.vcopd(), power.postdivpd(), power.dsmpd()].map(|bit| bit as u32);
            step1(19, pll << 4 | pd << 3 | vcopd << 2 | postdivpd << 1 | dsmpd, 5);
        }
        Name::PllControl => step1(20, pll << 6 | value, 7),
        Name::PllFeedback => step1(21, pll << 12 | value, 13),
        Name::PllPosts => {
            let posts = Prim(value);
            step1(23, pll << 6 | (posts.postdiv1() as u32) << 3 | posts.postdiv2() as u32, 7);
        }
        Name::RefControl => {
            recorder().ref_control = value;
            step1(25, value & 3, 2);
        }
        Name::RefDivider => step1(26, value >> 8 & 3, 2),
        Name::Tick => step1(27, value & 511, 9),
        Name::SysControl => {
            recorder().sys_control = value;
            step1(28, (value >> 5 & 3) << 1 | value & 1, 3);
        }
        Name::SysDivider => step1(29, value, 32),
        Name::PeriControl => step1(30, value >> 5 & 7, 3),
        Name::UsbDivider => step1(31, value >> 8 & 3, 2),
        Name::UsbControl => source(32, value),
        Name::AdcDivider => step1(33, value >> 8 & 3, 2),
        Name::AdcControl => source(34, value),
        Name::RtcDivider => step1(35, value, 32),
        Name::RtcControl => source(36, value),
        _ => {}
    }
}

/// Phase and auxiliary source of USB, ADC and RTC.
#[inline(always)]
fn source(kind: u64, value: u32) {
    step1(kind, (value >> 16 & 3) << 2 | value >> 5 & 3, 4);
}

#[inline(always)]
pub fn delay(cycles: u32) {
    step1(14, cycles, 32);
}

#[inline(always)]
pub fn store(address: usize, value: u32) {
    step(37, (clock_number(address) as u64) << 32 | value as u64, 36);
}

/// A field cannot hold this value: its low bits are written, as rp-pac does.
#[inline(always)]
pub fn cut(_value: u32, _loss: Loss, _name: &str) {}
